#!/usr/bin/env bash
# reads: crates tests/examples
# Runs crates/example_bloom as its users do, on valid and invalid input.
. "$(dirname "$0")/room.sh"

# Does the same as prints, but from 20 to 100 of the ten thousand lines are found, as a rate of one in 100 gives: NAME
# COMMAND..
mostly_absent() {
  local case=$1
  shift
  "$@" <even >out 2>"$room/log" && [ ! -s "$room/log" ] && found=$(grep -c '^maybe ' out) &&
    [ "$found" -ge 20 ] && [ "$found" -le 100 ] && sed 's/^maybe /no /' out | cmp - wanted
  tell "$case" $?
}

seq 1 2 19999 >odd
seq 2 2 20000 >even

sed 's/^/maybe /' odd >wanted
prints every_key_is_found "$program" odd <odd
cat odd even >both
sed 's/^/maybe /' both >wanted
prints every_key_of_two_lists_is_found "$program" --one-in 5 even odd <both
sed 's/^/no /' even >wanted
prints no_other_key_is_found "$program" --one-in 4294967295 odd <even
mostly_absent at_most_one_in_100_other_keys_is_found "$program" odd
split -n l/20 odd part.
mostly_absent at_most_one_in_100_with_20_lists "$program" part.*
# Of 200,000 other lines, 0.14 are found at this rate. If the marks of a key fell together, it would be some 70.
seq 100 >few
seq 10000001 10200000 >others
[ "$("$program" --one-in 1000000 few <others | grep -c ^maybe)" -le 2 ]
tell one_in_a_million $?
reads_lines maybe maybe maybe no "$program" --one-in 4294967295

exec </dev/null
fault no_list_is_named 2 'missing LIST argument' "$program"
fault no_list_after_a_rate 2 'missing LIST argument' "$program" --one-in 10
for rate in 1 4294967296 many ''; do
  fault "a_rate_of_${rate:-nothing}" 2 '--one-in requires a number from 2 to 4294967295' "$program" --one-in $rate
done
fault unknown_option 2 "unknown option '--rate'" "$program" --rate 5 fruit
refuses_lists

finish
