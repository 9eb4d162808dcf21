#!/usr/bin/env bash
# reads: crates tests/examples
# Runs crates/example_perfect as its users do, on valid and invalid input.
. "$(dirname "$0")/room.sh"

# Prints the lines of a list with their numbers: LIST
numbered() {
  awk '{ print NR " " $0 }' "$1"
}

seq 1 2 39999 >odd

numbered odd >wanted
prints every_key_is_found_by_its_number "$program" odd <odd
for count in 1 2 3 4 5 7 11 100; do
  head -n "$count" odd >few
  (numbered few; tail -n +"$((count + 1))" odd | sed 's/^/absent /') >wanted
  prints "a_list_of_$count" "$program" few <odd
done
# A list that needs more seeds than most: 15,887 for a single group.
seq 1 1000 >few
seq 1 2000 >asked
(numbered few; seq 1001 2000 | sed 's/^/absent /') >wanted
prints a_list_that_takes_many_seeds "$program" few <asked
seq 1 1048577 >many
printf '1048577\n1\n0\n' >asked && printf '1048577 1048577\n1 1\nabsent 0\n' >wanted
prints a_list_of_1048577 "$program" many <asked
reads_lines 1 2 3 absent "$program"

exec </dev/null
printf 'one\ntwo\nthree\ntwo\nfour\n' >twice
fault a_line_given_twice 1 'lines 2 and 4 of twice are the same' "$program" twice
printf '\n\n' >empty
fault an_empty_line_given_twice 1 'lines 1 and 2 of empty are the same' "$program" empty
fault no_list_is_named 2 'expected exactly one LIST' "$program"
fault two_lists_are_named 2 'expected exactly one LIST' "$program" odd fruit
fault list_with_the_name_of_an_option 1 'could not read --size: No such file or directory (os error 2)' \
  "$program" --size
refuses_lists
seq 1 1000000 >million
fault memory_refused_to_the_keys 1 'memory allocation failed' in_kibibytes 20000 "$program" million
fault memory_refused_to_a_table 1 'cannot build a table from million: out of memory' \
  in_kibibytes 60000 "$program" million

finish
