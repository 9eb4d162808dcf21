#!/usr/bin/env bash
# reads: tests/quality.sh bench packages/c crates
# Checks the statistics of all portable hashes with small samples (bench/quality.c; docs/QUALITY.md has large ones): the
# avalanche of messages and seeds, collisions and buckets. The same limits must refuse FNV-1a, by each kind of measure,
# and V3 with a fault in a few bits.
. "$(dirname "$0")/cases.sh"
needs cc git

# The words of the repository's own files take the place of a dictionary.
measure() {
  cc -std=c99 -O2 -Wall -Wextra -Werror -DWITH_CONTROLS -I "$top/packages/c/include" "$top/bench/quality.c" -lm \
    -o "$room/quality" && (cd "$top" && git grep -hoE '\w+' -- docs crates) | LC_ALL=C sort -u >"$room/words" &&
    [ "$(wc -l <"$room/words")" -gt 5000 ] && "$room/quality" 300 600000 3 <"$room/words" >"$room/table" &&
    [ "$(wc -l <"$room/table")" -eq 79 ]
}

# Fails if a measure of a hash is not what chance gives, and prints it. A bias may be 1.3 times the largest that chance
# is expected to give, and a count five standard deviations from its expectation: HASH PATTERN-OF-ROWS
like_chance() {
  awk -F '\t' -v name="$1" -v rows="$2" '
    NR == 1 { for (i = 3; i <= NF; i++) if ($i == name) column = i; next }
    column && $1 ~ rows {
      limit = $2 == "noise" ? 1.3 : $2 == "z" ? 5 : 0
      judged++
      if ($column > limit || -$column > limit) { print name ", " $1 ": " $column; found = 1 }
    }
    END { exit found || !judged }' "$room/table"
}

refuses() { ! like_chance "$@" && [ -s "$room/log" ]; }

prepare_by measure
for hash in $(sed -n '1 { s/\tfnv1a.*//; s/^what\tunit//; p; }' "$room/table"); do
  try "$hash" like_chance "$hash" .
done
for rows in 'avalanche of the message' 'avalanche of the seed' 'high 32 bits' 'low 32 bits' 'high bits' \
  'low bits' '65521'; do
  try "FNV-1a is refused by $rows" refuses fnv1a "$rows"
done
for refused in 'first_bit_set avalanche of the message' 'first_bit_set avalanche of the seed' \
  'first_bit_set high 32 bits' \
  'last_bit_clear avalanche of the message' 'last_bit_clear low 32 bits' 'equal_halves : equal'; do
  try "$refused" refuses "${refused%% *}" "${refused#* }"
done
finish
