#!/usr/bin/env bash
# reads: crates tests/examples docs/EXAMPLES.md
# Runs crates/example_shards as its users do: on lines, with refused arguments, and with failures of reads, writes, and
# memory.
. "$(dirname "$0")/room.sh"

# The number of a line comes first, and the line itself is unchanged.
seq 1 10000 >lines
for way in shard bucket; do
  "$program" $way 10 <lines >before && "$program" $way 20 <lines >after
  cut -f2 before | cmp -s - lines
  tell "every_line_has_its_$way" $?
  # Both numbers of each line, of which the lines that move have different ones.
  paste <(cut -f1 before) after | awk -F '\t' '$1 != $2' >wanted
  prints "lines_that_move_to_another_$way" "$program" $way 10 20 <lines
  try "not_the_same_$way" grep -q . wanted
done
try page env PATH="$room:$PATH" bash -e <(blocks "$top/docs/EXAMPLES.md" sh "$name")
"$program" bucket 20 10 <lines | awk -F '\t' '$1 < 10 || $2 >= 10' >found
[ ! -s found ]
tell fewer_buckets_move_only_their_own_lines $?

# The numbers of ten lines, computed by the formulas of Lamping and Veach with doubles from the model's hashes.
ten='1\n2\n3\n4\n5\n6\n7\n8\n9\n10'
answers buckets_of_ten_lines '1\t1\n0\t2\n1\t3\n2\t4\n2\t5\n1\t6\n1\t7\n0\t8\n1\t9\n0\t10\n' "$ten" "$program" bucket 3
answers shards_of_ten_lines '2\t1\n2\t2\n1\t3\n2\t4\n0\t5\n1\t6\n2\t7\n1\t8\n0\t9\n2\t10\n' "$ten" "$program" shard 3
answers bytes_that_are_no_text_and_a_last_line_without_its_end '3\ta\xff\n0\t\n3\tlast\n' 'a\xff\n\nlast' \
  "$program" shard 7
answers the_largest_count '3306217912\t1\n' '1' "$program" shard 4294967295
answers no_lines '' '' "$program" shard 1

fault no_arguments 2 "the first argument must be 'shard' or 'bucket'" "$program"
fault another_way 2 "the first argument must be 'shard' or 'bucket'" "$program" node 3
fault no_count 2 'missing COUNT argument' "$program" shard
fault a_count_of_0 2 "'0' is not a number from 1 to 4294967295" "$program" bucket 0
fault a_count_too_large 2 "'4294967296' is not a number from 1 to 4294967295" "$program" shard 1 4294967296
fault three_counts 2 "unexpected argument '3'" "$program" shard 1 2 3
fault name_that_is_not_utf_8 1 'could not read the arguments as UTF-8: invalid data' "$program" $'\xff'
try reads_of_the_input reads_in 8 lines "$program" shard 3 <lines
fails_to_read "$program" shard 3
fails_to_write "$program" shard 3 <lines
head -c 20000000 /dev/zero >wide
fault memory_refused 1 'out of memory' in_kibibytes 8000 "$program" shard 3 <wide

finish
