#!/usr/bin/env bash
# reads: packages/tools packages/rust crates docs/COMMANDS.md
# Runs crates/rapidhash_cli as its users do and compares its output and exit status. The cases cover the hashes of each
# version, the kinds of input, the arguments, the help, and failures of reads, writes, and memory. The numbers are those
# of the Rust crate.
. "$(dirname "$0")/../../../tests/examples/room.sh"

# Checks that the tool prints a hash and nothing else: NAME HASH ARGUMENT..
hashes() {
  runs "$1" 0 "$2"$'\n' '' "$program" "${@:3}"
}

# Checks that a command writes only a message and exits with status 1: NAME MESSAGE COMMAND..
fails() {
  runs "$1" 1 '' "$2"$'\n' "${@:3}"
}

# Runs a case that only the kit's build passes. Rust's runtime copies the arguments before the program can report that
# their memory is refused: CASE..
by_the_kit() {
  if [ -n "${BUILT-}" ]; then skip "$2" "Rust's runtime"; else "$@"; fi
}

reads_large_pieces
known=15965596575264898037
known_by_v3=11612086640089003834
versions_fault='You must specify a single rapidhash version to use. See --help for more.'
open_fault='Could not open file.'
stdin_fault='Could not read from stdin.'
memory_fault='Out of memory.'
file_fault='Failed to hash file.'
write_fault='Could not write to stdout.'
echo something >something
seq 1 20000000 | head -c 100000000 >large
head -c 10000000 large >ten_million

# Tests every version, plain and protected, with messages of the cases: no byte as standard input, 58 bytes from
# a pipe, and 65,537 bytes as a file. The contracts of run_stdin and run_file hold for every version.
awk -F '\t' '$1 == "hash" && $2 !~ /raw|bug/ && $3 == "default" && sub(/^square:/, "", $4) && $4 ~ /^(0|58|65537)$/ {
  is_protected = sub(/_protected$/, "", $2); sub(/^v2_/, "v2.", $2); sub(/_/, "-", $2)
  print $4, $5, (is_protected ? "--protected " : "") "--" $2
}' "$top/crates/test_replay/data/library.tsv" >known_hashes
for bytes in 58 65537; do
  perl -e 'print map chr(($_ * $_ + 7 * $_ + $ARGV[0]) % 251), 0 .. $ARGV[0] - 1' "$bytes" >"of_$bytes"
done
while read -r bytes hash words; do
  case $bytes in
    0) hashes "0$words" "$hash" $words </dev/null ;;
    58) hashes "58$words" "$hash" $words < <(cat of_58) ;;
    *) hashes "$bytes$words" "$hash" $words "of_$bytes" </dev/null ;;
  esac
done <known_hashes
exec </dev/null
mapfile -t versions < <("$program" --help | grep -oE '^  --v[^ ]+' | tr -d ' ')
[ "$(wc -l <known_hashes)" -eq $((3 * 2 * ${#versions[@]})) ]
tell vectors_of_all_versions $?

# Does the same with 100 million bytes. The digest is that of the Rust crate's hashes, with a line for each.
for words in "${versions[@]}" "${versions[@]/#/--protected }"; do "$program" $words large; done | sha256sum >digest
[ "$(cat digest)" = '5e079187feb0d1371f7d2305d65c504da8551265efcdd26e34f0536d84461461  -' ]
tell hashes_of_large $?
for words in --v1 --v2.2 --v3; do
  hash=$("$program" $words large)
  hashes "large${words}_as_input" "$hash" $words <large
  hashes "large${words}_from_a_pipe" "$hash" $words < <(cat large)
done
for version in --v1 --v3; do
  hashes "two_pieces$version" "$("$program" $version something)" $version < <(printf some; sleep 0.1; echo thing)
done
# Many short reads: in a pipe with O_DIRECT, each byte that is written is read by itself.
for version in --v1 --v3; do
  hashes "200,000_reads$version" "$(head -c 200000 large | "$program" $version)" $version \
    < <(head -c 200000 large | perl -MFcntl -0777 -ne 'fcntl STDOUT, F_SETFL, 040000; syswrite STDOUT, $_ for split //')
done
mkfifo fifo
cat large >fifo &
hashes file_that_is_a_pipe 17274253787457370873 --v3 fifo
wait
truncate -s 4294967301 zeros
hashes above_4_gib 8938949028826169308 --v3 zeros
hashes v1_above_4_gib 5097892995809634994 --v1 zeros
hashes v2_above_4_gib 9099919017397257265 --v2.2 zeros
# More than 128 MiB, which V1 and V2 keep in memory.
hashes v1_of_140_million_bytes 15042570400923500380 --v1 < <(head -c 140000000 /dev/zero)
hashes v2_2_of_140_million_bytes 1949155381881807616 --v2.2 < <(head -c 140000000 /dev/zero)

# According to the manual, the tool ignores these arguments, hashes standard input with V3, and exits with status 0.
for word in --V1 --version -hx --protected=true - --; do
  hashes "ignored_$word" "$known_by_v3" "$word" <something
done
hashes ignored_after_two_hyphens "$known_by_v3" -- --no-file <something
hashes ignored_beside_a_version "$known" --v1 --v1 --strange - <something
cp something 'a file with spaces'
hashes file_with_spaces "$known" --v1 'a file with spaces'
cp something ./--v3
hashes file_named_as_an_option "$known" ./--v3 --v1
hashes first_of_two_files "$known" 'a file with spaces' missing --v1

# According to the manual, V1 and V2 hash no bytes of a file whose metadata has a size of 0 bytes.
for version in --v1 --v2.0 --v2.1 --v2.2; do
  of_no_bytes=$("$program" "$version")
  for file in /dev/zero /proc/version; do
    hashes "no_bytes_of_$file$version" "$of_no_bytes" "$version" "$file"
  done
  hashes "no_bytes_of_a_pipe$version" "$of_no_bytes" "$version" <(echo something)
done
hashes file_of_proc_on_standard_input "$("$program" --v1 </proc/version)" --v1 < <(cat /proc/version)
of_proc=$("$program" --v3 /proc/version)
hashes file_of_proc_by_v3 "$of_proc" --v3 </proc/version

# Five thousand arguments, of which the last selects the version.
mapfile -t words < <(seq -f '--word%g' 4999)
hashes many_words "$known" "${words[@]}" --v1 <something

# The help of upstream, with its option at any position.
help=$top/packages/tools/tests/help.txt
runs help 0 "$(cat "$help")"$'\n' '' "$program" --help
runs help_last 0 "$(cat "$help")"$'\n' '' "$program" missing --v1 --v3 -h
fails help_to_a_full_output "$write_fault" to_a_full_disk "$program" --help

# Refused arguments.
fails two_versions "$versions_fault" "$program" --v1 --v3
fails two_versions_and_a_file "$versions_fault" "$program" missing --v3-micro --v3-nano
fails missing_file "$open_fault" "$program" missing
fails empty_name "$open_fault" "$program" ''
fails name_of_300_bytes "$open_fault" "$program" "$(printf %300s '')"
fails name_of_other_bytes "$open_fault" "$program" $'\xff'

# Failures of reads and memory: a directory cannot be read, and the limit is below the input's length.
fails unreadable_input "$stdin_fault" "$program" --v1 <"$top"
fails unreadable_input_by_v3 "$stdin_fault" "$program" <"$top"
fails folder "$file_fault" "$program" "$top"
[ "$(stat -c %s /proc)" != 0 ] || fails folder_without_a_size "$file_fault" "$program" --v1 /proc
# A file in /sys has fewer bytes than its metadata states.
if [ "$(stat -c %s /sys/kernel/uevent_seqnum 2>/dev/null)" = 4096 ]; then
  fails file_of_sys "$file_fault" "$program" --v1 /sys/kernel/uevent_seqnum
fi
for version in --v1 --v2.2 --v3; do
  fails "later_read$version" "$file_fault" failing read:error=EIO:when=2 ten_million "$program" "$version" ten_million
  fails "later_read_of_input$version" "$stdin_fault" failing read:error=EIO:when=2 ten_million "$program" "$version" \
    <ten_million
  try "reads$version" reads_in 154 ten_million "$program" "$version" ten_million
  try "reads_of_input$version" reads_in 154 ten_million "$program" "$version" <ten_million
  [ "$version" = --v3 ] ||
    fails "no_metadata$version" "$file_fault" failing statx,fstat:error=EIO something "$program" "$version" something
done
try memory_of_input grows_by_a_factor "$program" --v1 <ten_million
fails closed_input "$stdin_fault" "$program" --v1 <&-
fails input_that_is_only_written "$stdin_fault" "$program" 0>written
fails v1_in_little_memory "$memory_fault" in_kibibytes 8000 "$program" --v1 <ten_million
fails v2_in_little_memory "$memory_fault" in_kibibytes 8000 "$program" --v2.2 <ten_million
hash=$("$program" --v1 ten_million)
runs file_by_v1_in_little_memory 0 "$hash"$'\n' '' in_kibibytes 8000 "$program" --v1 ten_million
runs v3_in_little_memory 0 $'17274253787457370873\n' '' in_kibibytes 8000 "$program" <large
# Arguments that do not fit into memory.
word=-$(head -c 120000 /dev/zero | tr '\0' x)
words=("$word" "$word" "$word" "$word" "$word" "$word")
by_the_kit fails no_room_for_the_words "$memory_fault" prlimit --as=4500000 "$program" "${words[@]}" "${words[@]}"

# Failures of writes. The runtime ignores SIGPIPE, so the tool reports that the reader is gone, whatever the shell does
# with that signal.
fails full_output "$write_fault" to_a_full_disk "$program" --v1 <something
fails full_output_of_a_file "$write_fault" to_a_full_disk "$program" large
fails closed_output "$write_fault" to_no_output "$program" --v1 <something
fails reader_gone "$write_fault" to_a_closed_pipe "$program" --v1 <something
runs rest_of_a_short_write 0 "${known_by_v3:5}"$'\n' '' failing write:retval=5:when=1 out "$program" something
# If standard error also refuses the text, the exit status still reports the failure.
to_a_full_error() { "$@" 2>/dev/full; }
runs full_error 1 '' '' to_a_full_error "$program" --v1 --v3

# The replay that rt ci built contains each body with each of its options, so it also compares the compact code. The
# names have the options as numbers. V2.1 and V2.2 share their code for rows, and half of V1's are inlined.
replay=$top/crates/test_replay/out/test_replay
if [ -e "$replay" ]; then
  bodies=$(nm "$replay" | grep -oE '(in_memory|v[0-9])::(with_(wide_)?rows|above_inlined)::<[^>]*>' | sort -u |
    sed 's/::<.*//' | uniq -c)
  [ "$(xargs <<<"$bodies")" = \
    '8 in_memory::with_rows 8 in_memory::with_wide_rows 8 v1::with_rows 16 v2::with_rows 16 v3::above_inlined' ]
  tell replay_has_all_options $?
else
  skip replay_has_all_options 'test_replay is not built'
fi

finish
