#!/usr/bin/env bash
# reads: crates tests/examples
# Runs crates/example_dedupe as its users do: on directories, compared with fdupes if it is installed, with refused
# arguments, and with failing reads, writes, and memory.
. "$(dirname "$0")/room.sh"

# Prints the groups of names from a command, sorted: COMMAND..
groups_of() {
  "$@" 2>/dev/null | python3 -c '
import sys
groups = sys.stdin.buffer.read().strip(b"\n").split(b"\n\n")
print(*sorted(sorted(group.split(b"\n")) for group in groups), sep="\n")'
}

mkdir -p tree/below links odd
printf 'same\n' | tee tree/a >tree/below/b
printf 'Same\n' >tree/below/c
printf 'more than the others\n' >tree/d
: >tree/empty
: >tree/below/void
answers groups_of_equal_files 'tree/a\ntree/below/b\n\ntree/below/void\ntree/empty\n\n' '' "$program" tree
answers files_by_their_names 'tree/a\ntree/below/b\n\n' '' "$program" tree/a tree/below/b tree/d
answers a_file_that_is_named_twice_is_no_group '' '' "$program" tree/a tree/a tree/d

# Symbolic links are ignored, and a loop of them does no harm. Several names of the same file are no group.
cp tree/a links/a
ln links/a links/hard
ln -s a links/soft
ln -s . links/loop
prints links_of_a_file_are_no_group "$program" links

# Files that differ in their last byte, beyond a buffer, and a file that continues after the end of the other.
head -c 40000 /dev/zero | tee odd/zeros >odd/copy
(head -c 39999 /dev/zero && printf x) >odd/other
head -c 39999 /dev/zero >odd/shorter
answers long_files 'odd/copy\nodd/zeros\n\n' '' "$program" odd

# Files in two file systems have the same inode number.
if unshare -rm true 2>/dev/null; then
  mkdir one two
  unshare -rm bash -c 'mount -t tmpfs none one && mount -t tmpfs none two && echo same >one/file &&
    echo same >two/file && [ "$(stat -c %i one/file)" = "$(stat -c %i two/file)" ] && "$1" one two' - "$program" |
    cmp -s - <(printf 'one/file\ntwo/file\n\n')
  tell files_of_two_file_systems $?
else
  skip files_of_two_file_systems 'unshare is refused'
fi

# Copies of a system tree and a repository tree, compared with fdupes.
if command -v fdupes >/dev/null; then
  mkdir wide && cp -r /usr/share/doc wide/one 2>/dev/null
  cp -r "$top/crates/rapidhash" wide/two && cp -r wide/two wide/three
  groups_of "$program" wide >ours
  groups_of fdupes -r -q wide >theirs
  [ -s ours ] && cmp -s ours theirs
  tell the_groups_of_fdupes $?
else
  skip the_groups_of_fdupes 'no fdupes'
fi

fault no_arguments 2 'missing FILE argument' "$program"
fault unknown_option 2 "unknown option '--delete'" "$program" --delete tree
fault name_that_is_not_utf_8 2 'an argument is not UTF-8' "$program" $'\xff'
fault a_name_that_is_not_there 1 'nothing: No such file or directory (os error 2)' "$program" nothing
fails_to_write "$program" tree
fault memory_refused 1 'out of memory' in_kibibytes 5000 "$program" /usr

# The program reports unreadable files and continues.
touch odd/$'bad\xff'
"$program" odd >out 2>"$room/log"
[ $? -eq 1 ] && cmp -s out wanted &&
  [ "$(cat "$room/log")" = 'example_dedupe: odd: contains a file name that is not valid UTF-8' ]
tell a_name_below_that_is_not_utf_8 $?
rm odd/$'bad\xff'
# The first and the last read of a file that is hashed, and of two that are compared. The error of a comparison is
# reported for the later file, which then has no group.
for read in 'other 1' 'other 6' 'copy 7' 'copy 10'; do
  name=${read/copy/zeros}
  failing "read:error=EIO:when=${read#* }" "odd/${read% *}" "$program" odd >out 2>"$room/log"
  [ $? -eq 1 ] && grep -qxF "example_dedupe: odd/${name% *}: Input/output error (os error 5)" "$room/log" &&
    if [[ $read = copy* ]]; then [ ! -s out ]; else cmp out wanted; fi
  tell "failed_read_of_$read" $?
done
try reads_of_a_file reads_in 10 odd/copy "$program" odd
mkdir odd/locked && cp odd/zeros odd/equal && chmod 000 odd/equal odd/other odd/locked
"${as_user[@]}" "$program" odd >out 2>"$room/log"
[ $? -eq 1 ] && cmp -s out wanted && cmp -s "$room/log" <(
  printf 'example_dedupe: odd/%s: Permission denied (os error 13)\n' locked equal other
)
tell a_folder_and_a_file_that_cannot_be_read $?

finish
