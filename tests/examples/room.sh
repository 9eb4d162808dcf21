# The common start of the example programs' tests: a copy of the built program in a temporary directory, functions that
# run it, and shared cases. `name` is the program, which has the script's name. BUILT names another build of it.
# shellcheck shell=bash
. "$(dirname "${BASH_SOURCE[0]}")/../cases.sh"
name=$(basename "$0" .sh)
# Without the kit, cargo builds the two tools, but not the examples.
if [ -z "${BUILT-}" ] && [[ $name == rapid* ]] && ! has rt; then
  needs cargo
  BUILT=$top/build/cargo/bin/${name%_cli}
  prepare_by make -s -C "$top" "${BUILT#"$top/"}"
elif [ -z "${BUILT-}" ]; then
  needs rt
  prepare_by make -s -C "$top" "$name"
fi
program=$room/$name
cp "${BUILT:-$top/crates/$name/out/$name}" "$program" && mkdir "$room/at" && cd "$room/at" || exit 1

# Checks that a command succeeds and prints the contents of the file wanted: NAME COMMAND..
prints() {
  local case=$1
  shift
  "$@" >out 2>"$room/log" && [ ! -s "$room/log" ] && cmp out wanted >"$room/log"
  tell "$case" $?
}

# Does the same with the file wanted and standard input as printf formats: NAME WANTED INPUT COMMAND..
answers() {
  printf "$2" >wanted && printf "$3" >input
  prints "$1" "${@:4}" <input
}

# Checks that a command prints only a message, and perhaps the usage after it: NAME STATUS MESSAGE COMMAND..
fault() {
  local case=$1 status=$2 message=$3
  shift 3
  "$@" >out 2>"$room/log"
  [ $? -eq "$status" ] && [ ! -s out ] && [ "$(sed '/^usage: /,$d' "$room/log")" = "$name: $message" ]
  tell "$case" $?
}

# Test failed reads of standard input and failed writes of standard output: COMMAND..
fails_to_read() {
  fault folder_as_input 1 'could not read standard input: Is a directory (os error 21)' "$@" </
  fault no_input 1 'could not read standard input: Bad file descriptor (os error 9)' "$@" <&-
  # A later read fails. The lines before it are answered.
  printf 'pear\n\nplum' >asked && "$@" <asked | head -n 2 >wanted
  failing read:error=EIO:when=2 asked "$@" <asked >out 2>"$room/log"
  [ $? -eq 1 ] && [ "$(cat "$room/log")" = "$name: could not read standard input: Input/output error (os error 5)" ] &&
    cmp out wanted
  tell a_read_fails_later $?
}
fails_to_write() {
  fault full_disk 1 'could not write standard output: No space left on device (os error 28)' to_a_full_disk "$@"
  fault closed_pipe 1 'could not write standard output: Broken pipe (os error 32)' to_a_closed_pipe "$@"
  fault no_output 1 'could not write standard output: Bad file descriptor (os error 9)' to_no_output "$@"
}

# Tests how a program reads lines: without a newline, with a carriage return, that are not UTF-8, and none at all. The
# first words are its answers for the three lines of the list fruit and for a line of no list: FIRST SECOND THIRD ABSENT
# COMMAND..
reads_lines() {
  printf 'pear\n\nplum' >fruit
  printf '\377\n' >bytes
  answers last_lines_without_a_newline "$3 plum\n$2 \n$4 fig\n" 'plum\n\nfig' "${@:5}" fruit
  answers a_return_is_a_part_of_its_line "$4 pear\r\n$1 pear\n" 'pear\r\npear' "${@:5}" fruit
  answers lines_that_are_not_utf_8 "$1 \377\n$4 \376\n" '\377\n\376\n' "${@:5}" bytes
  answers an_empty_list_has_no_line "$4 fig\n$4 \n" 'fig\n\n' "${@:5}" /dev/null
  printf '%070000d\n' 7 >long && sed "s/^/$1 /" long >wanted
  prints a_line_of_70000_bytes "${@:5}" long <long
  answers no_line_is_asked '' '' "${@:5}" fruit
}

# Tests a program that reads its keys from lists, such as fruit, with lists that it cannot read. The list large does not
# fit into memory.
refuses_lists() {
  fault name_that_is_not_utf_8 1 'could not read the arguments as UTF-8: invalid data' "$program" $'\377'
  fault missing_list 1 'could not read missing: No such file or directory (os error 2)' "$program" missing
  fault list_that_is_a_folder 1 "could not read $room: Is a directory (os error 21)" "$program" "$room"
  fault list_of_which_a_read_fails 1 'could not read odd: Input/output error (os error 5)' \
    failing read:error=EIO:when=2 odd "$program" odd
  try reads_of_a_list reads_in 20 odd "$program" odd
  try reads_of_the_input reads_in 20 odd "$program" fruit <odd
  fails_to_read "$program" fruit
  fails_to_write "$program" odd <odd
  head -c 100000000 /dev/zero >large
  fault memory_refused_to_a_list 1 'could not read large: out of memory' in_kibibytes 60000 "$program" large
  fault memory_refused_to_a_line 1 'out of memory' in_kibibytes 60000 "$program" fruit <large
}

# Ends the script if the program reads a file in small pieces: large files, at a call for each, would take hours.
reads_large_pieces() {
  head -c 1048576 /dev/zero >pieces
  ! can_trace || prepare_by reads_in 17 pieces "$program" pieces
  rm -f "$room/untraced" pieces
}

# Switches to another user if this one may read everything. Only the other user notices unreadable files.
# shellcheck disable=SC2034
as_user=()
if [ "$(id -u)" -eq 0 ]; then
  chmod 755 "$room" && chmod 777 "$room/at"
  # shellcheck disable=SC2034
  as_user=(setpriv --reuid=65534 --regid=65534 --clear-groups)
fi
