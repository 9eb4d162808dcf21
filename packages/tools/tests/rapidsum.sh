#!/usr/bin/env bash
# reads: packages/tools packages/rust crates
# Runs crates/rapidsum and sha256sum. In each case, both print the same lines except the hashes, print the same
# messages except the program's name and that no file of a list matched, and exit with the same status. Further cases
# test features that sha256sum does not have.
. "$(dirname "$0")/../../../tests/examples/room.sh"
export LC_ALL=C
reads_large_pieces

# Creates the files of a case. One of the three names contains a newline, a backslash, and a carriage return.
files() {
  printf 'something\n' >first
  printf 'else\n' >'second name'
  printf 'something\n' >$'line\nback\\return\r'
}

# Writes a list of those files with the program.
list() {
  "$sum" first 'second name' $'line\nback\\return\r' >list
}

# Runs a case with a program in its own directory and stores its output and exit status: NAME PROGRAM CASE
run_case() {
  mkdir "$room/$1" && cd "$room/$1" || exit 1
  files
  sum=$2
  "$3" >"$room/out.$1" 2>"$room/err.$1"
  printf 'status %s\n' "$?" >>"$room/out.$1"
  cd "$room" || exit 1
  rm -rf "${room:?}/$1"
  sed -i -E 's/^(\\?)([0-9a-f]{64}|[0-9a-f]{16})( |$)/\1HASH\3/
    s/^(\\?)(SHA256|RAPIDHASH-V3) (.* =) ([0-9a-f]{64}|[0-9a-f]{16})$/\1TAG \3 HASH/' "$room/out.$1"
  sed -i -E 's/^[^ ]*(sha256sum|rapidsum): /sum: /; s/ \(os error [0-9]+\)$//
    s/ SHA256 / /; s/(write error): .*/\1/; s/^(sum: )'"'(.*)': "'/\1\2: /
    s/^(Try .)(sha256sum|rapidsum)/\1sum/; /^sum: .*: no file matched: /d' "$room/err.$1"
}

# Runs a case with both programs and compares the results: CASE
beside() {
  run_case theirs sha256sum "$1"
  run_case ours "$program" "$1"
  diff "$room/out.theirs" "$room/out.ours" && diff "$room/err.theirs" "$room/err.ours"
}

case_sums() { "$sum" first 'second name' $'line\nback\\return\r'; }
case_sums_of_standard_input() { "$sum" <first && "$sum" - first <first; }
case_missing_file() { "$sum" first nothing 'second name'; }
case_folder() { mkdir folder && "$sum" folder first; }
case_folder_as_input() { "$sum" - first <.; }
case_input_that_is_only_written() { "$sum" - first 0>written; }
case_name_of_300_bytes() { "$sum" "$(printf %300s '')" first; }
case_read_fails_later() { failing read:error=EIO:when=2 first "$sum" first 'second name'; }
case_read_of_input_fails_later() { failing read:error=EIO:when=2 first "$sum" - 'second name' <first; }
case_words_behind_two_hyphens() { cp first -- -first && "$sum" -- -first; }
case_full_disk() { "$sum" first >/dev/full; }
case_full_disk_without_newlines() { "$sum" -z first >/dev/full; }
case_full_disk_after_a_missing_file() { "$sum" nothing first >/dev/full; }
case_no_output() { ! "$sum" first >&- && "$sum" first 1<first; }
case_no_output_of_a_check() { list && "$sum" -c list >&-; }
case_binary() { "$sum" -b first 'second name' $'line\nback\\return\r'; }
case_last_of_binary_and_text() { "$sum" -t -b first && "$sum" -b -t first; }
case_tag() { "$sum" --tag first 'second name' $'line\nback\\return\r'; }
case_zero() { "$sum" -z first $'line\nback\\return\r' | tr '\0' '\n'; }
case_zero_with_tags() { "$sum" -z --tag first 'second name' | tr '\0' '\n'; }
case_check_of_tags() { mv first 'a (b) = c' && "$sum" --tag -- * >.list && "$sum" -c .list; }
case_check_of_tags_with_carriage_returns() { "$sum" --tag first | sed 's/$/\r/' >crlf && "$sum" -c crlf; }
case_check_of_a_changed_file_with_a_tag() { "$sum" --tag first >list && echo more >>first && "$sum" -c list; }
case_check() { list && "$sum" --check list; }
case_check_of_standard_input() { list && "$sum" -c <list; }
case_check_of_two_lists() { list && "$sum" -c list list; }
case_check_with_carriage_returns() { list && sed 's/$/\r/' list >crlf && "$sum" -c crlf; }
case_check_with_stars() { list && sed 's/  / */' list >stars && head -n 2 stars | "$sum" -c; }
case_check_of_a_changed_file() { list && echo more >>first && "$sum" -c list; }
case_check_of_two_changed_files() { list && echo more | tee -a first >>'second name' && "$sum" -c list; }
case_check_quietly() { list && echo more >>first && "$sum" -c --quiet list; }
case_check_by_status() { list && echo more >>first && "$sum" -c --status list; }
case_check_by_status_alone() { list && "$sum" -c --status list; }
case_check_of_a_missing_file() { list && rm first && "$sum" -c list; }
case_check_without_missing_files() { list && rm first && "$sum" -c --ignore-missing list; }
case_check_where_all_are_missing() { list && mv list .list && rm -- * && "$sum" -c --ignore-missing .list; }
case_check_by_status_where_all_are_missing() {
  list && mv list .list && rm -- * && "$sum" -c --status --ignore-missing .list
}
case_check_of_a_folder() { list && rm first && mkdir first && "$sum" -c list; }
case_check_of_a_folder_without_missing_files() { list && rm first && mkdir first && "$sum" -c --ignore-missing list; }
case_check_where_a_read_fails_later() { list && failing read:error=EIO:when=2 first "$sum" -c --ignore-missing list; }
case_check_that_stops_at_the_end() { list && failing read:error=EIO:when=3 list "$sum" -c list; }
case_check_of_no_list() { "$sum" -c nothing; }
case_check_of_an_empty_list() { "$sum" -c /dev/null; }
case_check_of_malformed_lines() { list && printf 'garbage\n0123\n' >>list && "$sum" -c list; }
case_check_that_names_malformed_lines() { list && printf 'garbage\n' >>list && "$sum" -c -w list; }
case_check_strictly() { list && printf 'garbage\n' >>list && "$sum" -c --strict list; }
case_check_of_malformed_lines_alone() { printf 'garbage\n' >list && "$sum" -c list; }
case_check_with_comments() { list && printf '# comment\n\n' >>list && "$sum" -c --strict list; }
case_check_of_empty_lines_with_carriage_returns() {
  list && printf '\n' >>list && sed 's/$/\r/' list >crlf && "$sum" -c --strict crlf
}
case_check_without_a_last_newline() { list && printf %s "$(cat list)" >short && "$sum" -c short; }
case_check_of_a_name_of_300_bytes() { list && sed "1s/first/$(printf %0300d 1)/" list >long && "$sum" -c long; }
case_check_to_a_full_disk() { list && "$sum" -c list >/dev/full; }
case_check_with_messages_to_a_full_disk() { list && rm first && "$sum" -c list 2>/dev/full; }
case_sums_without_messages() { "$sum" nothing first 2>/dev/full; }
case_names_in_quotes() { "$sum" '' ' a' 'b ' $'\t' $'\e[31m' $'\1x\1\2' $'a\nb' $'\a\b\v\f\r\177'; }
case_list_in_quotes() { "$sum" -c $'\e[31m' && "$sum" -c ''; }

case_unreadable() { chmod 0 first && "${as_user[@]}" "$sum" first 'second name'; }
case_check_of_an_unreadable_file() { list && chmod 0 first && "${as_user[@]}" "$sum" -c list; }

for case in $(compgen -A function case_); do
  try "${case#case_}" beside "$case"
done

# Mistakes that sha256sum knows too.
# shellcheck disable=SC2086
with_words() { "$sum" $words first; }
for words in --bogus --bogus=5 --- -x -bx -b- --tag=5 --version=3 '--tag --text' '--tag -ct' '-z --tag -c' \
  '--zero -c' '--binary -c' '-t --check' '-tbc' --quiet --status --ignore-missing --strict --warn '--strict --quiet' \
  '--status -b' '--tag --quiet' '-z --strict' '-c --help=1' $'--bog\xff' '--bogus --help'; do
  try "mistake ${words//[^ -~]/_}" beside with_words
done

cd "$room" || exit 1
files

# Checks that a command fails with a message that matches a pattern: NAME PATTERN COMMAND..
says() {
  local case=$1 pattern=$2
  shift 2
  "$@" >out 2>"$room/log"
  [ $? -eq 1 ] && grep -qi -- "$pattern" "$room/log"
  tell "$case" $?
}

# Lines from other programs: uppercase digits, a star, leading whitespace, and a carriage return at the end.
printf '%b\n' 'A1266B469390773A  first' 'a1266b469390773a *first' ' \ta1266b469390773a  first' \
  'a1266b469390773a  first\r' 'RAPIDHASH-V1 (first) = DD91317EEFDB7BF5\r' >others
answers lines_of_other_programs 'first: OK\nfirst: OK\nfirst: OK\nfirst: OK\nfirst: OK\n' '' "$program" -c others
cp first '\x stands for itself'
cat >malformed <<'LINES'
# a comment

a1266b469390773  one digit short
a1266b469390773g  no digit
a1266b469390773a name
a1266b469390773a	name
a1266b469390773a
\a1266b469390773a  a backslash at the end\
\a1266b469390773a  \x is no escape
RAPIDHASH-V99 (name) = a1266b469390773a
RAPIDHASH-V3:7 (name) = a1266b469390773a
RAPIDHASH-V3 (name = a1266b469390773a
RAPIDHASH-V3
a1266b469390773a  \x stands for itself
LINES
"$program" -c -w malformed >out 2>"$room/log"
sed -n 's/.*malformed: \([0-9]*\): .*/\1/p' "$room/log" | cmp - <(seq 3 13) &&
  grep -qxF '\\\x stands for itself: OK' out
tell each_malformed_line_is_named $?

# The values of the Rust crate for 57, 58 and 128 bytes, with the default seed and with seed words, and for a file above
# 4 GiB, which is read in pieces.
grep -E '^hash\sv[^p]+\s(default|word:[0-9]+)\s(.{114}|.{116}|.{256}|zeros:.*)\s' \
  "$top/crates/test_replay/data/cases.tsv" >vectors
[ "$(grep -c zeros: vectors)" -eq "$("$program" --help | sed -n 's/.*values://p' | wc -w)" ]
tell vectors_of_all_versions $?
while IFS=$'\t' read -r _ version rule message hash; do
  version=${version/2_/2.} version=${version/3_/3-} word=${rule#word:} file=of_${#message} hash=$(printf %016x "$hash")
  case $message in
    zeros:*) truncate -s "${message#zeros:}" "$file" ;;
    *) perl -e 'print pack "H*", $ARGV[0]' "$message" >"$file" ;;
  esac
  if [ "$rule" = default ]; then
    answers "version_${version}_$file" "$hash  $file\n" '' in_kibibytes 32768 "$program" -a "$version" "$file"
  else
    answers "seed_of_$version" "RAPIDHASH-${version^^}:$(printf %016x "$word") ($file) = $hash\n" '' \
      "$program" --seed "$word" --tag --algorithm "$version" "$file"
    cat out >>list_of_all
    echo "$file: OK" >>wanted_of_all
  fi
done <vectors
cp wanted_of_all wanted
prints a_list_of_all_versions "$program" -c list_of_all
"$program" --seed 1 first >list
answers check_with_a_seed 'first: OK\n' '' "$program" --seed 1 -c list
! "$program" -c list 2>&1 | grep 'no file matched' >"$room/log"
tell a_list_of_one_file_may_just_differ $?
"$program" --seed 1 --tag first 'second name' | sed 's/[^ ]*$/0123456789abcdef/' >list
! "$program" -c list 2>&1 | grep 'no file matched' >"$room/log"
tell a_list_with_versions_is_for_no_other $?
"$program" --seed 1 first 'second name' >list
says check_without_the_seed '^rapidsum: list: no file matched: the list may be for another version, seed or program$' \
  "$program" -c list
"$program" first >>list
says a_line_that_matches 'WARNING: 2 computed checksums did NOT match$' "$program" -c list
! grep -q 'no file matched' "$room/log"
tell no_file_matched_is_said_of_all $?
printf 'RAPIDHASH-V9 (first) = a1266b469390773a\n' >list
says unknown_version_in_a_list 'no properly formatted' "$program" -c list

# Names that are not UTF-8, and one that is. Cargo's build hashes all files. The kit's reports the former and hashes the
# last, and such a name in a list counts as a file that cannot be read.
names=($'x\xff' $'\xe9t\xe9' $'\xf4\x8f\xbf\xbf')
for name in "${names[@]}"; do cp first "$name"; done
printf 'a1266b469390773a  %s\n' "${names[@]}" >wanted
"$program" "${names[@]}" >list 2>"$room/log"
status=$?
if [ -n "${BUILT-}" ]; then
  [ "$status" -eq 0 ] && cmp wanted list && "$program" -c --status list
  tell names_that_are_not_utf_8 $?
else
  [ "$status" -eq 1 ] && tail -n 1 wanted | cmp - list &&
    printf 'rapidsum: %s: the name is not UTF-8\n' "${names[@]:0:2}" | cmp - "$room/log"
  tell names_that_are_not_utf_8 $?
  says name_in_a_list_that_is_not_utf_8 UTF-8 "$program" -c wanted
  [ "$(grep -c 'FAILED open or read$' out)" -eq 2 ]
  tell the_name_cannot_be_read $?
fi

# Compares what this build and the kit's print for all pairs of these words.
as_by_the_kit() {
  local one two words=(--tag -c --text -bt --zero -a --seed=2 --seed --algorithm=v9 --quiet -w first - -- --chek -x
    --help -V --tag=5 --see -é '' v2.1 -az --=)
  mkdir kit && cp "$kit" "kit/${program##*/}" || return 1
  for one in "${words[@]}"; do
    for two in "${words[@]}"; do
      "$program" "$one" "$two" >ours 2>&1 <first; echo $? >>ours
      "kit/${program##*/}" "$one" "$two" >theirs 2>&1 <first; echo $? >>theirs
      diff theirs ours || return 1
    done
  done
}
kit=$top/crates/rapidsum/out/rapidsum
# Prints the least memory, in steps of a twentieth, in which a program hashes ten million bytes from a pipe: PROGRAM
least_memory() {
  local kibibytes
  for ((kibibytes = 10000; kibibytes < 200000; kibibytes += kibibytes / 20)); do
    ! head -c 10000000 /dev/zero | in_kibibytes "$kibibytes" "$1" -a v1 >/dev/null 2>&1 || break
  done
  echo "$kibibytes"
}

# Checks that this build needs at most a fifth more memory than the kit's.
needs_as_little_memory() {
  local ours theirs
  ours=$(least_memory "$program") theirs=$(least_memory "$kit") && echo "$ours KiB, $theirs KiB" &&
    [ "$ours" -lt 200000 ] && [ $((10 * ours)) -le $((12 * theirs)) ]
}
if [ -n "${BUILT-}" ] && [ -x "$kit" ]; then
  try pairs_of_words as_by_the_kit
  try memory_of_both_builds needs_as_little_memory
fi

runs no_input 1 '' $'rapidsum: -: Bad file descriptor\n' "$program" <&-
# Neither a path (O_PATH) nor a file that is opened for control alone can be read: FLAGS COMMAND..
with_input_by() { perl -MPOSIX -e 'POSIX::close(0); POSIX::open("first", oct shift); exec @ARGV' "$@"; }
for flags in 3 010000000; do
  runs "input_by_$flags" 1 '' $'rapidsum: -: Bad file descriptor\n' with_input_by "$flags" "$program"
done
# A closed pipe ends cargo's build by SIGPIPE, as it ends sha256sum, and the kit's with a status. Both end xargs.
runs closed_pipe "$([ -n "${BUILT-}" ] && echo 141 || echo 255)" '' '' to_a_closed_pipe "$program" first first
ends_xargs() {
  yes first | head -n 9000 |
    xargs -n 1000 strace -qqo "$room/calls" -A -e trace=openat "$program" 2>/dev/null | head -n 1
  [[ ${PIPESTATUS[2]} == 12[45] ]] && [ "$(grep -c first "$room/calls")" -lt 1000 ]
}
can_trace && try a_closed_pipe_ends_xargs ends_xargs
if [ -n "${BUILT-}" ]; then # The kit's runtime does not tell whether the signal was ignored.
  runs closed_pipe_without_the_signal 1 '' $'rapidsum: write error: Broken pipe\n' \
    to_a_closed_pipe perl -e '$SIG{PIPE} = "IGNORE"; exec @ARGV' "$program" first
fi
says help_to_a_full_disk 'No space left' to_a_full_disk "$program" --help
{ "$program" first && "$program" 'second name' | head -c 18; } >ends
says list_that_ends_before_a_name 'ends: a line has a hash, but no file name' "$program" -c --ignore-missing ends
says list_that_is_a_folder '.: Is a directory' "$program" -c .
says list_of_which_a_read_fails 'list: Input/output error' failing read:error=EIO:when=2 list "$program" -c list
runs rest_of_a_short_write 0 $'b469390773a  first\n' '' failing write:retval=5:when=1 out "$program" first

# Checks that the words are refused with this message: MESSAGE WORD..
refuses() {
  local message=$1
  shift
  "$program" "$@" >out 2>"$room/log"
  [ $? -eq 1 ] && [ ! -s out ] &&
    printf "rapidsum: %b\nTry 'rapidsum --help' for more information.\n" "$message" | cmp - "$room/log"
  tell "refuses ${*//[^ -~]/_}" $?
}

valid='\nValid arguments are: v1, v2.0, v2.1, v2.2, v3, v3-micro, v3-nano'
refuses "option '--seed' requires an argument" first --seed
refuses "option '--algorithm' requires an argument" --algorithm
refuses "option requires an argument -- 'a'" -ba
refuses "invalid argument 'v9' for '--algorithm'$valid" -a v9
refuses "invalid argument 'V1' for '--algorithm'$valid" --algorithm=V1 first
refuses "invalid argument '=v1' for '--algorithm'$valid" -a=v1 first
refuses "invalid argument '--' for '--algorithm'$valid" -a -- first
refuses "invalid argument '' for '--algorithm'$valid" --algorithm= first
for seed in -1 1=2 0x10 '' + 1_0 18446744073709551616; do
  refuses "invalid seed: '$seed'" --seed="$seed" first
  refuses "invalid seed: '$seed'" --seed "$seed" first
done
for words in '-b -b' '-btb -t -t' '--tag --tag' '-zz' '-cc' '--seed=1 --seed 1' '-av1 -a v1'; do
  case $words in *b) name=binary ;; *t) name=text ;; *tag) name=tag ;; -z*) name=zero ;; -c*) name=check ;;
    *seed*) name=seed ;; *) name=algorithm ;; esac
  # shellcheck disable=SC2086
  refuses "the --$name option may be given only once" $words first
done
refuses "unrecognized option '--ver'" --ver
refuses "unrecognized option '\\\\--a\\\\nb'" $'--a\nb'
refuses "unrecognized option '--x\\0377'" $'--x\xff'
refuses "invalid option -- '\\0377'" $'-z\xff'
refuses "invalid option -- 'é'" -bé

# Options that are written in other ways.
for words in '-bz --algorithm v1 --seed 7' '-zba v1 --seed=7' '-bzav1 --seed +7' '--binary --zero --seed=0007 -av1'; do
  # shellcheck disable=SC2086
  answers "written as $words" '695efbda9896d6d1 *first\0' '' "$program" $words first
done
answers options_after_files 'a1266b469390773a *first\n' '' "$program" first -b
answers input_among_files 'a1266b469390773a  first\nd961942577685053  -\n' 'else' "$program" first - --
cp first ./-b && cp first ./--
answers files_behind_two_hyphens 'a1266b469390773a  -b\na1266b469390773a  --\n' '' "$program" -- -b --
# Names in a list, and the messages about them, which are those of wc.
as_wc() {
  local one
  printf 'first\0-\0\0' >input
  for one in wc "$program"; do
    "$one" "$@" <input 2>&1 >/dev/null | sed -E "s/^[^ ]*(wc|rapidsum): /sum: /; s/^(Try .)(wc|rapidsum)/\1sum/
      s/cannot open '(.*)' for reading: /\1: /; s/read error: //; s/ \(os error [0-9]+\)$//"
    echo "status ${PIPESTATUS[0]}"
  done >both
  diff <(head -n $(($(wc -l <both) / 2)) both) <(tail -n $(($(wc -l <both) / 2)) both)
}
printf 'first\0\0nothing\0second name' >names
for words in --files0-from=names '--files0-from names' --files0-from=nothing --files0-from=. --files0-from=/dev/null \
  --files0-from=- 'first --files0-from=names nothing' '--files0-from=names -- -x' --files0-from; do
  # shellcheck disable=SC2086
  try "messages of wc for $words" as_wc $words
done
names=(first 'second name' $'line\nback\\return\r' -b --)
printf '%s\0' "${names[@]}" >names && "$program" -- "${names[@]}" >wanted && head -c -1 names >short
prints names_of_a_list "$program" --files0-from=names
prints last_name_without_nul "$program" --files0-from short
prints names_of_input "$program" --files0-from=- <names
printf 'first\0-\0' >names
answers input_in_a_list 'a1266b469390773a  first\nd961942577685053  -\n' 'else' "$program" --files0-from=names
runs no_input_in_a_list_of_input 1 $'a1266b469390773a  first\n' \
  $'rapidsum: when reading file names from stdin, no file name of \'-\' allowed\n' "$program" --files0-from=- <names
answers empty_list '' 'else' "$program" --files0-from=/dev/null
"$program" first >list && printf 'list\0list' >names
answers lists_of_a_list 'first: OK\nfirst: OK\n' '' "$program" -c --files0-from=names
printf 'first\0nothing\0\0first' >names && "$program" --files0-from=names >both 2>&1
[ "$(sed 's/ .*//' both)" = $'a1266b469390773a\nrapidsum:\nrapidsum:\na1266b469390773a' ]
tell each_error_is_in_order $?
sed 's/first/nothing/' list | cat list - list >mixed &&
  "$program" -c mixed 2>&1 | sed 's/.*nothing: No.*/message/' >both
[ "$(head -n 4 both)" = $'first: OK\nmessage\nnothing: FAILED open or read\nfirst: OK' ]
tell each_error_of_a_check_is_in_order $?
refuses 'the --files0-from option may be given only once' --files0-from=names --files0-from names
for words in -h --help '-bh --bogus' '--tag -c --help -x'; do
  # shellcheck disable=SC2086
  try "help by $words" bash -c '"$@" | cmp - <("$0" --help)' "$program" "$program" $words
done
for words in -V --version '-Vh' '-b --version -x'; do
  # shellcheck disable=SC2086
  answers "version by $words" 'rapidsum 1.0\n' '' "$program" $words
done

# A list larger than the available memory, and the same file as input, which is read in pieces.
head -c 67108864 /dev/zero | tr '\0' 'x' >large
says a_large_file_is_no_list 'no properly formatted' in_kibibytes 32768 "$program" -c large
{ yes '# a comment' | head -n 9000 && "$program" --tag first && sha256sum --tag first; } >comments
runs list_behind_comments 0 $'first: OK\n' $'rapidsum: WARNING: 1 line is improperly formatted\n' "$program" -c comments
{ yes "$(sha256sum --tag first)" | head -n 900 && "$program" first; } >mixed
try list_behind_others bash -c '"$1" -c mixed | grep -x "first: OK"' - "$program"
printf 'x\0%070000d\n' 1 | cat - large >binary
says a_binary_file_is_no_list 'no properly formatted' in_kibibytes 32768 "$program" -c binary
"$program" first | cat - large >long
says memory_refused memory in_kibibytes 32768 "$program" -c long
try reads_in_pieces reads_in 1025 large "$program" large
says memory_refused_to_a_list_of_names 'large: .*memory' in_kibibytes 32768 "$program" --files0-from=large
head -c 8000000 /dev/zero >empty &&
  says memory_refused_to_names memory in_kibibytes 65536 "$program" --files0-from=empty
yes 'a1266b469390773a  first' | head -n 20000 >entries
try memory_of_a_list grows_by_a_factor "$program" -c --quiet entries
try memory_of_input grows_by_a_factor "$program" -a v1 <large
# The lines before a refusal are written, and those of a failed write are not written again.
"$program" first >list && { cat list && yes x | head -c 12000000; } >short
in_kibibytes 65536 "$program" -c list short >out 2>"$room/log"
[ $? -eq 1 ] && grep -q memory "$room/log" && [ "$(cat out)" = 'first: OK' ]
tell lines_before_a_refusal $?
failing write:error=EIO:when=1 out "$program" first nothing >out 2>"$room/log"
[ $? -eq 1 ] && [ ! -s out ] && grep -q 'write error' "$room/log"
tell lines_of_a_failed_write $?

# What cargo's build has in place of parts of the kit: reads to the end, lists, and arguments.
if [ -n "${BUILT-}" ]; then
  head -c 60000 large >small
  try reads_of_a_small_file reads_in 5 small "$program" -a v1 small
  runs interrupted_read 0 $'dd91317eefdb7bf5  first\n' '' failing read:error=EINTR:when=1 first "$program" -a v1 first
  runs long_input 0 $'d0c1f214a7d9bf5c  -\n' '' "$program" -a v1 < <(head -c 140000000 /dev/zero)
  yes 'a1266b469390773a  first' | head -n 70000 >long_list
  try long_list bash -c '[ "$("$1" -c long_list | wc -l)" -eq 70000 ]' - "$program"
  try many_names bash -c '[ "$("$1" $(yes first | head -n 70000) | wc -l)" -eq 70000 ]' - "$program"
fi

truncate -s 4294967301 sparse
while printf x >>sparse; do :; done &
says file_that_grows 'sparse: the file grew while it was read' "$program" -a v1 sparse
kill $!

# Only a terminal shows the progress of a large file.
truncate -s 300000000 sparse
script -qec "$program sparse" log </dev/null >/dev/null 2>&1
grep -q '128 MiB.*256 MiB' log && grep -qP '\r\x1b\[Kc266dafd0143ba3a  sparse' log
tell progress_on_a_terminal_is_erased $?
# Lines are written in blocks, but to a terminal at once. Blocks for a pipe are those that a system does not mix.
writes_blocks() {
  can_trace && yes first | head -n 20000 | tr '\n' '\0' >names &&
    strace -qqo "$room/calls" -e trace=write "$program" --files0-from=names >sums && [ "$(wc -l <sums)" -eq 20000 ] &&
    [ "$(wc -l <"$room/calls")" -eq 8 ] && grep -q 'at most 64 KiB to a file' "$top/packages/tools/rapidsum.1"
}
writes_whole_lines() {
  can_trace && strace -qq -s 4096 -o "$room/calls" -e trace=write "$program" --files0-from=names | cat >sums &&
    [ "$(wc -l <sums)" -eq 20000 ] && [ "$(wc -l <"$room/calls")" -eq 118 ] &&
    ! grep -v '\\n", [0-9]*) *= [0-9]*$' "$room/calls" &&
    sed 's/.*= //' "$room/calls" | awk '$1 > 4096 { exit 1 }' &&
    strace -qqe trace=write "$program" -z $'line\nback\\return\r' first 2>&1 >/dev/null | grep -q '= 60$' &&
    grep -q 'at most 4 KiB, or one longer line, elsewhere' "$top/packages/tools/rapidsum.1"
}
writes_lines() {
  can_trace && script -qec "strace -qqo calls -e trace=write $program first first" log </dev/null >/dev/null 2>&1 &&
    [ "$(grep -c 'write(1, "a1266b469390773a' calls)" -eq 2 ]
}
try blocks_of_lines writes_blocks
try whole_lines_into_a_pipe writes_whole_lines
try lines_on_a_terminal writes_lines
# Whether standard error is a terminal is asked once, for all files.
asks_once() {
  can_trace && strace -qqo "$room/calls" -e trace=ioctl "$program" first first first &&
    [ "$(grep -c 'ioctl(2,' "$room/calls")" -eq 1 ]
}
try asks_for_a_terminal_once asks_once
answers no_progress_elsewhere 'c266dafd0143ba3a  sparse\n' '' "$program" sparse
# Standard output may be a terminal without standard error.
script -qec "$program sparse 2>errors" log </dev/null >/dev/null 2>&1
[ ! -s errors ] && grep -q '^c266dafd0143ba3a  sparse' log
tell no_progress_into_a_file $?
script -qec "$program sparse >sums" log </dev/null >/dev/null 2>&1
[ "$(cat sums)" = 'c266dafd0143ba3a  sparse' ] && grep -q '128 MiB.*256 MiB' log
tell progress_beside_a_file $?

finish
