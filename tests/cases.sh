# The common start of the test scripts: `room`, a temporary directory that is removed when the script ends, and
# functions that print cases in the Test Anything Protocol (TAP), which `prove` reads. `top` is the repository. A
# missing tool of .ci/packages skips the cases that need it.
# shellcheck shell=bash
set -u

top=$(cd "$(dirname "${BASH_SOURCE[0]}")/.." && pwd) || exit 1
. "$top/tests/tools.sh"
room=$(mktemp -d) || exit 1
trap 'chmod -R u+rwx "$room"; rm -rf "$room"' EXIT
cases=0
failed=0

# Prints the line of a case: RESULT NAME DIRECTIVE
print_case() {
  cases=$((cases + 1))
  printf '%s - %s%s\n' "$1" "${2//#/}" "${3-}"
}

ok() {
  rm -f "$room/untraced"
  print_case ok "$1"
}

# Prints a case that cannot run on this machine: NAME REASON
skip() {
  print_case ok "$1" " # SKIP $2"
}

# Prints a failed case with its reason, unless it needs strace, which this machine does not allow: NAME REASON
fail() {
  if rm "$room/untraced" 2>/dev/null; then
    skip "$1" "$(lacks strace || echo 'strace cannot trace here')"
    return
  fi
  failed=$((failed + 1))
  print_case 'not ok' "$1"
  sed 's/^/# /' <<<"$2"
}

# Counts a case according to a status. The file log may contain the compared values: NAME STATUS
tell() {
  if [ "$2" -eq 0 ]; then ok "$1"; else fail "$1" "$(tail -c 800 "$room/log" 2>/dev/null)"; fi
}

# Counts a case according to the exit status of a command: NAME COMMAND..
try() {
  local name=$1
  shift
  "$@" >"$room/log" 2>&1
  tell "$name" $?
}

# Does the same if these tools, separated by spaces, are on this machine: NAME TOOLS COMMAND..
try_with() {
  local tools reason
  read -ra tools <<<"$2"
  if reason=$(lacks "${tools[@]}"); then skip "$1" "$reason"; else try "$1" "${@:3}"; fi
}

# Runs a command, which must exit with this status and write this output: NAME STATUS OUT ERR COMMAND..
runs() {
  local name=$1 wanted=$2 out=$3 err=$4 status
  shift 4
  "$@" >out 2>err
  status=$?
  if [ "$status" != "$wanted" ]; then
    fail "$name" "its status is $status, and not $wanted"
  elif ! printf %s "$out" | cmp -s - out; then
    fail "$name" "it printed: $(head -c 200 out)"
  elif ! printf %s "$err" | cmp -s - err; then
    fail "$name" "standard error has: $(head -c 200 err)"
  else
    ok "$name"
  fi
}

# Checks that a directory has the licences and the notice of the repository: DIRECTORY
has_the_licences() {
  local file
  for file in LICENSE-MIT LICENSE-APACHE NOTICE; do
    cmp "$top/$file" "$1/$file" || return 1
  done
}

# Checks that the tool of an installed or unpacked library prints the hash of a line: PREFIX
prints_the_known_hash() {
  [ "$(echo something | "$1/bin/rapidhash" --v1)" = 15965596575264898037 ]
}

# Copies the files of the repository, as git lists them: DIRECTORY
copy_sources() {
  mkdir "$1" && (cd "$top" && git ls-files -z | xargs -0 cp --parents -t "$1")
}

# Builds a C program of every call with the flags from pkg-config and runs it with the shared library. In the flags, a
# backslash escapes a character for the shell: LIBRARY-DIRECTORY
builds_by_pkg_config() {
  local flags
  flags=$(PKG_CONFIG_LIBDIR=$1/pkgconfig pkg-config --cflags --libs rapidhash_c) &&
    eval "cc -O2 -Wall -Werror '$top/packages/c/tests/c_library.c' $flags -o '$room/c_library'" &&
    LD_LIBRARY_PATH=$1 "$room/c_library" &&
    readelf -d "$room/c_library" | grep -q 'NEEDED.*librapidhash_c\.so\.1'
}

# Checks that C and C++ programs find an installed library with CMake and use it as shared library, archive, and header:
# PREFIX
builds_by_cmake() {
  cmake -S "$top/packages/c/tests/cmake" -B "$room/cmake" -D CMAKE_PREFIX_PATH="$1" &&
    grep "^rapidhash_c_DIR:PATH=$1/" "$room/cmake/CMakeCache.txt" &&
    cmake -S "$top/packages/c/tests/cmake" -B "$room/beside" -D CMAKE_PREFIX_PATH="$1" -D BESIDE="$top/packages/c" &&
    cmake --build "$room/cmake" && (cd "$room/cmake" && ctest | tee /dev/stderr | grep '100%.* out of 6$')
}

# Prints the code blocks of a page that contain a word: PAGE LANGUAGE WORD
blocks() {
  awk -v language="$2" -v word="$3" '
    /^```/ { if (inside && index(block, word)) printf "%s", block; inside = $0 == "```" language; block = ""; next }
    inside { block = block $0 "\n" }' "$1"
}

# Checks that the commands of a page, at most three, print the hash of hello in the empty directory `$room/first`. None
# may call the toolchain: PAGE
works_as_its_page_says() {
  mkdir "$room/without" && printf '#!/bin/sh\necho rt was called >&2; exit 1\n' >"$room/without/rt" &&
    chmod +x "$room/without/rt" && blocks "$1" sh YERVOUND >"$room/commands" &&
    [ -s "$room/commands" ] && [ "$(wc -l <"$room/commands")" -le 3 ] &&
    mkdir "$room/first" && cd "$room/first" && PATH=$room/without:$PATH YERVOUND=$top bash -e ../commands >../printed &&
    [ "$(tail -n 1 ../printed)" = 3327445792987248966 ]
}

# Run a command that cannot write, or that has limited memory: COMMAND.., or KIBIBYTES COMMAND..
to_a_full_disk() { "$@" >/dev/full; }
to_no_output() { "$@" >&-; }
to_a_closed_pipe() { perl -e 'pipe R, W; close R; open STDOUT, ">&", W; exec @ARGV' "$@"; }
in_kibibytes() (ulimit -v "$1" && exec "${@:2}")

# Runs a command in which system calls on a file fail, as strace's option inject describes: FAILURE FILE COMMAND..
failing() { can_trace && strace -qqo /dev/null -P "$PWD/$2" -e "inject=$1" "${@:3}"; }
# Checks that a command reads a file, in at most this many calls: CALLS FILE COMMAND..
reads_in() {
  can_trace && strace -qqo "$room/calls" -P "$PWD/$2" -e trace=read "${@:3}" && [ -s "$room/calls" ] &&
    [ "$(wc -l <"$room/calls")" -le "$1" ]
}
# Checks that a command needs at most 60 system calls for its memory, because each buffer grows by a factor: COMMAND..
grows_by_a_factor() {
  can_trace && strace -qqo "$room/calls" -e trace=brk,mmap,mremap "$@" && [ "$(wc -l <"$room/calls")" -le 60 ]
}
can_trace() { has strace && strace -qqo /dev/null true || { : >"$room/untraced" && return 1; }; }

# Prints the paths of the programs that make has built, or nothing without the kit and cargo.
built_programs() {
  make -s -C "$top" --eval='show: ; @echo $(addprefix $(CURDIR)/,$(tools))' show
}

# Prints the number of cases and exits with status 1 if one failed.
finish() {
  echo "1..$cases"
  exit $((failed > 0))
}

# Ends a script whose other cases cannot run on this machine: REASON
skip_all() {
  [ "$cases" -eq 0 ] || { skip 'all other cases' "$1" && finish; }
  echo "1..0 # SKIP $1"
  exit
}

# Ends a script whose other cases need these tools, if one is missing: TOOL..
needs() {
  local reason
  ! reason=$(lacks "$@") || skip_all "$reason"
}

# Runs a command that prepares the cases, and ends the script if it fails: COMMAND..
prepare_by() {
  if "$@" >"$room/log" 2>&1; then
    rm "$room/log"
  else
    fail prepare "$(tail -n 5 "$room/log")"
    finish
  fi
}
