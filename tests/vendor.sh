#!/usr/bin/env bash
# reads: scripts/vendor crates Makefile
# Copies the library into other repositories with scripts/vendor. The cases are copies that succeed, are refused, or
# fail halfway.
#
# With the argument ci, it also runs the merge gate of such a repository, which proves everything from scratch and runs
# the program of docs/RATTLE.md. This takes some minutes: make test-vendor.
. "$(dirname "$0")/cases.sh"
exec </dev/null
library=$room/library
vendor=$library/scripts/vendor

# Checks that both crates are complete and that nothing else is left: DIRECTORY
is_copy() {
  local crate
  for crate in rapidhash_portable rapidhash; do
    diff -r "$library/crates/$crate" "$1/crates/$crate" >"$room/other"
    [ "$(sort "$room/other" | sed -E 's/.*: //' | tr '\n' ' ')" = 'LICENSE-APACHE LICENSE-MIT NOTICE VENDORED ' ] &&
      has_the_licences "$1/crates/$crate" || return 1
  done
  [ "$(ls -A "$1" "$1/crates" | tr '\n' ' ')" = "$1: crates  $1/crates: rapidhash rapidhash_portable " ]
}

# Checks that a command fails and that its last line on standard error is this message: MESSAGE COMMAND..
refused() {
  local message=$1
  shift
  "$@" 2>"$room/said" >/dev/null
  [ $? -eq 1 ] && cat "$room/said" && [ "$(tail -n 1 "$room/said")" = "vendor: $message" ]
}

# Checks that the copy is complete, and that the lines for crates.txt are those of the crates.
makes_a_copy() {
  mkdir "$room/a folder" && make -s -C "$library" vendor INTO="$room/a folder" >"$room/said" &&
    is_copy "$room/a folder" && diff <(grep -E '^\w+:' "$room/said") - <<'LINES'
rapidhash_portable:
rapidhash: rapidhash_portable rand_core
YOUR_CRATE: rapidhash
LINES
}

# Checks that the copy names the clone's commit, followed by a text: TEXT
vendored() {
  [ "$(cat "$room/a folder/crates/rapidhash/VENDORED")" = "Yervound $(git -C "$library" rev-parse HEAD)$1" ]
}

says_that_it_has_changes() {
  touch "$library/crates/rapidhash/src/new.rt" && "$vendor" "$room/a folder" && vendored ', with changes' &&
    rm "$library/crates/rapidhash/src/new.rt" || return 1
  for crate in rapidhash_portable rapidhash; do
    echo '// changed' >>"$library/crates/$crate/src/lib.rt" && "$vendor" "$room/a folder" &&
      vendored ', with changes' && is_copy "$room/a folder" && git -C "$library" checkout -q crates || return 1
  done
}

replaces_a_copy() {
  touch "$room/a folder/crates/rapidhash/src/gone.rt"
  echo changed >"$room/a folder/crates/rapidhash_portable/src/lib.rt"
  "$vendor" "$room/a folder" && is_copy "$room/a folder"
}

refuses_a_crate_of_another() {
  local crate
  for crate in rapidhash_portable rapidhash; do
    mkdir -p "$room/of_$crate/crates/$crate" && echo mine >"$room/of_$crate/crates/$crate/mine" &&
      refused "$room/of_$crate/crates/$crate exists and is not a copy made by make vendor" \
        "$vendor" "$room/of_$crate" &&
      [ "$(cd "$room/of_$crate" && find . -type f)" = "./crates/$crate/mine" ] || return 1
  done
}

# No file may have more than 4 KiB, so the copy fails halfway, as it does on a full disk. Then the previous copy must be
# complete, and nothing else may be left.
keeps_what_was_there() {
  refused "cannot copy the crates; $room/a folder/crates is unchanged" \
    prlimit --fsize=4096 "$vendor" "$room/a folder" && is_copy "$room/a folder"
}

# Here no new copy can be moved to its place, only the previous one away and back.
puts_it_back() {
  local message="cannot put rapidhash_portable into $room/a folder/crates; fix this and run make vendor again"
  printf '#!/bin/sh\ncase $1:$2 in *.before:*) ;; *:*/crates/*) exit 1 ;; esac\nexec /bin/mv "$@"\n' >"$room/mv" &&
    chmod +x "$room/mv" && refused "$message" env PATH="$room:$PATH" "$vendor" "$room/a folder" &&
    is_copy "$room/a folder"
}

# Runs the merge gate of a repository with the library and the program of docs/RATTLE.md. It proves all three crates
# from scratch, runs the library's tests, and checks that the program prints its values.
passes_the_gate() {
  "$top/tests/readme.py" --repository "$room/user" && cd "$room/user" && echo out/ >.gitignore &&
    git add -A && git -c user.name=User -c user.email=user@example.org commit -qm 'Take the library' &&
    rt ci && [ -z "$(git status --porcelain)" ]
}

# A clone of the repository, with a substitute for a large directory of proofs.
prepare_by git clone -q -s "$top" "$library"
cp "$top/scripts/vendor" "$vendor"
install -D <(echo proved) "$library/crates/rapidhash/out/proved"
try copy makes_a_copy
try commit vendored ''
try changes says_that_it_has_changes
try again replaces_a_copy
try no_folder refused 'missing the top directory of the repository: make vendor INTO=FOLDER' "$vendor" ''
try missing_folder refused "$room/none is not a directory" "$vendor" "$room/none"
try another_crate refuses_a_crate_of_another
# Nobody, not even root, can create a directory in /proc.
try not_writable refused 'cannot write to /proc' "$vendor" /proc
try full_disk keeps_what_was_there
try failed_move puts_it_back
if [ "${1:-}" = ci ]; then
  echo 'the merge gate of a repository with the library: some minutes'
  try gate passes_the_gate
fi

finish
