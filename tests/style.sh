#!/usr/bin/env bash
# reads: .
# Refuses lines over 100 columns in source files, which the layout tool accepts. Checks the scripts with the linters of
# their languages, and the newest commits. With the kit, also refuses contracts that name a private field, which the
# checker accepts, although no caller can see the field.
. "$(dirname "$0")/cases.sh"
cd "$top" || exit 1

# Columns are characters. The layout tool keeps a `ghost use` on a single line, so its width has no limit.
narrow() {
  [ "$(LC_ALL=C.UTF-8 grep -cE '^.$' <<<λ)" = 1 ] && [ -n "$(git ls-files '*.rt')" ] &&
    ! git ls-files -z '*.rt' | LC_ALL=C.UTF-8 xargs -0 grep -nHE '^.{101,}$' -- | grep -vE '^[^:]*:[0-9]+: *ghost use '
}

# Checks that lines have at most 120 columns, and that C, C++, Java, JavaScript and the web page have no tabs and no
# space at the end of a line. The width has no limit in pages, which tests/pages.py checks, in data, generated sources,
# statements with their stored output, Go's example with the lines of its page, and rows of tables in comments.
even() {
  local wide
  LC_ALL=C.UTF-8 git grep -nIP '^(?!//! \|).{121,}$' -- . ':!crates' ':!docs' ':!*.md' ':!*.tsv' \
    ':!*/proved/*' ':!packages/postgresql/sql' ':!packages/postgresql/expected' ':!packages/go/example_test.go' \
    >"$room/wide"
  wide=$?
  cut -c -80 "$room/wide"
  ! git ls-files -z '*.c' '*.h' '*.?pp' '*.java' '*.mjs' '*.*ts' '*.html' '*.css' |
    LC_ALL=C.UTF-8 xargs -0 grep -nHE $'\t| $' -- && [ "$wide" -eq 1 ]
}

# Checks the layout of the Rust programs that belong to no crate. In a crate, cargo fmt checks it.
formatted_rust() {
  for file in $(git ls-files 'bench/*.rs' 'tests/*.rs'); do
    rustfmt --edition 2024 <"$file" | diff "$file" - || return 1
  done
}

# Checks that a crate's contracts name no private field: the checker warns of each and counts them. It runs in a copy,
# because rt check locks a crate and its dependencies. So crates with the same library could not be checked in parallel.
hides_its_fields() {
  local copy=$room/$1 status=1
  mkdir "$copy" && cp crates.txt HANDLES "$copy" &&
    cp -r --parents crates/*/src crates/*/specs crates/*/proofs crates/*/out/rlib "$copy" &&
    (cd "$copy/crates/$1" && rt check --only '' --private-fields) >"$copy.log" 2>&1 &&
    grep -q '^private fields: 0 found$' "$copy.log" && status=0
  rm -rf "$copy"
  [ "$status" -eq 0 ] || grep -E 'is a private field of|^private fields: ' "$copy.log" || tail -n 5 "$copy.log"
  return "$status"
}

# Checks that each file with an interpreter is executable, because the gate runs no other.
can_be_run() {
  git grep -lE '^#!/' -- tests packages scripts bench bin .ci ':!*.md' | while read -r file; do
    [ -x "$file" ] || ! head -c 3 "$file" | grep -q '^#!/' || echo "$file"
  done >"$room/found" && cat "$room/found" && [ ! -s "$room/found" ]
}

# Checks that the second line of each script of the gate states the paths that it reads, its own package among them.
tells_what_it_reads() {
  find packages/*/tests tests -type f -perm -u+x ! -path 'tests/release/*' | while read -r script; do
    reads=$(sed -n '2 s/^# reads: //p' "$script")
    for path in ${reads:-nothing}; do [ -e "$path" ] || echo "$script: no $path"; done
    [[ $script == tests/* || " $reads " == *" "@("${script%/tests/*}"|.|packages)" "* ]] || echo "$script"
  done >"$room/found" && cat "$room/found" && [ ! -s "$room/found" ]
}

scripts_in() {
  git grep -lE "^#!.*$1|^# shellcheck shell=$1" -- . ':!*.md'
}

# In the scripts of users, each path is quoted: it may have a space.
lints_shell() {
  scripts_in '(ba)?sh$' | xargs shellcheck --external-sources --source-path=SCRIPTDIR --severity=warning &&
    scripts_in '(ba)?sh$' | grep -E '^(bin|scripts)/' | xargs shellcheck --include=SC2086
}

lints_python() {
  { scripts_in python && git ls-files '*.py'; } | sort -u | xargs pyflakes3
}

# Checks that the doc comment of each public function begins with one of these verbs.
verbs='Absorbs|Adds|Builds|Clears|Compares|Counts|Does|Fills|Finds|Forgets|Hashes|Inserts|Makes|Parses|Prints|Reads'
verbs+='|Removes|Replays|Reports|Returns|Steps|Writes'
begins_with_verbs() {
  git ls-files -z 'crates/*/src/*.rt' | xargs -0 awk -v verbs="^($verbs)\$" '
    /^ *\/\/\// { if (!word) word = $2; next }
    / *pub .*fn / && word && word !~ verbs { print FILENAME ":" FNR ": " word; found = 1 }
    !/^ *#\[/ { word = "" }
    END { exit found }'
}

# Checks that each subject names an area and has at most 72 characters.
has_short_subjects() {
  ! git log -20 --no-merges --format=%s | grep -vE '^[A-Za-z0-9_/, .-]+: .+' &&
    ! git log -20 --no-merges --format=%s | grep -E '.{73}'
}

try columns narrow
try even_lines even
try_with rust_programs rustfmt formatted_rust
try executable_scripts can_be_run
try scripts_and_paths tells_what_it_reads
try_with shell_scripts shellcheck lints_shell
try_with python_scripts pyflakes3 lints_python
try verbs begins_with_verbs
try commits has_short_subjects
try weight scripts/weight --check
# The library crates of the product.
mapfile -t crates < <(git ls-files 'crates/rapidhash*/src/lib.rt' | cut -d / -f 2)
if reason=$(lacks rt); then
  for crate in "${crates[@]}"; do skip "private_fields_of_$crate" "$reason"; done
  finish
fi
# Proves the two large libraries, rapidhash_portable and rapidhash, so that no copy must prove them.
(cd crates/rapidhash && rt lib >/dev/null 2>&1) || echo 'rapidhash is not built'
# A file CRATE.ended exists only after the crate's check has ended.
export room
export -f hides_its_fields
printf '%s\0' "${crates[@]}" | xargs -0 -I CRATE -P "$(nproc)" bash -c \
  'hides_its_fields "$1" >"$room/$1.found"; echo $? >"$room/$1.ended"' - CRATE
for crate in "${crates[@]}"; do
  try "private_fields_of_$crate" bash -c 'cat "$1.found" && exit "$(cat "$1.ended")"' - "$room/$crate"
done

finish
