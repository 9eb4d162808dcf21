#!/usr/bin/env bash
# reads: packages/tools bin Makefile
# Runs bin/rapidhash in a small copy of the repository. A script instead of rt builds a program that prints the sources
# and its arguments, so no case needs a proof.
. "$(dirname "$0")/../../../tests/cases.sh"
# A checkout may be below a directory with a space or a quote.
place="$room/a 'b"
mkdir "$place" && cd "$place" || exit 1

# The substitute for rt. For the program, it waits for the lock as rt does, reads the text of the sources, runs the file
# `during`, and builds. For a library, it does nothing.
mkdir kit
cat >kit/rt <<'RT'
#!/bin/sh
[ "$1" = run ] || exit 0
exec 9>>../../../lock && flock 9
echo run >>../../../starts
text=$(cat ../*/src/*.rt)
echo 'rt: chose --jobs 4'
. ../../../during
mkdir -p out && printf '#!/bin/sh\nprintf "%%s\\n" "%s" "$@"\ncat\nexit 7\n' "$text" >out/rapidhash_cli
chmod +x out/rapidhash_cli
RT
chmod +x kit/rt

# Creates a repository without build results, whose sources are older than the next build. A build also runs these
# commands: COMMANDS
new_repository() {
  chmod -R u+w . && rm -rf repo starts && echo "$1" >during
  mkdir -p repo/crates/rapidhash_{portable,cli}/src repo/crates/rapidhash_tool
  (cd "$top" && cp --parents bin/rapidhash Makefile crates.txt packages/*/make.mk .ci/{setup,packages} tests/tools.sh \
    scripts/aloud "$place/repo")
  echo first >repo/crates/rapidhash_portable/src/lib.rt
  find repo -exec touch -d 2020-01-01 {} +
}

# Runs the launcher and compares its exit status, its output, the number of builds so far, and a pattern for its
# messages: NAME STATUS OUT BUILDS ERR ARGUMENT..
tool=repo/bin/rapidhash
programs=$place/kit:$PATH
calls() {
  local status
  echo input | PATH=$programs "$tool" "${@:6}" >out 2>"$room/log"
  status=$?
  # shellcheck disable=SC2053
  [ "$status" = "$2" ] && [ "$(cat out)" = "$3" ] && [ "$(grep -c . starts)" -eq "$4" ] &&
    [[ $(cat "$room/log") == $5 ]]
  tell "$1" $?
}

told='make: proving and building rapidhash_cli, some minutes the first time'
new_repository ''
calls first_call 7 $'first\na  b\n\n\xff\ninput' 1 "$told" 'a  b' '' $'\xff'
calls second_call_builds_nothing 7 $'first\ninput' 1 ''
ln -sf ../repo/bin/rapidhash kit/linked
tool=kit/linked calls call_by_a_link 7 $'first\ninput' 1 ''
chmod -R a-w repo
calls read_only_checkout 7 $'first\ninput' 1 ''
chmod -R u+w repo
[ "$(echo input | PATH=$programs "$tool" 2>&-)" = $'first\ninput' ]
tell closed_standard_error $?

# Checks that the process that was started becomes the tool, which receives signals.
becomes_the_tool() {
  local started
  mkfifo waits && exec 5<>waits
  PATH=$programs "$tool" <waits >/dev/null 2>&1 5>&- &
  started=$!
  for _ in {1..100}; do [ "$(cat "/proc/$started/comm")" != rapidhash_cli ] || break; sleep 0.05; done
  cat "/proc/$started/comm" && kill $started && wait $started
  [ $? -eq 143 ] && exec 5>&- && grep -qx rapidhash_cli "$room/log" &&
    for _ in {1..100}; do [ -n "$(find /proc/[0-9]*/fd -lname "$PWD/waits" 2>/dev/null)" ] || return 0; sleep 0.05; done
  return 1
}
try signals becomes_the_tool

echo second >repo/crates/rapidhash_portable/src/lib.rt
calls edited_source 7 $'second\ninput' 2 "$told"
mkdir repo/crates/rapidhash_portable/specs && echo >repo/crates/rapidhash_portable/specs/New.antt
calls new_file 7 $'second\ninput' 3 "$told"
rm repo/crates/rapidhash_portable/specs/New.antt
calls removed_file 7 $'second\ninput' 4 "$told"
touch repo/crates.txt
calls list_of_crates 7 $'second\ninput' 5 "$told"

new_repository 'echo third >../rapidhash_portable/src/lib.rt'
calls edit_during_a_build 7 $'first\ninput' 1 "$told"
echo >during
calls call_after_such_an_edit 7 $'third\ninput' 2 "$told"

new_repository 'echo "so far: 0 of 7 functions checked; the verdict comes last"
echo "so far: 3 of 7 functions checked"'
calls progress_of_a_build 7 $'first\ninput' 1 "$told"$'\nmake: rapidhash_cli: 3 of 7 functions checked'

new_repository 'sleep 1'
export PATH=$place/kit:$PATH
echo input | "$tool" >first_out 2>/dev/null &
sleep 0.5
echo input | "$tool" other >other_out 2>/dev/null
wait
[ "$(cat first_out other_out)" = $'first\ninput\nfirst\nother\ninput' ]
tell two_first_calls_at_once $?

new_repository 'echo "error: tail.rt:1: not proved"; exit 1'
calls failed_build 2 '' 1 "$told"$'\nerror: tail.rt:1: not proved'\
$'\nmake: the build failed; full output: build/rapidhash_cli.log\nmake: \*\*\*'*
echo 'echo "no room on the device"; exit 1' >during
calls failed_build_with_no_cause 2 '' 2 "$told"*'no room on the device'*'make: the build failed;'*
echo >during
calls call_after_a_failed_build 7 $'first\ninput' 3 "$told"
echo 'echo "error: two"; exit 1' >during && echo second >repo/crates/rapidhash_portable/src/lib.rt
calls failed_build_over_a_program 2 '' 4 "$told"$'\nerror: two'*
echo >during
MAKEFLAGS=nk calls call_from_a_make_that_builds_nothing 7 $'second\ninput' 5 "$told"

# Prints a crate and those of the repository that it uses, directly or not: CRATE
used_by() {
  local used
  for used in $(sed -nE "s/^$1( staticlib)?: //p" "$top/crates.txt"); do
    [ ! -d "$top/crates/$used" ] || used_by "$used"
  done
  echo "$1"
}

# Checks that make builds each product again after an edit of any crate that it uses, or of the C header.
each_edit_counts() {
  local crate
  make -pq -C "$top" >rules 2>/dev/null
  [ "$(grep -cE '^build/(rapidhash\.(so|wasm)|wheels/made): .*packages/c/include/rapidhash_c\.h' rules)" -eq 3 ] ||
    return
  for crate in rapidhash_c rapidhash_cli rapidsum example_{bloom,perfect,shards,dedupe}; do
    diff <(used_by "$crate" | sort -u) \
      <(grep -oE "^crates/$crate/out/[^.]*(\.a)?: .*" rules |
        grep -oE '[ ]crates/[^/]*/src ' | cut -d / -f 2 | sort -u) || return 1
  done
}
try edits_of_libraries each_edit_counts

# Checks that make builds each product of a package again after an edit of any of its files.
each_file_counts() {
  local product files file
  { make -pq -C "$top"; make -pq -C "$top" kit=; } >rules 2>/dev/null
  while read -r product files; do
    (cd "$top" && git ls-files $files | grep -vE '^packages/[a-z]+/(tests|page|examples)/') >listed &&
      [ -s listed ] && while read -r file; do
      grep -qE "^$product: (.* )?$file( |\$)" rules || { echo "$product: $file" && return 1; }
    done <listed || return 1
  done <<'PRODUCTS'
build/wheels/made packages/python
build/rapidhash.wasm packages/javascript/*.c packages/javascript/*.h packages/javascript/make.mk
build/npm/rapidhash.cjs packages/javascript/*.mjs packages/javascript/*.d.ts
build/npm/rapidhash.cjs packages/javascript/*.json packages/javascript/*.md
build/yervound-rapidhash-1.0.0.jar packages/java/src/main packages/java/pom.xml packages/java/make.mk
build/rapidhash.so packages/sqlite/*.c packages/sqlite/*.h packages/sqlite/make.mk
build/header/rapidhash_c.o packages/c/*.c packages/c/include/rapidhash_c.h packages/c/make.mk
build/header/librapidhash_c.so.1 packages/c/*.map packages/c/make.mk
build/cargo/bin/rapid% packages/rust/src packages/rust/tools/src packages/rust/build.rs
build/cargo/bin/rapid% packages/rust/Cargo.toml packages/rust/tools/Cargo.toml
PRODUCTS
}
try files_of_packages each_file_counts
new_repository ''
mkdir few && ln -s "$(command -v make)" "$(command -v sh)" \
  /usr/bin/{bash,env,dirname,readlink,find,mkdir,touch,cat,chmod,rm,mv,mktemp,sed,awk,uniq,id,sleep,grep,date} few &&
  ln -s /usr/bin/dpkg-query few
PATH=$place/few repo/bin/rapidhash >out 2>"$room/log"
[ $? -eq 2 ] && [ ! -s out ] && [ ! -e starts ] &&
  diff "$room/log" - <<<'setup: missing: gcc cargo. On Debian type: sudo apt-get install gcc cargo'
tell no_rt_and_no_cargo $?

# Root on Debian gets what is missing. Without rt, a substitute for cargo builds, until the kit has built.
mkdir -p repo/packages/rust/{src,tools/src} && echo one >repo/packages/rust/src/lib.rs &&
  touch -d 2020-01-01 repo/packages/rust/src/lib.rs
cat >few/cargo_of_apt <<'CARGO'
#!/bin/sh
echo run >>../../../../starts
while [ "$1" != --root ]; do shift; done
mkdir -p "$2/bin"
printf '#!/bin/sh\necho cargo %s "$@"\n' "$(cat ../src/lib.rs)" >"$2/bin/rapidhash"
chmod +x "$2/bin/rapidhash"
CARGO
printf '#!/bin/sh\n[ "$3" = update ] || mv "${0%%/*}/cargo_of_apt" "${0%%/*}/cargo"\n' >few/apt-get
printf '#!/bin/sh\necho cargo\n' >few/apt-cache
chmod +x few/{apt-*,cargo_of_apt} && ln -s /usr/bin/true few/cc && ln -s /usr/bin/{xargs,tail,echo} few
of_cargo='make: rt is not on PATH: building with cc and cargo, which is not the proved build'
programs=$place/few
calls first_call_by_cargo 0 'cargo one a' 1 $'setup: installing cargo\n'"$of_cargo" a
calls second_call_by_cargo 0 'cargo one' 1 ''
echo two >repo/packages/rust/src/lib.rs
calls edited_source_by_cargo 0 'cargo two' 2 "$of_cargo"
echo >repo/packages/rust/tools/src/lib.rs
calls edited_tool_by_cargo 0 'cargo two' 3 "$of_cargo"
# A cargo that fails says why, and the last program remains.
printf '#!/bin/sh\necho run >>../../../../starts && echo error: no linker >&2\nexit 1\n' >few/cargo
echo three >repo/packages/rust/src/lib.rs
calls a_cargo_that_fails 2 '' 4 "$of_cargo"$'\nerror: no linker\nmake: *'
[ "$(repo/build/cargo/bin/rapidhash)" = 'cargo two' ]
tell its_last_program $?
programs=$place/kit:$PATH
calls the_kit_instead_of_cargo 7 $'first\ninput' 5 "$told"

# Checks what make quick and make test run, by programs that say their directory, name and arguments.
runs_its_rules() {
  mkdir -p logged repo/scripts repo/tests &&
    printf '#!/bin/sh\necho "${PWD##*/} ${0##*/}${*:+ $*}" >>"%s/log"\n' "$place" |
    tee logged/{rt,prove} repo/scripts/rust_crate >repo/tests/pages.py &&
    chmod +x logged/* repo/scripts/* repo/tests/* && PATH=$place/logged:$PATH make -s -C repo quick test &&
    diff log - <<'LOG'
rapidhash_cli rt fmt
rapidhash_portable rt fmt
rapidhash_tool rt fmt
repo rust_crate --write
repo pages.py
repo rt all check
repo rt all test
repo prove --exec  packages/tools/tests tests/examples
LOG
}
try rules_that_no_other_case_runs runs_its_rules

finish
