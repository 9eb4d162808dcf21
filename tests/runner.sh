#!/usr/bin/env bash
# reads: .ci tests
# Tests what judges the cases: tests/cases.sh, tests/cases.py, .ci/run, .ci/setup and tests/formulas. Each must report
# every failure.
. "$(dirname "$0")/cases.sh"

# Prints a case without the tested functions: NAME COMMAND..
try() {
  "${@:2}" >/dev/null 2>&1 || { printf 'not ' && failed=1; }
  printf 'ok %s - %s\n' "$((cases += 1))" "${1//#/}"
}

# Runs a script over tests/cases.sh, which must print these lines, except for reasons, and end with this status: STATUS
# LINES SCRIPT
ends() {
  local status
  mkdir -p "$room/tests" "$room/.ci" && cp "$top"/tests/{cases.{sh,py},tools.sh} "$room/tests" &&
    cp "$top/.ci/packages" "$room/.ci" && printf '%s\n' "$3" >"$room/tests/script" &&
    "${4:-bash}" "$room/tests/script" >"$room/said" 2>&1
  status=$?
  [ "$status" = "$1" ] && [ "$(grep -v '^# ' "$room/said")" = "$2" ] &&
    { [ "$1" -eq 0 ] || grep -q '^# ' "$room/said"; }
}

# Runs the gate, with the word in `mode`, in a repository in which this is one of two scripts, and another file perhaps
# fails. Its line of results must be this: RESULT SCRIPT [FILE]
gate_ends() {
  local copy=$room/gate file
  rm -rf "$copy" && mkdir -p "$copy"/{.ci,bin,kit,tests,packages/one/tests,scripts} && cd "$copy" && git init -q &&
    cp "$top"/.ci/{run,skips} .ci && cp "$top/tests/tools.sh" tests && cp "$top/scripts/aloud" scripts &&
    echo tests/two.sh >.ci/slowest &&
    printf '%s\n' '# a' '*kit rt' 'sh sh' 'golang-go /no/go' >.ci/packages &&
    for file in .ci/setup kit/rt bin/make packages/one/tests/one.py; do
      printf '#!/bin/sh\n%s\necho 3 passed, 0 failed\necho ok - a\necho 1..1\n' \
        "$([ "$file" != kit/rt ] || echo '[ "$*" = ci ] || exit 1')" >"$file" && chmod +x "$file"
    done && printf '#!/bin/sh\n%s\n' "$2" >tests/two.sh && chmod +x tests/two.sh &&
    { [ -z "${3-}" ] || echo 'exit 1' >>"$3"; } &&
    PATH="${gate_path-$copy/kit:$copy/bin:$PATH}" .ci/run ${mode-} >"$room/said" 2>&1
  [ "$?:$(tail -n 1 "$room/said" | grep -oE '^[0-9]+ passed, [0-9]+ failed(, [0-9]+ skipped)?')" = \
    "$([[ $1 == *', 0 failed'* ]]; echo $?):$1" ]
}

# Does the same, and the gate must also print this line: LINE RESULT SCRIPT [FILE]
gate_says() { gate_ends "${@:2}"; ends=$? && cat "$room/said" && [ "$ends" -eq 0 ] && grep -qxF -e "$1" "$room/said"; }

# Changes a file in a copy of the repository by a command for sed. A script must then refuse the case: FILE EDIT CASE
# SCRIPT ARGUMENT..
refuses() {
  cd "$room" && rm -rf copy && git clone -q -s "$top" copy && cd copy && sed -i "$2" "$1" || return 1
  "${@:4}" >"$room/answers" 2>&1
  [ $? -eq 1 ] && grep -q "^not ok - $3\$" "$room/answers"
}

start='. "$(dirname "$0")/cases.sh"; cd "$room"; echo >a'
try a_failing_case ends 1 $'ok - a\nnot ok - b\nnot ok - c\n1..3' \
  "$start; try a true; try b sh -c 'echo why; exit 1'; try_with c sh false; finish"
try a_skipped_case ends 0 $'ok - a\nok - b # SKIP no rt (*rattle-kit)\n1..2' \
  "$start; PATH=/usr/bin:/bin; try a true; try_with b 'sh rt' true; finish"
try a_skipped_script ends 0 '1..0 # SKIP no rt (*rattle-kit)' "$start; PATH=/usr/bin:/bin; needs sh rt; finish"
try a_skipped_rest ends 0 $'ok - a\nok - all other cases # SKIP no rt (*rattle-kit)\n1..2' \
  "$start; PATH=/usr/bin:/bin; try a true; needs sh rt; finish"
try a_skipped_script_in_python ends 0 '1..0 # SKIP no rt (*rattle-kit)' \
  'import os; from cases import *; os.environ["PATH"] = "/usr/bin:/bin"; needs("sh", "/usr/b*n", "rt"); finish()' \
  python3
try a_failing_case_in_python ends 1 $'not ok - bad\nok - a\n1..2' \
  'from cases import *; compare("bad", 1, 2); compare("a", shell("false; true")[0], 1); finish()' python3
two_cases='printf "ok - a\nok - b\n1..2\n"'
try a_gate gate_ends '6 passed, 0 failed' "$two_cases"
try the_page_of_a_gate grep -qxF '| result | 6 passed, 0 failed |' "$room/gate/build/gate.md"
try the_page_of_a_gate_with_changes grep -qx '| commit | .*, with changes |' "$room/gate/build/gate.md"
try a_gate_with_a_failure gate_ends '5 passed, 1 failed' 'printf "ok - a\nnot ok - b\n1..2\n"'
try the_page_of_a_failure grep -qxF '| result | 5 passed, 1 failed |' "$room/gate/build/gate.md"
try a_gate_with_a_bad_status gate_ends '5 passed, 1 failed' 'printf "ok - a\n1..1\n"; exit 1'
try a_gate_with_a_script_that_dies gate_ends '5 passed, 1 failed' 'echo ok - a; kill $$'
try a_gate_with_a_plan_of_more_cases gate_ends '5 passed, 1 failed' 'printf "ok - a\n1..2\n"'
try a_gate_with_a_named_skip gate_ends '4 passed, 0 failed' \
  'printf "ok - a # SKIP strace cannot trace here\n1..1\n"'
try the_page_of_a_skip grep -qxF '| scripts, and their cases that passed | 2, 1 |' "$room/gate/build/gate.md"
skips_go='printf "ok - a # SKIP no /no/go (golang-go)\n1..1\n"'
try a_gate_with_a_missing_tool gate_says 'skipped: ok - a # SKIP no /no/go (golang-go)' '4 passed, 1 failed' \
  "$skips_go"
try a_gate_that_names_the_packages gate_says 'apt-get install golang-go' '4 passed, 1 failed' "$skips_go"
try a_gate_with_a_skipped_script gate_ends '4 passed, 1 failed' 'echo "1..0 # SKIP no /no/go (golang-go)"'
try a_gate_with_a_changed_file gate_says 'left behind: tests/two.sh' '6 passed, 1 failed' "$two_cases; git add tests"
try a_gate_with_a_file_left_behind gate_says 'left behind: a' '6 passed, 1 failed' "$two_cases; touch a"
for file in bin/make kit/rt packages/one/tests/one.py; do
  try "a_gate_in_which $file fails" gate_ends '6 passed, 1 failed' "$two_cases" "$file"
done
# A setup that fails counts, but everything is proved and tested.
try a_gate_in_which_setup_fails gate_ends '6 passed, 1 failed' "$two_cases" .ci/setup
mode=packages/one/tests
try a_run_of_what_reads_a_path gate_ends '2 passed, 0 failed, 0 skipped' $'# reads: docs packages/one\n'"$two_cases"
! gate_ends '0 passed, 0 failed, 0 skipped' $'# reads: packages/two\n'"$two_cases" &&
  try a_run_of_nothing grep -qx 'run: no script reads packages/one/tests' "$room/said"
mode=packages/none
! gate_ends '0 passed, 0 failed, 0 skipped' "$two_cases" &&
  try a_path_that_is_not_there grep -q "'packages/none'" "$room/said"
mode=source
try a_gate_of_sources gate_ends '3 passed, 0 failed, 0 skipped' "command -v rt && exit 1; $two_cases"
try a_gate_of_sources_without_a_tool gate_says 'missing: /no/go rt' '2 passed, 0 failed, 2 skipped' \
  'printf "ok - a\nok - b # SKIP no rt (*kit)\nok - c # SKIP no /no/go (golang-go)\n1..3\n"'
try a_gate_of_sources_with_a_skip_for_a_tool_that_is_there gate_says 'skipped: ok - b # SKIP no sh (sh)' \
  '2 passed, 1 failed, 1 skipped' 'printf "ok - a\nok - b # SKIP no sh (sh)\n1..2\n"'
mode=
without_rt=$(tr : '\n' <<<"$PATH" | while read -r it; do [ -x "$it/rt" ] || echo "$it"; done | paste -sd :)
gate_path=$room/gate/bin:$without_rt
try a_gate_without_the_toolchain gate_says \
  '3 passed, 0 failed, 0 skipped: without rt, the command of the Rattle toolchain, nothing was proved' \
  '3 passed, 0 failed, 0 skipped' "$two_cases"
unset gate_path without_rt

# Runs .ci/setup where nothing is installed, over a substitute for apt-get: its last line and status must be these:
# LINE STATUS SCRIPT-OF-APT-GET
setup_ends() {
  local setup=$room/setup
  rm -rf "$setup" && mkdir -p "$setup"/{.ci,bin,scripts,tests} && cp "$top/.ci/setup" "$setup/.ci" &&
    cp "$top/tests/tools.sh" "$setup/tests" && cp "$top/scripts/aloud" "$setup/scripts" &&
    printf '%s\n' '# a' 'one one' '*other other' 'two two' >"$setup/.ci/packages" &&
    cd "$setup" && printf '#!/bin/sh\ncd %s\n%s\n' "$setup" "$3" >bin/apt-get &&
    printf '#!/bin/sh\necho one\necho two\n' >bin/apt-cache &&
    printf '#!/bin/sh\nexit 1\n' >bin/dpkg-query &&
    printf '#!/bin/sh\n[ $1 = 5 ] || exec /bin/sleep $1\n' >bin/sleep && chmod +x bin/* &&
    PATH=$setup/bin:/usr/bin:/bin bash .ci/setup >"$room/said" 2>&1
  [ "$?:$(tail -n 1 "$room/said")" = "$2:$1" ]
}
installs='shift 2; [ "$1" = update ] ||
  for package in $2 $3; do printf "#!/bin/sh\n" >bin/$package; chmod +x bin/$package; done'
held='[ $(echo run >>runs; wc -l <runs) -gt 5 ] ||
  { echo "E: Could not get lock /a. It is held by process 7 (apt)"; exit 100; }'
try setup setup_ends 'setup: installing one two' 0 "$installs"
try setup_with_a_held_lock setup_ends 'setup: installing one two' 0 "$held; $installs"
try setup_that_fails setup_ends 'setup: could not install one two' 1 'echo E: no network; exit 100'
try setup_that_installs_a_part setup_ends 'setup: could not install two' 1 "${installs/ \$3/}"
while read -r file edit; do
  ! has rustc || try "formulas refuses $file" refuses "$file" "$edit" c_gcc tests/formulas/formulas.py c_gcc
done <<'EDITS'
packages/c/include/rapidhash_c.h /_micro_form_ /s/1, 2, 1}, 45/2, 2, 1}, 45/
tests/formulas/main.rs s/4096/4095/
EDITS

echo "1..$cases"
exit "$failed"
