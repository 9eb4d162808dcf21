#!/usr/bin/env bash
# reads: packages/rust packages/tools crates
# Builds the tools by cargo, checks their lints, and runs the kit's cases over them. Without the kit, the scripts of
# these cases run by themselves over cargo's tools.
. "$(dirname "$0")/../../../tests/cases.sh"
export CARGO_NET_OFFLINE=true
built=$top/build/cargo/bin
needs cargo rustc

cd "$top/packages/rust/tools" || exit 1
prepare_by make -s -C "$top" kit= build/cargo/bin/rapid{hash,sum}
try_with layout cargo-fmt cargo fmt --check
try_with lints cargo-clippy env CARGO_TARGET_DIR="$top/build/cargo" cargo clippy --release -- -D warnings
# The signal of a closed pipe and the state of the standard streams alone need unsafe code.
try no_other_unsafe bash -c '[ "$(grep -rlE "^#!\[(forbid|deny)\(unsafe_code\)\]$" src | wc -l)" -eq 3 ] &&
  [ "$(grep -rl "allow(unsafe_code)" src | sort | xargs)" = "src/kit/pipe.rs src/kit/streams.rs" ]'
for script in rapidhash_cli rapidsum; do
  has rt || break
  BUILT=$built/${script%_cli} "$top/packages/tools/tests/$script.sh" >"$room/lines" || failed=$((failed + 1))
  grep -v '^1\.\.' "$room/lines"
  cases=$((cases + $(sed -n 's/^1\.\.//p' "$room/lines")))
done

finish
