#!/usr/bin/env bash
# reads: packages/rust packages/tools crates scripts docs tests/fields.tsv
# Checks that the sources of the Rust crate in packages/rust/ are current. Tests its layout and lints, the package that
# cargo builds, the README's program in its own directory, and its commands. Runs its tests and
# examples with the machine's compiler and with Debian's, which is the oldest.
. "$(dirname "$0")/../../../tests/cases.sh"
export CARGO_TARGET_DIR=$room/target CARGO_NET_OFFLINE=true

# Runs Debian's cargo with Debian's compiler: ARGUMENT..
debian() {
  env RUSTC=/usr/bin/rustc RUSTDOC=/usr/bin/rustdoc CARGO_TARGET_DIR="$room/debian" /usr/bin/cargo "$@"
}

# Does the same as `try` if the compiler is not older than this version of Rust: NAME MINOR COMMAND..
try_from() {
  if [ "$(rustc --version | cut -d . -f 2)" -lt "$2" ]; then skip "$1" "no rustc 1.$2 (*rustup)"
  else try "$1" "${@:3}"; fi
}

# Checks that tests ran and that none failed. A run without tests fails: COMMAND..
tests_pass() {
  "$@" >"$room/tests" 2>&1 || { cat "$room/tests"; return 1; }
  grep -q '^test result: ok\. [1-9]' "$room/tests"
}

# Builds the package, which must contain its licences and no tests. On docs.rs no link of its page leads to a file.
packages() {
  cargo package --allow-dirty && tar -tf "$CARGO_TARGET_DIR"/package/*.crate >"$room/list" &&
    grep -q '/LICENSE-MIT$' "$room/list" && grep -q '/LICENSE-APACHE$' "$room/list" &&
    grep -q '/NOTICE$' "$room/list" && grep -q '/build.rs$' "$room/list" && ! grep -q '/tests/' "$room/list" &&
    ! grep -n '](\.*[a-zA-Z_/]*\.' README.md
}

# Creates the directory $project, with Debian's registry and these lines at the end of its manifest: NAME LINE..
create() {
  project=$room/$1
  rm -rf "$project" && mkdir -p "$project"/{src,.cargo} && cp "$room/registry.toml" "$project/.cargo/config.toml" &&
    printf '%s\n' '[package]' 'name = "first"' 'version = "0.0.0"' 'edition = "2021"' "${@:2}" >"$project/Cargo.toml"
}

# Runs the first program of the README in a new project, with the dependency that a page names: PAGE COMMAND..
readme_runs() {
  create project "$(blocks "$1" toml dependencies | sed "s|/path/to/yervound|$top|")" &&
    awk '/^```rust$/ { on = 1; next } /^```$/ { if (on) exit } on' README.md >"$project/src/main.rs" &&
    (cd "$project" && "${@:2}" run --quiet) >"$room/printed" && [ "$(cat "$room/printed")" = 3327445792987248966 ]
}

# Links the crate without its default feature into a library with its own handler of panics: a library that uses std has
# two of them and does not compile. The names in this library have the constants of generic functions.
needs_core_alone() {
  create bare '[lib]' 'crate-type = ["staticlib"]' '[dependencies]' \
    "yervound-rapidhash = { path = \"$top/packages/rust\", default-features = false }" \
    '[profile.dev]' 'panic = "abort"' &&
    printf '%s\n' '#![no_std]' 'use rapidhash::{v1, v2, v3};' \
      '#[panic_handler]' 'fn stop(_: &core::panic::PanicInfo) -> ! { loop {} }' \
      '#[no_mangle]' 'pub extern "C" fn hello(a: &v1::RapidSecrets, b: &v3::RapidSecrets) -> u64 {' \
      'v1::rapidhash_v1(b"hello") ^ v2::rapidhash_v2_2(b"hello") ^ v3::rapidhash_v3(b"hello") ^' \
      'v1::rapidhash_v1_seeded(b"", a) ^ v2::rapidhash_v2_2_seeded(b"", b) ^ v3::rapidhash_v3_seeded(b"", b) }' \
      >"$project/src/lib.rs" &&
    (cd "$project" && RUSTFLAGS=-Csymbol-mangling-version=v0 cargo build)
}

# Checks by the names in that library that no default hash folds one row at a time, which is slower: the options in the
# name are AVALANCHE, COMPACT and PROTECTED.
folds_two_rows() {
  nm -C "$CARGO_TARGET_DIR/debug/libfirst.a" 2>/dev/null | grep -oE '(with_rows|above_inlined)::<.*' | sort -u |
    diff - <(printf '%s, true, false, false>\n' 'above_inlined::<'{3,5,7} 'with_rows::<2' &&
      echo 'with_rows::<true, false, false, false>')
}

# Checks the machine code of V3's, micro's and nano's rows: their products, at most so many instructions, and no panic.
# With the lane in the second factor they would have 298, 212 and 140 instructions.
folds_in_few_instructions() {
  local assembly=$room/assembly
  CARGO_TARGET_DIR=$assembly cargo rustc --release --lib -- --emit asm -C codegen-units=1 &&
    awk '/^_.*above_inlined.*:$/ { on = 1; all = products = panics = 0 } on && /^\t[a-z]/ { all++ }
      on && /^\tmul/ { products++ } on && /panic/ { panics++ }
      on && /^\.Lfunc_end/ { print products, panics, all; on = 0 }' \
      "$assembly"/release/deps/rapidhash-*.s | sort -n >"$room/rows" && cat "$room/rows" &&
    diff <(cut -d ' ' -f 1,2 "$room/rows") <(printf '%s 0\n' 13 21 29) &&
    awk 'BEGIN { most[13] = 133; most[21] = 206; most[29] = 272 } $3 > most[$1] { exit 1 }' "$room/rows"
}

# Checks what the registry and lawyers read of the manifests, with the compiler of the page: MANIFEST
has_the_metadata() {
  grep -qx 'license = "MIT OR Apache-2.0"' "$1" &&
    grep -qx "rust-version = \"$(sed -nE 's/^The crate needs Rust ([0-9.]*[0-9]).*/\1/p' README.md)\"" "$1" &&
    [ "$(sed -n 's/^categories = //p' Cargo.toml)" = '["algorithms", "data-structures", "no-std"]' ]
}

# Checks that build.rs finds what an old compiler lacks: constant functions before 1.83, the attribute of a diagnostic
# before 1.78, and OnceLock before 1.70.
finds_its_features() {
  local minor lacking
  rustc --edition 2021 build.rs -o "$room/build_script" || return
  for minor in 63 69 70 77 78 82 83; do
    printf '#!/bin/sh\necho "rustc 1.%s.0 (a 2023-01-01)"\n' "$minor" >"$room/rustc" && chmod +x "$room/rustc" || return
    lacking=$([ "$minor" -ge 83 ] || echo rapidhash_old_const
      [ "$minor" -ge 78 ] || echo rapidhash_no_diagnostic
      [ "$minor" -ge 70 ] || echo rapidhash_no_once_lock)
    [ "$(RUSTC=$room/rustc "$room/build_script" | sed -n 's/^cargo:rustc-cfg=//p')" = "$lacking" ] || return
  done
  minor=$(rustc --version | cut -d . -f 2)
  [ "$(cargo rustc --lib -- --print cfg | grep -c '^rapidhash_')" -eq $(((minor < 83) + (minor < 78) + (minor < 70))) ]
}

# Builds the crate and compat as systems do that run no build script, with the newest language: FEATURE..
builds_without_script() {
  local features=() feature
  for feature in "$@"; do features+=(--cfg "feature=\"$feature\""); done
  rustc --edition 2021 -D warnings --crate-type rlib --crate-name rapidhash "${features[@]}" src/lib.rs \
    -o "$room/libproved.rlib" &&
    rustc --edition 2021 -D warnings --crate-type rlib --crate-name compat "${features[@]}" compat/src/lib.rs \
      --extern proved="$room/libproved.rlib" -o "$room/libcompat.rlib"
}

# Checks that the compiler refuses calls with invalid constants, and keys of floats and nested lists, and says why.
refuses_constants() {
  local call reason
  create constants '[dependencies]' "yervound-rapidhash = { path = \"$top/packages/rust\" }" || return
  cat >"$room/calls" <<'CALLS'
rapidhash_v2_inline::<2, true, false, false>(b"", &DEFAULT_RAPID_SECRETS)|
rapidhash_v2_inline::<3, true, false, false>(b"", &DEFAULT_RAPID_SECRETS)|MINOR must be 0, 1 or 2
rapidhash_v2_file_inline::<&[u8], 3, false>(&mut &b""[..], 0, &DEFAULT_RAPID_SECRETS)|MINOR must be 0, 1 or 2
RapidStreamHasherLanes::<4, true, false>::new(&DEFAULT_RAPID_SECRETS)|LANES must be 7, 5 or 3
rapidhash_v3_file_lanes::<&[u8], 6, 1, false>(b"", &DEFAULT_RAPID_SECRETS)|LANES must be 7, 5 or 3
rapidhash_v3_file_sized::<&[u8], 0, false>(b"", &DEFAULT_RAPID_SECRETS)|SIZE must be at least 1
CALLS
  [ "$(rustc --version | cut -d . -f 2)" -lt 78 ] || cat >>"$room/calls" <<'CALLS'
key::hash(&(1.5, 1))|float by .key::float_bits
key::hash(&List(&[1.5]))|float by .key::float_bits
key::hash(&List(&[List(&[1])]))|a .List. of these
key::hash(&List(&[Some(List(&[1]))]))|a .List. of these
key::hash(&List(&[(1, 2)]))|a .List. of these
key::hash(&(1, (2, 3)))|a tuple of up to twelve
key::hash(&(1, [Field::Nothing]))|a tuple of up to twelve
key::hash(&(1, List(&['a']), 'a', Some('b')))|
CALLS
  while IFS='|' read -r call reason; do
    echo "use rapidhash::{key::{self, *}, v2::*, v3::*}; fn main() { let _ = $call; }" >"$project/src/main.rs"
    if [ -z "$reason" ]; then
      (cd "$project" && cargo build --quiet) || return
    elif (cd "$project" && cargo build --quiet) 2>"$room/refused" || ! grep -q "$reason" "$room/refused"; then
      echo "$call" && cat "$room/refused"
      return 1
    fi
  done <"$room/calls"
}

# Runs the tests of packages/rust/compat in a project whose dependency is the crate rapidhash, replaced by that package.
# Debian's directory of crates is its registry.
drops_in() {
  create drop_in '[dependencies]' \
    'rapidhash = { version = "4.5.1", features = ["rng_06", "unsafe", "nightly", "getrandom_04"] }' \
    'rand_core = { version = "0.6", default-features = false }' \
    'hashbrown = { version = "0.12", default-features = false, features = ["raw"] }' 'indexmap = "1"' \
    '[[test]]' 'name = "drop_in"' "path = \"$top/packages/rust/compat/tests/drop_in.rs\"" \
    "$(blocks compat/README.md toml patch | sed "s|/path/to/yervound|$top|")" && touch "$project/src/lib.rs" &&
    (cd "$project" && tests_pass cargo test --test drop_in)
}

# Runs cargo in a project over packages/rust/compat without default features, whose library uses what the crate
# deprecates: 'FEATURES' COMMAND..
over_compat() {
  local features
  features=$(printf '"%s", ' $1)
  create compat '[[test]]' 'name = "attack"' "path = \"$top/packages/rust/tests/attack.rs\"" \
    '[dependencies.rapidhash]' "path = \"$top/packages/rust/compat\"" 'default-features = false' \
    "features = [${features#\"\", }]" && echo 'pub use rapidhash::v3::rapidhash_v3;' >"$project/src/lib.rs" &&
    (cd "$project" && RUSTFLAGS='-D warnings' "${@:2}")
}

# Runs the traits of rand_core 0.9 over a package that has this part of its interface: Debian has rand_core 0.6.
generates_by_rand_core_09() {
  local patch="patch.crates-io.rand_core.path=\"$top/packages/rust/compat/tests/rand_core\""
  over_compat rng true && printf '%s\n' '[dependencies.rand_core]' 'version = "0.9"' >>"$project/Cargo.toml" &&
    printf '%s\n' '#[test] #[allow(deprecated)] fn words() { use rapidhash::rng::RapidRng;' \
      'use rand_core::{RngCore, SeedableRng};' \
      'let (mut one, mut two) = (RapidRng::seed_from_u64(1), RapidRng::from_seed([1, 0, 0, 0, 0, 0, 0, 0]));' \
      'let mut bytes = [0; 8]; two.fill_bytes(&mut bytes); assert_eq!(one.next_u64(), u64::from_le_bytes(bytes));' \
      'assert_eq!(one.next_u32(), two.next_u64() as u32); }' >"$project/src/lib.rs" &&
    (cd "$project" && RUSTFLAGS='-D warnings' tests_pass cargo --config "$patch" test --lib)
}

# Checks that compat refuses a feature for random words that it does not have: FEATURE
refuses_feature() {
  ! over_compat "$1" cargo check 2>"$room/refused" && grep -q 'getrandom_04 need the feature `std`' "$room/refused"
}

# Checks that a use of what the crate deprecates is one here, by an attribute that fails if nothing is deprecated.
deprecates() {
  over_compat 'std' true && printf '%s\n' '#[expect(deprecated)]' \
    'pub fn word(seed: &mut u64) -> u64 { rapidhash::rng::rapidrng_fast(seed) }' '#[expect(deprecated)]' \
    'pub fn time(seed: &mut u64) -> u64 { rapidhash::rng::rapidrng_time(seed) }' '#[expect(deprecated)]' \
    'pub fn rng() -> rapidhash::rng::RapidRng { Default::default() }' '#[expect(deprecated)]' \
    'pub fn state() { let _ = rapidhash::fast::SeedableState::with_seed(1, &[2; 7]); }' '#[expect(deprecated)]' \
    'pub fn v1(file: &mut std::fs::File) { let _ = rapidhash::v1::rapidhash_v1_file(file); }' '#[expect(deprecated)]' \
    'pub fn v2(file: &mut std::fs::File) { let _ = rapidhash::v2::rapidhash_v2_2_file(file); }' \
    >"$project/src/lib.rs" && (cd "$project" && RUSTFLAGS='-D warnings' cargo check)
}

# Runs states and the generator where std has neither random words nor a clock: there the words are the same in each run
# until a program sets its own, and a feature that promises others does not compile.
works_without_a_system() {
  local built=$room/debian/wasm32-unknown-unknown/debug/first.wasm
  create wasm32 '[lib]' 'crate-type = ["cdylib"]' '[features]' 'more = ["rapidhash/getrandom_04"]' '[dependencies]' \
    "rapidhash = { path = \"$top/packages/rust/compat\" }" \
    "proved = { package = \"yervound-rapidhash\", path = \"$top/packages/rust\" }" &&
    printf '%s\n' '#![allow(deprecated)]' 'use std::hash::{BuildHasher, Hasher};' \
      '#[no_mangle] pub extern "C" fn word() -> u64 { rapidhash::rng::RapidRng::default().next() }' \
      '#[no_mangle] pub extern "C" fn key() -> u64 { let state = rapidhash::fast::RandomState::new();' \
      'let mut hasher = state.build_hasher(); hasher.write(b"key"); hasher.finish() }' \
      '#[no_mangle] pub extern "C" fn set() -> u32 { proved::set_random_words([1, 2]).is_ok() as u32 }' \
      >"$project/src/lib.rs" &&
    printf '%s\n' 'const bytes = require("fs").readFileSync(process.argv[2]);' \
      'const start = async () => (await WebAssembly.instantiate(bytes)).instance.exports;' \
      'Promise.all([start(), start(), start()]).then(([one, two, own]) => console.log(one.word() === two.word(),' \
      'one.key() === two.key(), one.set(), own.set(), own.key() === one.key(), own.set()));' >"$project/run.js" &&
    (cd "$project" && export CARGO_TARGET_WASM32_UNKNOWN_UNKNOWN_LINKER=wasm-ld &&
      debian build --target wasm32-unknown-unknown && [ "$(node run.js "$built")" = 'true true 0 1 false 0' ] &&
      ! debian build --target wasm32-unknown-unknown --features more 2>"$room/refused" &&
      grep -q 'getrandom_04 need the feature `std`' "$room/refused")
}

# Builds the pages as docs.rs does, which label what depends on a feature. Checks that no page names what build.rs sets.
has_no_label_of_a_compiler() {
  local pages=$room/docs_rs/doc/rapidhash
  RUSTC_BOOTSTRAP=1 RUSTDOCFLAGS='--cfg docsrs -D warnings' \
    cargo doc --no-deps --all-features --target-dir "$room/docs_rs" &&
    grep -rq 'Available on <strong>crate feature <code>std' "$pages" &&
    ! grep -rlE 'rapidhash_(old_const|no_once_lock)' "$pages"
}

# Checks that a state without std executes at most 50 instructions. If each made its secrets anew, it would be 150.
makes_states_from_stored_words() {
  create states '[dependencies]' \
    "yervound-rapidhash = { path = \"$top/packages/rust\", default-features = false }" &&
    printf '%s\n' '#[inline(never)] #[no_mangle] pub extern "C" fn counted(times: usize) {' \
    'for _ in 0..times { unsafe { std::ptr::read_volatile(&rapidhash::fast::RandomState::new()) }; } }' \
    'fn main() { counted(999 + std::env::args().count()) }' >"$project/src/main.rs" &&
    (cd "$project" && cargo build --release && valgrind --tool=callgrind --callgrind-out-file=/dev/null \
      --toggle-collect=counted "$CARGO_TARGET_DIR/release/first" 2>&1) | tee /dev/stderr |
    awk '/Collected : / { found = 1; if ($NF > 50000) exit 1 } END { if (!found) exit 1 }'
}

# Runs the tests of words over words in two halves, as a machine without atomics of 64 bits has them.
shares_words_in_halves() (
  mkdir "$room/halves" && cp -r Cargo.toml build.rs src tests "$room/halves" && cd "$room/halves" &&
    sed -i '/^members/d' Cargo.toml &&
    sed -i 's/target_has_atomic = "64"/target_has_atomic = "none"/' src/random/without_std.rs &&
    tests_pass cargo test --no-default-features --test words
)

# Checks that compat has each feature of the crate rapidhash 4.5.1, and `rng_06`.
has_its_features() {
  sed -n '/^\[features\]/,$ s/ = .*//p' compat/Cargo.toml | sort | diff - <(printf '%s\n' default getrandom_03 \
    getrandom_04 nightly rand rng rng_06 std unsafe)
}

# Checks that the names of tests that start threads or processes say so: tests/release/machines.sh skips tests by name.
names_its_threads() {
  awk '/^ *#\[test\]/ { is_test = 1 }
    /^ *fn / { name = is_test ? $2 : ""; is_test = 0 }
    name && (name !~ /processes/ && /told_by_a_process\(|Command::new/ ||
             name !~ /threads/ && /thread::(spawn|scope)/) { print FILENAME ": " name; found = 1 }
    END { exit found }' tests/*.rs tests/*/*.rs
}

needs cargo rustc
cd "$top/packages/rust" || exit 1
printf '%s\n' '[source.crates-io]' 'replace-with = "debian"' '[source.debian]' \
  'directory = "/usr/share/cargo/registry"' >"$room/registry.toml"
try_with current rustfmt "$top/scripts/rust_crate" --check
try names_of_tests names_its_threads
try licences has_the_licences .
try_with layout cargo-fmt cargo fmt --check
for features in --all-features --no-default-features; do
  try_with "lints_${features#--}" cargo-clippy cargo clippy --all-targets "$features" -- -D warnings
  try "documentation_${features#--}" env RUSTDOCFLAGS='-D warnings' cargo doc --no-deps "$features"
  try "tests_${features#--}" tests_pass cargo test "$features" --tests
done
try tests_in_release tests_pass cargo test --release --tests
for manifest in Cargo.toml {compat,tools}/Cargo.toml; do try "metadata_of_$manifest" has_the_metadata "$manifest"; done
try examples tests_pass cargo test --doc
try_with pedantic cargo-clippy cargo clippy -- -D warnings -W clippy::pedantic
crates=/usr/share/cargo/registry
debian='/usr/bin/rustc /usr/bin/cargo'
if [ "$(rustc --version | cut -d . -f 2)" -lt 83 ]; then
  skip drop_in 'no rustc 1.83 (*rustup)'
else
  try_with drop_in "$(printf "$crates/%s " rand_core-0.6\* hashbrown-0.12\* indexmap-1\*)" drops_in
fi
try features_of_compat has_its_features
try_from deprecations_of_compat 81 deprecates
try_from without_build_script 83 builds_without_script std
try_from without_build_script_and_std 83 builds_without_script
try_from labels_of_docs_rs 92 has_no_label_of_a_compiler
try_with states_without_std valgrind makes_states_from_stored_words
try words_in_halves shares_words_in_halves
if [ "$(uname -m)" = x86_64 ]; then try_from instructions_of_rows 83 folds_in_few_instructions
else skip instructions_of_rows 'no x86_64 (*machine)'; fi
try no_unsafe grep -x '#!\[forbid(unsafe_code)\]' src/lib.rs

# The cases that are quick enough for two compilers: SUFFIX TOOLS
test_by_a_compiler() {
  try_with "core_alone$1" "$2" needs_core_alone
  try_with "rows_per_iteration$1" "$2" folds_two_rows
  for features in '' nightly std rand 'std unsafe getrandom_03 getrandom_04'; do
    try_with "compat_with_${features:-nothing}$1" "$2" over_compat "$features" cargo check
  done
  try_with "compat_with_rng_06$1" "$2 $crates/rand_core-0.6*" over_compat rng_06 cargo check
  try_with "generates_by_rand_core_09$1" "$2 $crates/rand_core-0.6*" generates_by_rand_core_09
  try_with "getrandom_without_std$1" "$2" refuses_feature getrandom_04
  try_with "attack_by_compat$1" "$2" tests_pass over_compat std cargo test --test attack
  try_with "attack_by_compat_without_std$1" "$2" tests_pass over_compat '' cargo test --test attack
  try_with "invalid_constants$1" "$2" refuses_constants
  try_with "features_of_the_compiler$1" "$2" finds_its_features
  try_with "no_dependency$1" "$2" bash -c '[ "$(cargo tree | wc -l)" -eq 1 ]'
  try_with "package$1" "$2" packages
  try_with "readme$1" "$2" readme_runs README.md cargo
  try_with "page_of_moving$1" "$2" readme_runs "$top/docs/MIGRATING.md" cargo
}

test_by_a_compiler '' 'rustc cargo'
path=$PATH
export PATH=/usr/bin:/bin CARGO_TARGET_DIR=$room/debian
test_by_a_compiler _by_debian "$debian"
export PATH=$path CARGO_TARGET_DIR=$room/target
try_with oldest_compiler "$debian" tests_pass debian test --tests
try_with oldest_compiler_without_std "$debian" tests_pass debian test --tests --no-default-features
try_with compat_by_the_oldest_compiler "$debian" over_compat 'std unsafe' debian check
try_with wasm32 "$debian /usr/lib/rustlib/wasm32-unknown-unknown wasm-ld node" works_without_a_system
try_with examples_by_the_oldest_compiler "$debian" tests_pass debian test --doc
try commands works_as_its_page_says README.md

finish
