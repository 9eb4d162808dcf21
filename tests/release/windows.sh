#!/usr/bin/env bash
# Runs the C header, the package for Go, the Rust crate and the programs as programs for Windows on x86-64, under
# Debian's Wine. mingw-w64's gcc compiles the header, and so does clang in the mode of MSVC, with MSVC's intrinsics for
# the product. Not part of the gate, because the packages need about a gigabyte: gcc-mingw-w64-x86-64, wine64, clang,
# libstd-rust-dev-windows, cargo and golang-go.
. "$(dirname "$0")/../cases.sh"
tests=$top/packages/c/tests
rust=$room/rust/x86_64-pc-windows-gnu/release
wine=/usr/lib/wine/wine64
export WINEPREFIX=$room/prefix WINEDEBUG=-all LC_ALL=C.UTF-8
# Wine's server writes its directory until it ends.
trap '/usr/lib/wine/wineserver64 -k; chmod -R u+rwx "$room"; rm -rf "$room"' EXIT

# Compiles a program for Windows: ARGUMENT..
build() {
  x86_64-w64-mingw32-gcc -O2 -Wall -Wextra -Werror -D__USE_MINGW_ANSI_STDIO=1 -I"$top/packages/c/include" "$@"
}

# Compiles the library of the header as MSVC would, for a machine. MSVC's own headers are not at hand: clang's declare
# the intrinsics, and of the others the header needs two functions: MACHINE
build_by_msvc() {
  mkdir -p "$room/include" && for header in stdlib malloc setjmp string; do
    printf '%s\n' '#include <stddef.h>' 'void *memcpy(void *, const void *, size_t);' \
      'void *memset(void *, int, size_t);' >"$room/include/$header.h"
  done
  printf '%s\n' '#include "rapidhash_c.c"' 'uint64_t load4(const uint8_t *p) { return rapidhash_load4_(p); }' \
    'uint64_t load8(const uint8_t *p) { return rapidhash_load8_(p); }' \
    'void multiply(uint64_t a, uint64_t b, uint64_t *low, uint64_t *high) { rapidhash_multiply_(a, b, low, high); }' \
    'uint64_t shard_of(uint64_t hash, uint64_t count) { return rapidhash_shard(hash, count); }' \
    >"$room/msvc.c" &&
    clang --target="$1-pc-windows-msvc" -fms-extensions -fms-compatibility-version=19.30 -U__SIZEOF_INT128__ \
      -ffreestanding -isystem "$room/include" -I"$top/packages/c" -I"$top/packages/c/include" -O2 -Wall -Wextra \
      -Werror -c "$room/msvc.c" -o "$room/$1.obj"
}

# Runs a program of the header with all vectors, and the properties: ARGUMENT..
has_the_values() {
  build "$@" "$tests/c_library.c" -o "$room/values.exe" && "$wine" "$room/values.exe" &&
    build "$@" -DIS_FAST=0 "$tests/cases.c" -o "$room/cases.exe" &&
    "$wine" "$room/cases.exe" <"$top/crates/test_replay/data/cases.tsv" &&
    build "$@" "$tests/properties.c" -o "$room/properties.exe" &&
    "$wine" "$room/properties.exe" product && "$wine" "$room/properties.exe" streams
}

# The same with the object that clang compiled, whose loads, product and shard have other names.
has_the_values_by_msvc() {
  printf '%s\n' '#include "rapidhash_c.h"' 'uint64_t load4(const uint8_t *), load8(const uint8_t *);' \
    'void multiply(uint64_t, uint64_t, uint64_t *, uint64_t *);' 'uint64_t shard_of(uint64_t, uint64_t);' \
    '#define rapidhash_load4_ load4' '#define rapidhash_load8_ load8' '#define rapidhash_multiply_ multiply' \
    '#define rapidhash_shard shard_of' >"$room/names.h" &&
    build_by_msvc x86_64 && has_the_values -DRAPIDHASH_LINK -include "$room/names.h" "$room/x86_64.obj"
}

# Checks that the header compiles for a machine that cannot run here, with its instruction for a product: MACHINE NAME
compiles_by_msvc() {
  build_by_msvc "$1" && llvm-objdump -d "$room/$1.obj" | grep "\\b$2\\b"
}

passes_go() {
  cd "$top/packages/go" &&
    GOOS=windows GOARCH=amd64 CGO_ENABLED=0 GOCACHE=$room/go GOPROXY=off go test -c -o "$room/go.exe" . &&
    "$wine" "$room/go.exe" -test.v -test.timeout 0 >"$room/go.log" &&
    grep '^PASS' "$room/go.log" && ! grep -e '--- SKIP' "$room/go.log"
}

# Runs Debian's cargo for Windows in a directory: DIRECTORY ARGUMENT..
cargo_for_windows() {
  (cd "$1" && PATH=/usr/bin:/bin CARGO_TARGET_X86_64_PC_WINDOWS_GNU_RUNNER=$wine CARGO_TARGET_DIR=$room/rust \
    cargo "$2" --release --offline --target x86_64-pc-windows-gnu "${@:3}")
}

# A program under Wine cannot start itself and read from it.
passes_rust() {
  cargo_for_windows "$top/packages/rust" test --lib --test portable --test vectors --test hasher --test keys \
    --test inside -- --skip processes
}

# Runs rapidsum: ARGUMENT..
sum() { "$wine" "$rust/rapidsum.exe" "$@"; }

# Checks that standard input is binary: text mode would change the line ends and stop at the byte 26.
reads_binary_input() {
  local bytes='a\r\n\032b\0\nc\r\r\n'
  printf '%s\n' '#include "rapidhash_c.h"' '#include <stdio.h>' \
    'int main(void) { char bytes[99]; printf("%016llx  -\n",' \
    '(unsigned long long)rapidhash_v3(bytes, fread(bytes, 1, 99, stdin))); }' >"$room/input.c" &&
    cc -I"$top/packages/c/include" "$room/input.c" -o "$room/input" &&
    diff <(printf "$bytes" | "$room/input") <(printf "$bytes" | sum)
}

# Checks how names are written: with either separator, where a backslash is escaped, a drive, spaces and umlauts.
writes_names() {
  local line=a1266b469390773a drive="Z:${room//\//\\}\\files\\größe"
  diff <(sum 'a b' größe sub/file 'sub\file' "$drive") - <<LINES
$line  a b
$line  größe
$line  sub/file
\\$line  sub\\\\file
\\$line  ${drive//\\/\\\\}
LINES
}

# Checks lists with the line ends of Windows, and names that rapidsum has escaped.
checks_lists() {
  { sum 'a b' größe sub/file && sum 'sub\file'; } >list && sed 's/$/\r/' list >crlf && sum --check list >checked &&
    sum --check crlf | diff checked - && [ "$(grep -c ': OK' checked)" -eq 4 ] && sed 's/^a1/a2/' list >wrong &&
    ! sum --check wrong
}

# Checks the device of no bytes, and what is refused: a directory and a missing file.
names_what_is_refused() {
  [ "$(sum nul)" = '0338dc4be2cecdae  nul' ] && ! sum sub missing 2>said && grep '^rapidsum: sub: .*denied' said &&
    grep '^rapidsum: missing: .*not found' said && ! grep 'os error' said
}

has x86_64-w64-mingw32-gcc || skip_all 'no x86_64-w64-mingw32-gcc (gcc-mingw-w64-x86-64)'
has "$wine" || skip_all "no $wine (wine64)"
try windows_c has_the_values
try_with windows_c_msvc clang has_the_values_by_msvc
try_with windows_c_msvc_arm64 'clang llvm-objdump' compiles_by_msvc aarch64 umulh
try_with windows_c_msvc_i686 'clang llvm-objdump' compiles_by_msvc i686 mull
try_with windows_go go passes_go
has /usr/lib/rustlib/x86_64-pc-windows-gnu && has /usr/bin/cargo ||
  skip_all 'no libstd-rust-dev-windows or /usr/bin/cargo'
try windows_rust passes_rust
prepare_by cargo_for_windows "$top/packages/rust/tools" build
mkdir -p "$room/files/sub" && cd "$room/files" && tee 'a b' größe sub/file <<<something >/dev/null || exit 1
try windows_input reads_binary_input
try windows_names writes_names
try windows_lists checks_lists
try windows_refused names_what_is_refused

finish
