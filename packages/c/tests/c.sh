#!/usr/bin/env bash
# reads: packages/c packages/rust crates tests/fields.tsv docs/C.md docs/CPP.md Makefile
# Tests the header by each compiler, standard and option with all vectors; the libraries that the kit and cc build, and
# their names; the manual; and the hashes beside those of the Rust crate. Without the kit, the library is cc's alone.
. "$(dirname "$0")/../../../tests/cases.sh"
include=$top/packages/c/include
header=$include/rapidhash_c.h
tests=$top/packages/c/tests
cases_of_all=$top/crates/test_replay/data/cases.tsv

# Begins a long command, which runs beside the cases, in a directory of its own with the files so far: NAME COMMAND..
declare -A begun
begin() {
  mkdir "$room/$1" && ln -s "$room"/*.* "$room/$1" && {
    (room=$room/$1 && "${@:2}" >"$room/said" 2>&1) &
    begun[$1]=$!
  }
}

# Waits for the end of such a command: NAME
ended() {
  wait "${begun[$1]}"
  local status=$?
  cat "$room/$1/said"
  return "$status"
}

# Compiles a program of every call, with an archive if `linked` names one, and compares its values with known ones. A
# second file of the program includes the header too. Then replays the cases: COMPILER ARGUMENT..
has_the_values() {
  "$@" "-I$include" "$tests/c_library.c" "$room/second.c" ${linked:+-x none "$linked"} \
    -o "$room/c_library" && "$room/c_library" && replays cases.c "$@"
}

# Compiles a program that replays the cases, and runs it, perhaps under the program in `under`: SOURCE COMPILER
# ARGUMENT..
replays() {
  "${@:2}" "-I$include" "$tests/$1" ${linked:+-x none "$linked"} -o "$room/replay" &&
    ${under-} "$room/replay" <"$cases_of_all"
}

# Compiles a program that replays the values of types, and runs it in the same way: SOURCE COMPILER ARGUMENT..
has_the_fields() {
  "${@:2}" "-I$include" "$tests/$1" -o "$room/fields" && ${under-} "$room/fields" <"$top/tests/fields.tsv"
}

# Prints the names that the header declares but does not define if a program links the library.
declared() {
  cc -E -P -DRAPIDHASH_LINK "$header" | grep -oE '^extern .* rapidhash_[a-z0-9_]+\(' | sed 's/.* //; s/(//' | sort
}

# Checks that a file defines the names of the header and no others: SUFFIX-OF-EACH-NAME NM-ARGUMENT..
defines_the_header() {
  declared | sed "s/\$/$1/" >"$room/declared"
  # Fewer names mean that this test cannot read the layout of the header.
  [ "$(wc -l <"$room/declared")" -gt 20 ] &&
    nm "${@:2}" --defined-only --extern-only --format=posix >"$room/nm" &&
    awk 'NF > 1 && $2 != "A" { sub(/@@RAPIDHASH_1[.][0-9]+$/, "@@RAPIDHASH_1", $1); print $1 }' "$room/nm" |
    sort | diff "$room/declared" -
}

# Programs find each name under its first release. The C library provides every undefined name of the shared library.
needs_the_c_library_alone() {
  [ "$(readelf -dW "$shared" | grep NEEDED | grep -o '\[.*')" = '[libc.so.6]' ] &&
    [ "$(nm -D --undefined-only "$shared" | awk '{ print $2 }')" = memmove@GLIBC_2.2.5 ]
}

# Checks that no relocation changes the code, and that no page is both writable and executable. The tables of the
# dynamic linker must be read-only after it has filled them.
keeps_code_and_data_apart() {
  readelf -dW "$shared" >"$room/dynamic" && readelf -lW "$shared" >"$room/segments" &&
    ! grep TEXTREL "$room/dynamic" && grep -q BIND_NOW "$room/dynamic" && grep -q GNU_RELRO "$room/segments" &&
    grep -E '^ *GNU_STACK .* RW +0' "$room/segments" && ! grep -E ' RWE ' "$room/segments"
}

# Checks that the link keeps the unwind tables of an archive that has some. The kit writes none.
keeps_unwind_tables() {
  echo 'int rapidhash_probe(int number) { return number; }' >"$room/probe.c" &&
    cc -O2 -fPIC -fasynchronous-unwind-tables -c "$room/probe.c" -o "$room/probe.o" &&
    ar rc "$room/probe.a" "$room/probe.o" &&
    make -s -C "$top" archive="$room/probe.a" shared="$room/probe.so" "$room/probe.so" &&
    readelf -lW "$room/probe.so" | grep GNU_EH_FRAME
}

# Compiles packages/c/tests/properties.c and runs some of its tests, perhaps under the program in `under`: TESTS
# COMPILER ARGUMENT..
has_the_properties() {
  local test
  "${@:2}" -Wall -Wextra -Werror "-I$include" "$tests/properties.c" -o "$room/properties" && for test in $1; do
    ${under-} "$room/properties" "$test" || return 1
  done
}

# Compiles such a program with the archive, whose code it must contain: COMPILER ARGUMENT..
calls_from_c() {
  linked=$archive has_the_values "$@" -DRAPIDHASH_LINK -O2 -Wall -Wextra -Werror &&
    nm --defined-only "$room/c_library" | grep ' T rapidhash_v3$'
}

# Tests the whole C++ header and replays the cases, in programs without exceptions: COMPILER STANDARD ARGUMENT..
calls_from_cpp() {
  local build=("$1" "-std=$2" "${@:3}" -O2 -Wall -Wextra -Wpedantic -Wconversion -Werror -fno-exceptions)
  "${build[@]}" "-I$include" "$tests"/cpp_*.cpp -o "$room/cpp_header" && "$room/cpp_header" &&
    replays cases.cpp "${build[@]}" && has_the_fields fields.cpp "${build[@]}" -fexceptions
}

# Checks the names that a shared library of the header exports: all with -fvisibility=hidden, and none of them with a
# RAPIDHASH_API that hides them. No inlined function is an external symbol. Of a DLL, a definition exports the names and
# a declaration imports them: COMPILER
exports_match_visibility() {
  local build=("$1" -std=c99 -O2 -fPIC -shared "-I$include" "$top/packages/c/rapidhash_c.c" -o "$room/visible.so")
  local dll=("$1" -E -P -DRAPIDHASH_DLL)
  "${build[@]}" -fvisibility=hidden && defines_the_header '' -D "$room/visible.so" &&
    "${build[@]}" '-DRAPIDHASH_API=__attribute__((visibility("hidden")))' &&
    ! nm -D --defined-only "$room/visible.so" | grep rapidhash &&
    "$1" -std=c99 -O0 "-I$include" -c "$tests/cases.c" -o "$room/inlined.o" &&
    nm "$room/inlined.o" | grep ' t rapidhash_' &&
    ! nm --extern-only --defined-only "$room/inlined.o" | grep rapidhash_ &&
    [ "$("${dll[@]}" -DRAPIDHASH_LINK "$header" | grep -c '__declspec(dllimport).* rapidhash_')" -gt 20 ] &&
    [ "$("${dll[@]}" -DRAPIDHASH_IMPLEMENTATION "$header" | grep -c '__declspec(dllexport).* rapidhash_')" -gt 20 ]
}

# Compiles the headers with all warnings of clang but these: the header joins expressions by commas and has structs with
# padding, its callers use functions that may be unused, and for C++ it needs C++11.
has_no_warning() {
  local allowed=(-Wno-comma -Wno-padded -Wno-used-but-marked-unused)
  clang -std=c99 -Weverything -Werror "${allowed[@]}" "-I$include" -c "$top/packages/c/rapidhash_c.c" -o /dev/null &&
    clang -std=c99 -Weverything -Werror "${allowed[@]}" "-I$include" -x c -fsyntax-only - \
      <<<'#include <rapidhash_fields.h>' &&
    includes_the_headers clang++ -Weverything "${allowed[@]}" -Wno-c++98-compat-pedantic -Wno-pre-c++17-compat
}

# Compiles a program in C++ that uses the headers, whose casts are of C, without a warning, after macros of windows.h in
# lower case: COMPILER ARGUMENT..
includes_the_headers() {
  "$@" -std=c++17 -Werror -D{small,hyper}=char -D{near,far}= -Dinterface=struct '-Dword(w)=none' "-I$include" \
    -x c++ -c -o /dev/null - <<'CPP'
#include <rapidhash.hpp>
int main()
{
    const rapidhash::hasher hasher;
    const rapidhash::seeded_hasher seeded(rapidhash::seed(7));
    rapidhash::micro_stream state, copy(state);
    const auto value = std::make_tuple(1, std::make_pair("a", 2), std::optional<long>(), std::filesystem::path("a/b"),
                                       std::vector<bool>(), std::array<long, 1>(), std::chrono::hours(1));
    return hasher(value) == seeded(value) && copy.update("a").finish() == rapidhash::hash("a");
}
CPP
}

# Checks that a file of C++ can include each header first: COMPILER
includes_each_header_alone() {
  local each
  for each in "$include"/*; do "$1" -std=c++17 -fsyntax-only -include "$each" -x c++ /dev/null || return 1; done
}

# Checks that cppcheck reports no error in a file of C or of C++ that includes a header.
has_no_fault_of_cppcheck() {
  mkdir "$room/cppcheck" && cp "$room/second.c" "$room/cppcheck" &&
    printf '#include <rapidhash.hpp>\nint main() { return rapidhash::hash("hello") == 0; }\n' \
      >"$room/cppcheck/first.cpp" &&
    cppcheck --quiet --error-exitcode=1 "-I$include" "$room/cppcheck"
}

# Checks that a declaration of the header and its definition name their parameters alike.
names_parameters_alike() {
  cppcheck --quiet --enable=style --inconclusive "-I$include" "$top/packages/c/rapidhash_c.c" 2>"$room/said" &&
    ! grep funcArgNamesDifferent "$room/said"
}

# Checks that the library has the names of C if a C++ compiler builds it, and that at run time a hash of C++ calls the
# code of the C header. No C++ file of a program may have a function or a table of its own, which its inline functions
# would share by name only, and each is hidden in a shared library: COMPILER
obeys_one_definition_rule() {
  "$1" -x c++ -std=c++11 "-I$include" -c "$top/packages/c/rapidhash_c.c" -o "$room/as_cpp.o" &&
    nm --format=posix "$room/as_cpp.o" | awk '$2 == "T" { print $1 }' | sort >"$room/names" &&
    declared | diff - "$room/names" && "$1" -std=c++17 -O2 "-I$include" -x c++ -S -o "$room/run_time.s" - <<'CPP' &&
#include <rapidhash.hpp>
using namespace rapidhash;
std::uint64_t of(const std::string &text) { return hash(text); }
std::uint64_t of(const std::string &text, seed start) { return hash(text, start); }
std::uint64_t of(const std::string &text, const secrets &own) { return hash(text, own); }
CPP
    [ "$(grep -cE '(call|jmp)q?\s.*rapidhash_v3_long_' "$room/run_time.s")" -eq 3 ] &&
    "$1" -std=c++17 -O0 "-I$include" -c "$tests/cpp_keys.cpp" -o "$room/shared.o" &&
    nm -C "$room/shared.o" >"$room/nm" &&
    [ "$(grep -c ' [WVu] rapidhash_' "$room/nm")" -gt 20 ] && ! grep ' [trdb] rapidhash_' "$room/nm" &&
    "$1" -std=c++17 -O0 -fPIC -shared "-I$include" -x c++ - -o "$room/shared.so" &&
    ! nm -DC --defined-only "$room/shared.so" | grep ' rapidhash_'
} <<'CPP'
#include <rapidhash_c.h>
uint64_t hash(const void *bytes, size_t length) { return rapidhash_v3(bytes, length); }
CPP

# Checks that values which are no field of a key do not compile, with the reason. A part of them would be lost: COMPILER
refuses_what_is_no_field() {
  local value why
  while IFS='|' read -r value why; do
    ! "$1" -std=gnu++17 -fshort-enums "-I$include" -x c++ -fsyntax-only - 2>"$room/said" \
      <<<"#include <rapidhash.hpp>
#include <memory>
#include <variant>
struct own : std::char_traits<char> {};
enum plain { zero };
std::uint64_t hash() { return rapidhash::key($value); }" && grep "$why" "$room/said" || { echo "$value" && return 1; }
  done <<VALUES
static_cast<__int128>(1)|an integer of a key has at most 64 bits
'a'|a char has a sign on some machines alone: cast it to an unsigned char, or pass a text
{1, 2}|error: no matching function for call to .key
{}|error: no matching function for call to .key
{}, 5|error: no matching function for call to .key
{1, 2, 3}|error: no matching function for call to .key
rapidhash::hash("x", {std::uint64_t(5)})|error: .*\(would use explicit constructor\|no matching\)
rapidhash::hash("x", {})|error: no matching function for call to .hash
rapidhash::seeded_hasher({std::uint64_t(5)})(1)|error: .*\(would use explicit constructor\|no matching\)
rapidhash::basic_stream<4>().finish()|a stream has 7, 5 or 3 lanes
rapidhash::stream({std::uint64_t(5)}).finish()|error: .*\(would use explicit constructor\|no matching\)
1.5|a field is nullptr, an integer, an enumerator, a text, bytes, a time, a duration, or a std::pair, tuple, vector, \
array, span, optional or path, but of no derived class: cast it to that
std::wstring()|a field is nullptr, an integer,
std::basic_string<char, own>()|a text that compares in its own way has no field: specialize rapidhash::field, or pass
rapidhash::text_hasher()(std::basic_string<char, own>())|error: .*deleted function
std::optional<std::optional<int>>()|an optional field is itself no optional, pair, tuple or nullptr
std::optional<std::pair<int, int>>()|an optional field is itself no optional,
std::optional<std::tuple<int>>()|an optional field is itself no optional,
std::optional<const std::optional<int>>()|an optional field is itself no optional,
std::optional<std::nullptr_t>()|an optional field is itself no optional,
std::vector<double>()|a field is nullptr, an integer,
std::vector<plain>()|with -fshort-enums, name the type of an enumeration in a list, as enum class letter : char
rapidhash::hash(std::vector<plain>())|error: no matching function for call to .hash
L"user"|a field is nullptr, an integer,
std::array<volatile int, 1>()|a list of a key has no volatile items: copy them, perhaps into a vector
std::array<volatile unsigned char, 1>()|a list of a key has no volatile items:
static_cast<const int *>(nullptr)|a pointer is no field: pass what it points to, nullptr, or \
rapidhash::bytes(pointer, length)
std::unique_ptr<int>()|a pointer is no field: pass what it points to,
std::shared_ptr<int[]>()|a pointer is no field: pass what it points to,
std::array<void *, 1>()|a pointer is no field: pass what it points to,
std::variant<int, long>()|a variant is no field: pass its index(), and then its value by std::visit
std::chrono::nanoseconds(1)|a duration of a key has whole microseconds: round it by duration_cast<microseconds>
std::chrono::duration<double>(1)|a time or duration of a key has a signed integer of at most 64 bits: convert it by
std::chrono::duration<std::uint64_t>(1)|a time or duration of a key has a signed integer of at most 64 bits:
std::chrono::duration<__int128>(1)|a time or duration of a key has a signed integer of at most 64 bits:
std::chrono::system_clock::now()|a time of a key has whole microseconds, because other programs round it: cut it by \
.*time_point_cast<microseconds>, or since C++17 by .*floor<microseconds>
std::chrono::time_point<std::chrono::system_clock, std::chrono::duration<int, std::ratio<1, 3>>>()|a time of a key has \
whole microseconds
rapidhash::float_bits(1L)|error: no matching function for call to .float_bits
rapidhash::float_bits(1.5L)|error: no matching function for call to .float_bits
std::chrono::steady_clock::now()|a time of a key is of the system clock, which counts from 1970-01-01 in UTC: convert it
rapidhash::hash(std::array<bool, 2>())|error: no matching function for call to .hash
rapidhash::fingerprint(std::array<int, 2>())|a hash of a fingerprint is an unsigned integer of 64 bits
rapidhash::fingerprint(std::vector<std::uint32_t>())|a hash of a fingerprint is an unsigned integer of 64 bits
rapidhash::fingerprint(std::vector<std::int64_t>())|a hash of a fingerprint is an unsigned integer of 64 bits
VALUES
}

# Checks that a class may have a stream, and a shared library export a function of one: COMPILER
exports_a_stream() {
  "$1" -std=c++11 -O2 -fPIC -shared -Wall -Wextra -Werror "-I$include" -x c++ -o "$room/stream.so" - <<'CPP' &&
#include <rapidhash.hpp>
struct checksum { rapidhash::stream state; };
void feed(rapidhash::stream &state, const checksum &other) { state = other.state; }
CPP
    nm -DC --defined-only "$room/stream.so" | grep ' T feed('
}

# Compiles a stream of one piece without a warning: its length is constant, so that a compiler follows each copy, and
# with -flto the linker too.
compiles_a_constant_piece() {
  local options
  for options in -O{1,2,3,s}\ -f{no-,}lto; do
    gcc "${options% *}" "${options#* }" -Wall -Wextra -Werror "-I$include" -x c -o "$room/piece" - <<'C' || return 1
#include "rapidhash_c.h"
int main(void)
{
    struct rapidhash_secrets own;
    struct rapidhash_stream stream;
    rapidhash_seed_secrets(0, &own);
    rapidhash_v3_start(&stream, &own);
    rapidhash_stream_write(&stream, "hello", 5);
    return rapidhash_stream_finish(&stream) != 3327445792987248966;
}
C
    "$room/piece" || return 1
  done
}

# Prints the public functions in a text without comments: the return type, name, and parameters of each.
signatures() {
  tr -s ' \n' ' ' | sed 's/_Bool/bool/g' |
    grep -oE '(void|bool|uint64_t|uint32_t) rapidhash_[a-z0-9_]*[a-z0-9]\([^()]*\)' | sed 's/( /(/' | sort
}

# Checks that the manual page has each function of the headers of C with the same signature, and no other.
manual_has_the_header() {
  cc -E -P -DRAPIDHASH_LINK "$include/rapidhash_fields.h" | signatures >"$room/signatures" &&
    [ "$(wc -l <"$room/signatures")" -gt "$(declared | wc -l)" ] &&
    mandoc -Tascii "$top/packages/c/rapidhash_c.3" | sed 's|.\x08||g' | signatures | diff "$room/signatures" -
}

# Checks that the manual page has the preconditions of the header, word by word, and its numbers, and docs/C.md one.
manual_has_the_preconditions() {
  local text
  sed -E 's|^ \* *(- )?||' "$header" | tr -d '`' | tr -s ' \n' ' ' |
    grep -oP 'bytes points to .*? during the call\.|It refers to its secrets.*? in use\.' >"$room/preconditions"
  mandoc -Tutf8 "$top/packages/c/rapidhash_c.3" | sed 's|.\x08||g' | tr -s ' \n' ' ' >"$room/page"
  cc "-I$include" -x c - -o "$room/numbers" <<<'#include <stdio.h>
#include "rapidhash_c.h"
int main(void)
{
    printf("A stream of %d bytes\n", (int)sizeof(struct rapidhash_stream));
    printf("bytes, which are %d and\n", RAPIDHASH_STREAM_SAVED);
    printf("runs with: %d for %s.\n", RAPIDHASH_C_VERSION_NUMBER, RAPIDHASH_C_VERSION_STRING);
}' && "$room/numbers" >>"$room/preconditions" && text=$(grep -oP 'A stream of \K.*' "$room/preconditions") &&
    grep -qF "start a stream ($text" "$top/docs/C.md" && [ "$(wc -l <"$room/preconditions")" -eq 5 ] &&
    while read -r text; do
      grep -qF "$text" "$room/page" || { echo "not on the page: $text" && return 1; }
    done <"$room/preconditions"
}

# Runs the example on the manual page, built with the command on the page.
manual_example_runs() {
  local command
  command=$(sed -n 's/^\.BR "\(cc .*\)" \.$/\1/p' "$top/packages/c/rapidhash_c.3" | sed 's/\\-/-/g') &&
    sed -n '/^\.EX/,/^\.EE/ { /^\.E[XE]/d; s/\\e/\\/g; p }' "$top/packages/c/rapidhash_c.3" >"$room/hello.c" &&
    (cd "$room" && export PKG_CONFIG_PATH=$room/usr/lib/pkgconfig && bash -c "$command" &&
      [ "$(LD_LIBRARY_PATH=$room/usr/lib ./a.out | sort | uniq -c | xargs)" = '2 3327445792987248966' ])
}

# Builds the hashes of the Rust crate for a C program.
build_rust() {
  cargo build --release --offline --quiet --manifest-path "$top/packages/rust/Cargo.toml" --target-dir "$room/cargo" &&
    rustc -O --edition 2021 --crate-type staticlib "$tests/counted.rs" \
      --extern "rapidhash=$room/cargo/release/librapidhash.rlib" -o "$room/librust.a"
}

# Prints the instructions of a hash of 16, 100, and 4,096 bytes: EXPRESSION SEED
instructions() {
  local length
  printf '%s\n' '#include <stdlib.h>' '#include "rapidhash_c.h"' 'struct rapidhash_secrets secrets;' \
    'uint64_t rust_hash(const char *, const void *, size_t, const struct rapidhash_secrets *);' \
    "__attribute__((noinline)) uint64_t counted(const void *bytes, size_t length) { return $1; }" \
    "int main(int count, char **words) { rapidhash_seed_secrets($2, &secrets);" \
    'return counted(calloc(4096, 1), atoi(words[count - 1])) == 7; }' >"$room/counted.c" &&
    cc -O2 -DRAPIDHASH_LINK "-I$include" "$room"/{counted.c,librust.a} "$archive" -lpthread -ldl -lm \
      -o "$room/counted" &&
    for length in 16 100 4096; do
      valgrind --tool=callgrind --callgrind-out-file=/dev/null --toggle-collect=counted "$room/counted" "$length" 2>&1
    done | sed -n 's/.*Collected : //p' | xargs
}

# Compares the instructions of the archive with stored counts. In Rust, the compact code of an odd seed has others.
counts_instructions() {
  local name counts call
  build_rust && while read -r name counts; do
    call="rust_hash(\"$name\", bytes, length, &secrets)"
    diff <(instructions "rapidhash_$name(bytes, length)" 0) - <<<"$counts" &&
      [ "$(instructions "$call" 0)" != "$([[ $name = v3_[mn]* ]] || instructions "$call" 1)" ] || return 1
  done <<'COUNTS'
v2_2 31 110 1764
v3 32 88 1765
v3_micro 32 105 1712
v3_nano 32 100 1760
v3_protected 36 106 2837
COUNTS
}

# Checks that calls of the header execute at most a tenth more instructions than when they were counted, with gcc 12.
# The stream gets 4,800 bytes, in pieces of a length: byte by byte, a copy of a piece would take longer.
stays_short() {
  local body lengths limits
  while IFS='|' read -r body lengths limits; do
    printf '%s\n' '#include <stdlib.h>' '#include "rapidhash_c.h"' 'static struct rapidhash_stream stream;' \
      'static struct rapidhash_secrets secrets;' \
      '__attribute__((noinline)) uint64_t counted(const uint8_t *bytes, size_t length)' "{ $body }" \
      'int main(int count, char **words) { rapidhash_seed_secrets(0, &secrets);' \
      'rapidhash_v3_start(&stream, &secrets);' \
      'return counted((uint8_t *)calloc(4800, 1), (size_t)atoi(words[count - 1])) == 7; }' >"$room/short.c" &&
      gcc -O2 "-I$include" "$room/short.c" -o "$room/short" && for length in $lengths; do
      valgrind --tool=callgrind --callgrind-out-file=/dev/null --toggle-collect=counted "$room/short" "$length" 2>&1
    done | sed -n 's/.*Collected : //p' | xargs | tee -a "$room/counts" |
      awk -v limits="$limits" '{ n = split(limits, most, " "); if (NF != n) exit 1
        for (i = 1; i <= n; i++) if ($i > 1.1 * most[i]) exit 1 }' ||
      { echo "$body" && cat "$room/counts" && return 1; }
  done
}

# Checks by the products that a loop of the header folds two rows per iteration and then one, by GCC only with three
# lanes. With single rows the same values would take longer: COMPILER COUNTS
folds_two_rows() {
  "$1" -O2 "-I$include" -c "$top/packages/c/rapidhash_c.c" -o "$room/rows.o" && for name in v3 v3_micro v3_nano; do
    objdump --disassemble="rapidhash_${name}_with_rows_" "$room/rows.o" | grep -c '\smul '
  done | xargs | grep -x "$2"
}

# Checks that make without the kit and without cargo builds and installs the library alone, and says so.
builds_from_the_header() {
  local why left='make: the programs are left out: install cargo (Rust 1.63 or newer) and run make again'
  has rt || why='rt is not on PATH: '
  copy_sources "$room/bare" && make_by_cc_alone >"$room/said" 2>&1 && diff "$room/said" - <<SAID &&
make: ${why-}building with cc the library alone, which is not the proved build
$left
SAID
    make_by_cc_alone install PREFIX="$room/usr" >"$room/said" 2>&1 && diff "$room/said" - <<<"$left" &&
    [ ! -e "$room/usr/bin" ]
}

# Checks that a packager's flags reach the compiler and the linker, that no older header is in the way of ours, and that
# the flags of a program that links the library leave no function out. CMake finds the library by the size of a pointer.
takes_the_flags() {
  mkdir "$room/old" && sed 's/VERSION_MINOR 0/VERSION_MINOR 77/' "$header" >"$room/old/rapidhash_c.h" &&
    make_by_cc_alone clean && make_by_cc_alone library CFLAGS='-m32 -O2' CPPFLAGS="-I$room/old -DRAPIDHASH_LINK" &&
    readelf -h "$room/bare/build/header/librapidhash_c.so.1" | grep ELF32 &&
    objdump -d --disassemble=rapidhash_c_version "$room/bare/build/header/rapidhash_c.o" | grep 'mov *\$0x64,%eax' &&
    make_by_cc_alone install PREFIX="$room/32" &&
    finds_by_cmake "$room/32" 'find_package(rapidhash_c 1.0 CONFIG REQUIRED)' rapidhash_c::header
}

# Checks that make builds a product again if it was killed, with the shell that it may have started, when the compiler
# had begun to write.
survives_a_kill() {
  make_by_cc_alone clean
  cat >"$room/killed" <<'CC' && chmod +x "$room/killed" || return
#!/bin/sh
for last; do :; done
: >"$last"
for caller in $(ps -o ppid= $PPID) $PPID; do
  case $(ps -o comm= "$caller") in sh | make) kill -9 "$caller" ;; esac
done
CC
  ! make_by_cc_alone library CC="$room/killed" && make_by_cc_alone library &&
    defines_the_header @@RAPIDHASH_1 -D "$room/bare/build/header/librapidhash_c.so.1"
}

# Runs make in that copy: ARGUMENT..
make_by_cc_alone() {
  make -s -C "$room/bare" kit= cargo= "$@"
}

# Checks that programs that link the library are told of NULL, but for an empty message, and that a compiler calls a
# hash once for equal arguments: COMPILER
has_attributes() {
  local call
  for call in 'rapidhash_v1_with_secrets("", 0, NULL)' 'rapidhash_v3_with_secrets("", 0, NULL)' \
    'rapidhash_stream_finish(NULL)' 'rapidhash_stream_reset(NULL)' 'rapidhash_make_secrets(7, NULL)'; do
    "$1" -DRAPIDHASH_LINK "-I$include" -Werror=nonnull -x c -c -o /dev/null - 2>"$room/said" \
      <<<"#include \"rapidhash_c.h\"
void call(void) { (void)$call; }" && echo "$call" && return 1
    grep nonnull "$room/said" || return 1
  done
  [ "$("$1" -E -P -DRAPIDHASH_LINK "$header" | grep -c "nonnull.* rapidhash_")" -eq 15 ] &&
    "$1" -O1 -DRAPIDHASH_LINK -Werror=nonnull "-I$include" -x c -S -o "$room/sum.s" - <<<'#include "rapidhash_c.h"
#define EMPTY(version, own) + rapidhash_##version(NULL, 0) + rapidhash_##version##_with_seed(NULL, 0, 1) \
    + rapidhash_##version##_with_secrets(NULL, 0, (const struct own##_secrets *)secrets)
uint64_t empty(const void *secrets) { return 0 RAPIDHASH_C_VERSIONS(EMPTY); }
uint64_t sum(const void *p, size_t n) { return rapidhash_v3(p, n) + 3 * rapidhash_v3(p, n); }' &&
    [ "$(grep -cE "rapidhash_v3(@PLT)?$" "$room/sum.s")" -eq 2 ]
}

# Checks that a debug build stops at a stream whose length or number of lanes no call sets.
stops_at_its_bounds() {
  local call
  for call in 'stream.lanes = 4; rapidhash_stream_write(&stream, "", 1);' \
    'stream.len = 113; rapidhash_stream_finish(&stream);' \
    'stream.len = 113; rapidhash_stream_write(&stream, "a", 200);'; do
    cc -include assert.h -DRAPIDHASH_ASSERT=assert "-I$include" -x c - -o "$room/stops" <<<'#include "rapidhash_c.h"
int main(void)
{
    struct rapidhash_secrets secrets;
    struct rapidhash_stream stream;
    rapidhash_seed_secrets(0, &secrets);
    rapidhash_v3_start(&stream, &secrets);
    '"$call }" && ! "$room/stops" 2>"$room/said" && grep 'Assertion .* failed' "$room/said" || return 1
  done
}

# Checks that clang keeps the words of a call with the default seed out of vector registers, which would cost moves.
keeps_words_in_registers() {
  clang -O2 "-I$include" -x c -c -o "$room/words.o" - <<<'#include "rapidhash_c.h"
uint64_t hash(const void *p, size_t n) { return rapidhash_v3(p, n); }' &&
    objdump --disassemble=rapidhash_v3_long_ "$room/words.o" >"$room/words" && grep '\smul ' "$room/words" &&
    ! grep xmm "$room/words"
}

# Builds the programs of docs/CPP.md with the header that FetchContent and add_subdirectory give. They need the CMake of
# the page and no compiler of C.
fetches_by_cmake() {
  blocks "$top/docs/CPP.md" cmake find_package | cat - "$top/packages/c/CMakeLists.txt" >"$room/both" &&
    [ "$(grep ^cmake_minimum "$room/both" | uniq | wc -l)" -eq 1 ] &&
    mkdir -p "$room/fetch" && cd "$room/fetch" && blocks "$top/docs/CPP.md" cpp hello >hello.cpp &&
    blocks "$top/docs/CPP.md" cmake FetchContent >CMakeLists.txt && YERVOUND=$top cmake -B fetched &&
    cmake --build fetched && [ "$(fetched/hello)" = 3327445792987248966 ] && cp -r "$top/packages/c" copy &&
    sed -i 's/^FetchContent_Declare.*/add_subdirectory(copy)\nadd_subdirectory(copy again)/; /FetchContent/d' \
      CMakeLists.txt &&
    cmake -D CMAKE_C_COMPILER=none -B added && cmake --build added && [ "$(added/hello)" = 3327445792987248966 ]
}

# Installs a library that includes the header's directory and exports a target with it, and the headers alone. Checks
# that a program finds both, in a tree that was moved.
exports_by_cmake() {
  mkdir "$room/sums" && cd "$room/sums" && cat >CMakeLists.txt <<CMAKE && cat >sums.cpp <<'CPP' &&
cmake_minimum_required(VERSION 3.10)
project(sums CXX)
add_subdirectory("$top/packages/c" rapidhash_c)
add_library(sums STATIC sums.cpp)
target_link_libraries(sums PUBLIC rapidhash_c::header)
install(TARGETS sums EXPORT sums ARCHIVE DESTINATION lib)
install(EXPORT sums FILE sums-targets.cmake DESTINATION lib/cmake/sums)
install(FILES sums-config.cmake DESTINATION lib/cmake/sums)
CMAKE
#include <rapidhash.hpp>
std::uint64_t sum(const char *text) { return rapidhash::hash(text); }
CPP
    printf '%s\n' 'include(CMakeFindDependencyMacro)' 'find_dependency(rapidhash_c 1.0)' \
      'include("${CMAKE_CURRENT_LIST_DIR}/sums-targets.cmake")' >sums-config.cmake &&
    cmake -B built -D CMAKE_INSTALL_PREFIX="$room/first place" && cmake --build built && cmake --install built &&
    mv "$room/first place" "$room/sums place" && finds_by_cmake "$room/sums place" 'find_package(sums)' sums &&
    cmake -S "$top/packages/c" -B headers -D CMAKE_C_COMPILER=none &&
    cmake --install headers --prefix "$room/headers" &&
    finds_by_cmake "$room/headers" 'find_package(rapidhash_c 1.0 CONFIG)' rapidhash_c::header &&
    diff "$top/packages/c/include" "$room/headers/include"
}

# Builds a program over an installed tree of headers, which also serve pointers of 32 bits: PREFIX FIND TARGET
finds_by_cmake() {
  mkdir -p "$room/user" && cd "$room/user" && rm -rf built && cat >CMakeLists.txt <<CMAKE && cat >user.cpp <<'CPP' &&
cmake_minimum_required(VERSION 3.10)
project(user CXX)
set(CMAKE_SIZEOF_VOID_P 4)
$2
add_executable(user user.cpp)
target_link_libraries(user PRIVATE $3)
CMAKE
#include <cstdio>
#include <rapidhash.hpp>
int main() { std::printf("%llu\n", static_cast<unsigned long long>(rapidhash::hash("hello"))); }
CPP
    cmake -B built -D CMAKE_PREFIX_PATH="$1" && cmake --build built && [ "$(built/user)" = 3327445792987248966 ]
}

# Compiles and runs the programs of docs/C.md and docs/CPP.md with the headers alone, as the pages say.
first_program_runs() {
  blocks "$top/docs/C.md" c hello >"$room/bare/hello.c" && blocks "$top/docs/C.md" sh Ipackages >"$room/commands" &&
    blocks "$top/docs/CPP.md" cpp hello >"$room/bare/hello.cpp" && cd "$room/bare" &&
    [ "$(bash -e "$room/commands")" = 3327445792987248966 ] &&
    c++ -O2 -Ipackages/c/include hello.cpp -o hello_cpp && [ "$(./hello_cpp)" = 3327445792987248966 ] &&
    blocks "$top/docs/C.md" c assert >seeds.c && cc -std=c99 -Ipackages/c/include seeds.c -o seeds && ./seeds &&
    blocks "$top/docs/C.md" c key_nothing >key.c && cc -std=c99 -Ipackages/c/include key.c -o key &&
    ./key | grep -x 14742763072502883419 &&
    blocks "$top/docs/CPP.md" cpp '<cassert>' >seeds.cpp && c++ -std=c++11 -Ipackages/c/include seeds.cpp -o seeds &&
    ./seeds && blocks "$top/docs/CPP.md" cpp 'field<point>' >point.cpp &&
    c++ -std=c++11 -Wall -Werror -Ipackages/c/include point.cpp -o point && ./point &&
    blocks "$top/docs/CPP.md" cpp static_assert >known.cpp &&
    c++ -std=c++17 -Ipackages/c/include known.cpp -o known && ./known
}

# Tests the names of the two files of a library, and its calls. Its builder is rt or cc: PREFIX-OF-THE-CASES BUILDER
# ARCHIVE SHARED
test_library() {
  archive=$3 shared=$4
  try_with "$1names_of_the_archive" "$2" defines_the_header '' "$archive"
  try_with "$1names_of_the_shared_library" "$2" defines_the_header @@RAPIDHASH_1 -D "$shared"
  try_with "$1archive" "$2" calls_from_c cc -std=c99
  try_with "$1cpp_archive" "$2 c++" calls_from_c c++ -x c++ -DIS_FAST=0
  try_with "$1code_and_data" "$2" keeps_code_and_data_apart
}

echo '#include <rapidhash_c.h>' >"$room/second.c"
multilib='/usr/lib/gcc/x86_64-linux-gnu/*/32'
fuzzer='/usr/lib/llvm-*/lib/clang/*/lib/linux/libclang_rt.fuzzer-x86_64.a'

begin sanitizers has_the_values clang -O1 -fsanitize=address,undefined -fno-sanitize-recover=all

# Messages above 4 GiB take some seconds. The standard does not change their hashes, so the first one hashes them all.
for compiler in gcc clang; do
  all=1
  for standard in c99 c11 c17 c2x c++11 c++17 c++20; do
    try_with "header_${standard}_$compiler" "$compiler$([[ $standard != c++* ]] || echo ' c++')" \
      has_the_values "$compiler" "-std=$standard" -x "${standard//[0-9]*/}" -DIS_FAST=$all -O2 -pedantic \
      -Wall -Wextra -Wconversion -Wshadow -Werror
    try_with "fields_${standard}_$compiler" "$compiler$([[ $standard != c++* ]] || echo ' c++')" \
      has_the_fields fields.c "$compiler" "-std=$standard" -x "${standard//[0-9]*/}" -O2 -pedantic \
      -Wall -Wextra -Wconversion -Wshadow -Werror
    all=0
  done
done
try_with constant_piece gcc compiles_a_constant_piece
try header_c89 bash -c 'cc -std=c89 -fsyntax-only "$1" 2>&1 | grep -m 1 error: | grep "needs C99 or C++11"' - "$header"
try header_without_int128 has_the_values cc -O2 -DRAPIDHASH_NO_INT128
try header_without_a_byte_order has_the_values cc -O2 -U__BYTE_ORDER__
try header_with_assertions has_the_values cc -O3 -include assert.h -DRAPIDHASH_ASSERT=assert
try header_stops_at_bounds stops_at_its_bounds
try_with header_with_sanitizers "clang $fuzzer" ended sanitizers
try_with header_tcc tcc has_the_values tcc
try_with header_32_bits "gcc $multilib/libgcc.a" has_the_values gcc -m32 -O2
try_with fields_with_sanitizers clang has_the_fields fields.c clang -O1 -fsanitize=address,undefined \
  -fno-sanitize-recover=all
try_with fields_tcc tcc has_the_fields fields.c tcc
try_with fields_32_bits "gcc $multilib/libgcc.a" has_the_fields fields.c gcc -m32 -O2
try fields_of_fast_mathematics has_the_fields fields.c cc -O2 -ffast-math
for compiler in g++ clang++; do
  try_with "cpp_fields_of_fast_mathematics_$compiler" "$compiler" has_the_fields fields.cpp "$compiler" -O2 -ffast-math
done
for standard in c++11 c++17 c++20; do
  try_with "cpp_header_$standard" g++ calls_from_cpp g++ "$standard"
  try_with "cpp_header_${standard}_clang" clang++ calls_from_cpp clang++ "$standard"
done
for compiler in g++ clang++; do
  try_with "cpp_definitions_$compiler" "$compiler" obeys_one_definition_rule "$compiler"
done
for compiler in g++ clang++; do
  try_with "cpp_fields_$compiler" "$compiler" refuses_what_is_no_field "$compiler"
  try_with "cpp_streams_$compiler" "$compiler" exports_a_stream "$compiler"
  try_with "each_header_$compiler" "$compiler" includes_each_header_alone "$compiler"
done
for compiler in gcc clang; do try_with "visibility_$compiler" "$compiler" exports_match_visibility "$compiler"; done
try_with all_warnings_of_clang 'clang clang++' has_no_warning
try_with casts_of_c g++ includes_the_headers g++ -Wall -Wextra -Wold-style-cast -Wuseless-cast -Weffc++
try_with cppcheck cppcheck has_no_fault_of_cppcheck
try_with names_of_parameters cppcheck names_parameters_alike
try_with cpp_header_32_bits "g++ $multilib/libstdc++.a" calls_from_cpp g++ c++11 -m32 -funsigned-char \
  -idirafter /usr/include/x86_64-linux-gnu
# As on ARM.
try_with cpp_header_of_unsigned_wide_characters clang++ calls_from_cpp clang++ c++11 -Xclang -fwchar-type=int \
  -Xclang -fno-signed-wchar

# Each path of the loads and the product, on machines of 64 and 32 bits and of both byte orders. A test stands in for
# the functions of MSVC.
both='product streams'
try properties has_the_properties "$both" cc -O2 -DTEST_PRODUCTS=16777216
try fingerprint_of_32_gib has_the_properties count cc -O2 -D_GNU_SOURCE -DTEST_COUNT
try_with properties_clang clang has_the_properties "$both" clang -O2
try_with properties_tcc tcc has_the_properties "$both" tcc
try properties_without_int128 has_the_properties "$both" cc -O2 -DRAPIDHASH_NO_INT128
try properties_without_a_byte_order has_the_properties "$both" cc -O2 -U__BYTE_ORDER__
try_with properties_32_bits "gcc $multilib/libgcc.a" has_the_properties "$both" gcc -m32 -O2
for machine in _M_X64 _M_ARM64; do
  try_with "properties_msvc$machine" gcc has_the_properties "$both" gcc -O2 -U__SIZEOF_INT128__ -D_MSC_VER=1930 \
    "-D$machine" "-I$tests/msvc"
  try_with "replay_msvc$machine" gcc replays cases.c gcc -O2 -DIS_FAST=0 -U__SIZEOF_INT128__ -D_MSC_VER=1930 \
    "-D$machine" "-I$tests/msvc"
  try_with "fields_msvc$machine" gcc has_the_fields fields.c gcc -O2 -U__SIZEOF_INT128__ -D_MSC_VER=1930 \
    "-D$machine" "-I$tests/msvc"
done
s390x='clang s390x-linux-gnu-ld /usr/lib/gcc-cross/s390x-linux-gnu/*/libgcc.a /usr/s390x-linux-gnu/include/stdio.h'
under=qemu-s390x try_with properties_s390x "$s390x qemu-s390x" \
  has_the_properties "$both" clang --target=s390x-linux-gnu -static -O2
under=qemu-s390x try_with replay_s390x "$s390x qemu-s390x" \
  replays cases.c clang --target=s390x-linux-gnu -static -O2 -DIS_FAST=0
under=qemu-s390x try_with fields_s390x "$s390x qemu-s390x" \
  has_the_fields fields.c clang --target=s390x-linux-gnu -static -O2
under='valgrind -q --error-exitcode=9' try_with content 'valgrind /usr/include/valgrind/memcheck.h' \
  has_the_properties content cc -O2 -DTEST_CONTENT
# Without optimization each branch of the source is one, also where the compiler would have found code without it.
under='valgrind -q --error-exitcode=9' try_with content_of_each_branch 'valgrind /usr/include/valgrind/memcheck.h' \
  has_the_properties content cc -O0 -DTEST_CONTENT
try_with threads gcc has_the_properties threads gcc -O1 -fsanitize=thread -DTEST_THREADS -lpthread
try_with rows_per_iteration gcc folds_two_rows gcc '15 11 13'
try_with rows_per_iteration_clang clang folds_two_rows clang '29 21 13'
try_with instructions_of_the_header 'gcc valgrind' stays_short <<COUNTS
return rapidhash_v1(bytes, length);|8 16 100 4096|33 33 92 1875
return rapidhash_v2_2(bytes, length);|8 16 100 4096|24 24 97 1743
return rapidhash_v3(bytes, length);|8 16 100 4096|28 28 65 1738
return rapidhash_v3_micro(bytes, length);|8 16 100 4096|28 28 94 1785
return rapidhash_v3_nano(bytes, length);|8 16 100 4096|28 28 87 1870
return rapidhash_v3_protected(bytes, length);|8 16 100 4096|32 32 100 2262
for (size_t at = 0; at < 4800; at += length) rapidhash_stream_write(&stream, bytes + at, length); \
return 0;|1 16 100|182455 13555 6570
return rapidhash_v3_with_seed(bytes, length, length);|8 16 100 4096|30 30 73 1750
COUNTS
try_with words_of_the_header clang keeps_words_in_registers
for compiler in gcc clang; do try_with "attributes_$compiler" "$compiler" has_attributes "$compiler"; done
try_with fetched_by_cmake 'cmake make c++' fetches_by_cmake
try_with exported_by_cmake 'cmake make c++' exports_by_cmake
try_with manual_and_header mandoc manual_has_the_header
try_with preconditions_of_the_manual mandoc manual_has_the_preconditions

# The library that cc builds from the header, which replaces the proved one on other machines.
try header_build builds_from_the_header
try_with header_flags "gcc cmake c++ $multilib/libgcc.a" takes_the_flags
try header_killed survives_a_kill
try_with header_first_program c++ first_program_runs
test_library header_ cc "$room"/usr/lib/librapidhash_c.{a,so.1}
try_with header_shared pkg-config builds_by_pkg_config "$room/usr/lib"
try_with example_of_the_manual pkg-config manual_example_runs

# The proved library.
lacks rt >/dev/null || prepare_by make -s -C "$top" library
test_library '' rt "$top"/{crates/rapidhash_c/out/librapidhash_c.a,build/librapidhash_c.so.1}
try_with needed_library rt needs_the_c_library_alone
try_with build_id rt bash -c 'readelf -n "$1" | grep -E "^ *Build ID: [0-9a-f]{40}\$"' - "$shared"
try_with unwind_tables rt keeps_unwind_tables
try_with instructions 'rt cargo rustc valgrind' counts_instructions

finish
