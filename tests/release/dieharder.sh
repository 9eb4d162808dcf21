#!/usr/bin/env bash
# Runs tests of Debian's dieharder over the generator, and over hashes of a counter: V3, nano, and the in-memory hasher
# with the avalanche. FNV-1a is the control, which must fail. Not part of the gate, because it takes some minutes. It
# needs Debian's dieharder and libxxhash-dev. Dieharder refuses a p-value below a millionth.
. "$(dirname "$0")/../cases.sh"
# Birthdays, ranks of matrices, ones in bytes, parking, spheres, runs and craps; NIST's monobits, runs and serial pairs;
# distributions of 4 bits, and lagged sums.
chosen='-d 0:-d 2:-d 3:-d 8:-d 10:-d 11:-d 15:-d 16:-d 100:-d 101:-d 102:-d 200 -n 4:-d 203 -n 4'

# Builds a program that prints the hashes of 0, 1, 2 and so on, without end, of the subject with a name.
build() {
  local rustc=(rustc --edition=2021 -O) library=$top/packages/rust/src/lib.rs
  cd "$room" && "${rustc[@]}" --crate-type=rlib --crate-name=rapidhash --cfg='feature="std"' "$library" &&
    "${rustc[@]}" --crate-type=staticlib --extern=rapidhash=librapidhash.rlib "$top/bench/quality.rs" &&
    sed 's/^int main(/int quality(/' "$top/bench/quality.c" >stream.c && cat >>stream.c <<'PROGRAM' &&

int main(int count, char **arguments)
{
    static uint64_t hashes[1 << 13];
    int i = 0;
    while (count == 2 && i < SUBJECTS && strcmp(subjects[i].name, arguments[1]) != 0)
        i++;
    if (i >= SUBJECTS || count != 2)
        return quality(0, arguments);
    for (uint64_t k = 0;; k += 1 << 13) {
        for (uint64_t j = 0, number = k; j < 1 << 13; j++, number++)
            hashes[j] = subjects[i].call(&number, subjects[i].call == generator ? 0 : 8, number);
        if (fwrite(hashes, sizeof hashes, 1, stdout) != 1)
            return 1;
    }
}
PROGRAM
    cc -std=c99 -O2 -DWITH_OTHERS -I "$top/packages/c/include" stream.c libquality.a -lm -o stream
}

# Prints the tests of dieharder that a subject's words fail or that give no verdict. Fails if there are any: NAME TESTS
passes() {
  local test words
  tr : '\n' <<<"$2" | while read -r test; do
    read -ra words <<<"$test"
    "$room/stream" "$1" 2>/dev/null | dieharder -g 200 "${words[@]}" | grep -E 'PASSED|WEAK|FAILED' ||
      echo 'FAILED: no verdict'
  done >"$room/verdicts"
  ! grep FAILED "$room/verdicts"
}

refuses() { ! passes "$@" && ! grep 'no verdict' "$room/verdicts"; }

needs dieharder rustc cc /usr/include/xxhash.h
prepare_by build
for name in generator v3 nano quality; do
  try "$name" passes "$name" "$chosen"
  grep WEAK "$room/verdicts" | sed 's/^/# /'
done
try 'FNV-1a is refused' refuses fnv1a '-d 0:-d 2:-d 200 -n 4'
finish
