#!/usr/bin/env python3
# reads: tests/formulas packages/c packages/go packages/java packages/rust crates
"""Compares each implementation of the hashes with the Rust crate as formulas: see tests/formulas/main.rs. The crate is
the proved source without its contracts, here over random loads and a random product. Fails if the number of formulas is
not that of the lengths in docs/PROVED.md. The arguments select subjects, of which all are compared without any."""

import re
import shutil
import sys
from pathlib import Path

sys.path.insert(0, str(Path(__file__).parents[1]))
from cases import ROOM, TOP, finish, lacks, needs, shell, skip, tell  # noqa: E402

FOLDER = TOP / "tests" / "formulas"
C = ("-std=c99 -Wall -Wextra -Werror -Wno-unused-function '-DRAPIDHASH_PRIMITIVES=\"primitives.h\"' -include assert.h"
     " -DRAPIDHASH_ASSERT=assert -I$YERVOUND/packages/c/include -I$YERVOUND/tests/formulas"
     " $YERVOUND/tests/formulas/subject.c")
CPP = "-x c++ " + C.replace("c99", "c++17")
JAVA = ("mkdir java && cp -r $YERVOUND/packages/java/src/main/java/. $YERVOUND/packages/java/src/formulas/java/. java"
        " && rm java/module-info.java && javac --release 11 -d classes $(find java -name '*.java')")
SANITIZERS = "/usr/lib/llvm-*/lib/clang/*/lib/linux/libclang_rt.fuzzer-x86_64.a"
GO = ("cp -r $YERVOUND/packages/go package && cp $YERVOUND/tests/formulas/go/* package && cd package &&"
      " export GOCACHE=$ROOM/cache GOPROXY=off && go vet . && go test -c -o ../go && cd ..")


def rust(rustc, name):
    """Returns the commands that build the Rust crate and its subject with a compiler, which build.rs asks what it
    lacks."""
    return (f"{rustc} --edition 2021 $YERVOUND/packages/rust/build.rs -o {name}_script && {rustc} -O --edition 2021"
            f" --crate-type rlib --crate-name rapidhash --cap-lints allow --cfg 'feature=\"std\"'"
            f" $(RUSTC={rustc} ./{name}_script | sed -n 's/^cargo:rustc-cfg=/--cfg /p') crate/lib.rs -o lib{name}.rlib"
            f" && {rustc} -O --edition 2021 --extern rapidhash=lib{name}.rlib"
            f" $YERVOUND/tests/formulas/subject.rs -o {name}")


# The subjects: name, kind, the tools that it needs, and the commands that build and run it in the directory ROOM.
SUBJECTS = [
    ("c_gcc", "native", "gcc", f"gcc -O2 {C} -o c_gcc", "./c_gcc"),
    ("c_clang", "native", f"clang {SANITIZERS}", f"clang -O1 -fsanitize=address,undefined {C} -o c_clang", "./c_clang"),
    ("c_tcc", "native", "tcc", f"tcc {C} -o c_tcc", "./c_tcc"),
    ("cpp_constexpr", "v3", "g++", f"g++ -O2 {CPP} -o cpp_constexpr", "./cpp_constexpr"),
    ("rust_debian", "kernels", "/usr/bin/rustc", rust("/usr/bin/rustc", "rust_debian"), "./rust_debian"),
    ("go", "native", "go", GO, "./go"),
    ("java", "native", "javac java", JAVA, "java -cp classes example.yervound.rapidhash.Formulas"),
    ("java_direct", "native", "javac java", "true", "java -cp classes example.yervound.rapidhash.Formulas direct"),
]
# The lengths in docs/PROVED.md: of packages, of streams that are cut in two and at four offsets, and of the Rust crate.
TOLD = (TOP / "docs" / "PROVED.md").read_text().partition("## Compared as formulas")[2].partition("Equal formulas")[0]
NATIVE, CUT, CUTS, CRATE, CRATE_V3 = (int(it.replace(",", "")) for it in re.findall(r"\bup to ([\d,]+)", TOLD))
# How often a subject of each kind has slices, of which those up to 16 bytes are compared 64 times each, and streams.
STREAMS = (CUT + 1) * (CUT + 2) // 2 + CUTS + 1
COUNTS = {"native": 8 * (17 * 64 + NATIVE - 16) + 3 * STREAMS, "v3": 17 * 64 + NATIVE - 16,
          "kernels": 46 * (17 * 64 + CRATE - 16) + 10 * (17 * 64 + CRATE_V3 - 16) + 12 * STREAMS}


def copy_crate():
    """Copies the Rust crate over random reads and a random product, which no constant function can call. Those that
    make a stream call neither."""
    folder = shutil.copytree(TOP / "packages" / "rust" / "src", ROOM / "crate")
    for path in folder.rglob("*.rs"):
        if path.name not in ("held.rs", "stream.rs", "folded.rs"):
            path.write_text(re.sub(r"\bconst fn\b", "fn", path.read_text()))
    shutil.copy(FOLDER / "util.rs", folder / "proved")


needs("rustc")
copy_crate()
status, output = shell(f"rustc -O --edition 2021 {FOLDER}/main.rs -o compare && {rust('rustc', 'rust')}", ROOM)
if status:
    tell("build", output[-2000:])
    finish()
for name, kind, program, build, run in SUBJECTS:
    if sys.argv[1:] and name not in sys.argv[1:]:
        continue
    if reason := lacks(*program.split()):
        skip(name, reason)
        continue
    status, output = shell(f"{build} && ./compare {kind} ./rust {run}", ROOM)
    is_whole = output.endswith(f"{COUNTS[kind]} formulas compared, 0 differ\n")
    tell(name, *[output[-2000:] or "no output"] * (status != 0 or not is_whole))
finish()
