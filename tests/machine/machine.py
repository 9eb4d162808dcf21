#!/usr/bin/python3
# reads: tests/machine packages/c packages/go packages/archive crates docs/ALGORITHM.md docs/MACHINE.md tests/model.py
"""Shows that compiled hashes are the definition for every length (docs/MACHINE.md), and tests the tool that shows it.
The gate checks V3 by gcc, Go and the kit. An argument names what a release needs besides: a part of PARTS. With `tool`,
only the tool is tested, up to the first failure. `write` writes the page's table. -v shows why a fault is refused."""

import os
import sys
import time
from pathlib import Path

TOP = Path(os.environ.get("YERVOUND", Path(__file__).parents[2]))
sys.path.insert(0, str(TOP / "tests"))
from cases import ROOM, finish, lacks, needs, results, shell, skip, tell  # noqa: E402

needs("gcc", "readelf", "/usr/lib/python3/dist-packages/capstone")
import arm64  # noqa: E402
import engine  # noqa: E402
import faults  # noqa: E402
import go  # noqa: E402
import instructions  # noqa: E402
import shipped  # noqa: E402
import tool  # noqa: E402
import webassembly  # noqa: E402
from argument import FORMS  # noqa: E402
from calls import show_calls  # noqa: E402
from elf import Elf  # noqa: E402
from model import VERSIONS  # noqa: E402
from streams import LANES, show_streams  # noqa: E402
from x86 import EXTENSIONS, Machine  # noqa: E402

MODE = sys.argv[1] if len(sys.argv) > 1 else "gate"
KIT, UNBUILT = TOP / "crates/rapidhash_c/out/librapidhash_c.a", "make has not built the library"
SETTINGS = ("clang -O2", "gcc -O1", "gcc -O3", "gcc -Os", "gcc -O2 -march=x86-64-v3", "clang -O1", "clang -O3",
            "clang -Os")
ARM64_TOOLS = "aarch64-linux-gnu-gcc", "/usr/aarch64-linux-gnu/include/stdio.h", "qemu-aarch64"
ARM64 = ["aarch64-linux-gnu-gcc -O2"] + ["clang --target=aarch64-linux-gnu -O2"] * (not lacks("clang"))
DEBIAN = "gcc -std=c99 -fPIC $(dpkg-buildflags --get CPPFLAGS) $(dpkg-buildflags --get CFLAGS)"
# Modules with the C header: what builds them, and the names of their functions with the arguments of C.
OWN = {"_with_seed": "rapidhash_{version}_with_seed", "": "default_{version}"}
MODULES = {
    "SQLite's module": ("make -s sqlite", TOP / "build/rapidhash.so", OWN),
    "PostgreSQL's module": ("make -s postgresql", TOP / "build/postgresql/rapidhash.so", OWN),
    "Python's module": ("make -s wheel && python3 -m zipfile -e build/wheels/*.whl $ROOM",
                        ROOM / "rapidhash/_extension.abi3.so",
                        dict.fromkeys(FORMS, "rapidhash_{version}{form}") | {FORMS[0]: "with_secrets_{version}"}),
}
detail = print if "-v" in sys.argv else None


def case(name, *findings, what=""):
    """Prints a case. With the argument `tool` the script ends at the first that fails."""
    tell(name, *findings)
    if what:
        print(f"# {what}")
    if MODE == "tool" and not results[-1]:
        finish()


def check(by, file, versions=VERSIONS, forms=FORMS, **options):
    for version, form in ((version, form) for version in versions for form in forms):
        began = time.process_time()
        how, reason = faults.shown(file, version, form, **options)
        case(f"{version}{form} by {by}", *[reason] * (how is None), what=f"{how}: {time.process_time() - began:.1f} s")


def check_streams(by, file, is_apart=False, versions=LANES):
    if file is None:
        skip(f"streams by {by}", lacks("rt") or UNBUILT)
    for version in versions if file else ():
        began = time.process_time()
        findings = list(show_streams(file, version, is_apart))
        case(f"streams of {version} by {by}", *findings, what=f"{time.process_time() - began:.1f} s")


def check_some_streams(by, file, is_apart=False):
    case(f"streams by {by} that hold 1 or 48 bytes", *filter(None, [faults.shown_streams(file, is_apart)[1]]))


def check_calls(by, file, command=None, machine=Machine):
    """Checks the secrets of a seed in a file, and a shard that a command builds, or one of these."""
    shard = command and machine(faults.built(command, target="shard", source="tests/machine/shard.c"))
    what = " and ".join(["secrets of a seed"] * bool(file) + ["a shard"] * bool(command))
    case(f"{what} by {by}", *show_calls(file and machine(file), shard))


def check_library():
    """Checks all versions and calls by each compiler and setting."""
    check("gcc", gcc)
    if kit:
        check("the kit", kit)
        check_calls("the kit", kit)
    if reason := lacks("dpkg-buildflags"):
        skip("Debian's flags", reason)
    else:
        check("gcc with Debian's flags", debian := faults.built(DEBIAN))
        check_calls("gcc with Debian's flags", debian, DEBIAN)
    for command in SETTINGS:
        if reason := lacks(command.split()[0]):
            skip(command, reason)
        else:
            file = faults.built(command)
            file.extensions = EXTENSIONS if "x86-64-v3" in command else ()
            check(command, file, forms=FORMS if command == "clang -O2" else FORMS[:1])
            if command == "clang -O2":
                check_calls(command, file, command)


def check_arm64():
    """Checks all versions and calls by each compiler for AArch64, plants faults, and compares more instructions."""
    counts = {}
    for command in ARM64 if arm else ():
        check(command, faults.built(command), machine=arm64.Machine)
        check_calls(command, None, command, arm64.Machine)
    if not arm:
        skip("AArch64", lacks(*ARM64_TOOLS))
        return
    case("faults in the header for AArch64", *faults.in_the_header(detail, ARM64[0], arm64.Machine, counts))
    case("more instructions on AArch64", *instructions.processor_agrees(instructions.Arm64, 400, 2, counts))
    print(f"# {counts}")


def check_packages():
    """Checks what is shipped for other languages."""
    if reason := lacks("clang", "wasm-ld", "wasm-validate"):
        skip("WebAssembly", reason)
    else:
        shell("make -s wasm")
        module = webassembly.Module(TOP / "build/rapidhash.wasm")
        check("WebAssembly", module, forms=FORMS[:1], machine=webassembly.Machine)
    for by, (command, path, names) in MODULES.items():
        status, said = shell(command)
        case(f"build of {by}", *[said] * (status != 0))
        file = Elf(path)
        file.names = names
        case(f"{by} with and without symbols", *shipped.differs_when_stripped(path))
        check(by, file, forms=names)
    if program:
        check("Go", program, go.VALUES, machine=go.Machine)
        check("Go, of a string", program, go.VALUES, machine=go.TextMachine)


def plant():
    """Plants faults in Go's package, in the code and in the tool, and compares more instructions."""
    counts = {}
    if program:
        case("faults in Go's package", *faults.in_the_package(detail))
    case("flipped bits of the code", *faults.in_bits(300, counts, 2), what=f"accepted or not: {counts}")
    case("faults in the tool", *faults.in_the_tool(detail))
    case("more instructions on this processor", *instructions.processor_agrees(each=400, seed=2, counts=counts))
    print(f"# compared: {counts}")


def check_gate():
    """Tests the tool, and checks V3."""
    counts, only_tool = {}, MODE == "tool"
    if not only_tool:
        case("the table of what is published", *shipped.disagreements(PARTS))
    case("rules for terms", *tool.rules_hold(), *tool.orders_hold())
    case("instructions on this processor", *instructions.processor_agrees())
    if reason := lacks("wasm-validate", "node"):
        skip("WebAssembly's instructions by node", reason)
    else:
        case("WebAssembly's instructions by node", *engine.engine_agrees())
    case("code that must be refused", *faults.in_snippets())
    if program:
        read = [label for label in program.sections if program.constant(label, 0) is not None]
        case("constants of a Go program", *read)
    if arm:
        case("code for AArch64 that must be refused", *faults.in_snippets(
            "aarch64-linux-gnu-", {"AArch64": arm64.Machine}))
        case("instructions on AArch64", *instructions.processor_agrees(instructions.Arm64))
        check("gcc for AArch64", arm, ["v3"], FORMS[:1], machine=arm64.Machine)
    else:
        skip("AArch64", lacks(*ARM64_TOOLS))
    check("gcc", gcc, ["v3"], FORMS[:1] if only_tool else FORMS)
    check_calls("gcc", gcc, "gcc -O2")
    check_some_streams("gcc", gcc)
    case("faults in the header", *faults.in_the_header(detail))
    if not only_tool:
        case("some flipped bits of the code", *faults.in_bits(20, counts), what=f"accepted or not: {counts}")
        for by, file, forms, machine, reason in (("Go", program, FORMS[:1], go.Machine, lacks("go")),
                                                 ("the kit", kit, FORMS, Machine, lacks("rt") or UNBUILT)):
            if file:
                check(by, file, ["v3"], forms, machine=machine)
            else:
                skip(f"v3 by {by}", reason)
        if kit:
            check_some_streams("the kit", kit, True)
        else:
            skip("some streams by the kit", lacks("rt") or UNBUILT)


PARTS = {
    "library": check_library,
    "streams-gcc": lambda: check_streams("gcc", gcc),
    "streams-kit": lambda: check_streams("the kit", kit, True, ["v3"]),
    "streams-kit-small": lambda: check_streams("the kit", kit, True, [*LANES][1:]),
    "streams-clang": lambda: check_streams("clang -O2", faults.built("clang -O2")),
    "arm64": check_arm64,
    "modules": check_packages,
    "faults": plant,
    "write": shipped.write,
}
gcc = faults.built("gcc -O2")
kit = faults.linked(KIT, "kit") if KIT.exists() else None
if kit:
    kit.extensions = ("pextrq",)  # it is for x86-64-v2
program = None if lacks("go") else go.Program()
arm = None if lacks(*ARM64_TOOLS) else faults.built(ARM64[0], target="arm64")
PARTS.get(MODE, check_gate)()
finish()
