"""Plants the faults of faults.tsv in the header, in Go's package and in the tool, and flips bits of the code of V3. In
the table a backslash and n are the end of a line, and `&` at the beginning is the old text."""

import csv
import os
import random
import shutil
from concurrent.futures import ThreadPoolExecutor
from contextlib import suppress
from hashlib import sha256
from pathlib import Path

import go
from argument import Hash, prove
from calls import show_calls
from cases import ROOM, TOP, shell
from elf import Elf
from linear import Assumed, Refusal, assume, linear, name
from streams import show_streams
from x86 import Machine

FOLDER = TOP / "tests" / "machine"
HEADER = TOP / "packages/c/include/rapidhash_c.h"
KEPT = Path(os.environ.get("KEPT", ROOM / "kept"))
MEMMOVE = 0x7FF00000  # its address in files that are linked here
FLAG = "#ifndef RAPIDHASH_LINK\n"  # before which faults have a variable
# What the reason has for a constant, a shift and a bound: the lengths, and the term. Only the constant's is always the
# same: of several differing terms the reason has any.
REASONS = {
    "a changed mask": ("length 0", "another term, with xor(12297829382473034411, ",
                       "and not xor(12297829382473034410, "),
    "a changed shift": ("length 1", "the hash is another term, with "),
    "a changed bound of the rows": ("lengths 224 + 112 * turns", "the hash is another term, with "),
}
FUNCTIONS = "rapidhash_v3_with_secrets", "rapidhash_v3_long_", "rapidhash_v3_with_rows_"
NATIVE = """import ctypes, random, sys
hash_of, draw = ctypes.CDLL(sys.argv[1]).rapidhash_v3_with_secrets, random.Random(1)
hash_of.restype, hash_of.argtypes = ctypes.c_uint64, [ctypes.c_char_p, ctypes.c_size_t, ctypes.c_char_p]
for length in [*range(400), *(draw.randrange(400, 9000) for _ in range(200))]:
    print(hash_of(draw.randbytes(length), length, draw.randbytes(64)))
"""


def built(command, folder=HEADER.parent, target="library", source="packages/c/rapidhash_c.c"):
    """Builds the C library by a command, and returns the file that the linker makes of the object. Objects are kept in
    a folder if there is one: each fault in the tool needs the same."""
    command, made = f"{command} -I{folder} -c {source}", f"{ROOM}/{target}.o"
    texts = command.replace(str(ROOM), ""), (folder / HEADER.name).read_text(), (TOP / source).read_text()
    kept = KEPT / sha256(repr(texts).encode()).hexdigest()
    if kept.exists():
        shutil.copy(kept, made)
    else:
        status, said = shell(f"{command} -o {made}")
        assert status == 0, said
        if KEPT.is_dir():
            shutil.copy(made, f"{kept}{os.getpid()}")
            os.rename(f"{kept}{os.getpid()}", kept)
    return linked(made, target, "aarch64-linux-gnu-ld" if "aarch64" in command else "ld")


def linked(objects, target, linker="ld"):
    """Links objects so that each section of theirs stays one, and its relocations are kept. The only functions that may
    be undefined are memmove, and one that nothing may call."""
    status, said = shell(f"{linker} -q -e 0 --unique='*' --defsym memmove={MEMMOVE} --defsym __stack_chk_fail=0"
                         f" -o $ROOM/{target} --whole-archive {objects}")
    assert status == 0, said
    return Elf(ROOM / target, MEMMOVE)


def shown(file, version="v3", form="_with_secrets", machine=Machine):
    """Returns how a hash is shown to be the definition, or nothing, and why it is not."""
    runner = machine(file)
    try:
        return prove(lambda: Hash(runner, version, form)), None
    except Refusal as refusal:
        return None, str(refusal)


def shown_streams(file, is_apart=False):
    """Returns the same of the streams of nano that hold one byte or all that they may."""
    reason = next(show_streams(file, "v3_nano", is_apart, (1, 48)), None)
    return None if reason else "1 and 48 bytes held", reason


def rows(ending):
    """Yields the faults in files with a name that ends so: the file, the name, the old and the new text."""
    for row in csv.DictReader(open(FOLDER / "faults.tsv"), delimiter="\t", quoting=csv.QUOTE_NONE):
        old, new = (row[column].replace("\\n", "\n") for column in ("old", "new"))
        if row["file"].endswith(ending):
            yield row["file"], row["fault"], old, old + new[1:] if new[:1] == "&" else new


def plant(source, target, old, new):
    """Writes a file with a fault."""
    text = source.read_text()
    assert old in text, old
    target.write_text(text.replace(old, new, 1))


def in_the_header(tell=None, command="gcc -O2", machine=Machine, counts=None):
    """Builds the header with each fault. Yields those that are not refused with the function, the length and the
    term. Another processor than x86-64 has neither those in assembly nor the streams and other calls."""
    is_other = machine != Machine
    for file, fault, old, new in rows(".h"):
        if is_other and ("asm" in new or fault.startswith(("a stream", "a call"))):
            continue
        if counts is not None:
            counts["planted"] = counts.get("planted", 0) + 1
        plant(HEADER, ROOM / file, old, new)
        plant(ROOM / file, ROOM / file, FLAG, "int rapidhash_flag_ = 3;\n" + FLAG)
        code = built(f"{command} -w", ROOM, "planted")
        if fault.startswith("a call"):
            shard = built(f"{command} -w", ROOM, "shard", "tests/machine/shard.c")
            reason = next(show_calls(machine(code), machine(shard)), None)
            yield from judge(fault, reason is None, reason, ["is another term"], tell)
        elif fault.startswith("a stream"):
            yield from judge(fault, *shown_streams(code), ["v3_nano"], tell)
        else:
            form = "" if fault == "a changed secret" else "_with_secrets"
            how, reason = shown(code, form=form, machine=machine)
            wanted = () if is_other else REASONS.get(fault, ())
            yield from judge(fault, how, reason, ["rapidhash_v3", ", length", *wanted], tell)


def in_the_package(tell=None):
    """Builds Go's package with each fault. Yields those that are not refused with the function and the length."""
    for file, fault, old, new in rows(".go"):
        folder = ROOM / "package"
        shell(f"rm -rf {folder} && cp -r {go.FOLDER} {folder}")
        plant(go.FOLDER / file, folder / file, old, new)
        how, reason = shown(go.Program(folder), machine=go.Machine)
        yield from judge(fault, how, reason, ["V3.Sum64WithSecrets, length"], tell)


def judge(fault, how, reason, wanted, tell):
    """Yields a fault that is accepted, or refused without the wanted words."""
    if how or not all(word in reason for word in wanted):
        yield f"{fault}: {reason}"
    elif tell:
        tell(f"# {fault}: {reason}")


def in_snippets(tools="", kinds={"C": Machine, "Go": go.Machine}):
    """Runs code that does what a hash must not. Yields what is not refused for its reason."""
    table = [row for row in csv.DictReader(open(FOLDER / "refused.tsv"), delimiter="\t", quoting=csv.QUOTE_NONE)
             if row["by"] in kinds]
    (ROOM / "refused.s").write_text(".intel_syntax noprefix\n" * (not tools) + "".join(
        f".text; .globl SELF; .type SELF, %function; SELF: {row['code']}; ret\n".replace("SELF", f"code{index}")
        for index, row in enumerate(table)))
    status, said = shell(
        f"cd $ROOM && {tools}gcc -c refused.s -o snippets.o && {tools}gcc -Os -c {FOLDER}/refused.c -o v1.o"
        f" && {tools}ld -shared -Bsymbolic -z notext --defsym memmove=0 -o changed.so snippets.o")
    assert status == 0, said
    file, length = linked("$ROOM/snippets.o $ROOM/v1.o", "snippets", f"{tools}ld"), linear(2000, {"turns": 112})
    for index, row in enumerate(table):
        machine, function = kinds[row["by"]](file), "V1.Sum64WithSecrets" if row["by"] == "Go" else f"code{index}"
        Assumed.low, Assumed.top = machine.low, machine.top
        assume(length, 0, 1 << 56)
        file.symbols[f"{go.PACKAGE}Version{function}"] = file.symbols.get(f"code{index}")
        try:
            machine.begin(function, [name("message"), length, name("secrets")], length, {"secrets": 64})
            reason = f"accepted: {machine.run()}, {machine.result()}"
        except Refusal as refusal:
            reason = str(refusal)
        yield from judge(row["what"], None, reason, [row["reason"]], None)
    yield from judge("V1 with its bug", *shown(file, "v1", machine=[*kinds.values()][0]), ["length 48"], None)
    data, first = (ROOM / "snippets").read_bytes(), 64 if tools else 120  # the header of the segment with the code
    headers = int.from_bytes(data[40:48], "little")
    for what, at, bit in [("a section that is not loaded", headers + 88, 16), ("code that may not run", first + 4, 1),
                          ("a segment over code", 64 + 41, 64)][:3 - bool(tools)]:
        (ROOM / "moved").write_bytes(data[:at] + bytes([data[at] ^ bit]) + data[at + 1:])
        with suppress(Refusal):
            yield f"{what}: {Elf(ROOM / 'moved')}"
    with suppress(Refusal):
        yield f"code that the loader changes: {Elf(ROOM / 'changed.so')}"


def in_bits(count, counts, seed=1):
    """Flips random bits of V3's code, one at a time. Yields those that are accepted although the hash is another."""
    draw, path, copy = random.Random(seed), ROOM / "flip.so", ROOM / "flipped.so"
    status, said = shell(f"gcc -O2 -fPIC -shared -Wl,-Bsymbolic -I{HEADER.parent} packages/c/rapidhash_c.c -o {path}")
    assert status == 0, said
    data, file = bytearray(path.read_bytes()), Elf(path)
    code = file.sections[next(label for label in file.sections if label.endswith(" .text"))]
    at_in_file = data.index(code.data)
    wanted = shell(f"python3 -c '{NATIVE}' {path}")
    for _ in range(count):
        start = file.symbols[draw.choice(FUNCTIONS)]
        end = min(other for other in file.symbols.values() if other > start)
        at = draw.randrange(start, end) - code.start + at_in_file
        bit = 1 << draw.randrange(8)
        data[at] ^= bit
        copy.write_bytes(data)
        data[at] ^= bit
        accepted = shown(Elf(copy))[0] is not None
        counts[accepted] = counts.get(accepted, 0) + 1
        if accepted and shell(f"ulimit -t 20; python3 -c '{NATIVE}' {copy}") != wanted:
            yield f"bit {bit} at {at:#x} of the file is accepted"


def said_with(fault):
    """Runs the tool's own tests with a fault in a copy of the tool. Returns the status and what they print."""
    index, (file, _, old, new) = fault
    folder = ROOM / f"tool{index}"
    assert (FOLDER / file).read_text().count(old) == 1, old
    shell(f"cp -r {FOLDER} {folder}")
    plant(FOLDER / file, folder / file, old, new)
    return shell(f"{folder}/machine.py tool", KEPT=str(KEPT))


def in_the_tool(tell=None):
    """Plants each fault in the tool. Yields those that no test sees."""
    KEPT.mkdir(exist_ok=True)
    yield from ["the tests fail without a fault"] * (shell(f"{FOLDER}/machine.py tool", KEPT=str(KEPT))[0] != 0)
    faults = [*rows(".py")]
    with ThreadPoolExecutor(os.cpu_count()) as pool:
        for (_, fault, *_), (status, said) in zip(faults, pool.map(said_with, enumerate(faults))):
            if status == 0:
                yield fault
            elif tell:
                tell(f"# {fault}: {[line for line in said.splitlines() if line[:3] != 'ok '][:2]}"[:200])
