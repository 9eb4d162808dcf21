"""Compares the rules of instructions with a processor. Random encodings that have a rule run in a program of their own,
from random words, vectors and memory: none may do anything else, and none may fault."""

import itertools
import random
import struct

import arm64
import x86
from cases import ROOM, shell
from linear import MASK, Refusal
from operands import NAMES, Place, holds

STATE, SPACE, SIZE = 1 << 28, 1024, 512  # the address of a state, where memory is in it, and the bytes of that
PROGRAM = """#include <stdio.h>
#include <sys/mman.h>
void run(const void *code);
extern const void *const codes[];
int main(void)
{{
    void *state = mmap((void *){state}, 4096, PROT_READ | PROT_WRITE, MAP_PRIVATE | MAP_ANONYMOUS | MAP_FIXED, -1, 0);
    setvbuf(stdout, 0, _IONBF, 0);
    for (int i = 0; fread(state, {size}, 1, stdin) == 1; i++) {{
        run(codes[i]);
        fwrite(state, {size}, 1, stdout);
    }}
}}
"""

class Alone:
    """Is mixed with a machine, which runs code at the address 16 alone, with the space of a state as its memory."""
    memmove, extensions, relocated, anchors, place = None, x86.EXTENSIONS, frozenset(), {}, None

    def __init__(self, code):
        super().__init__(self)
        self.read = lambda at, size: code[at - 16:at - 16 + size]

    def is_aligned(self, address):
        return address % 16 == 0

    @staticmethod
    def section_at(_):
        return ("",)

    @staticmethod
    def kind(_):
        return ""

    def locate(self, address, size, is_write=False):
        if not SPACE <= address - STATE <= SPACE + SIZE - size:
            raise Refusal("outside of the space")
        return "space", address


class X86(Alone, x86.Machine):
    """Compares r8 and r9 before an instruction, which then knows all flags."""
    compiler, emulator, jump, before = "gcc -no-pie", "", "jmp", bytes.fromhex("4d39c8")
    place_of_memory, leaving = Place, ("call", "ret")
    FLAGS = {"b": lambda f: f & 1, "e": lambda f: f >> 6 & 1, "s": lambda f: f >> 7 & 1,
             "l": lambda f: (f >> 7 ^ f >> 11) & 1, "be": lambda f: (f | f >> 6) & 1,
             "le": lambda f: (f >> 6 | f >> 7 ^ f >> 11) & 1}
    moves = [(row.split()[0], 8 * index, "mov") for index, row in enumerate(NAMES)] + [
        (f"xmm{index}", 256 + 16 * index, "movdqu") for index in range(16)]
    assembly = "\n".join([
        ".intel_syntax noprefix; run: push rbx; push rbp; push r12; push r13; push r14; push r15",
        f"mov [{STATE + 776}], rsp; mov [{STATE + 784}], rdi",
        *(f"{move} {register}, [{STATE + place}]" for register, place, move in moves), f"jmp [{STATE + 784}]",
        "end:", *(f"{move} [{STATE + place}], {register}" for register, place, move in moves),
        f"mov rsp, [{STATE + 776}]; pushfq; pop [{STATE + 768}]",
        "pop r15; pop r14; pop r13; pop r12; pop rbp; pop rbx; ret\n"])

    @staticmethod
    def encodings(draw):
        """Yields random encodings: prefixes, perhaps a REX before or after them, an opcode, and what follows it."""
        prefixes = ["", "", "", "66", "f3", "f2", "f0", "f366", "66f3", "6666", "f0f3", "2e", "67"]
        while True:
            opcode = draw.choice([f"{draw.randrange(256):02x}", draw.choice(LONG), f"c4{draw.choice(('e2', '42'))}"
                                  f"{128 + 8 * draw.randrange(16) + 3:x}f6"])
            rex = draw.choice(["", "", "48", "4c", f"{draw.randrange(0x40, 0x50):x}"])
            prefix = draw.choice(prefixes)
            order = rex + prefix if draw.random() < .1 else prefix + rex
            follows = draw.choice(["", "c0", "fa", "24", "f83f"])
            yield bytes.fromhex(order + opcode + follows) + draw.randbytes(10)

    def aim(self, place, draw):
        """Sets the registers of an operand in memory so that it lies in the space, aligned if it has 128 bits."""
        if not place.terms:
            return
        (base, scale), *others = place.terms
        at = STATE + SPACE + 16 * draw.randrange(4, 12) + draw.randrange(16) * (place.bits < 128)
        for index, _ in others:
            self.words[index] = draw.randrange(8)
        rest = sum(self.words[index] * times for index, times in others)
        self.words[base] = MASK & (
            self.words[base] - place.start % 16 if base == x86.RSP else (at - place.start - rest) // scale)

    def fill(self, draw):
        self.vectors = [list(draw.randbytes(16)) for _ in range(16)]

    def image(self):
        return struct.pack("<16Q128x", *self.words) + bytes(sum(self.vectors, [])).ljust(512, b"\0")


class Arm64(Alone, arm64.Machine):
    """Compares x8 and x9 before an instruction, which has none of the registers 28, 29 and 30."""
    compiler, emulator, jump, before = "aarch64-linux-gnu-gcc", "qemu-aarch64", "b", bytes.fromhex("1f0109eb")
    place_of_memory, leaving = arm64.Place, ("b", "bl", "ret", "cbz", "cbnz", "adrp", "nop")
    FLAGS = {"b": lambda f: ~f >> 29 & 1, "e": lambda f: f >> 30 & 1, "s": lambda f: f >> 31 & 1,
             "l": lambda f: (f >> 31 ^ f >> 28) & 1, "be": lambda f: (~f >> 29 | f >> 30) & 1,
             "le": lambda f: (f >> 30 | f >> 31 ^ f >> 28) & 1}
    pairs = [(index, index + 1) for index in range(0, 28, 2)]
    kept = [(19, 20), (21, 22), (23, 24), (25, 26), (27, 28), (29, 30)]
    assembly = "\n".join([
        "run: sub sp, sp, 96", *(f"stp x{one}, x{two}, [sp, {8 * one - 152}]" for one, two in kept),
        f"mov x29, {STATE}; mov x30, x0; mov x28, sp; str x28, [x29, 776]; ldr x28, [x29, 248]; mov sp, x28",
        *(f"ldp x{one}, x{two}, [x29, {8 * one}]" for one, two in pairs), "br x30",
        "end:", *(f"stp x{one}, x{two}, [x29, {8 * one}]" for one, two in pairs),
        "mrs x28, nzcv; str x28, [x29, 768]; mov x28, sp; str x28, [x29, 248]; ldr x28, [x29, 776]; mov sp, x28",
        *(f"ldp x{one}, x{two}, [sp, {8 * one - 152}]" for one, two in kept), "add sp, sp, 96; ret\n"])

    @staticmethod
    def encodings(draw):
        """Yields random encodings: of known instructions with other registers and fields, and perhaps another bit."""
        while True:
            word, fields = int(draw.choice(WORDS), 16), [*range(28), 31, 31]
            kept = draw.choice([0, 0, 0xFC00, 0x7C00, 0x1FFC00, 0x1FFFFF])
            word |= draw.getrandbits(22) & kept & ~(0x7C00 if word >> 24 == 0x9B and word & 0x7C00 else 0)
            for at in (0, 5, 16):
                word = word & ~(31 << at) | draw.choice(fields) << at if not kept >> at & 1 else word
            yield (word ^ (draw.random() < .2) << draw.randrange(32)).to_bytes(4, "little")

    def decode(self, at):
        decoded = super().decode(at)
        those = [one.base if isinstance(one, arm64.Place) else one for one in decoded[1]]
        those += [one.more for one in decoded[1] if isinstance(one, arm64.Place)]
        if {28, 29, 30} & {getattr(one, "index", None) for one in those}:
            raise Refusal("a register of the program that compares")
        return decoded

    def aim(self, place, draw):
        """Sets the registers of an operand in memory so that it lies in the space."""
        if isinstance(place.more, arm64.Register) and place.more.index is not None:
            self.words[place.more.index] = draw.randrange(64)
        if place.base.index != arm64.SP:
            more = 0 if place.after is not None else place.more.read()
            self.words[place.base.index] = STATE + SPACE + draw.randrange(SIZE - 16) - more & MASK

    def fill(self, draw):
        self.words[arm64.SP] = STATE + SPACE + 256

    def image(self):
        return struct.pack("<32Q", *self.words) + bytes(512)


# The instructions of AArch64 with a rule, with all fields 0.
WORDS = """ca000000 4a000000 aa000000 2a000000 8b000000 0b000000 cb000000 4b000000 91000000 11000000 d1000000 51000000
eb00001f 6b00001f f100001f 7100001f eb000000 f1000000 9b000000 1b000000 9b007c00 9bc07c00 aa0003e0 2a0003e0 d2800000
f2800000 52800000 92800000 b2400000 d340fc00 53007c00 d3400000 53000000 9ac02400 9ac02000 b3400000 33000000 f9400000
f8400400 f8400c00 f8400000 f8606800 b9400000 b8400400 b8606800 39400000 38400000 38606800 38401400 f9000000 f8000c00
b9000000 f8206800 a9400000 a8c00000 a9c00000 29400000 a9000000 a8800000 a9800000 d503201f""".split()
# The opcodes of two and three bytes that have rules, and rare ones.
LONG = [f"0f{one:02x}" for one in (
    0x10, 0x11, 0x1E, 0x1F, 0x28, 0x29, *range(0x40, 0x50), 0x57, *range(0x6C, 0x71), 0x7E, 0x7F, *range(0x90, 0xA0),
    0xAF, 0xB6, 0xB7, 0xD6, 0xEF)] + ["0f3a16", *["f7", "d1", "c1", "c9"] * 3]


def prepared(kind, code, draw):
    """Returns an instruction's text, a random state, and the machine that has run it, or nothing if it is refused."""
    machine = kind(kind.before + code)
    try:
        decoded = [machine.decode(16), machine.decode(16 + len(kind.before))]
        places = [STATE + SPACE + 128 + 8 * draw.randrange(32) for _ in range(2)]
        machine.words = [draw.choice([0, 1, MASK, 1 << 63, 1 << 31, 255, *places, *map(draw.getrandbits, (64, 32, 8))])
                         for key in machine.keys if len(key) == 2]
        machine.fill(draw)
        for place in decoded[1][1]:
            if isinstance(place, machine.place_of_memory):
                machine.aim(place, draw)
        start, space = machine.image(), draw.randbytes(SIZE)
        machine.memory = {("space", STATE + SPACE + at): one for at, one in enumerate(space)}
        for rule, operands, machine.after, _ in decoded:
            rule(machine, *operands)
    except (Refusal, AttributeError, TypeError):
        return None
    return decoded[1][3], start.ljust(SPACE, b"\0") + space, machine


def chosen(kind, each, draw):
    """Returns so many prepared encodings of each rule, and the rules of which there is none."""
    found = {text: [] for text in kind.rules if text not in kind.leaving and text[0] != "j" and text[:2] != "b."}
    for code in itertools.islice(kind.encodings(draw), 50_000 + 2000 * each):
        one = next(kind.reader.disasm(code, 16), None)
        these = found.get(one.mnemonic if one else None, range(each))
        if len(these) < each and (ready := prepared(kind, bytes(one.bytes), draw)):
            these.append((bytes(one.bytes), *ready))
    return sum(found.values(), []), [text for text, these in found.items() if not these]


def ran(kind, codes, states):
    """Runs codes on the processor, each from its state. Yields the states after them, until one faults."""
    lines = [kind.assembly, *(f"code{index}: .byte {','.join(map(str, kind.before + code))}\n{kind.jump} end"
                              for index, code in enumerate(codes)), ".data", ".globl run, codes", "codes:",
             *(f".quad code{index}" for index in range(len(codes))), ".section .note.GNU-stack\n"]
    (ROOM / "codes.s").write_text("\n".join(lines))
    (ROOM / "codes.c").write_text(PROGRAM.format(state=STATE, size=SPACE + SIZE))
    (ROOM / "states").write_bytes(b"".join(states))
    status, said = shell(f"cd $ROOM && {kind.compiler} -static -w -o codes codes.s codes.c && "
                         f"({kind.emulator} ./codes <states >states.after || true)")
    assert status == 0, said
    data = (ROOM / "states.after").read_bytes()
    yield from (data[at:at + SPACE + SIZE] for at in range(0, len(data), SPACE + SIZE))


def processor_agrees(kind=X86, each=25, seed=1, counts=None):
    """Compares encodings of each rule with the processor. Yields what differs or faults."""
    ready, missing = chosen(kind, each, random.Random(seed))
    yield from [f"no encoding of {' '.join(missing)}"] * bool(missing)
    codes, texts, states, machines = zip(*ready)
    after = [*ran(kind, codes, states)]
    for code, text, machine, found in zip(codes, texts, machines, after):
        if found[:768] != machine.image() or found[SPACE:] != bytes(machine.memory.values()):
            yield f"{text} ({code.hex()}) differs"
        flags, = struct.unpack_from("<Q", found, 768)
        wrong = [one for one, real in kind.FLAGS.items() if machine.flags and holds(machine, one) != real(flags)]
        yield from [f"{text} ({code.hex()}) has other flags: {wrong}"] * bool(wrong)
    yield from [f"{text} ({code.hex()}) faults" for code, text, *_ in ready[len(after):][:1]]
    if counts is not None:
        counts[kind.__name__] = len(after)
