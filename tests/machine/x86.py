"""Runs x86-64 instructions of a file over terms. RULES has every instruction that is known; all others are refused."""

import capstone

from linear import Refusal, add, known, make, parts, subtract
from operands import OPPOSITES, Number, holds, operand_of
from runner import Runner
from terms import bit_and, bit_or, join, low_bits, multiply, shift_left, shift_right, sign, split, xor

RAX, RDX, RSP, RBP, RSI, RDI, SAVED = 0, 2, 4, 5, 6, 7, (3, 5, 12, 13, 14, 15)
VECTORS = [("word", "vector", index, half) for index in range(16) for half in (0, 1)]
KEYS = [("word", index) for index in range(16)] + VECTORS  # of the words of a state


# Instructions. A rule is called with the machine and the operands. It returns the next address if that is another.
def calculation(operation, compute, is_kept=True):
    """Returns the rule of an instruction that sets flags, and keeps its result or not."""
    def rule(machine, to, by):
        first, second = to.read(), by.read()
        if not is_kept and operation == "subtract" and not (parts(first) and parts(second)):
            raise Refusal(f"a comparison of contents: {first} and {second}")
        result = low_bits(compute(first, second), to.bits)
        machine.flags = operation, first, second, result, to.bits
        if is_kept:
            to.write(result)
    return rule


def change(compute):
    """Returns the rule of an instruction that changes a word, and after which no flag is known."""
    def rule(machine, to, *by):
        to.write(low_bits(compute(to.read(), *(operand.read() for operand in by)), to.bits))
        machine.flags = None
    return rule


def shift(compute):
    def rule(machine, to, by):
        if not known(by.read()) or not 0 < by.read() < to.bits:
            raise Refusal("a shift by zero or by an unknown number of bits")
        change(compute)(machine, to, by)
    return rule


def demand_64(operand):
    if operand and operand.bits != 64:
        raise Refusal(f"an operand of {operand.bits} bits")


def push(machine, operand):
    demand_64(operand)
    word, machine.words[RSP] = operand.read(), add(machine.words[RSP], -8)
    machine.store_bytes(machine.words[RSP], split(word))


def pop(machine, operand=None):
    demand_64(operand)
    word, machine.words[RSP] = machine.load(machine.words[RSP], 8), add(machine.words[RSP], 8)
    return operand.write(word) if operand else word


def leave(machine):
    machine.words[RSP] = machine.words[RBP]
    machine.words[RBP] = pop(machine)


def call(machine, target):
    place = target.read()
    push(machine, Number(machine.file.place(machine.after, [machine.at]), 64))
    return place


def product(machine, by):
    demand_64(by)
    machine.words[RAX], machine.words[RDX] = multiply(machine.words[RAX], by.read())
    machine.flags = None


def product_of_rdx(machine, high, low, by):
    demand_64(by)
    halves = multiply(machine.words[RDX], by.read())
    low.write(halves[0])
    high.write(halves[1])


def exchange(machine, one, other):
    word = one.read()
    one.write(other.read())
    other.write(word)


def shift_signed(machine, to, by):
    demand_64(to)
    shift(sign)(machine, to, by)


def move_half(machine, to, by):
    """Moves 64 bits to or from a vector, whose upper half becomes 0."""
    low = by.read()[:8] if by.bits == 128 else split(by.read())
    to.write(low + [0] * 8 if to.bits == 128 else join(low))


def xor_vectors(machine, to, by):
    halves = [xor(join(to.read()[at:at + 8]), join(by.read()[at:at + 8])) for at in (0, 8)]
    to.write(split(halves[0]) + split(halves[1]))


def shuffle(machine, to, by, order):
    to.write([one for index in range(4) for one in by.read()[4 * (order.read() >> 2 * index & 3):][:4]])


def memmove(machine):
    """Runs the C library's function, the only one that a library calls. It may change what the caller must save, and
    what is below the stack's pointer, which it thus may not read."""
    to = machine.words[RDI]
    if machine.height() % 16:
        raise Refusal("the stack is not aligned in a call")
    machine.forget_below(machine.height())
    if machine.words[RDX] != 0:  # of no bytes the addresses may be anything
        region, place = machine.locate(to, machine.words[RDX], True)
        if region == "stack" and place < machine.height():
            raise Refusal("memmove to its own stack")
        machine.store_bytes(to, machine.load_bytes(machine.words[RSI], machine.words[RDX]))
    state = {**machine.state(), **{key: make("changed", 64, key, machine.count) for key in KEYS}}
    state.update({("word", index): machine.words[index] for index in (RSP, *SAVED)})
    machine.resume({**state, ("word", RAX): to}, machine.at)
    place = pop(machine)
    machine.forget_below(machine.height())
    return place


def has_another_meaning(instruction):
    """Returns whether an instruction has prefixes that its rule does not know: it may have one of two. Capstone ignores
    some, so that the bytes are asked. A nop may have any that does not make it another instruction."""
    word, code = instruction.mnemonic, bytes(instruction.bytes)
    rest = code.lstrip(PREFIXES)
    before = code[:-len(rest)]
    is_known = before in (b"", b"\x66"[word[0] == "j" or word in NARROW:], b"\xf3"[word not in REPEATED:]) or \
        word == "nop" and not set(before) & {0xF0, 0xF2, 0xF3}
    return not is_known or rest[0] >> 4 == 4 and (rest[1] >> 4 == 4 or rest[1] in PREFIXES) or \
        word == "nop" and not rest.startswith((b"\x90", b"\x0f\x1f"))


PREFIXES = bytes.fromhex("f0f2f3262e363e64656667")
NARROW = "call", "ret", "leave", "push", "pop", "mulx"  # do something else after 66
REPEATED = "endbr64", "movdqu", "movq"  # have f3
EXTENSIONS = "mulx", "pextrq"  # are not on every x86-64 processor
MOVES = "mov", "movabs", "movzx", "movdqu", "movups", "movdqa", "movaps"
RULES = dict.fromkeys(MOVES, lambda machine, to, by: to.write(by.read()))
RULES.update({
    "nop": lambda machine, *_: None, "endbr64": lambda machine: None,
    "push": push, "pop": pop, "leave": leave, "call": call, "ret": pop,
    "lea": lambda machine, to, of: to.write(of.address()), "jmp": lambda machine, target: target.read(), "mul": product,
    "mulx": product_of_rdx, "movq": move_half,
    "add": calculation("add", add), "sub": calculation("subtract", subtract), "xor": calculation("logic", xor),
    "and": calculation("logic", bit_and), "or": calculation("logic", bit_or),
    "test": calculation("logic", bit_and, False), "cmp": calculation("subtract", subtract, False),
    "neg": change(lambda word: subtract(0, word)),
    "inc": change(lambda word: add(word, 1)), "dec": change(lambda word: add(word, -1)), "shl": shift(shift_left),
    "shr": shift(shift_right), "sar": shift_signed, "xchg": exchange,
    "imul": change(lambda word, *by: multiply(*(by if len(by) > 1 else (word, *by)))[0]),
    "pxor": xor_vectors, "xorps": xor_vectors, "pshufd": shuffle,
    "punpcklqdq": lambda machine, to, by: to.write(to.read()[:8] + by.read()[:8]),
    "punpckhqdq": lambda machine, to, by: to.write(to.read()[8:] + by.read()[8:]),
    "pextrq": lambda machine, to, by, half: to.write(join(by.read()[8 * (half.read() & 1):][:8])),
})
for _one in ("e", "b", "be", "l", "le", "s", *OPPOSITES):
    RULES.update({
        f"j{_one}": lambda machine, target, one=_one: target.read() if holds(machine, one) else None,
        f"set{_one}": lambda machine, to, one=_one: to.write(int(holds(machine, one))),
        f"cmov{_one}": lambda machine, to, by, one=_one: to.write((to.read(), by.read())[bool(holds(machine, one))])})


class Machine(Runner):
    reader, rules, keys = capstone.Cs(capstone.CS_ARCH_X86, capstone.CS_MODE_64), RULES, KEYS
    reader.detail, pointer, arguments, saved, red, popped = True, RSP, (RDI, RSI, RDX), SAVED, 128, 8

    def enter(self):
        """Puts the return address on the stack."""
        self.memory = {("stack", index): one for index, one in enumerate(split(self.home))}

    def is_aligned(self, address):
        """Returns whether an address is a multiple of 16. The stack's is 8 more than one when a function begins. Of a
        constant only the alignment of its section is known."""
        region, place = self.locate(address, 16)
        return place % 16 == (8 if region == "stack" else 0) and (
            region == "stack" or region in self.file.sections and self.file.sections[region].alignment % 16 == 0)

    def state(self):
        halves = [join(vector[at:at + 8]) for vector in self.vectors for at in (0, 8)]
        return {**dict(zip(KEYS, self.words + halves)), **self.memory}

    def resume(self, state, at):
        """Goes to a state, in which the flags are unknown."""
        self.words = [state["word", index] for index in range(16)]
        self.memory = {key: one for key, one in state.items() if key[0] != "word"}
        self.vectors = [split(state[low]) + split(state[high]) for low, high in zip(VECTORS[::2], VECTORS[1::2])]
        self.flags, self.at = None, at

    def result(self):
        return self.words[RAX]

    def decode(self, at):
        """Returns the rule of an instruction, its operands, the next address, and its text."""
        if at == self.file.memmove:
            return memmove, [], None, "memmove"
        found, text = self.find(at, 16)
        if has_another_meaning(found):
            raise Refusal(f"no rule for {text} with prefixes")
        if found.mnemonic in set(EXTENSIONS).difference(self.file.extensions):
            raise Refusal(f"{text} is not on every processor")
        code = range(at, at + found.size)
        is_place = found.mnemonic[0] == "j" or found.mnemonic == "call"
        field = at + (found.disp_offset if "[rip" in found.op_str else found.imm_offset if is_place else 0)
        if not {field} >= self.file.anchors.keys() & {*range(at - 3, code.stop)}:
            raise Refusal(f"relocated bytes in {text}")
        return RULES[found.mnemonic], [operand_of(self, found, one, code) for one in found.operands], code.stop, text
