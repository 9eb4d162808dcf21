"""Runs AArch64 instructions of a file over terms. RULES has every instruction that is known; all others are refused.
There is neither a red zone nor a return address on the stack, and an access by sp needs it to be a multiple of 16."""

import capstone
from capstone.arm64 import ARM64_OP_IMM, ARM64_OP_MEM, ARM64_OP_REG, ARM64_SFT_LSL, ARM64_SFT_LSR

from linear import MASK, Refusal, add, equal, is_kind, known, make, parts, subtract, width
from operands import Number, holds
from runner import Runner
from terms import bit_or, join, low_bits, multiply, shift_left, shift_right, split, xor

LINK, SP = 30, 31
KEYS = [("word", index) for index in range(32)]
CONDITIONS = {"eq": "e", "ne": "ne", "lo": "b", "hs": "ae", "ls": "be", "hi": "a", "lt": "l", "ge": "ge", "le": "le",
              "gt": "g"}
# The instructions of which a relocation is a field: a mask, and the bits there. The linker sets no other bits of them.
FIELDS = {"CALL26": [(0xFC000000, 0x94000000)], "JUMP26": [(0xFC000000, 0x14000000)],
          "CONDBR19": [(0xFF000010, 0x54000000), (0x7E000000, 0x34000000)],
          "ADR_PREL_PG_HI21": [(0x9F000000, 0x90000000)], "ADD_ABS_LO12_NC": [(0xFFC00000, 0x91000000)],
          **{f"LDST{8 << size}_ABS_LO12_NC": [(0xFFC00000, size << 30 | 0x39400000)] for size in (0, 2, 3)}}
NUMBERS = {"sp": SP, "wsp": SP, "xzr": None, "wzr": None, "fp": 29, "lr": LINK} | {
    f"{kind}{index}": index for kind in "xw" for index in range(31)}


class Register:
    """Is a register, perhaps shifted. Register 31 is the stack's pointer, or 0, which has no index."""
    def __init__(self, machine, text, shift=None, count=0):
        if text not in NUMBERS or shift not in (None, ARM64_SFT_LSL, ARM64_SFT_LSR):
            raise Refusal(f"another register or shift: {text}")
        self.machine, self.index, self.bits = machine, NUMBERS[text], 32 if text[0] == "w" else 64
        self.shift, self.count = shift, count

    def read(self):
        word = 0 if self.index is None else low_bits(self.machine.words[self.index], self.bits)
        if self.shift == ARM64_SFT_LSR:
            return shift_right(word, self.count)
        return low_bits(shift_left(word, self.count), self.bits) if self.shift else word

    def write(self, value):
        if self.index is not None:
            self.machine.words[self.index] = low_bits(value, self.bits)


class Place:
    """Is an operand in memory: the base, and an index or a displacement. The base may change before or after the access
    (`before`, or by how much `after`). With a target the base is its page, and the displacement what lacks to it."""
    def __init__(self, base, more, before, after, target):
        self.base, self.more, self.before, self.after, self.target = base, more, before, after, target

    def address(self):
        base = self.base.read()
        if self.base.index == SP and parts(base)[0] % 16:
            raise Refusal("the stack's pointer is no multiple of 16")
        if self.target:
            return within(base, self.target)
        address = add(base, self.more.read())
        if self.before:
            self.base.write(address)
        return address

    def finish(self):
        if self.after is not None:
            self.base.write(add(self.base.read(), self.after & MASK))


def within(base, target):
    """Returns a target in the file, if the base is its page: the linker makes the part of the address in it."""
    target = add(target, 0)  # the same term as of today's pool
    if base != make("page", 64, target):
        raise Refusal(f"{base} is not the page of {target}")
    return target


def calculation(compute):
    return lambda machine, to, one, other: to.write(low_bits(compute(one.read(), other.read()), to.bits))


def shift(compute):
    def rule(machine, to, one, by):
        if not known(by.read()) or not by.read() < to.bits:
            raise Refusal("a shift by an unknown number of bits")
        calculation(compute)(machine, to, one, by)
    return rule


def load(size=None):
    def rule(machine, *operands):
        *registers, place = operands
        address, each = place.address(), size or registers[0].bits // 8
        words = [machine.load(add(address, each * index), each) for index in range(len(registers))]
        for register, word in zip(registers, words):
            register.write(word)
        place.finish()
    return rule


def store(machine, *operands):
    *registers, place = operands
    words, address, each = [one.read() for one in registers], place.address(), registers[0].bits // 8
    for index, word in enumerate(words):
        machine.store_bytes(add(address, each * index), split(word, each))
    place.finish()


def compare(machine, one, other):
    first, second = one.read(), low_bits(other.read(), one.bits)
    if not (parts(first) and parts(second)):
        raise Refusal(f"a comparison of contents: {first} and {second}")
    machine.flags = "subtract", first, second, low_bits(subtract(first, second), one.bits), one.bits


def subtract_and_compare(machine, to, one, other):
    compare(machine, one, other)
    to.write(machine.flags[3])


def jump_far(machine, target):
    """Jumps by a symbol: to another section the linker may go by way of x16 and x17."""
    machine.words[16:18] = [make("changed", 64, index, machine.count) for index in (16, 17)]
    return target.read()


def call(machine, target):
    machine.words[LINK] = machine.file.place(machine.after, [machine.at + 1])
    return jump_far(machine, target)


def is_free(word, start, size):
    """Returns whether the bits of a field are surely 0."""
    if is_kind(word, "or"):
        return all(is_free(one, start, size) for one in word.parts[0])
    if known(word):
        return word >> start & (1 << size) - 1 == 0
    return width(word) <= start or is_kind(word, "shifted left") and word.parts[1] >= start + size


def insert(machine, to, of, start, size):
    """Puts bits into a field that has none."""
    if not is_free(to.read(), start.read(), size.read()):
        raise Refusal("a field that may have bits")
    to.write(bit_or(to.read(), shift_left(low_bits(of.read(), size.read()), start.read())))


def move_part(machine, to, by):
    """Replaces 16 bits and keeps the others."""
    these, start = split(to.read()), by.shift // 8
    to.write(join(these[:start] + split(by.read(), 2) + these[start + 2:]))


RULES = {
    "nop": lambda machine: None, "mov": lambda machine, to, by: to.write(by.read()), "movk": move_part,
    "b": lambda machine, target: target.read(), "bl": call, "ret": lambda machine: machine.words[LINK],
    "eor": calculation(xor), "orr": calculation(bit_or), "add": calculation(add), "sub": calculation(subtract),
    "mul": calculation(lambda one, other: multiply(one, other)[0]), "lsr": shift(shift_right), "lsl": shift(shift_left),
    "umulh": calculation(lambda one, other: multiply(one, other)[1]), "bfi": insert, "cmp": compare,
    "subs": subtract_and_compare,
    "madd": lambda machine, to, one, two, more: to.write(add(multiply(one.read(), two.read())[0], more.read())),
    "ldr": load(), "ldur": load(), "ldp": load(), "ldrb": load(1), "ldurb": load(1), "str": store, "stp": store,
    "adrp": lambda machine, to, target: to.write(make("page", 64, add(target.read(), 0))),
    "cbz": lambda machine, word, target: target.read() if equal(word.read()) else None,
    "cbnz": lambda machine, word, target: None if equal(word.read()) else target.read(),
}
RULES["movz"] = RULES["mov"]
for _text, _one in CONDITIONS.items():
    RULES[f"b.{_text}"] = lambda machine, target, one=_one: target.read() if holds(machine, one) else None


class Machine(Runner):
    reader, rules, keys = capstone.Cs(capstone.CS_ARCH_ARM64, capstone.CS_MODE_ARM), RULES, KEYS
    reader.detail, pointer, arguments, saved = True, SP, (0, 1, 2), tuple(range(19, 30))

    def enter(self):
        self.words[LINK], self.memory = self.home, {}

    def state(self):
        return {**dict(zip(KEYS, self.words)), **self.memory}

    def resume(self, state, at):
        self.words = [state[key] for key in KEYS]
        self.memory = {key: one for key, one in state.items() if key[0] != "word"}
        self.flags, self.at = None, at

    def result(self):
        return self.words[0]

    def decode(self, at):
        """Returns the rule of an instruction, its operands, the next address, and its text."""
        found, text = self.find(at, 4)
        these, after = list(found.operands), None
        if found.writeback and these[-1].type == ARM64_OP_IMM:
            after = these.pop().imm
        kind, word = self.file.kind(at), int.from_bytes(found.bytes, "little")
        is_field = any(word & mask == bits for mask, bits in FIELDS.get(kind, ()))
        is_whole = {at} >= self.file.anchors.keys() & {*range(at - 3, at + 4)}
        if not is_whole or not is_field and (kind or found.mnemonic == "adrp"):
            raise Refusal(f"relocated bytes in {text}")
        target = self.file.named(at) if kind[-2:] in ("21", "NC") else None
        operands = [self.operand(found, one, at, after, target) for one in these]
        *registers, last = [getattr(getattr(one, "base", one), "index", None) for one in operands] or [None]
        if found.writeback and last in registers:
            raise Refusal(f"{text} is unpredictable")
        if found.mnemonic == "add" and target:
            return lambda _, to, base, __: to.write(within(base.read(), target)), operands, at + 4, text
        return jump_far if kind == "JUMP26" else RULES[found.mnemonic], operands, at + 4, text

    def operand(self, found, one, at, after, target):
        if one.type == ARM64_OP_REG and not one.ext and not one.vas:
            return Register(self, found.reg_name(one.reg), one.shift.type or None, one.shift.value)
        if one.type == ARM64_OP_MEM and not one.shift.type and not one.ext:
            base, index = (found.reg_name(text) if text else None for text in (one.mem.base, one.mem.index))
            more = Register(self, index) if index else Number(one.mem.disp, 64)
            return Place(Register(self, base), more, found.writeback and after is None, after, target)
        if one.type != ARM64_OP_IMM:
            raise Refusal(f"another operand: {found.op_str}")
        is_jump = found.mnemonic[:2] in ("b", "bl", "b.", "cb") and one == found.operands[-1]
        word = target if found.mnemonic == "adrp" else self.file.place(one.imm, [at]) if is_jump else \
            one.imm << (0 if found.mnemonic == "movk" else one.shift.value)
        number = Number(word, 64)
        number.shift = one.shift.value
        return number
