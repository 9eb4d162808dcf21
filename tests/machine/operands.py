"""Has the operands of instructions, and the conditions of branches. An instruction that sets flags keeps its operation,
operands, result and bits, and a condition asks for their bounds."""

from capstone.x86 import X86_OP_IMM, X86_OP_REG

from linear import MASK, Refusal, add, below, equal, known, less
from terms import join, low_bits, split

NAMES = ["rax eax ax al", "rcx ecx cx cl", "rdx edx dx dl", "rbx ebx bx bl", "rsp esp sp spl", "rbp ebp bp bpl",
         "rsi esi si sil", "rdi edi di dil"] + [f"r{index} r{index}d r{index}w r{index}b" for index in range(8, 16)]
REGISTERS = {text: (index, bits) for index, row in enumerate(NAMES) for text, bits in zip(row.split(), (64, 32, 16, 8))}

UNALIGNED = "movdqu", "movups"  # all other instructions need an address of 128 bits that is a multiple of 16
# The condition that holds when another does not.
OPPOSITES = {"ne": "e", "ae": "b", "a": "be", "ge": "l", "g": "le", "ns": "s"}


# Operands. Each has `bits`, and reads and writes a word, or in 128 bits a list of bytes.
class Number:
    def __init__(self, value, bits):
        self.value, self.bits = value & (1 << bits) - 1 if known(value) else value, bits

    def read(self):
        return self.value


class Register:
    def __init__(self, machine, file, index, bits):
        self.machine, self.file, self.index, self.bits = machine, file, index, bits

    def read(self):
        word = getattr(self.machine, self.file)[self.index]
        return word if self.bits >= 64 else low_bits(word, self.bits)

    def write(self, value):
        """Writes the register. A write of 32 bits clears the upper half; one of 8 or 16 bits keeps the other bytes."""
        if self.bits < 32:
            value = join(split(value, self.bits // 8) + split(self.machine.words[self.index])[self.bits // 8:])
        getattr(self.machine, self.file)[self.index] = low_bits(value, 32) if self.bits == 32 else value


class Place:
    """Is an operand in memory: start + base + index * scale. The start is a number, or a place in the file."""
    def __init__(self, machine, start, terms, bits, is_aligned):
        self.machine, self.start, self.terms, self.bits = machine, start, terms, bits
        self.is_aligned = is_aligned and bits == 128

    def address(self):
        result = add(self.start, 0)
        for index, scale in self.terms:
            result = add(result, self.machine.words[index], scale)
        if self.is_aligned and not self.machine.is_aligned(result):
            raise Refusal(f"an address that may be no multiple of 16: {result}")
        return result

    def read(self):
        return (self.machine.load_bytes if self.bits == 128 else self.machine.load)(self.address(), self.bits // 8)

    def write(self, value):
        self.machine.store_bytes(self.address(), value if self.bits == 128 else split(value, self.bits // 8))


def operand_of(machine, instruction, operand, code):
    """Returns an operand of an instruction at the addresses `code`. The operand of a jump is a place in the file."""
    if operand.type == X86_OP_IMM:
        is_jump = instruction.mnemonic[0] == "j" or instruction.mnemonic == "call"
        if operand.imm < 0 and operand.size != instruction.operands[0].size:  # as Capstone has it for F7 /1
            raise Refusal(f"a number of another size: {instruction.op_str}")
        return Number(machine.file.place(operand.imm, code) if is_jump else operand.imm, 8 * operand.size)
    if operand.type == X86_OP_REG:
        text = instruction.reg_name(operand.reg)
        if text[:3] != "xmm" and text not in REGISTERS:
            raise Refusal(f"another register: {instruction.op_str}")
        return Register(machine, "vectors", int(text[3:]), 128) if text[:3] == "xmm" else \
            Register(machine, "words", *REGISTERS[text])
    memory, terms, start = operand.mem, [], operand.mem.disp & MASK
    for register, scale in (memory.base, 1), (memory.index, memory.scale):
        text = instruction.reg_name(register) if register else "none"
        if text == "rip":
            start = machine.file.place(code.stop + operand.mem.disp, code)
        elif register and REGISTERS.get(text, (0, 0))[1] != 64:
            raise Refusal(f"an address of other registers than 64 bits: {instruction.op_str}")
        elif register:
            terms.append((REGISTERS[text][0], scale))
    return Place(machine, start, terms, 8 * operand.size, instruction.mnemonic not in UNALIGNED)


def holds(machine, condition):
    """Returns whether a condition holds, which must be so for all values of the names, or for none."""
    if condition in OPPOSITES:
        return not holds(machine, OPPOSITES[condition])
    if condition in ("be", "le"):
        return holds(machine, "e") or holds(machine, condition[0])
    if machine.flags is None:
        raise Refusal(f"the condition {condition} of an instruction that sets no known flags")
    operation, first, second, result, bits = machine.flags
    if condition == "e":
        return equal(first, second) if operation == "subtract" else equal(result)
    if condition == "b" and operation != "add":
        return operation == "subtract" and less(first, second)
    if condition == "l" and operation == "subtract" and below(first, bits - 1) and below(second, bits - 1):
        return less(first, second)
    if not known(first, second, result):
        raise Refusal(f"the condition {condition} of {result}")
    differ = {"logic": 0, "subtract": (first ^ second) & (first ^ result), "add": ~(first ^ second) & (first ^ result)}
    sign, overflow = result >> bits - 1 & 1, differ[operation] >> bits - 1 & 1
    return bool({"b": result < first, "s": sign, "l": sign ^ overflow}[condition])
