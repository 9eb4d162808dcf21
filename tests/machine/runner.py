"""Runs instructions of a file over terms: what is alike for all processors with registers and a stack."""

from linear import MASK, Refusal, add, make, name, parts
from memory import Memory


class Runner(Memory):
    """Is a processor, which has the rules of its instructions, and `decode`, and these."""
    low, top = 1 << 20, MASK
    pointer, arguments, saved = None, (), ()  # the numbers of registers
    red = 0  # the bytes below the stack's pointer that are kept
    popped = 0  # by how much a return raises the pointer

    def __init__(self, file):
        self.file, self.decoded, self.count = file, {}, 0
        self.last = set()  # the instructions that nothing follows in their section

    def symbol(self, version, form):
        """Returns the name of a function in C."""
        return self.file.names.get(form, "rapidhash_{version}{form}").format(version=version, form=form)

    def begin(self, function, arguments, length, sizes):
        """Begins a call: all registers are unknown words but for the arguments and the stack's pointer."""
        self.clear(length, sizes)
        if function not in self.file.symbols:
            raise Refusal(f"no function {function}, or several")
        self.resume({key: make("register", 64, key) for key in self.keys}, self.file.symbols[function])
        for index, word in zip(self.arguments, arguments):
            self.words[index] = word
        self.words[self.pointer], self.home = name("stack"), make("home", 64)
        self.enter()
        self.entry = list(self.words)

    def locate(self, address, size, is_write=False):
        region, place = super().locate(address, size, is_write)
        if region == "stack" and place < self.height() - self.red:
            raise Refusal("bytes below the stack's pointer, which signals overwrite")
        return region, place

    def height(self):
        """Returns where the stack's pointer is, which must be in the free stack: signals overwrite what is below."""
        constant, factors = parts(self.words[self.pointer]) or (0, {})
        if factors != {"stack": 1} or not self.red - self.depth <= constant <= self.popped:
            raise Refusal(f"the stack's pointer is {self.words[self.pointer]}")
        return constant

    def forget_below(self, end):
        """Forgets the bytes of the stack below a place."""
        self.memory = {key: one for key, one in self.memory.items() if key[0] != "stack" or key[1] >= end}

    def run(self, stops=(), limit=100_000):
        """Runs at least one instruction, until one of the stops, and returns whether the call has not returned. Forgets
        what signals may overwrite when the stack's pointer has moved."""
        for _ in range(limit):
            text, before = "", self.words[self.pointer]
            try:
                if self.at not in self.decoded:
                    self.decoded[self.at] = self.decode(self.at)
                rule, operands, self.after, text = self.decoded[self.at]
                self.count += 1
                target = rule(self, *operands)
                if target is None and self.at in self.last:
                    raise Refusal("code that goes on past its section")
                if self.words[self.pointer] != before:
                    self.forget_below(self.height() - self.red)
                self.at = target if target == self.home else \
                    self.after if target is None else self.file.address(target)
            except (Refusal, AttributeError, TypeError) as refusal:  # the last two: a rule does not have such operands
                raise Refusal(f"at {self.at:#x}, {text}: {refusal}") from None
            if self.at == self.home:
                wrong = [str(index) for index in self.saved if self.words[index] != self.entry[index]]
                if wrong or self.words[self.pointer] != add(name("stack"), self.popped):
                    raise Refusal(f"registers are not restored: {', '.join(wrong) or 'the pointer'}")
                return False
            if self.at in stops:
                return True
        raise Refusal(f"no end after {limit} instructions")

    def find(self, at, size):
        """Returns the instruction at an address and its text, if it has a rule."""
        found = next(self.reader.disasm(self.file.read(at, size), at), None)
        text = f"{found.mnemonic} {found.op_str}" if found else "bytes that are no instruction"
        if not found or found.mnemonic not in self.rules:
            raise Refusal(f"no rule for {text}")
        if not self.file.relocated.isdisjoint(range(at, at + found.size)):
            raise Refusal(f"relocated bytes in {text}")
        if self.file.section_at(at)[0] != self.file.section_at(at + found.size)[0]:
            self.last.add(at)
        return found, text
