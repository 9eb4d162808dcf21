"""Runs a WebAssembly module over terms, from the text that wasm2wat makes of it. A word of 32 bits is a number, a term
below 2^32, or a linear word modulo 2^32 whose bounds are checked where its value matters."""

import re

from cases import shell
from linear import MASK, Refusal, add, apart, equal, is_kind, known, less, linear, parts, subtract
from memory import Memory
from terms import bit_and, bit_or, low_bits, multiply, shift_left, shift_right, split, xor

HALF = (1 << 32) - 1


class Module:
    def __init__(self, path):
        """Reads the module: the exports, and of each function its arguments, results, locals and instructions."""
        status, text = shell(f"wasm-validate {path} && wasm2wat {path}")
        if status or "(import" in text:
            raise Refusal(f"{path} is no module without imports: {text[:200]}")
        self.symbols = {label: int(index) for label, index in re.findall(r'\(export "(\w+)" \(func (\d+)\)\)', text)}
        bodies = re.split(r"\n  \((?:table|memory)", text)[0].split("\n  (func ")[1:]
        self.functions = [self.function(body) for body in bodies]

    def function(self, text):
        head = text.partition("\n")[0]
        counts = [len(" ".join(re.findall(rf"\({kind} ([^)]*)\)", where)).split())
                  for kind, where in (("param", head), ("result", head), ("local", text))]
        code, blocks = [], []
        for line in re.sub(r"\(local .*|\(;.*?;\)|;;.*|[()]|align=\d|offset=", "", text).splitlines()[1:]:
            if words := line.split():
                code.append((words[0], [int(word) if word.strip("-").isdigit() else word for word in words[1:]]))
                if words[0] in ("block", "loop"):
                    blocks.append(code[-1][1])
                elif words[0] == "end":
                    blocks.pop().append(len(code))
        return (*counts, code)


def low(first, second):
    return multiply(first, second)[0]


def schoolbook(first, second):
    """Returns the high half of a product from 32-bit halves, as `high_half` in crates/test_portable is proved to."""
    a, b, c, d = shift_right(first, 32), low_bits(first, 32), shift_right(second, 32), low_bits(second, 32)
    cross = low(a, d)
    middle = add(add(shift_right(low(b, d), 32), low_bits(cross, 32)), low(b, c))
    return add(add(low(a, c), shift_right(cross, 32)), shift_right(middle, 32))


def inside(word, *kinds):
    """Yields the parts of the last kind in parts of the kinds before."""
    for part in word.parts if is_kind(word, kinds[0]) else ():
        yield from inside(part, *kinds[1:]) if len(kinds) > 1 else [part]


def summed(first, second):
    """Returns the sum, or the high half of a product if the sum is that. Its factors are found in the sum."""
    total = add(first, second)
    halves = list(inside(total, "sum", "shifted right", "sum", "shifted right", "low", "low bits"))
    for one, two in ((one, two) for one in halves for two in halves if not known(one, two)):
        if total == schoolbook(one, two):
            return multiply(one, two)[1]
    return total


def short(word):
    """Returns a word modulo 2^32."""
    if not is_kind(word, "linear"):
        return low_bits(word, 32)
    names, numbers = zip(*word.parts[1])
    constant, *factors = ((number + (1 << 31) & HALF) - (1 << 31) for number in (word.parts[0], *numbers))
    return linear(constant, dict(zip(names, factors)))


def whole(word):
    """Returns a word of 32 bits whose value matters: it never leaves 32 bits."""
    if parts(word) and apart(word, HALF)[1] > 0:
        raise Refusal(f"a number that may leave 32 bits: {word}")
    return word


def shift(compute, bits):
    def rule(word, count):
        if not known(count):
            raise Refusal("a shift by an unknown number of bits")
        return compute(whole(word) if bits == 32 else word, count % bits)
    return rule


OF_TWO = {
    "i64.add": summed, "i64.sub": subtract, "i64.mul": low, "i64.xor": xor, "i64.and": bit_and, "i64.or": bit_or,
    "i64.shl": shift(shift_left, 64), "i64.shr_u": shift(shift_right, 64), "i32.shr_u": shift(shift_right, 32),
    "i32.add": lambda one, two: short(add(one, two)), "i32.sub": lambda one, two: short(subtract(one, two)),
    "i32.lt_u": lambda one, two: less(whole(one), whole(two)),
    "i32.gt_u": lambda one, two: less(whole(two), whole(one)),
    "i32.ge_u": lambda one, two: 1 - less(whole(one), whole(two)),
    "i32.eq": lambda one, two: equal(whole(one), whole(two)),
}
OF_ONE = {"i32.eqz": lambda one: equal(whole(one)), "i32.wrap_i64": short, "i64.extend_i32_u": whole}
SIZES = {"load": 8, "load32_u": 4, "load16_u": 2, "load8_u": 1, "store": 8, "store32": 4, "store16": 2, "store8": 1}


class Frame:
    """Keeps where a function is, its locals, its operands, and the blocks around with their heights."""
    def __init__(self, index, function, own, at=0, stack=(), blocks=()):
        _, self.results, _, self.code = function
        self.index, self.locals, self.at, self.stack, self.blocks = index, own, at, list(stack), list(blocks)

    def branch(self, depth):
        """Leaves blocks: goes back to a loop, to the end of a block, and outside of all to that of the function."""
        if depth == len(self.blocks):
            self.at = len(self.code)
            return
        start, height = self.blocks[-1 - depth]
        del self.stack[height:]
        text, end = self.code[start]
        self.at = end[0] if text == "block" else start + 1
        del self.blocks[len(self.blocks) - depth - (text == "block"):]


class Machine(Memory):
    low, top = 1 << 14, HALF

    def __init__(self, module):
        self.file, self.count, self.shapes = module, 0, {}

    @staticmethod
    def symbol(version, _):
        return version

    def begin(self, function, arguments, length, sizes):
        self.clear(length, sizes)
        self.frames = []
        self.enter(self.file.symbols[function], arguments)

    def enter(self, index, arguments):
        function = self.file.functions[index]
        self.frames.append(Frame(index, function, list(arguments) + [0] * function[2]))

    @property
    def at(self):
        return tuple((frame.index, frame.at) for frame in self.frames)

    def state(self):
        words = {("word", depth, kind, index): word for depth, frame in enumerate(self.frames)
                 for kind in ("locals", "stack") for index, word in enumerate(getattr(frame, kind))}
        return {**words, **self.memory}

    def resume(self, state, at):
        """Goes to a state at a place where the machine has stopped before."""
        self.frames, self.memory = [], {key: one for key, one in state.items() if key[0] != "word"}
        for depth, (index, place, blocks, *sizes) in enumerate(self.shapes[at]):
            own, stack = ([state["word", depth, kind, one] for one in range(size)]
                          for kind, size in zip(("locals", "stack"), sizes))
            self.frames.append(Frame(index, self.file.functions[index], own, place, stack, blocks))

    def run(self, stops=(), limit=1_000_000):
        """Runs at least one instruction, until one of the stops, and returns whether the call has not returned."""
        for self.count in range(self.count + 1, self.count + limit):
            frame = self.frames[-1]
            if frame.at < len(frame.code):
                text, arguments = frame.code[frame.at]
                frame.at += 1
                try:
                    self.step(frame, frame.stack, text, arguments)
                except Refusal as refusal:
                    raise Refusal(f"in function {frame.index}, {text} {arguments}: {refusal}") from None
            else:
                self.frames.pop()
                self.returned = frame.stack[len(frame.stack) - frame.results:]
                if not self.frames:
                    return False
                self.frames[-1].stack += self.returned
            if stops and self.at in stops:
                self.shapes[self.at] = [(one.index, one.at, tuple(one.blocks), len(one.locals), len(one.stack))
                                        for one in self.frames]
                return True
        raise Refusal(f"no end after {limit} instructions")

    def result(self):
        return self.returned[0]

    def step(self, frame, stack, text, arguments):
        bits, _, action = text.partition(".")
        if text in OF_TWO:
            second, first = stack.pop(), stack.pop()
            stack.append(OF_TWO[text](first, second))
        elif text in OF_ONE:
            stack.append(OF_ONE[text](stack.pop()))
        elif action == "const":
            stack.append(arguments[0] & (MASK if bits == "i64" else HALF))
        elif text == "local.get":
            stack.append(frame.locals[arguments[0]])
        elif text in ("local.set", "local.tee"):
            frame.locals[arguments[0]] = stack[-1] if action == "tee" else stack.pop()
        elif action in SIZES and bits in ("i32", "i64"):
            value, size = stack.pop() if "store" in text else None, min(SIZES[action], 8 if bits == "i64" else 4)
            address = whole(add(whole(stack.pop()), sum(arguments)))
            self.store_bytes(address, split(value, size)) if "store" in text else stack.append(self.load(address, size))
        elif text in ("block", "loop") and len(arguments) == 1:
            frame.blocks.append((frame.at - 1, len(stack)))
        elif text == "end":
            frame.blocks.pop()
        elif text in ("br", "br_if", "return"):
            if text != "br_if" or not equal(whole(stack.pop())):
                frame.branch(arguments[0] if arguments else len(frame.blocks))
        elif text == "call":
            self.enter(arguments[0], [stack.pop() for _ in range(self.file.functions[arguments[0]][0])][::-1])
        else:
            raise Refusal("no rule")
