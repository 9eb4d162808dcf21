"""Runs what Go makes of its package. Go passes arguments in other registers, with room for them above the return
address. A function must keep rsp, rbp and r14, the goroutine, and xmm15 at 0. It looks in the goroutine for the end of
the stack, which here is 0. Bytes below rsp are lost at any time, and rsp is a multiple of 8 alone."""

import x86
from cases import ROOM, TOP, shell
from linear import MASK, Refusal, make, name
from elf import Elf
from streams import LANES

RAX, RCX, RBX, RBP, RSI, RDI, GOROUTINE = 0, 1, 3, 5, 6, 7, 14
FOLDER, PACKAGE = TOP / "packages/go", "yervound.example/rapidhash."
# Go's name of each version, and the number that is passed for it.
VALUES = {"v1": ("V1",), "v2_0": ("V20", 0), "v2_1": ("V21", 1), "v2_2": ("V22", 2)}
VALUES |= {version: ("V3" + version[3:].title(), 16 * lanes) for version, lanes in LANES.items()}
METHODS = {"": "", "_with_seed": "WithSeed", "_with_secrets": "WithSecrets"}
PROGRAM = """package main

import "yervound.example/rapidhash"

var calls = []any{{{calls}}}

func main() {{ println(len(calls)) }}
"""


class Program(Elf):
    """Is a program that calls the package in a folder."""
    def __init__(self, folder=FOLDER):
        target, calls = ROOM / "go", (f"rapidhash.Version{kind}.Sum64{text}{method}" for kind in ("V1", "V2", "V3")
                                      for text in ("", "String") for method in METHODS.values())
        target.mkdir(exist_ok=True)
        (target / "main.go").write_text(PROGRAM.format(calls=", ".join(calls)))
        status, said = shell(f"cd {target} && rm -f go.mod && go mod init program && go mod edit -require"
                             f" {PACKAGE[:-1]}@v0.0.0 -replace {PACKAGE[:-1]}={folder} && go build -o program .")
        assert status == 0, said
        super().__init__(target / "program")
        self.unwritten = [range(self.symbols[PACKAGE + text], self.symbols[PACKAGE + text] + size)
                     for text, size in (("defaults", 56), ("defaultsV1", 24))]
        self.sections = {label: self.own(section) for label, section in self.sections.items()}

    def constant(self, label, place):
        """Returns a byte of the default secrets: all else that is constant may have addresses of one link."""
        is_own = any(self.sections[label].start + place in places for places in self.unwritten)
        return super().constant(label, place) if is_own else None

    def own(self, section):
        """Returns a section, of code only that of the package."""
        start, data = section.start, section.data
        if "X" not in section.flags:
            return section
        places = {place: text for text, place in self.symbols.items() if start <= place < start + len(data)}
        own = [place for place, text in places.items() if text.startswith(PACKAGE)]
        first, end = min(own), min(place for place in places if place > max(own))
        return section._replace(start=first, data=data[first - start:end - start])


class Machine(x86.Machine):
    top, arguments, saved = MASK >> 1, (RAX, RBX, RCX, RDI, RSI), (RBP, GOROUTINE)
    limit = 64 + 224  # below, V2 may have no rows, and the rest after two rows may be empty, which changes a pointer
    text, red, depth = "", 0, 800  # without a look at the goroutine's limit a function may use 800 bytes

    def is_aligned(self, address):
        return self.locate(address, 16)[0] != "stack" and super().is_aligned(address)

    def result(self):
        if self.vectors[15] != [0] * 16:
            raise Refusal("X15 is not 0")
        return super().result()

    def symbol(self, version, form):
        return f"{VALUES[version][0]}.Sum64{self.text}{METHODS[form]}"

    def begin(self, function, arguments, length, sizes):
        """Begins a call of a method: its value, a slice with a capacity or a string, and the seed or secrets."""
        (value, method), (pointer, size, *others) = function.split("."), arguments
        numbers = next(numbers for text, *numbers in VALUES.values() if text == value)
        arguments = [*numbers, pointer, size, *([] if self.text else [make("capacity", 64)]), *others]
        super().begin(f"{PACKAGE}Version{value[:2]}.{method}", arguments, length, {**sizes, "goroutine": 24})
        self.argument_room = 8 * len(arguments)
        self.words[GOROUTINE], self.vectors[15] = name("goroutine"), [0] * 16
        self.entry = list(self.words)
        self.memory.update({("goroutine", 16 + index): 0 for index in range(8)})


class TextMachine(Machine):
    """Calls the methods that hash a string."""
    text = "String"
