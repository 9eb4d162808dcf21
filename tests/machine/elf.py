"""Has the file that is run. Each section has an address of which nothing is known: its own name. So code learns neither
where it is nor how far a constant is from it, and what it computes holds wherever it is linked and loaded."""

import re
from collections import namedtuple
from math import gcd

from cases import shell
from linear import Refusal, add, name, parts

# Relocations by which an instruction names a place. All other relocated bytes have no value.
RELATIVE = re.compile("R_X86_64_(PC32|PLT32)|R_AARCH64_(CALL26|JUMP26|CONDBR19|ADR_PREL_PG_HI21|.*_ABS_LO12_NC)")
Section = namedtuple("Section", "start data flags alignment")


def pieces(label, start, data, flags, entry, alignment):
    """Yields a section, or its entries if the linker may merge each with one of another file. It has no strings."""
    size = entry if "M" in flags else max(len(data), 1)
    for at in range(0, len(data) if "S" not in flags else 0, size):
        yield label + f", entry {at // size}" * ("M" in flags), \
            Section(start + at, data[at:at + size], flags, gcd(alignment, size) if "M" in flags else alignment)


def is_loaded(loads, start, at, size, flags):
    """Returns whether one segment alone has the pages of a section, with its bytes and without other rights."""
    return [to - of == start - at and of <= at and at + size <= of + length and
            ("W" in flags or may in ("R E", "R  ")[:2 - ("X" in flags)]) for of, to, length, room, may in loads
            if to >> 12 <= start + size - 1 >> 12 and start >> 12 <= to + room - 1 >> 12] == [True]


class Elf:
    """Reads the sections, symbols and relocations of a linked file, as readelf prints them."""
    unwritten = ()  # the ranges that can be written, but that nobody writes
    extensions = ()  # the instructions that it may have, and that not every processor has
    names = {}  # what the functions are called, if not as in the header: a pattern for each call

    def __init__(self, path, memmove=None):
        text, data = shell(f"readelf -SlsdrW {path}")[1], path.read_bytes()
        if "TEXTREL" in text:
            raise Refusal(f"{path} has code that the loader changes")
        rows = re.findall(r"(\d+)\] (\S+) +(\w+) +(\w{16}) (\w+) (\w+) (\w+) +(\w*) +\d+ +\d+ +(\d+)$", text, re.M)
        numbers = [(int(start, 16), int(at, 16), int(size, 16), int(entry, 16), int(align))
                   for *_, start, at, size, entry, _, align in rows]
        loads = [(*(int(one, 16) for one in numbers), may) for *numbers, may in re.findall(
            r"LOAD +0x(\w+) 0x(\w+) 0x\w+ 0x(\w+) 0x(\w+) (...)", text)]
        self.sections = {}
        for (index, label, kind, *_, flags, _), (start, at, size, entry, align) in zip(rows, numbers):
            if "A" in flags and kind != "NOBITS" and size:
                if not is_loaded(loads, start, at, size, flags):
                    raise Refusal(f"{path} has the section {label}, which is not loaded")
                self.sections.update(pieces(f"section {index} {label}", start, data[at:at + size], flags, entry, align))
        self.symbols, self.memmove = dict(self.functions(text)), memmove
        self.anchors, self.relocated = {}, set()
        self.read_relocations(text, {label for _, label, *_ in rows},
                              {index: start + size for (index, *_), (start, _, size, *_) in zip(rows, numbers)})

    def read_relocations(self, text, labels, ends):
        """Reads which bytes name a place: by a section, or by a symbol in one that no other file may replace."""
        replaced = {(int(at, 16), label) for at, kind, bind, index, label in re.findall(
            r": (\w+) +\w+ +(\w+) +(\w+) +\w+.* (\w+) (\S+)$", text, re.M) if (label, index) != ("memmove", "ABS") and
            (bind == "WEAK" or int(at, 16) >= ends.get(index, 0) or kind != "SECTION" and label in labels)}
        for at, kind, anchor, label, addend in re.findall(
                r"^(\w{16})  \w{16} (R_\w+) +(?:(\w{16}) (\S+) ([+-] \w+))?", text, re.M):
            place, is_place = int(at, 16), RELATIVE.fullmatch(kind)
            is_code = anchor and "X" in self.section_at(place)[1].flags and (int(anchor, 16), label) not in replaced
            if is_place and is_code:
                self.anchors[place] = int(anchor, 16), int(addend.replace(" ", ""), 16), kind, label in labels
            else:
                self.relocated.update(range(place, place + (4 if is_place else 8)))

    @staticmethod
    def functions(text):
        """Yields functions and objects, but none that another file may replace, and none of several with a name."""
        found = {}
        for at, kind, bind, label in re.findall(r": (\w+) +\w+ +(\w+) +(\w+) +\w+.* \d+ (\S+)$", text, re.M):
            found.setdefault(label.partition("@")[0], set()).add((int(at, 16), kind, bind))
        for label, ((at, kind, bind), *others) in found.items():
            if kind in ("FUNC", "OBJECT") and bind != "WEAK" and not others:
                yield label, at

    def section_at(self, address):
        """Returns the name and the section of an address of the link."""
        return next(((label, one) for label, one in self.sections.items()
                     if one.start <= address < one.start + len(one.data)), ("", Section(0, b"", "", 0)))

    def place(self, address, code):
        """Returns the word of an address that an instruction at the addresses `code` names, in the section of the
        relocation's symbol. Without one the place is in the section of the code, unless nobody links the file again."""
        rest = address if self.memmove is None else code[0]
        anchor, *_, is_whole = next((self.anchors[at] for at in code if at in self.anchors), (rest, False))
        return name("memmove") if anchor == address == self.memmove else self.relative(anchor, address, is_whole)

    def relative(self, anchor, address, is_whole):
        """Returns the word of an address by a symbol at an anchor, which may be that of a whole section."""
        (label, section), (other, entry) = self.section_at(anchor), self.section_at(address)
        if is_whole and label.partition(", entry")[0] == other.partition(", entry")[0]:
            label, section = other, entry
        if not label:
            raise Refusal(f"an address outside of all sections: {address:#x}")
        return add(name(label), address - section.start)

    def kind(self, at):
        """Returns the name of the relocation of an instruction of AArch64, or nothing."""
        return self.anchors.get(at, (0, 0, "", False))[2].removeprefix("R_AARCH64_")

    def named(self, at):
        """Returns the word of the address of which an instruction has a part."""
        anchor, addend, _, is_whole = self.anchors[at]
        return self.relative(anchor, anchor + addend, is_whole)

    def address(self, word):
        """Returns the address of the link to which a jump goes."""
        constant, factors = parts(word) or (0, {})
        (label, factor), *others = [*factors.items()] or [("", 0)]
        if (label, factor, constant) == ("memmove", 1, 0) and not others:
            return self.memmove
        if others or factor != 1 or label not in self.sections or not 0 <= constant < len(self.sections[label].data):
            raise Refusal(f"a jump to {word}")
        return self.sections[label].start + constant

    def read(self, address, size):
        """Returns bytes of code at an address of the link."""
        _, section = self.section_at(address)
        return section.data[address - section.start:][:size] if {*section.flags} & {*"WX"} == {"X"} else b""

    def constant(self, label, place):
        """Returns a byte of a section, or nothing if it may be written or is relocated."""
        section = self.sections[label]
        address = section.start + place
        is_fixed = "W" not in section.flags or any(address in places for places in self.unwritten)
        return section.data[place] if 0 <= place < len(section.data) and is_fixed and \
            address not in self.relocated and not any(address - back in self.anchors for back in range(4)) else None
