"""Shows that a stream is the hash of its message, by induction over the pieces. A stream represents a message if its
lanes have folded all rows before the tail, and its buffer has the tail and, after rows, the 16 bytes before it."""

import terms
from argument import Refusal, require_equal, prove
from linear import POOL, Assumed, add, assume, make, most_turns, name
from model import VERSIONS, Definition
from terms import join, message, split
from x86 import Machine

LANES = {version: lanes for version, lanes in VERSIONS.items() if version[:2] == "v3" and version != "v3_protected"}
SIZES = {"secrets": 64, "stream": 216}  # of the structs


def symbols(kind):
    return [make(kind, 64, index) for index in range(8)]


def layout(count, lanes, flag, place, held):
    """Yields the offsets, the words and the sizes of a stream that holds the bytes from a place on."""
    yield from ((8 + 8 * index, lane, 8) for index, lane in enumerate(lanes))
    yield from ((65 + index, message(add(place, index - 16), 1), 1) for index in range(16 + held))
    yield from ((0, name("secrets"), 8), (64, flag, 1), (200, held, 8), (208, count, 8))


def fill(machine, *stream):
    """Makes the memory of a stream."""
    for offset, word, size in layout(*stream):
        machine.memory.update({("stream", offset + index): one for index, one in enumerate(split(word, size))})


def compare(machine, *stream):
    """Refuses a stream that does not represent what it should."""
    for offset, word, size in layout(*stream):
        found = join(machine.memory.get(("stream", offset + index)) for index in range(size))
        require_equal(found, word, f"the stream at {offset}")


class Write:
    """Writes a piece to a stream that represents a message, of which it holds the last bytes. They are at the places
    before 0, where the piece begins. The lanes and the flag are unknown."""
    function = "rapidhash_stream_write"

    def __init__(self, machine, version, held):
        self.machine, self.held, self.definition = machine, held, Definition(version, symbols("secret")[1:], terms)
        self.lanes, self.flag = symbols("lane")[:7], make("flag", 8)

    def begin(self, length, pointer):
        self.machine.begin(self.function, [name("stream"), pointer, length], length, SIZES)
        fill(self.machine, self.definition.lanes, self.lanes, self.flag, -self.held, self.held)

    def start(self, length):
        return self.lanes[:self.definition.lanes], -self.held, add(length, self.held)

    def at_loop(self, length):
        """Returns what is left after the row that the buffer and the begin of the piece form."""
        row = self.definition.row
        lanes, place, _ = self.definition.fold_rows(self.lanes[:self.definition.lanes], -self.held, row + 1)
        return lanes, place, add(length, self.held - row)

    def check(self, length, lanes, place, rest):
        """Compares the stream with what represents the message and the piece."""
        lanes, place, rest = self.definition.fold_rows(lanes, place, rest)
        compare(self.machine, len(lanes), lanes, self.flag if place == -self.held else 1, place, rest)


def check_finish(machine, version, held, has_rows):
    """Checks the hash of a stream. Its tail, before which there are `turns` rows or none, begins at a place."""
    seed, *secrets = symbols("secret")
    definition = Definition(version, secrets, terms)
    place = name("turns", definition.row) if has_rows else 0
    length, lanes = add(place, held), symbols("lane")[:7] if has_rows else [seed] * 7
    assume(length, 1, most_turns(held, definition.row))
    machine.begin("rapidhash_stream_finish", [name("stream")], 0, SIZES)
    fill(machine, definition.lanes, lanes, int(has_rows), place, held)
    before = {key: one for key, one in machine.memory.items() if key[0] == "stream"}
    machine.run()
    folded = definition.finish(length, lanes[:definition.lanes], place, held) if has_rows else None
    require_equal(machine.result(), folded if has_rows else definition.hash(held, seed), "the hash")
    if not before.items() <= machine.memory.items():
        raise Refusal("changes the stream")


def check_reset(machine, version):
    assume(0)
    machine.begin("rapidhash_stream_reset", [name("stream")], 0, SIZES)
    fill(machine, LANES[version], symbols("lane")[:7], make("flag", 8), -112, 112)
    machine.memory.update({("stream", 200 + index): one for index, one in enumerate(split(make("held", 64)))})
    machine.run()
    compare(machine, LANES[version], symbols("secret")[:1] * 7, 0, -112, 0)


def show_streams(file, version, is_apart=False, numbers=None):
    """Checks reset, finish and write, for every number of bytes that a stream holds, or for these numbers. Yields why
    it is refused. Code that compares the addresses of the stream and a piece is shown for each order of the two."""
    for Assumed.order in ("before", "after") if is_apart else (None,):
        yield from show_order(Machine(file), version, numbers or range(16 * LANES[version] + 1))
    Assumed.order = None


def show_order(machine, version, numbers):
    Assumed.low, Assumed.top, what = machine.low, machine.top, f"rapidhash_stream_reset of {version}"
    try:
        check_reset(machine, version)
        for held in numbers:
            POOL.clear()
            what = f"{version}, {held} bytes held"
            for has_rows in (False, True)[:1 + (held > 0)]:
                check_finish(machine, version, held, has_rows)
            prove(lambda: Write(machine, version, held))
    except Refusal as refusal:
        yield f"{what}: {refusal}"
