"""Replays the cases that every language has with an installed copy of the package. Their README.md has the format."""

import mmap
import pathlib
import struct
import unittest
from array import array

import rapidhash
from test_rapidhash import STREAMS, VERSIONS

HERE = pathlib.Path(__file__).resolve()
PLACES = [HERE.with_name("cases.tsv"), *(top / "crates/test_replay/data/cases.tsv" for top in HERE.parents)]
FILE = next((place for place in PLACES if place.exists()), None)
KINDS = {kind.name[10:]: kind for kind in STREAMS}
LONG = 2**32


def words(text):
    return [int(word) for word in text.replace(",", " ").split()]


def options_of(version, rule):
    """Returns the arguments for the secrets that a line names."""
    name, _, numbers = rule.partition(":")
    if name == "word":
        return {"seed": int(numbers)}
    if name == "make":
        return {"secrets": rapidhash.make_secrets(int(numbers), 1 if version == "v1" else 3)}
    if name == "own":
        packed = struct.pack(f"={len(words(numbers))}Q", *words(numbers))
        own = (rapidhash.SecretsV1 if version == "v1" else rapidhash.Secrets)(packed)
        assert [own.seed, *own.secrets] == words(numbers)
        return {"secrets": own}
    assert name == "default", rule
    return {}


def bytes_of(text):
    """Returns the bytes of digits or of a rule. Those of 4 GiB need no memory."""
    rule, _, size = text.partition(":")
    if rule == "zeros":
        return mmap.mmap(-1, int(size), mmap.MAP_PRIVATE | mmap.MAP_ANONYMOUS, mmap.PROT_READ)
    return bytes(at % 251 for at in range(int(size))) if size else bytes.fromhex(text.strip("-"))


def in_pieces(hasher, message):
    """Returns the digits of the hash of a message in pieces of 1, 2, 3 bytes, and so on, or in one above 4 GiB."""
    at, size = 0, len(message) if len(message) > LONG else 1
    while at < len(message):
        hasher.update(message if size > LONG else message[at:at + size])
        at, size = at + size, size + 1
    return hasher.hexdigest()


def replay_hash(version, rule, argument):
    options, message = options_of(version, rule), bytes_of(argument)
    found = {getattr(rapidhash, version + "_hexdigest")(message, **options)}
    if len(message) > LONG:
        found |= {f"{hash:016x}" for hash in rapidhash.each_row(message, len(message), version)}
    else:
        found |= {f"{getattr(rapidhash, version)(message, **options):016x}"}
        found |= {f"{rapidhash.each([message], version, **options)[0]:016x}"}
    if version in KINDS:
        found |= {in_pieces(KINDS[version](**options), message)}
    return " ".join(str(int(digits, 16)) for digits in found)


def replay_secrets(version, rule, argument):
    name, _, number = rule.partition(":")
    if name == "make":
        made = rapidhash.make_secrets(int(number), 1 if version == "v1" else 3)
        return " ".join(map(str, [made.seed, *made.secrets]))
    if version == "v3":
        return " ".join(map(str, struct.unpack("=8Q", rapidhash.V3(seed=int(number))._words())))
    return None  # The secrets of a seed word have no call of their own.


def replay_key(version, rule, argument):
    fields = [None if text == "-" else bytes.fromhex(text[1:]) if text[0] == "x" else bytes_of(text) if text[0] == "z"
              else int(text) for text in argument.strip("()").split()]
    found = {rapidhash.v3_key(*fields, **options_of(version, rule))}
    if fields and "zeros" not in argument:
        found |= set(rapidhash.each_key(*[[field] * 2 for field in fields], **options_of(version, rule)))
    return " ".join(map(str, found))


class Stream:
    """Plays the operations of a stream."""

    def __init__(self, kind, options):
        self.kind, self.options, self.hasher, self.saved, self.values = kind, options, kind(**options), b"", []

    def restore(self, saved):
        hasher = self.kind.restore(saved, **self.options)
        assert type(hasher) is self.kind and hasher.save() == saved
        return hasher

    def refuse(self, saved):
        before = self.hasher.save()
        try:
            self.hasher._restore(saved)
        except ValueError:
            assert self.hasher.save() == before
        else:
            raise AssertionError(f"not refused: {saved.hex()}")

    def change(self, kind, place, others, check):
        others, place = bytes.fromhex(others), int(place)
        changed = self.saved[:place] + others + self.saved[place + len(others):200] + bytes.fromhex(check)
        return self.refuse(changed) if kind == "^" else self.hasher._restore(changed)

    def flip(self):
        for bit in range(8 * len(self.saved)):
            changed = bytearray(self.saved)
            changed[bit // 8] ^= 1 << bit % 8
            self.refuse(bytes(changed))

    def play(self, operation):
        kind, text = operation[0], operation[1:]
        if kind == "w":
            self.hasher.update(bytes.fromhex(text))
        elif kind == "r":
            self.hasher.reset()
        elif kind == "f":
            self.values.append(str(self.hasher.intdigest()))
        elif kind == "s":
            self.saved = self.hasher.save()
            self.values.append(self.saved.hex())
            self.hasher = self.restore(self.saved)
        elif kind == "=":
            self.hasher = self.restore(bytes.fromhex(text))
        elif kind == "!":
            self.refuse(bytes.fromhex(text))
        elif kind == "~":
            self.flip()
        else:
            assert kind in "^+", operation
            self.change(kind, *text.split(":"))


def replay_stream(version, rule, argument):
    stream = Stream(KINDS[version], options_of(version, rule))
    for operation in argument.split():
        stream.play(operation)
    return " ".join(stream.values)


def of_columns(call):
    """Returns a call on a number, which must have the same value in a column."""
    def decide(number, count):
        try:
            value = call(number, count)
        except ValueError:
            return "refused"
        assert call is rapidhash.first_hash or call(array("Q", [number] * 2), count) == array("Q", [value] * 2)
        return value
    return lambda version, rule, argument: str(decide(*words(argument)))


def replay_fingerprint(version, rule, argument):
    hashes = words(argument.strip("-"))
    columns = hashes, iter(hashes), array("Q", hashes), memoryview(array("Q", hashes[::-1]))[::-1]
    return " ".join(str(value) for value in {rapidhash.fingerprint(column) for column in columns})


REPLAYS = {"hash": replay_hash, "secrets": replay_secrets, "key": replay_key, "stream": replay_stream,
           "fingerprint": replay_fingerprint,
           **{name: of_columns(getattr(rapidhash, name)) for name in ("shard", "first_hash", "bucket")}}


@unittest.skipUnless(FILE, "the repository has cases.tsv, and the source distribution does not")
class Cases(unittest.TestCase):
    def test_all(self):
        count, versions = 0, set()
        for line in FILE.read_text().splitlines():
            if line.startswith(("#", "kind\t")):
                continue
            kind, version, rule, argument, value = line.split("\t")
            with self.subTest(line[:100]):
                self.assertIn(REPLAYS[kind](version, rule, argument), (value, None))
            count, versions = count + 1, versions | {version} if kind == "hash" else versions
        self.assertGreater(count, 5000)
        self.assertEqual(versions, set(VERSIONS))


if __name__ == "__main__":
    unittest.main()
