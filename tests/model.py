"""Implements the hashes from docs/ALGORITHM.md alone, with the secrets of that page, and saved streams from
docs/BINDINGS.md."""

import re
from functools import reduce
from operator import xor

from cases import TOP

PAGE = (TOP / "docs" / "ALGORITHM.md").read_text()
AA = 0xAAAAAAAAAAAAAAAA
S = [int(number, 16) for _, number in sorted(re.findall(r"\b(S\d) \| (0x\w{16})", PAGE))]


class Numbers:
    """The operations of a definition over a message's bytes: those over terms are in tests/machine/terms.py."""

    def __init__(self, content):
        self.content = content

    def message(self, place, size):
        return int.from_bytes(self.content[place : place + size], "little")

    @staticmethod
    def known(*_):
        return True

    @staticmethod
    def add(first, second):
        return (first + second) % 2**64

    @staticmethod
    def bit_or(first, second):
        return first | second

    @staticmethod
    def multiply(first, second):
        return first * second % 2**64, first * second >> 64

    @staticmethod
    def shift_left(word, count):
        return word << count

    @staticmethod
    def xor(*words):
        return reduce(xor, words)


# The lanes of each version, and the longest message without a row. `core` is the hash of a write in memory.
VERSIONS = {"v1": 3, "v2_0": 7, "v2_1": 7, "v2_2": 7, "v3": 7, "v3_micro": 5, "v3_nano": 3, "v3_protected": 7}
LIMITS = {"v1": 48, "v1_bug": 47, "v2_0": 56, "v2_1": 64, "v2_2": 64, "core": 48}


class Definition:
    """The hash of a version and options, as in cases.tsv, over operations. A place and a length may be linear terms."""

    def __init__(self, name, secrets, on):
        self.version = name.removesuffix("_protected").removesuffix("_raw")
        self.avalanche, self.protected = "_raw" not in name, name.endswith("_protected")
        self.family, self.secrets, self.on = self.version[:2], secrets, on
        self.lanes = {"core": 3, "v1_bug": 3, **VERSIONS}[self.version]
        self.row, self.limit = 16 * self.lanes, LIMITS.get(self.version, 16 * self.lanes)

    def product(self, first, second):
        low, high = self.on.multiply(first, second)
        return (self.on.xor(low, first), self.on.xor(high, second)) if self.protected else (low, high)

    def fold(self, lane, secret, place):
        """Returns a lane after the pair of words at a place."""
        first, second = self.on.message(place, 8), self.on.message(self.on.add(place, 8), 8)
        return self.on.xor(*self.product(self.on.xor(first, self.secrets[secret]), self.on.xor(second, lane)))

    def fold_rows(self, lanes, place, rest):
        """Folds all rows of the last `rest` bytes. Returns the lanes, the place after the rows, and the new rest."""
        is_v3 = self.family == "v3"
        for count in (len(lanes),) if is_v3 else (len(lanes), 3):
            while rest >= 16 * count + is_v3:
                folded = [self.fold(lanes[index], index, self.on.add(place, 16 * index)) for index in range(count)]
                lanes, place, rest = folded + lanes[count:], self.on.add(place, 16 * count), rest - 16 * count
        return lanes, place, rest

    def start(self, length, seed):
        """Returns the word that every lane starts from."""
        is_mixed = self.family in ("v1", "v2") or self.family == "v3" and self.on.known(length) and 4 <= length <= 16
        return self.on.xor(seed, length) if is_mixed else seed

    def hash(self, length, seed):
        lanes = 7 if self.version == "core" and length > 400 else self.lanes
        return self.finish(length, [self.start(length, seed)] * lanes, 0, length)

    def finish(self, length, lanes, place, rest):
        """Returns the hash of a message, before whose last `rest` bytes, from a place on, all rows are folded."""
        has_rows, s = not self.on.known(length) or length > self.limit, self.secrets
        if has_rows:
            lanes, place, rest = self.fold_rows(lanes, place, rest)
        seed = self.on.xor(*lanes, s[1] if self.family == "v1" and rest > 16 else 0)
        tail = (0, 1, int(self.version == "v2_2")) if self.family == "v2" and not has_rows else (2, 2, 1, 1, 2, 1)
        for pair in range(max(0, rest - 1) // 16):
            secret = 0 if self.version == "core" else tail[pair]
            seed = self.fold(seed, secret, self.on.add(place, 16 * pair))
        first, second = self.last_words(length)
        secret, masks = s[1], {"v1": (s[0], length, s[1], 0), "v2": (AA, length, s[1], 0)}.get(self.family)
        if self.family == "v3":
            masks = AA, 0, s[1], rest
            first = self.on.xor(first, rest if not self.on.known(length) or length > 16 else 0)
        elif self.version == "core":
            seed = self.on.add(seed, length)
            secret, masks = s[0], (AA, seed, s[1], 0)
        low, high = self.product(self.on.xor(first, secret), self.on.xor(second, seed))
        if not self.avalanche:
            return self.on.xor(low, high)
        return self.on.xor(*self.product(self.on.xor(low, *masks[:2]), self.on.xor(high, *masks[2:])))

    def last_words(self, length):
        read, join = self.on.message, lambda one, bits, other: self.on.bit_or(self.on.shift_left(one, bits), other)
        if not self.on.known(length) or length > 16:
            return read(self.on.add(length, -16), 8), read(self.on.add(length, -8), 8)
        if length > 3 and self.family == "v1":
            word = join(read(0, 4), 32, read(length - 4, 4))
            return word, join(read(4, 4), 32, read(length - 8, 4)) if length > 7 else word
        if length > 3:
            size = 8 if length > 7 else 4
            return read(0, size), read(length - size, size)
        if length == 0:
            return 0, 0
        first, middle, last = (read(place, 1) for place in (0, length // 2, length - 1))
        if self.version in ("v1", "v1_bug", "v2_0", "v2_1"):
            return self.on.bit_or(join(first, 56, self.on.shift_left(middle, 32)), last), 0
        return join(first, 56 if self.version == "v2_2" else 45, last), middle


def mix(a, b, protected=False):
    return Numbers.xor(*Numbers.multiply(a, b), *(a, b) * protected)


def hash_of(name, content, seed, secrets):
    return Definition(name, secrets, Numbers(content)).hash(len(content), seed)


def crc64(data):
    """Returns CRC-64/XZ."""
    crc = 2**64 - 1
    for byte in data:
        crc ^= byte
        for _ in range(8):
            crc = crc >> 1 ^ 0xC96C5795D7870F42 * (crc & 1)
    return crc ^ 2**64 - 1


def saved(version, content, seed, secrets):
    """Returns the 208 bytes of a stream after a message."""
    definition = Definition(version, secrets, Numbers(content))
    lanes, end, rest = definition.fold_rows([seed] * definition.lanes, 0, len(content))
    kept = content[end - 16 : end] if end else bytes(16)
    options = definition.avalanche + 2 * definition.protected
    state = b"rapidV3" + bytes([2, len(lanes), options, end > 0, rest, 0, 0, 0, 0])
    state += b"".join((lane ^ seed).to_bytes(8, "little") for lane in lanes + [seed] * (7 - len(lanes)))
    state += (kept + content[end:]).ljust(128, b"\0")
    check = crc64(state) ^ hash_of("v3_protected", bytes(range(240)), seed, secrets)
    return state + check.to_bytes(8, "little")


def repaired(x):
    for bits, bit in ((0xFFFF << 48, 63), (0xFFFF << 24, 31), (0xFFFF, 0)):
        x |= 0 if x & bits else 1 << bit
    return x


def premix(x, i):
    return repaired(x ^ mix(x ^ S[2], S[i]))


def secrets_of(rule, number, is_v1):
    """Returns a seed and its secrets, by a rule of crates/test_replay/data/README.md."""
    count = 3 if is_v1 else 7
    if rule in ("word", "default"):
        x = int(number or 0xBDD89AA982704029 * is_v1)
        return [x ^ (mix(x ^ S[0], S[1]) if is_v1 else mix(x ^ S[2], S[1])), *S[:count]]
    if rule == "own":
        return [int(word) for word in number.split(",")]
    made = [premix(int(number), 0)]
    for i in range(count):
        made.append(premix(made[-1], i))
    return [premix(made[0], 2 if is_v1 else 6), *made[1:]] if rule == "reseed" else made


def made_secrets(r):
    state, made = mix(r ^ S[2], S[1]), []
    for i in range(7):
        state = repaired(mix(state ^ S[0], r ^ S[i]))
        made.append(state)
    return made


def seed_source(r, z):
    """Returns the global seed of a random word, and four seeds of its source with a second word."""
    start = mix(r ^ S[0], 0xBDD89AA982704029)
    counter, seeds = mix((z + 1) % 2**64 ^ S[3], start ^ S[4]), [start]
    for _ in range(4):
        counter = (counter + S[0]) % 2**64
        seeds.append(counter ^ mix(counter ^ S[2], z ^ S[1]))
    return seeds


def drawn(x, count, is_portable=True):
    """Returns words of the generator and its last state."""
    words = []
    for _ in range(count):
        x = (x + S[0]) % 2**64
        words.append(mix(x, x ^ S[1] if is_portable else S[1]))
    return [*words, x]


def drawn_by_time(x, seconds, nanos):
    y = mix(mix((seconds % 2**32 << 32 | nanos) ^ S[0], x ^ S[1]) ^ S[0], S[2])
    return mix(y, y ^ S[1]), y


def message(argument):
    """Returns the message of an argument of a case."""
    rule, _, size = argument.partition(":")
    if not size:
        return bytes.fromhex(argument.strip("-"))
    n = int(size)
    if rule == "random":
        return b"".join(word.to_bytes(8, "little") for word in drawn(0, n // 8 + 1))[:n]
    return bytes(((i * i + 7 * i + n) if rule == "square" else i) % 251 for i in range(n))


def hashed_items(name, items, seed, s):
    """Computes the in-memory hasher's value of a list of items, as in docs/ALGORITHM.md."""
    protected, options = name.endswith("_protected"), name.removeprefix("hasher").removeprefix("_sponge")
    block, end = 0, 0
    for item in items:
        kind, _, value = item.partition(":")
        if kind in ("bytes", "square", "random"):
            seed = hash_of("core" + options, message(value if kind == "bytes" else item), seed, s)
            continue
        width = 64 if kind.endswith("size") else int(kind[1:])
        number = int(value) % 2**width
        if width == 128:
            seed = mix(number % 2**64 ^ seed, number >> 64 ^ s[0], protected)
        elif "_sponge" not in name:
            seed = mix(number ^ s[0], number ^ seed, protected)
        else:
            if end + width > 128:
                seed, block, end = mix(block % 2**64 ^ seed, block >> 64 ^ s[0], protected), 0, 0
            block, end = block | number << end, end + width
    if end:
        seed = mix(block % 2**64 ^ seed, block >> 64 ^ s[0], protected)
    return seed if "_raw" in name else mix(seed, S[1], protected)


def shard(hash, count):
    return hash * count >> 64


def first_hash(shard, count):
    return -(-(shard << 64) // count)


def bucket(hash, count):
    """Returns the bucket of jump consistent hashing, with its quotient in exact integers."""
    at, after = 0, 0
    while after < count:
        at, hash = after, (hash * 2862933555777941757 + 1) % 2**64
        after = ((at + 1) << 31) // ((hash >> 33) + 1)
    return at


def fingerprint(hashes):
    return sum(hashes) % 2**64


def field_bytes(text):
    """Returns the encoding of a key's field: `-`, a decimal integer, or x and hexadecimal digits."""
    if text == "-":
        return b"\0"
    data = bytes.fromhex(text[1:]) if text[0] == "x" else b""
    number = len(data) if text[0] == "x" else int(text)
    return (b"\2" if text[0] == "x" else b"\1") + (number % 2**64).to_bytes(8, "little") + data
