"""Tests the rules for terms with numbers."""

import contextlib
import functools
import operator
import random

from linear import (MASK, POOL, Assumed, Refusal, add, apart, assume, bounds, equal, is_kind, known, less, linear, make,
                    most_turns, name, substitute, subtract, value_at)
from terms import bit_and, bit_or, byte, join, low_bits, message, multiply, shift_left, shift_right, sign, split, xor
from webassembly import schoolbook, summed

# What terms are for numbers. `get` returns the number of a word.
MEANING = {
    "sum": lambda get, *words: sum(map(get, words)) & MASK,
    "xor": lambda get, constant, words: functools.reduce(operator.xor, map(get, words), constant),
    "low": lambda get, first, second: get(first) * get(second) & MASK,
    "high": lambda get, first, second: get(first) * get(second) >> 64,
    "shifted left": lambda get, word, count: get(word) << count,
    "shifted right": lambda get, word, count: get(word) >> count,
    "low bits": lambda get, word, bits: get(word) & (1 << bits) - 1,
    "or": lambda get, words: functools.reduce(operator.or_, map(get, words)),
    "and": lambda get, first, second: get(first) & get(second),
    "byte": lambda get, word, index: get(word) >> 8 * index & 255,
    "bytes": lambda get, *these: int.from_bytes(bytes(map(get, these)), "little"),
    "message": lambda get, place, size: int.from_bytes(random.Random(1).randbytes(4096)[place:place + size], "little"),
}


def division(count):
    """Returns the rule of a division by 56, which compilers write as a product and a shift."""
    factor = (1 << 64 + count) // 56 + 1
    return lambda a, n: shift_right(multiply(a, factor)[1], count), lambda a, n: a * factor >> 64 + count


OF_TWO = [
    (xor, operator.xor), (add, operator.add), (subtract, operator.sub), (bit_or, operator.or_),
    (bit_and, operator.and_),
    (lambda a, b: multiply(a, b)[0], operator.mul), (lambda a, b: multiply(a, b)[1], lambda a, b: a * b >> 64),
    (lambda a, b: join(split(a)[:3] + split(b)[3:]), lambda a, b: a & 0xFFFFFF | b >> 24 << 24), (summed, operator.add),
    (lambda a, b: summed(schoolbook(a, b), 0), lambda a, b: a * b >> 64),
]
OF_BITS = [
    (shift_left, operator.lshift), (shift_right, operator.rshift), (low_bits, lambda a, n: a & (1 << n) - 1),
    (lambda a, n: add(0, a, n), operator.mul), (lambda a, n: byte(a, n // 8), lambda a, n: a >> n // 8 * 8 & 255),
    (lambda a, n: join(split(a)[n // 8:]), lambda a, n: a >> n // 8 * 8),
    (lambda a, n: sign(a, 63), lambda a, n: MASK * (a >> 63)), division(1), division(5),
]


def evaluation(numbers, draw):
    """Returns the function that evaluates words, with random numbers for unknown ones."""
    @functools.lru_cache(None)
    def get(word):
        if known(word) or word.kind == "linear":
            return value_at(word, numbers) & MASK
        unknown = draw.choice([draw.getrandbits(64), 0, MASK, draw.getrandbits(33)])
        value = MEANING[word.kind](get, *word.parts) if word.kind in MEANING else unknown
        assert value < 1 << word.width, word
        return value
    return get


def linear_is_right(word, numbers):
    """Checks the bounds of a linear word, and that it is neither surely less nor surely equal at its bounds."""
    (low, high), value = bounds(word), value_at(word, numbers)
    if not low <= value <= high or (value_at(substitute(word, "turns", numbers["turns"]), numbers) - value) & MASK:
        yield f"{word} has wrong bounds or parts"
    for ask, end in ((less, high), (equal, low)) if 0 <= low < high <= MASK else ():
        with contextlib.suppress(Refusal):
            yield f"{word} is compared with {end}: {ask(word, end)}"


def rules_hold(seed=1, rounds=200):
    """Compares each operation on random terms with the same on numbers. Yields what differs."""
    draw, count = random.Random(seed), 0
    for _ in range(rounds):
        POOL.clear()
        turns = draw.randrange(1, 1 << draw.choice([20, 56]))
        numbers = {"turns": turns, "done": draw.choice([0, turns - 1]), "message": draw.choice([1 << 12, 1 << 40])}
        assume(linear(2000, {"turns": 112}), 1, turns, is_turning=True)
        get = evaluation(numbers, draw)
        pool = [make(text, 64) for text in "abc"] + [message(draw.randrange(2000), size) for size in (1, 2, 4, 8, 8)]
        pool += [draw.choice([0, 1, MASK, 255, draw.getrandbits(64), 1 << 63, draw.getrandbits(20)]) for _ in range(5)]
        pool += [add(name("message"), 3), add(55, name("turns", 112)), subtract(name("turns", 112), name("done", 56))]
        for _ in range(60):
            first, second = draw.choice(pool[-12:] + pool), draw.choice(pool[-12:] + pool)
            if draw.random() < .5:
                second = draw.choice([1, 7, 8, 16, 31, 32, 33, 45, 56, 63])
            terms, compute = draw.choice(OF_BITS if known(second) and 0 < second < 64 else OF_TWO)
            with contextlib.suppress(Refusal):
                result = terms(first, second)
                count += 1
                if get(result) != compute(get(first), get(second)) & MASK:
                    yield f"{first} and {second} give {result}"
                pool.append(result)
                if is_kind(result, "linear"):
                    yield from linear_is_right(result, numbers)
                low, high = apart(result, second)
                if not low <= get(result) - get(second) <= high:
                    yield f"{result} - {second} is not from {low} to {high}"
    if count < 30 * rounds:
        yield f"only {count} operations"


def orders_hold():
    """Checks that the vertices of each order are addresses of a message and a stream that do not overlap."""
    for Assumed.order in (None, "before", "after"):
        assume(linear(2000, {"turns": 112}), 0, most_turns(2000, 112))
        for turns, place, stream in ([corner.get(text, Assumed.low) for text in ("turns", "message", "stream")]
                                     for corner in Assumed.corners):
            end, room = place + 2000 + 112 * turns, 256
            between = {None: 0, "before": stream - end, "after": place - stream - room}[Assumed.order]
            if min(between, Assumed.top - end, Assumed.top - stream - room) < 0:
                yield f"{Assumed.order}: a message from {place} to {end}, and a stream at {stream}"
    Assumed.order = None
