"""Words of 64 bits as numbers or as terms. A term has a kind and parts, and is made once, so that equal terms are
the same object and `==` compares words. A linear word is c + k1*name1 + k2*name2 .. modulo 2^64: an address, or an
unknown length. Only linear words have bounds, so that they alone decide branches."""

MASK = (1 << 64) - 1
POOL = {}


class Refusal(Exception):
    """Tells what the tool does not know or does not accept."""


class Term:
    """Is a word that is no number. Its bits from `width` on are 0."""
    def __init__(self, kind, width, parts):
        self.kind, self.width, self.parts, self.age = kind, width, parts, len(POOL)

    def __repr__(self):
        if self.kind == "linear":
            return " + ".join([str(self.parts[0])] + [f"{factor} * {text}" for text, factor in self.parts[1]])
        return f"{self.kind}({', '.join(map(str, self.parts))})"[:160]


def make(kind, width, *parts):
    key = kind, *parts
    if key not in POOL:
        POOL[key] = Term(kind, width, parts)
    return POOL[key]


def known(*words):
    for word in words:
        if type(word) is not int:
            return False
    return True


def is_kind(word, *kinds):
    return type(word) is Term and word.kind in kinds


def width(word):
    return word.bit_length() if known(word) else word.width


def ordered(*words):
    """Sorts words: numbers first, then terms by their age."""
    return sorted(words, key=lambda word: (0, word) if known(word) else (1, word.age))


# Linear words, and what is known of their names.
class Assumed:
    low, top = 1 << 20, MASK  # addresses: the message ends at `top` or before
    order = None  # of the message and a stream: "before" if the message is before the stream, "after", or unknown
    corners = [{}]  # the values of names at the vertices of what is known; all others are addresses, of any value


def assume(length, least=0, most=0, is_turning=False):
    """Sets what is known: `turns` is from `least` to `most`, and `done` from 0 to turns - least if the loop is turning.
    The conditions are linear, so a linear word is least and greatest at vertices of the values that they allow."""
    Assumed.corners = []
    for turns, done in [(least, 0), (most, 0)] + [(most, most - least)] * is_turning:
        corner = {"turns": turns, "done": done}
        size = value_at(length, corner)
        Assumed.corners += [{**corner, "message": message, **({"stream": stream} if Assumed.order else {})}
                            for message, stream in places(size)]


def places(size):
    """Yields the addresses of a message of a size and of a stream at the vertices of those that do not overlap. Without
    bytes a message may be anywhere but at 0, which is tried by itself, and in a stream if its place is compared."""
    first, low, end, room = 1 if size == 0 else 1 << 12, Assumed.low, Assumed.top, 1 << 8
    if Assumed.order == "before":
        least = first + size if size else low
        yield from ((first, least), (least - size, least), (first, end - room), (end - room - size, end - room))
    elif Assumed.order == "after":
        yield from ((low + room, low), (end - size, low), (end - size, end - size - room))
    else:
        yield from ((first, low), (end - size, low))


def most_turns(first, turn):
    """Returns how many turns a message of `first` + `turn` * turns bytes may have, so that `places` has room for it."""
    room = {None: 1 << 12, "before": 1 << 13, "after": Assumed.low + (1 << 8)}[Assumed.order]
    return (Assumed.top - room - first) // turn


def signed(number):
    return (number + (1 << 63) & MASK) - (1 << 63)


def linear(constant, factors):
    """Returns the word constant + factor * name + .."""
    factors = tuple(sorted((name, signed(factor)) for name, factor in factors.items() if factor & MASK))
    return make("linear", 64, signed(constant), factors) if factors else constant & MASK


def name(text, factor=1):
    return linear(0, {text: factor})


def parts(word):
    """Returns the constant and the factors of a linear word, or nothing."""
    if known(word):
        return signed(word), {}
    return (word.parts[0], dict(word.parts[1])) if word.kind == "linear" else None


def value_at(word, corner):
    return word if known(word) else word.parts[0] + sum(factor * corner[text] for text, factor in word.parts[1])


def ends(constant, factors):
    """Returns the least and the greatest value of constant + factor * name + .. as an integer, not cut to 64 bits."""
    low, high, others = constant, constant, []
    for text, factor in factors.items():
        if text in Assumed.corners[0]:
            others.append((text, factor))
        else:
            both = factor * Assumed.low, factor * (Assumed.top - 64)
            low, high = low + min(both), high + max(both)
    values = [sum(factor * corner[text] for text, factor in others) for corner in Assumed.corners]
    return low + min(values), high + max(values)


def bounds(word):
    return ends(*parts(word))


def apart(first, second):
    """Returns the bounds of first - second, of two words that decide a branch, as an integer that is not cut."""
    (one, factors), (two, others) = exact(first), exact(second)
    return ends(one - two, {text: factors.get(text, 0) - others.get(text, 0) for text in {**factors, **others}})


def exact(word):
    """Returns the constant and the factors of a word as an integer from 0 to 2^64 - 1. A linear word that is always
    negative is 2^64 more; one that is so for some values alone is refused."""
    if known(word):
        return word, {}
    if word.kind != "linear":
        raise Refusal(f"a branch depends on contents: {word}")
    (constant, factors), (low, high) = parts(word), bounds(word)
    if low < 0 <= high or low < -MASK - 1 or high > MASK:
        raise Refusal(f"a number that may leave 64 bits: {word}")
    return constant + (MASK + 1) * (high < 0), factors


def less(first, second):
    """Returns 1 or 0: whether first < second for all values of the names; refuses if for some of them."""
    low, high = apart(first, second)
    if low < 0 <= high:
        raise Refusal(f"a branch that is not decided: {first} < {second}")
    return int(high < 0)


def equal(first, second=0):
    low, high = apart(first, second)
    if low <= 0 <= high and low != high:
        raise Refusal(f"a branch that is not decided: {first} = {second}")
    return int(low == high == 0)


def below(word, bits):
    """Returns whether a word is surely below 2^bits."""
    return 0 <= bounds(word)[0] <= bounds(word)[1] < 1 << bits if is_kind(word, "linear") else width(word) <= bits


def add(first, second, times=1):
    """Returns first + times * second."""
    if known(second) and is_kind(first, "linear"):
        return make("linear", 64, signed(first.parts[0] + times * second), first.parts[1])
    one, two = parts(first), parts(second)
    if one and two:
        factors = {text: one[1].get(text, 0) + times * two[1].get(text, 0) for text in {**one[1], **two[1]}}
        return linear(one[0] + times * two[0], factors)
    if times != 1:
        raise Refusal(f"a difference or a multiple of contents: {first} {times:+} * {second}")
    summands = [part for word in (first, second) for part in (word.parts if is_kind(word, "sum") else [word])]
    summands = ordered(*(part for part in summands if part != 0))
    return make("sum", 64, *summands) if len(summands) > 1 else summands[0]


def subtract(first, second):
    return add(first, second, -1)


def substitute(word, text, value):
    """Returns a linear word with a linear value for a name; any other word unchanged."""
    if not is_kind(word, "linear"):
        return word
    constant, factors = parts(word)
    factor = factors.pop(text, 0)
    return add(linear(constant, factors), value, factor)
