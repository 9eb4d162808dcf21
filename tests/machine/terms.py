"""Operations on 64-bit words. Each returns the word that the processor would compute, for all values of the unknown
words. Contents, seeds and secrets are terms of which nothing is known. A product is two terms, its low and its high
half."""

from linear import MASK, POOL, Refusal, add, below, bounds, is_kind, known, linear, make, ordered, parts, width


def xor(*words):
    """Returns the XOR of words: of a number and of the terms that remain, each of which counts once."""
    constant, others = 0, frozenset()
    for word in words:
        number, terms = word.parts if is_kind(word, "xor") else (word, ()) if known(word) else (0, {word})
        constant, others = constant ^ number, others.symmetric_difference(terms)
    if not others or constant == 0 and len(others) == 1:
        return next(iter(others), constant)
    return make("xor", max(map(width, (constant, *others))), constant, others)


def multiply(first, second):
    """Returns the low and the high half of a product."""
    if known(first, second) or 0 in (first, second):
        return (0, 0) if 0 in (first, second) else (first * second & MASK, first * second >> 64)
    first, second = ordered(first, second)
    low = add(0, second, first) if known(first) and parts(second) else make("low", 64, first, second)
    return low, make("high", 64, first, second)


def shift_left(word, count):
    if parts(word):
        return add(0, word, 1 << count)
    if word.width + count > 64:
        raise Refusal(f"a left shift that loses bits: {word} << {count}")
    return make("shifted left", word.width + count, word, count) if count else word


def shift_right(word, count):
    """Returns word >> count. Of an XOR it drops the terms that have no bits there."""
    if known(word) or count == 0:
        return word >> count if known(word) else word
    if word.kind == "xor":
        kept = xor(word.parts[0] >> count << count, *(part for part in word.parts[1] if not below(part, count)))
        if kept != word:
            return shift_right(kept, count)
    if word.kind == "linear" and below(word, 64) and not any(factor % (1 << count) for _, factor in word.parts[1]):
        return linear(word.parts[0] >> count, {text: factor >> count for text, factor in word.parts[1]})
    if word.kind == "high" and known(word.parts[0]) and parts(word.parts[1]):
        return quotient(word.parts[1], word.parts[0], count)
    return make("shifted right", word.width - count, word, count) if word.width > count else 0


def quotient(word, factor, count):
    """Returns word * factor >> 64 + count, by which compilers divide: with divisor * factor = whole + more, this is
    word // divisor as long as word is below 2^64 and word * more below the whole."""
    whole, (constant, factors) = 1 << 64 + count, parts(word)
    divisor = -(-whole // factor)
    is_exact = below(word, 64) and (factor * divisor - whole) * bounds(word)[1] < whole
    if not is_exact or any(one % divisor for one in factors.values()):
        raise Refusal(f"a product of which bits are lost: {word} * {factor} >> {64 + count}")
    return linear(constant // divisor, {text: one // divisor for text, one in factors.items()})


def sign(word, count):
    """Returns a signed word >> 63: its sign in all bits."""
    low, high = bounds(word) if parts(word) else (-1, 0)
    if count != 63 or low < 0 <= high or low < -1 << 63 or high >> 63 > 0:
        raise Refusal(f"a shift of an unknown sign: {word} >> {count}")
    return MASK if high < 0 else 0


def low_bits(word, bits):
    if known(word) or bits == 64 or below(word, bits):
        return word & (1 << bits) - 1 if known(word) else word
    is_whole = word.kind == "bytes" and bits % 8 == 0
    return join(word.parts[:bits // 8]) if is_whole else make("low bits", bits, word, bits)


def bit_or(first, second):
    terms = [word.parts[0] if is_kind(word, "or") else {word} for word in (first, second)]
    either = frozenset().union(*terms) - {0}
    if known(first, second) or len(either) == 1:
        return first | second if known(first, second) else next(iter(either))
    return make("or", max(map(width, either)), either)


def bit_and(first, second):
    first, second = ordered(first, second)
    if known(first) and (known(second) or first & first + 1 == 0):
        return first & second if known(second) else low_bits(second, first.bit_length()) if first else 0
    return second if first == second else make("and", min(width(first), width(second)), first, second)


# Bytes are words below 2^8. A word in memory is its bytes, least significant first.
def message(place, size):
    """Returns the number in `size` bytes of the message."""
    return make("message", 8 * size, place, size)


def byte(word, index):
    if known(word) or word.width <= 8 * index:
        return word >> 8 * index & 255 if known(word) else 0
    if word.kind == "message":
        return message(add(word.parts[0], index), 1)
    if word.kind == "bytes":
        return word.parts[index]
    return word if index == 0 and word.width <= 8 else make("byte", 8, word, index)


def split(word, size=8):
    """Returns the bytes of a word. The list is kept, so that nobody may change it."""
    key = "split", word, size
    if key not in POOL:
        POOL[key] = [byte(word, index) for index in range(size)]
    return POOL[key]


def join(these):
    """Returns the word of these bytes."""
    these = list(these)
    size = len(these)
    if known(*these) or size == 1:
        return int.from_bytes(bytes(these), "little") if known(*these) else these[0]
    if is_kind(these[0], "message") and these == split(message(these[0].parts[0], size), size):
        return message(these[0].parts[0], size)
    if is_kind(these[0], "byte"):
        word, start = these[0].parts
        if these == split(word)[start:start + size]:
            return low_bits(shift_right(word, 8 * start), 8 * size)
    return make("bytes", 8 * size, *these)
