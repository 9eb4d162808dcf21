#!/usr/bin/env python3
"""Prints tests/fields.tsv: values of types, as docs/ALGORITHM.md names them, and for each the encoding of its field, in
exact arithmetic, or `refused`. `null` is a missing value, and a list is JSON. The runner of a language makes a value of
the language's own type from the text, and compares the hash of a key of it with V3 of the encoding. A line whose value
the type cannot have counts as refused."""

import itertools
import json
import random
import re
import struct

INTEGERS = range(-(2**63), 2**64)
MOST = 150_000


def encoded(field):
    """Returns the encoding of nothing, an integer, or a text or bytes."""
    if field is None:
        return b"\0"
    if isinstance(field, int):
        return b"\1" + (field % 2**64).to_bytes(8, "little") if field in INTEGERS else None
    data = field.encode() if isinstance(field, str) else field
    return b"\2" + len(data).to_bytes(8, "little") + data


def days(year, month, day):
    """Returns the days of a date since 1970-01-01, or None if it is none."""
    leap = year % 4 == 0 and (year % 100 != 0 or year % 400 == 0)
    lengths = [31, 28 + leap, 31, 30, 31, 30, 31, 31, 30, 31, 30, 31]
    if not (1 <= month <= 12 and 1 <= day <= lengths[month - 1]):
        return None
    past = year - 1
    return past * 365 + past // 4 - past // 100 + past // 400 + sum(lengths[: month - 1]) + day - 1 - 719162


def date(text):
    found = re.fullmatch(r"(\d{4})-(\d\d)-(\d\d)", text)
    return found and days(*map(int, found.groups()))


def time(text):
    found = re.fullmatch(r"(\d{4}-\d\d-\d\d)T(\d\d):(\d\d):(\d\d)(?:\.(\d+))?(?:Z|([+-])(\d\d):(\d\d))", text)
    if not found or (day := date(found[1])) is None:
        return None
    hours, minutes, seconds = map(int, found.groups()[1:4])
    fraction = (found[5] or "").ljust(6, "0")
    if hours > 23 or minutes > 59 or seconds > 59 or fraction[6:].strip("0"):
        return None
    ahead = (1 if found[6] == "+" else -1) * (int(found[7]) * 60 + int(found[8])) if found[6] else 0
    return ((day * 1440 + hours * 60 + minutes - ahead) * 60 + seconds) * 10**6 + int(fraction[:6])


def decimal(text):
    found = re.fullmatch(r"([+-]?)(?=\.?\d)(\d*)(?:\.(\d*))?(?:[eE]([+-]?\d+))?", text)
    if not found:
        return None
    whole, part = found[2], found[3] or ""
    digits = (whole + part).rstrip("0")
    places = len(digits) - len(whole) - int(found[4] or 0)
    if not digits.strip("0"):
        return "0"
    if abs(places) > 2 * MOST:
        return None
    digits = digits + "0" * max(0, -places)
    whole, part = (digits[:-places].rjust(1, "0"), digits[-places:].rjust(places, "0")) if places > 0 else (digits, "")
    result = (whole.lstrip("0") or "0") + ("." + part).rstrip("0").rstrip(".")
    result = ("-" if found[1] == "-" else "") + result
    return result if len(result) <= MOST else None


def bits(text):
    number = float(text)
    return None if number != number else struct.unpack("<Q", struct.pack("<d", number + 0.0))[0]


TYPES = {"boolean": {"true": 1, "false": 0}.get,
         "integer": lambda text: int(text) if int(text) in INTEGERS else None,
         "date": date, "time": time, "decimal": decimal, "float": bits,
         "uuid": lambda text: bytes.fromhex(text.replace("-", "")) if re.fullmatch("[-0-9a-fA-F]{36}", text) else None}


def encoding(kind, text):
    """Returns the encoding of a value of a type as hexadecimal digits, or `refused`."""
    if text == "null":
        return encoded(None).hex()
    if kind == "list":
        items = json.loads(text)
        parts = [None if isinstance(it, (list, dict, float)) else encoded(it) for it in items]
        return "refused" if None in parts else (encoded(len(items)) + b"".join(parts)).hex()
    field = TYPES[kind](text)
    return "refused" if field is None else encoded(field).hex()


EDGES = {
    "boolean": "true false",
    "integer": "0 1 -1 127 -128 2147483648 -2147483649 9007199254740993 -9007199254740993 9223372036854775807 "
               "9223372036854775808 -9223372036854775808 18446744073709551615 18446744073709551616 "
               "-9223372036854775809 1000000000000000000000000000000",
    "date": "1970-01-01 1969-12-31 1970-01-02 2000-02-29 2024-02-29 1900-02-28 1900-03-01 0001-01-01 0004-02-29 "
            "1582-10-04 1582-10-15 9999-12-31 2023-02-29 1900-02-29 2024-04-31 2024-13-01 2024-00-10 infinity "
            "-infinity",
    "time": "1970-01-01T00:00:00Z 1969-12-31T23:59:59.999999Z 1969-12-31T23:59:59.5Z 2024-02-29T12:34:56.789012Z "
            "2024-02-29T12:34:56.789012000Z 2024-02-29T12:34:56.789012500Z 2024-02-29T12:34:56.789012001Z "
            "1969-12-31T23:59:59.999999999Z 2024-02-29T12:34:56+05:30 2024-02-29T00:00:00.1-08:00 "
            "2024-12-31T23:59:59.000001+14:00 0001-01-01T00:00:00.000001Z 9999-12-31T23:59:59.999999Z "
            "2016-12-31T23:59:60Z 2024-02-29T12:34:56 2023-02-29T00:00:00Z infinity -infinity",
    "uuid": "00000000-0000-0000-0000-000000000000 ffffffff-ffff-ffff-ffff-ffffffffffff "
            "FFFFFFFF-FFFF-FFFF-FFFF-FFFFFFFFFFFF 00112233-4455-6677-8899-aabbccddeeff "
            "F0000000-0000-0000-0000-000000000080 00112233-4455-6677-8899-aabbccddeefg",
    "decimal": "0 -0 0.0 -0.00 .0 +0 0e5 -0E-5 1 +1.5 -1.50 .5 .50 5. 000.100 007.10 -007 100 100.00 1.50e10 1E+3 1e-3 "
               "-1.5E-2 1e20 1e200 12345678901234567890123456789.010 0.1e-50 1e300 -1e-300 9999999999999999999999.5 "
               "NaN Infinity -Infinity 1e150000 -1e1000000000 1e1000000000 abc 1e - . --1",
    "list": '[] [1] [7,-1] [3,2,1] ["a","bc"] [""] ["",""] [null] [1,null,2] [true,false] [18446744073709551615] '
            '[-9223372036854775808] ["1",1] ["\\u00e9\\u20ac\\ud83d\\ude00"] [[1]] [1,[2]] [[],[]] '
            '[18446744073709551616]',
    "float": "0.0 -0.0 1.5 -1.5 0.1 5e-324 1.7976931348623157e308 inf -inf nan 1e16 -9007199254740993.0",
}


def random_digits(source, most):
    return "".join(source.choices("0123456789", weights=[4] + [1] * 9, k=source.randrange(1, most)))


def random_values(source):
    """Returns makers of random values by type."""
    def day():
        return f"{source.randrange(1, 10000):04}-{source.randrange(1, 13):02}-{source.randrange(1, 29):02}"

    def clock():
        return ":".join(f"{source.randrange(most):02}" for most in (24, 60, 60))

    def item():
        return source.choice((source.getrandbits(63) - 2**62, random_digits(source, 9), None, True))

    return {
        "integer": lambda: str(source.getrandbits(source.randrange(1, 64)) * source.choice((1, -1))),
        "date": day,
        "time": lambda: f"{day()}T{clock()}" + source.choice(("", "." + random_digits(source, 7)))
        + source.choice(("Z", "Z", "+01:00", "-03:30", "+12:45")),
        "uuid": lambda: re.sub("(.{8})(.{4})(.{4})(.{4})", r"\1-\2-\3-\4-", f"{source.getrandbits(128):032x}"),
        "decimal": lambda: source.choice(("", "-")) + random_digits(source, 40)
        + source.choice(("", "." + random_digits(source, 30)))
        + source.choice(("", "", f"e{source.randrange(-40, 40)}")),
        "list": lambda: json.dumps([item() for _ in range(source.randrange(5))], separators=(",", ":")),
        "float": lambda: repr(struct.unpack("<d", struct.pack("<Q", source.randrange(0x7FE << 52)))[0]),
    }


def made():
    """Yields the lines of the file."""
    yield "# Made by scripts/fields.py: values of types, and the encoding of the field of each, or refused."
    yield "type\tvalue\tencoding"
    source = random.Random(97)
    more = {kind: [make() for _ in range(50)] for kind, make in random_values(source).items()}
    for kind, edges in EDGES.items():
        for value in dict.fromkeys(itertools.chain(["null"], edges.split(" "), more.get(kind, []))):
            yield f"{kind}\t{value}\t{encoding(kind, value)}"


if __name__ == "__main__":
    print("\n".join(made()))
