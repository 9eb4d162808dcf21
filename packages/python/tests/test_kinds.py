"""Tests each kind of column by each call for columns with an installed copy of the package, beside the definition of
tests/model.py where it is at hand. NumPy and pandas are optional; Arrow's columns are made by test_arrow.py."""

import unittest
from array import array
from datetime import date, datetime, timezone
from decimal import Decimal
from itertools import tee
from uuid import UUID

import rapidhash
from test_arrow import Column, Stream

try:
    import numpy
    import pandas
except ImportError:
    numpy = pandas = None
try:
    from model import bucket, hash_of, secrets_of
    SEED, *SECRETS = secrets_of("default", None, False)
except ImportError:
    hash_of = None

COUNT = 1000
TEXTS = ["a", "", "b\0c", "é" * 200, "Åsa", "a"]
NUMBERS = [7, 0, 100, 127, 2, 7]
GAPS = [7, None, 100, None, 2, 7]
TEXT_GAPS = ["a", None, "", "b\0c" * 4, None, "é" * 7]  # Of views, 12 bytes lie in the view.
DAYS = [date(2024, 2, 29), date(1969, 12, 31), date(1, 1, 1), date(9999, 12, 31), date(1970, 1, 1), date(2000, 1, 1)]
TIMES = [datetime(2024, 2, 29, 12, 34, 56, 789012, timezone.utc), datetime(1969, 12, 31, tzinfo=timezone.utc),
         None, datetime(1700, 1, 1, tzinfo=timezone.utc)]
PRICES = [Decimal(text) for text in ("0", "-1.5", "100", "0.05", "123456789.25", "-0.01", "-18446744073709551616")]


def encoding(field):
    """Returns the bytes of a field."""
    if field is None:
        return b"\0"
    if isinstance(field, datetime):
        field = (field - datetime(1970, 1, 1, tzinfo=timezone.utc)) // (datetime.resolution)
    elif isinstance(field, date):
        field = field.toordinal() - 719163
    if isinstance(field, (list, tuple)):
        return encoding(len(field)) + b"".join(map(encoding, field))
    if isinstance(field, int):
        return b"\1" + (field % 2**64).to_bytes(8, "little")
    if isinstance(field, Decimal):
        text = f"{field:f}"
        field = text.rstrip("0").rstrip(".") if "." in text else text
    content = field.bytes if isinstance(field, UUID) else field.encode() if isinstance(field, str) else bytes(field)
    return b"\2" + len(content).to_bytes(8, "little") + content


def hashed(content):
    return rapidhash.v3(content) if hash_of is None else hash_of("v3", content, SEED, SECRETS)


def message(item):
    return 5 if item is None else hashed(item.encode() if isinstance(item, str) else bytes(item))


def answers(fields):
    """Returns what each call must return of these fields, or None for what it must refuse, as all do without fields."""
    if fields is None:
        return dict.fromkeys(CALLS)
    are_hashes = all(isinstance(field, int) and not isinstance(field, bool) and 0 <= field < 2**64 for field in fields)
    are_messages = all(field is None or isinstance(field, (str, bytes)) for field in fields)
    found = {"each": [message(field) for field in fields] if are_messages else None,
             "each_key": [hashed(encoding(field)) for field in fields],
             "pairs": [hashed(encoding(field) * 2) for field in fields]}
    decided = {"shard": lambda number: number * COUNT >> 64, "bucket": lambda number: rapidhash.bucket(number, COUNT),
               "first_hash": lambda number: -(-number * 2**64 // COUNT) % 2**64}
    if hash_of is not None:
        decided["bucket"] = lambda number: bucket(number, COUNT)
    for name, call in decided.items():
        found[name] = [call(field) for field in fields] if are_hashes else None
    if are_hashes and max(fields, default=0) >= COUNT:
        found["first_hash"] = None
    return {**found, "fingerprint": sum(fields) % 2**64 if are_hashes else None}


CALLS = {"each": lambda column: rapidhash.each(column, missing=5), "each_key": rapidhash.each_key,
         "pairs": lambda column: rapidhash.each_key(*(tee(column) if hasattr(column, "__next__") else [column] * 2)),
         "shard": lambda column: rapidhash.shard(column, COUNT),
         "bucket": lambda column: rapidhash.bucket(column, COUNT),
         "first_hash": lambda column: rapidhash.first_hash(column, COUNT), "fingerprint": rapidhash.fingerprint}


def extremes(size, is_signed):
    """Returns integers of so many bytes."""
    most = 2 ** (8 * size - is_signed)
    return [most - 1, most // 2, -most * is_signed, most - 2]


def plain():
    """Yields the name, a maker and the fields of each kind of column without another package."""
    for kind in (list, tuple, iter):
        for name, fields in (("texts", TEXT_GAPS), ("integers", NUMBERS), ("days", DAYS), ("times", TIMES),
                             ("decimals", PRICES), ("uuids", [UUID(int=2**127), None]), ("bytes", [b"a", b"\0"]),
                             ("lists", [[1, "a"], (None,)]), ("gaps", GAPS)):
            yield f"{kind.__name__} of {name}", lambda kind=kind, fields=fields: kind(fields), fields
    for letter in "bBhHiIlLqQ":
        yield f"array of {letter}", lambda letter=letter: array(letter, NUMBERS), NUMBERS
        edges = array(letter, extremes(array(letter).itemsize, letter.islower()))
        yield f"edges of {letter}", lambda edges=edges: edges, list(edges)
        yield f"view of {letter}", lambda letter=letter: memoryview(array(letter, NUMBERS))[::-2], NUMBERS[::-2]
    yield "long array", lambda: array("H", range(200)), [*range(200)]
    yield "view of bools", lambda: memoryview(b"\1\0").cast("?"), [True, False]
    yield "view of rows", lambda: memoryview(bytes(4)).cast("B", (2, 2)), None
    yield "list of a class without a module", lambda: type("Texts", (list,), {"__module__": None})(TEXTS), TEXTS


def of_arrow():
    """Does so for columns of Arrow, as an array and as the arrays of a stream."""
    for offset in (0, 3, 8):
        kinds = [(form, TEXT_GAPS) for form in ("u", "U", "z", "Z", "vu", "vz")]
        kinds += [(form, GAPS) for form in "cCsSiIlL"] + [(form, NUMBERS) for form in "cCsSiIlL"]
        kinds += [(form, extremes(2 ** (at // 2), at % 2 == 0)) for at, form in enumerate("cCsSiIlL")]
        kinds += [("n", [None] * 6), ("b", [True, None, False, True]), ("tdD", [*DAYS, None]), ("tdm", [*DAYS, None]),
                  ("tsu:UTC", TIMES), ("tsn:Europe/Rome", TIMES), ("d:20,2", [*PRICES, None]), ("d:38,10,128", PRICES),
                  ("tss:UTC", TIMES[1:]), ("tsm:+01:00", TIMES[1:]), ("d:9,-2", [Decimal(700), Decimal(0), None]),
                  ("w:3", [b"abc", None, b"\0\0\0"]), ("w:16", [UUID(int=5), None])]
        for form, fields in kinds:
            if form == "w:16":
                wanted = [field if field is None else field.bytes for field in fields]
            else:
                wanted = fields
            yield f"arrow {form} at {offset}", lambda form=form, fields=fields: Column(form, fields, offset), wanted
            yield (f"stream {form} at {offset}",
                   lambda form=form, fields=fields: Stream(form, [fields[:1], [], fields[1:3], fields[3:]], offset),
                   wanted)
        millis = [None, array("q", [-1, -86_400_001, 5]).tobytes()]
        yield ("arrow times of days", lambda millis=millis: Column("tdm", [0] * 3, buffers=millis),
               [date(1969, 12, 31), date(1969, 12, 30), date(1970, 1, 1)])
        inner = Column("c", [0], lookup=Column("u", ["a"]))
        yield "arrow dictionary of a dictionary", lambda inner=inner: Column("c", [0], lookup=inner), None
        for codes, form in (("c", "u"), ("I", "vu"), ("l", "l"), ("C", "tdD")):
            values = {"u": TEXT_GAPS, "vu": TEXTS, "l": NUMBERS, "tdD": DAYS}[form]
            places = [1, 0, None, 3, 3]
            yield (f"arrow {codes} into {form} at {offset}",
                   lambda codes=codes, form=form, values=values: Column(codes, places, offset,
                                                                        lookup=Column(form, values, offset)),
                   [None if place is None else values[place] for place in places])


def of_numpy():
    """Does so for arrays of NumPy."""
    for kind in ("i1", "u1", ">i2", "<u2", ">i4", "<u4", ">i8", "<i8", ">u8", "<u8"):
        yield f"numpy {kind}", lambda kind=kind: numpy.array(NUMBERS, kind), NUMBERS
        yield f"numpy {kind} with steps", lambda kind=kind: numpy.array(NUMBERS, kind)[::-2], NUMBERS[::-2]
        yield (f"numpy masked {kind}", lambda kind=kind: numpy.ma.array(NUMBERS, kind, mask=[0, 1, 0, 1, 0, 0]),
               [7, None, 100, None, 2, 7])
        edges = extremes(numpy.dtype(kind).itemsize, "i" in kind)
        yield f"numpy edges of {kind}", lambda kind=kind, edges=edges: numpy.array(edges, kind), edges
        yield f"numpy unmasked {kind}", lambda kind=kind, edges=edges: numpy.ma.array(edges, kind), edges
    for kind, fields in (("U", TEXTS), (">U9", ["a", "é"]), ("S", [b"a", b"", b"bc"]), ("?", [True, False]),
                         ("M8[D]", [*DAYS, None]), ("M8[W]", [date(1970, 1, 1), date(2024, 2, 29), None]),
                         (">M8[D]", [*DAYS, None]), ("M8[7D]", [date(1970, 1, 8), None]), ("f8", [])):
        yield f"numpy {kind}", lambda kind=kind, fields=fields: numpy.array(fields, kind), fields
    for fields in (TEXT_GAPS, NUMBERS, DAYS, TIMES, PRICES, [b"a", [1, None]]):
        def made(fields=fields, mask=numpy.ma.nomask):
            items = numpy.empty(len(fields), object)
            items[:] = fields
            return items if mask is numpy.ma.nomask else numpy.ma.array(items, mask=mask)
        yield f"numpy objects {fields[0]!r}", made, fields
        yield (f"numpy masked objects {fields[0]!r}",
               lambda made=made, fields=fields: made(mask=[1] + [0] * (len(fields) - 1)), [None, *fields[1:]])
    yield ("numpy masked days", lambda: numpy.ma.array(numpy.array(DAYS, "M8[D]"), mask=[0, 1, 0, 0, 0, 1]),
           [DAYS[0], None, *DAYS[2:5], None])
    yield ("numpy masked days and none",
           lambda: numpy.ma.array(numpy.array([*DAYS[:2], None], "M8[D]"), mask=[1, 0, 0]), [None, DAYS[1], None])
    for kind in ("M8[h]", "M8[us]", "M8[Y]", "m8[D]", "f8", "c16", "V4"):
        yield f"numpy {kind}", lambda kind=kind: numpy.zeros(2, kind), None
    yield ("numpy long masked", lambda: numpy.ma.array(range(200), mask=[at % 63 == 0 for at in range(200)]),
           [at if at % 63 else None for at in range(200)])
    yield "numpy masked texts", lambda: numpy.ma.array(["a", "b"], mask=[0, 1]), ["a", None]


def of_pandas():
    """Does so for Series, indexes and arrays of pandas."""
    nan = float("nan")
    for name, fields, maker in (
            ("int64", NUMBERS, lambda: NUMBERS), ("uint64", [999, 0], lambda: numpy.array([999, 0], "u8")),
            ("Int64", GAPS, lambda: pandas.array(GAPS, "Int64")),
            ("UInt64", extremes(8, 0), lambda: pandas.array(numpy.array(extremes(8, 0), "u8"), "UInt64")),
            ("Int64", extremes(8, 1), lambda: pandas.array(numpy.array(extremes(8, 1)), "Int64")),
            ("boolean", [True, None], lambda: pandas.array([True, None], "boolean")),
            ("full boolean", [True, False], lambda: pandas.array([True, False], "boolean")),
            ("bool", [True, False], lambda: [True, False]),
            ("string", TEXT_GAPS, lambda: pandas.array(TEXT_GAPS, "string")),
            ("object", ["a", None, None, None, None, "a"], lambda: ["a", None, nan, pandas.NA, pandas.NaT, "a"]),
            ("dates", [*DAYS, None], lambda: [*DAYS, pandas.NaT]),
            ("times", TIMES, lambda: pandas.to_datetime(TIMES, utc=True).tz_convert("Europe/Rome")),
            ("mixed", [b"a", 7, [1, 2], PRICES[1], UUID(int=7)], lambda: [b"a", 7, [1, 2], PRICES[1], UUID(int=7)]),
            ("category", TEXT_GAPS, lambda: pandas.Categorical(TEXT_GAPS)),
            ("category of integers", GAPS, lambda: pandas.Categorical(GAPS)),
            ("full category", NUMBERS, lambda: pandas.Categorical(NUMBERS)),
            ("unused category", ["a", "b"], lambda: pandas.Categorical(["a", "b"], [1.5, "a", "b"])),
            ("sparse", [0, 7, 9], lambda: pandas.arrays.SparseArray([0, 7, 9])),
            ("nothing", [None, None], lambda: [nan, nan]),
            ("Float64 nothing", [None], lambda: pandas.array([None], "Float64"))):
        yield f"pandas {name} Series", lambda maker=maker: pandas.Series(maker())[::-1], fields[::-1]
        yield (f"pandas {name} with labels", lambda maker=maker: pandas.Series(
            maker(), "mask filled columns isna dtype __arrow_c_array__ kind".split()[:len(maker())]), fields)
        if name not in ("bool", "mixed", "nothing", "dates"):
            yield f"pandas {name} Index", lambda maker=maker: pandas.Index(maker()), fields
        if hasattr(maker(), "isna"):
            yield f"pandas {name} array", maker, fields
    yield "pandas range", lambda: pandas.RangeIndex(3), [0, 1, 2]
    for name, maker in (
            ("float64", lambda: [1.5, nan]), ("Float64", lambda: pandas.array([1.5, None], "Float64")),
            ("nanoseconds", lambda: pandas.to_datetime([1000, 1], utc=True)),
            ("local", lambda: pandas.to_datetime([0])), ("durations", lambda: pandas.to_timedelta([1])),
            ("intervals", lambda: pandas.cut([1, 2], 2)), ("periods", lambda: pandas.period_range("2024", periods=2))):
        yield f"pandas {name}", lambda maker=maker: pandas.Series(maker()), None


class Kinds(unittest.TestCase):
    maxDiff = None

    def of(self, kinds):
        count = 0
        for name, make, fields in kinds:
            for call, wanted in answers(fields).items():
                column = make()
                with self.subTest(column=name, call=call):
                    if wanted is None:
                        with self.assertRaises((TypeError, ValueError, OverflowError)) as caught:
                            CALLS[call](column)
                        self.assertRegex(str(caught.exception), r"^(items|hashes|shards|columns\[0\])")
                        continue
                    if not hasattr(column, "__next__"):
                        CALLS[call](column)  # It leaves the column as it is.
                    found = CALLS[call](column)
                    self.assertEqual(found if call == "fingerprint" else [*map(int, found)], wanted)
                    self.has_its_kind(column, found, call)
                    count += 1
        return count

    def has_its_kind(self, column, found, call):
        if call == "fingerprint":
            self.assertIs(type(found), int)
        elif pandas and isinstance(column, pandas.Series):
            self.assertIs(type(found), pandas.Series)
            self.assertIs(found.index, column.index)
            self.assertEqual(found.dtype, "uint64")
        elif str(type(column).__module__).startswith(("numpy", "pandas")):
            self.assertIs(type(found), numpy.ndarray)
            self.assertEqual(found.dtype, "uint64")
        else:
            self.assertIs(type(found), array)

    def test_columns_of_python(self):
        self.assertGreater(self.of(plain()), 140)

    def test_columns_of_arrow(self):
        self.assertGreater(self.of(of_arrow()), 300)

    @unittest.skipUnless(numpy, "no pandas")
    def test_columns_of_numpy(self):
        self.assertGreater(self.of(of_numpy()), 150)

    @unittest.skipUnless(numpy, "no pandas")
    def test_columns_of_pandas(self):
        self.assertGreater(self.of(of_pandas()), 100)


if __name__ == "__main__":
    unittest.main()
