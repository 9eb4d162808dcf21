"""Replays tests/fields.tsv, the values of types and the encodings of their fields, with an installed copy of the
package. scripts/fields.py says how."""

import json
import pathlib
import shutil
import subprocess
import sys
import tempfile
import unittest
import unittest.mock
from array import array
from datetime import date, datetime, timezone
from decimal import Decimal
from uuid import UUID

import rapidhash

HERE = pathlib.Path(__file__).resolve()
PLACES = [HERE.with_name("fields.tsv"), *(top / "tests/fields.tsv" for top in HERE.parents)]
FILE = next((place for place in PLACES if place.exists()), None)
REFUSALS = TypeError, ValueError, ArithmeticError, KeyError


def time(text):
    """Returns a time, of which a text can have more digits than Python keeps."""
    if not text.endswith("Z") and text[-6] not in "+-":
        return datetime.strptime(text, "%Y-%m-%dT%H:%M:%S")
    whole, point, fraction = (text[:-1] if text.endswith("Z") else text[:-6]).partition(".")
    zone = "+00:00" if text.endswith("Z") else text[-6:]
    return datetime.strptime(f"{whole}.{fraction.rstrip('0') or 0}{zone}", "%Y-%m-%dT%H:%M:%S.%f%z")


def day(text):
    return datetime.strptime(text, "%Y-%m-%d").date()


MAKERS = {"boolean": {"true": True, "false": False}.__getitem__, "integer": int, "date": day, "time": time,
          "uuid": UUID, "decimal": Decimal, "list": json.loads, "float": lambda text: rapidhash.float_bits(float(text))}


def key_of(kind, text):
    """Returns the key of a value by its type, by a list, and by a column, or `refused`."""
    try:
        value = None if text == "null" else MAKERS[kind](text)
    except REFUSALS:
        return "refused"
    found = set()
    for call in (lambda: rapidhash.v3_key(value), lambda: rapidhash.each_key([value])[0],
                 lambda: rapidhash.each_key(iter([value]))[0]):
        try:
            found.add(call())
        except REFUSALS:
            found.add("refused")
    assert len(found) == 1, (kind, text, found)
    return found.pop()


class Fields(unittest.TestCase):
    @unittest.skipUnless(FILE, "no fields.tsv")
    def test_values_of_types(self):
        lines = [line.split("\t") for line in FILE.read_text().splitlines()[2:]]
        for modules in ({"numpy": None, "pandas": None}, {}):  # without them, and perhaps with them
            with unittest.mock.patch.dict(sys.modules, modules):
                for kind, text, encoding in lines:
                    wanted = encoding if encoding == "refused" else rapidhash.v3(bytes.fromhex(encoding))
                    self.assertEqual(key_of(kind, text), wanted, (kind, text))
        self.assertGreater(len(lines), 470)

    def test_long_decimals(self):
        for text in ("1" * 131072, "0." + "0" * 100_000 + "1", "1e149999"):
            self.assertEqual(rapidhash.v3_key(Decimal(text)), rapidhash.v3_key(f"{Decimal(text):f}"))
        for text in ("1e150000", "-1e149999", "1e-150000", "1e1000000000", "1e-1000000000", "sNaN"):
            with self.assertRaisesRegex(ValueError, r"^fields\[0\]: a decimal number must "):
                rapidhash.v3_key(Decimal(text))

    def test_refusals_have_names(self):
        for value, kind, reason in (
                (datetime(2024, 2, 29), TypeError, r"a time must have an offset from UTC: .*"),
                ([1, [2]], TypeError, "a list in a key must not contain a list"),
                (1.5, TypeError, ".*; float_bits makes an int of a float")):
            with self.assertRaisesRegex(kind, rf"^fields\[1\](:| must be) {reason}$"):
                rapidhash.v3_key(1, value)
        for value in (1, "1.5", None):
            self.assertRaisesRegex(TypeError, "^number must be a float, not ", rapidhash.float_bits, value)

    @unittest.skipUnless(shutil.which("gcc"), "no gcc")
    def test_small_floats_where_mathematics_is_fast(self):
        with tempfile.TemporaryDirectory() as room:
            fast = f"{room}/fast.so"  # until GCC 13, it sets the processor to take small numbers for 0
            subprocess.run(["gcc", "-shared", "-ffast-math", "-x", "c", "/dev/null", "-o", fast], check=True)
            program = f"import ctypes, rapidhash; ctypes.CDLL({fast!r}); print(rapidhash.float_bits(-5e-324))"
            printed = subprocess.run([sys.executable, "-c", program], capture_output=True, text=True, check=True)
        self.assertEqual(int(printed.stdout), 2**63 + 1)

    def test_times_of_a_class_with_a_difference_of_its_own(self):
        time = type("Time", (datetime,), {"__sub__": lambda *_: []})(1969, 12, 31, 23, 59, 59, 5, timezone.utc)
        self.assertEqual(rapidhash.v3_key(time), rapidhash.v3_key(-999_995))

    def test_items_of_an_iterator_that_fills_one_list_again(self):
        def rows():
            row, number = [b"a", bytearray(b"b")], bytearray(b"c")
            for _ in range(3):
                row[1][0] += 1
                number[0] += 1
                yield row
                yield number
        wanted = [rapidhash.v3_key(it) for pair in zip(([b"a", b] for b in (b"c", b"d", b"e")), (b"d", b"e", b"f"))
                  for it in pair]
        self.assertEqual(list(rapidhash.each_key(rows())), wanted)

    def test_answers_of_a_class_of_its_own(self):
        class Day(date):
            toordinal = lambda self: 1  # noqa: E731

        class Price(Decimal):
            __bool__ = is_finite = lambda self: False  # noqa: E731
        self.assertEqual(rapidhash.v3_key(Day(2024, 2, 29), Price("1.50")), rapidhash.v3_key(19782, "1.5"))

    def test_a_failed_allocation_is_no_answer(self):
        try:
            import _testcapi
            import numpy
        except ImportError as error:
            self.skipTest(str(error))
        for field in (numpy.datetime64("2024-02-29"), numpy.int16(5), bytearray(b"a"), [numpy.bool_(True)]):
            wanted = rapidhash.v3_key(field)
            for at in range(4):  # Further on, NumPy itself crashes.
                _testcapi.set_nomemory(at, at + 1)
                try:
                    found = rapidhash.v3_key(field)
                except MemoryError:
                    found = wanted
                finally:
                    _testcapi.remove_mem_hooks()
                self.assertEqual(found, wanted, (field, at))

    def test_numpy_and_pandas(self):
        try:
            import numpy
            import pandas
        except ImportError:
            self.skipTest("no pandas")
        utc = pandas.Timestamp("2024-02-29T12:34:56.789012Z")
        for value, field in ((numpy.bool_(True), 1), (numpy.datetime64("2024-02-29"), 19782), (utc, 1709210096789012),
                             (numpy.datetime64("NaT", "D"), None), (pandas.NA, None), (pandas.NaT, None),
                             (numpy.uint64(2**64 - 1), -1), (numpy.datetime64("2024-02-29", "7D"), 19782),
                             (numpy.datetime64("2024-02-29", "W"), 19782), (numpy.datetime64("NaT"), None)):
            self.assertEqual(rapidhash.v3_key(value), rapidhash.v3_key(field), value)
        for weeks in (2**62, 2**61 + 5):  # which 64 bits of days would cut to none, and to 35
            self.assertRaises(ValueError, rapidhash.v3_key, numpy.datetime64(weeks, "W"))
        self.assertRaises(ValueError, rapidhash.each_key, numpy.array([2**62], "M8[W]"))
        for value in (utc + pandas.Timedelta(1), utc.tz_localize(None), numpy.datetime64("2024-02-29T00:00"),
                      numpy.timedelta64(1, "D"), pandas.Timedelta(1), numpy.float64(1), numpy.array([1])):
            self.assertRaises((TypeError, ValueError), rapidhash.v3_key, value)
        days = array("q", (19782, -1))
        column = pandas.Series([date.fromordinal(719163 + number) for number in days])
        self.assertEqual(list(rapidhash.each_key(column)), list(rapidhash.each_key(days)))


if __name__ == "__main__":
    unittest.main()
