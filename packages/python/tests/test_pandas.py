"""Tests columns of NumPy and pandas with an installed copy of the package."""

import pickle
import sys
import time
import unittest
import warnings
from datetime import date

import rapidhash
from rapidhash import _columns

try:
    import numpy
    import pandas
except ImportError:
    raise unittest.SkipTest("no pandas, which needs NumPy") from None

warnings.simplefilter("error")
NUMBERS = [7, -1, 2**62, 0, 5, 100, -2**63, 3, 2**63 - 1, 4]


def keys(*columns):
    return [rapidhash.v3_key(*row) for row in zip(*columns)]


class Pandas(unittest.TestCase):
    def refused(self, error, kind, call, *arguments, **words):
        with self.subTest(error), self.assertRaisesRegex(kind, error):
            call(*arguments, **words)

    def test_strides(self):
        array = numpy.array(NUMBERS)
        for step in (1, 2, 3, 20, -1, -2, -3):
            wanted = keys(NUMBERS[::step])
            for column in (array[::step], pandas.Series(NUMBERS)[::step], memoryview(array)[::step]):
                self.assertEqual(list(rapidhash.each_key(column)), wanted)
            words = list("abcdefghij")[::step]
            self.assertEqual(list(rapidhash.each_key(words, array[::step])), keys(words, NUMBERS[::step]))
        frame = pandas.DataFrame(array.reshape(5, 2), columns=["a", "b"])
        rows = [NUMBERS[at:at + 2] for at in range(0, 10, 2)]
        self.assertEqual(list(rapidhash.each_key(frame.a, frame.b)), keys(*zip(*rows)))
        self.assertEqual(list(rapidhash.each_key(frame.T[0], frame.T[3])), keys(rows[0], rows[3]))
        self.assertEqual(list(rapidhash.each_key(numpy.broadcast_to(array[:1], 3))), keys([7] * 3))

    def test_strides_and_out(self):
        room = numpy.zeros(20, "uint64")
        for column, out in ((room[::2], room[10:]), (room[9::-1], room[:10]), (room[18::-2], room[9:19])):
            self.refused(r"^out must not overlap columns\[1\]$", ValueError,
                         rapidhash.each_key, [1] * 10, column, out=out)
        self.assertEqual(list(rapidhash.each_key(room[9::-1], out=room[10:])), keys([0] * 10))

    def test_masked_times_are_no_integers(self):
        """Where a time has no date or duration of Python, NumPy's lists have its number."""
        class Masked(numpy.ma.MaskedArray):
            pass

        for kind in ("M8[ns]", "M8[as]", "M8[s]", "M8[M]", "m8[ns]", "m8[Y]", "m8[D]", "m8"):
            times = numpy.array([2**40, 2**40], "i8").view(kind)
            for mask in (False, [0, 1], [1, 1]):
                masked = numpy.ma.array(times, mask=mask)
                for column in (masked, masked[0:0], masked[::-1], masked.reshape(2, 1), masked.view(Masked)):
                    self.refused(r"^columns\[1\]", TypeError, rapidhash.each_key, [1] * len(column), column)
                    self.refused("^items", TypeError, rapidhash.each, column, missing=0)
            for column in (list(times), numpy.ma.array(list(times), object, mask=[0, 1]),
                           pandas.Series(list(times), dtype=object)):
                self.refused(r"^columns\[0\]\[0\](: a time must have an offset| must be None)", TypeError,
                             rapidhash.each_key, column)
            self.refused(r"^columns\[0\] must be", TypeError, rapidhash.each_key, numpy.ma.array(times)[0])
            self.refused(r"^fields\[0\]", TypeError, rapidhash.v3_key, numpy.ma.array(times)[0])
        pairs = numpy.ma.array([(1, 2)], dtype=[("time", "m8[ns]"), ("number", "i8")])
        self.refused(r"^columns\[0\] must be a column of fields", TypeError, rapidhash.each_key, pairs)
        self.refused(r"^columns\[0\] must be", TypeError, rapidhash.each_key, numpy.ma.masked)
        for times in (pandas.Series([1], dtype="M8[ns]"), pandas.Series([1], dtype="m8[ns]"),
                      pandas.Index([1], dtype="m8[ns]"), pandas.array([1], "M8[ns]"),
                      pandas.period_range("2020", periods=1),
                      pandas.Series(pandas.arrays.SparseArray([1], dtype="M8[ns]"))):
            self.refused(r"^columns\[0\] must be a column of fields, .*(an offset.* gives one|makes (texts|integers of "
                         "durations))$", TypeError, rapidhash.each_key, times)
        self.refused(r"^columns\[0\]: a time must be a whole number of microseconds", ValueError, rapidhash.each_key,
                     pandas.Series([1]).astype("M8[ns, UTC]"))

    def test_names_are_the_users(self):
        records = numpy.rec.array([(1, 2)], dtype=[("mask", "i4"), ("filled", "i4")])
        self.assertEqual(rapidhash.v3(records), rapidhash.v3(records.tobytes()))
        self.assertEqual(rapidhash.each_row(records, 8)[0], rapidhash.v3(records.tobytes()))
        self.assertEqual(rapidhash.v3(numpy.zeros(1, "G")), rapidhash.v3(bytes(32)))
        typed = type("Typed", (numpy.ndarray,), {"_type_": "P"})  # As ctypes has it for a pointer.
        self.assertEqual(rapidhash.v3(numpy.zeros(4, "u1,u1").view(typed)), rapidhash.v3(bytes(8)))

    def test_joined_parts_keep_the_keys(self):
        """pandas guesses the type of an array in each part by its values."""
        parts = [pandas.DataFrame({"name": list(names)}) for names in ("a", "", "bcdefgh")]
        joined = pandas.concat(part.assign(key=numpy.asarray(rapidhash.each_key(part.name))) for part in parts)
        self.assertEqual((joined.key.dtype, list(joined.key)), ("uint64", keys("abcdefgh")))

    def test_packed_bits(self):
        valid = numpy.array([True, False, True])
        found = rapidhash.each_slice("abc", numpy.arange(4), validity=numpy.packbits(valid, bitorder="little"),
                                     missing=0)
        self.assertEqual(found, rapidhash.each(["a", None, "c"], missing=0))

    def test_masked_arrays_are_no_bytes(self):
        masked = numpy.ma.array(NUMBERS[:2], mask=[0, 1])
        error = "^data must not be a masked array, whose bytes are also those of masked values"
        self.refused(error, TypeError, rapidhash.each_row, masked, 8)
        self.refused(error, TypeError, rapidhash.v3, masked)
        self.refused(error, TypeError, rapidhash.V3, masked)
        hashes = numpy.ma.array([1, 2], mask=[0, 1], dtype="uint64")
        for call, *count in (rapidhash.fingerprint,), (rapidhash.shard, 10), (rapidhash.bucket, 10):
            self.refused(r"^hashes\[1\] is missing: \.dropna\(\)", TypeError, call, hashes, *count)
        for name in ("data", "offsets", "validity", "out"):
            words = dict(data=b"a", offsets=numpy.array([0, 1]), validity=b"\1", out=numpy.zeros(1, "u8"), missing=0)
            words[name] = numpy.ma.array(words[name] if name[0] == "o" else numpy.frombuffer(words[name], "u1"))
            self.refused(error.replace("data", name), TypeError, rapidhash.each_slice, **words)
        out = numpy.ma.zeros(1, "u8")
        for call, *arguments in ((rapidhash.each, [b""]), (rapidhash.each_row, b"a", 1), (rapidhash.each_key, [1])):
            self.refused(error.replace("data", "out"), TypeError, call, *arguments, out=out)
        self.refused(error.replace("data", "out"), TypeError, rapidhash.shard, numpy.zeros(1, "u8"), 2, out)
        self.refused(error.replace("data", "saved"), TypeError, rapidhash.V3.restore, numpy.ma.zeros(208, "u1"))
        self.refused(r"^items\[1\] must be bytes", TypeError, rapidhash.each, [b"", masked])
        self.refused(r"^fields\[0\] must be None", TypeError, rapidhash.v3_key, numpy.ma.masked)
        self.refused(r"^columns\[1\]\[1\] must be None", TypeError, rapidhash.each_key, [1, 2], [1, numpy.ma.masked])

    def test_masked_arrays_in_another_coat(self):
        error = " must not be a masked array, whose bytes are also those of masked values"
        view = memoryview(numpy.ma.array([1, 2], mask=[0, 1], dtype="u8"))
        for name, call in (("data", rapidhash.v3), ("data", rapidhash.V3), ("hashes", rapidhash.fingerprint),
                           (r"columns\[0\]", rapidhash.each_key)):
            for data in (view, view[:1]):
                self.refused(f"^{name}{error}", TypeError, call, data)
        self.refused(f"^offsets{error}", TypeError, rapidhash.each_slice, b"a", view)
        self.refused(f"^out{error}", TypeError, rapidhash.each, ["a", "b"], out=view)
        self.refused(r"^items\[0\] must be bytes", TypeError, rapidhash.each, [view])
        coat = pickle.PickleBuffer(view)
        for name, call in ((r"columns\[0\]", rapidhash.each_key), ("hashes", rapidhash.fingerprint)):
            self.refused(f"^{name}{error}", TypeError, call, coat)
            self.refused(f"^{name}{error}", TypeError, call, memoryview(coat))
        octets = numpy.ma.array([1, 2], mask=[0, 1], dtype="u1")
        coat = pickle.PickleBuffer(memoryview(octets))
        for data in (memoryview(octets), pickle.PickleBuffer(octets), coat, memoryview(coat)):
            self.refused(f"^data{error}", TypeError, rapidhash.v3, data)
            self.refused(r"^fields\[0\] must be None", TypeError, rapidhash.v3_key, data)
            self.refused(r"^columns\[0\]\[0\] must be None", TypeError, rapidhash.each_key, [data])

    def test_masked_numbers_are_no_integers(self):
        number = numpy.ma.array(5, "u8", mask=True)
        self.refused(r"^fields\[0\] must be None", TypeError, rapidhash.v3_key, number)
        self.refused(r"^columns\[0\]\[1\] must be None", TypeError, rapidhash.each_key, [1, number])
        for call in (rapidhash.v3, rapidhash.V3, lambda data, seed: rapidhash.each([data], seed=seed)):
            self.refused("^seed must be an integer", TypeError, call, b"", number)
        self.refused("^hash must be an integer", TypeError, rapidhash.shard, number, 10)
        self.refused("^count must be an integer", TypeError, rapidhash.shard, 5, number)
        self.refused("^missing must be an integer", TypeError, rapidhash.each, [None], missing=number)
        self.refused("^seed: only integer scalar arrays", TypeError, rapidhash.v3, b"", numpy.arange(2))
        self.refused("^count: only integer scalar arrays", TypeError, rapidhash.shard, 7, numpy.arange(2))
        self.refused(r"^hashes\[0\] must be an integer", TypeError, rapidhash.fingerprint, [number])
        self.refused("^width must be an integer", TypeError, rapidhash.each_row, b"", number)
        for value in (numpy.ma.array("abc"), numpy.ma.array(b"abc"), numpy.ma.array((1, 2), "i8,i8")):
            error = " must be an? .*, not <class '.*MaskedArray'> of .*: it has 0 dimensions, not 1$"
            self.refused(r"^columns\[0\]" + error, TypeError, rapidhash.each_key, value)
            self.refused("^items" + error, TypeError, rapidhash.each, value)

    def test_bools(self):
        self.assertEqual(list(rapidhash.each_key([numpy.int64(1), numpy.bool_(True), True, numpy.bool_(False)])),
                         keys([1, 1, 1, 0]))
        for kind in "int8 uint8 int16 uint16 int32 uint32 int64 uint64".split():
            self.assertEqual(list(rapidhash.each_key(list(numpy.array([1, 0], kind)))), keys([1, 0]))

    def test_rows_of_several_columns(self):
        series = pandas.Series([2, 3], index=[7, 9])
        self.assertIs(rapidhash.each_key([1, 1], numpy.array([0, 0]), series).index, series.index)
        self.assertIs(type(rapidhash.each_key([1, 1], numpy.array([0, 0]))), numpy.ndarray)
        for column in (*(pandas.Series(["a", None], dtype=kind) for kind in ("category", "string", object)),
                       numpy.ma.array(["a", "b"], mask=[0, 1])):
            self.refused(r"^items\[1\] is None: pass `missing`", TypeError, rapidhash.each, column)

    def test_an_array_that_knows_what_is_missing(self):
        try:
            from pandas.tests.extension.date import DateArray
        except ImportError as error:
            self.skipTest(str(error))
        column = pandas.Series(DateArray([date(1, 1, 1), date(2024, 2, 29)]))
        self.assertEqual(list(column.isna()), [True, False])  # though its items are dates
        self.assertEqual(list(rapidhash.each_key(column)), keys([None, 19782]))

    def test_missing_objects_are_released(self):
        lost = float("nan")
        column = pandas.Series(["a", lost], dtype=object)
        before = sys.getrefcount(lost)
        self.assertEqual(list(rapidhash.each_key(column)), keys(["a", None]))
        self.assertEqual(list(rapidhash.each(column, missing=3)), [rapidhash.v3("a"), 3])
        self.assertEqual(sys.getrefcount(lost), before)

    def test_units_of_times(self):
        """From 2.0 on, pandas has other units than nanoseconds."""
        for unit, one in (("s", 10**6), ("ms", 1000), ("us", 1)):
            times = [1, -2, (2**63 - 1) // one, -((2**63 - 1) // one)]
            found = rapidhash._each_key([_columns._of_times(numpy.array([*times, -2**63]), unit)], None, None, None)
            self.assertEqual(found, rapidhash.each_key([*(time * one for time in times), None]))
        self.assertRaises(_columns.Refused, _columns._of_times, numpy.array([-2**63 // 1000]), "ms")

    def test_nullable_columns_are_not_slow(self):
        def cost(column):
            starts = [(time.perf_counter(), rapidhash.each_key(column), time.perf_counter()) for _ in range(20)]
            return min(end - start for start, _, end in starts)

        texts, numbers = [f"user:{at % 9}" for at in range(10_000)], list(range(2**40, 2**40 + 10_000))
        for items, kind, times in ((texts, "string", 2.5), (texts, "category", 0.6), (numbers, "Int64", 0.8)):
            self.assertLess(cost(pandas.Series(items, dtype=kind)), times * cost(items), kind)

    def test_numbers_are_no_messages(self):
        error = (r"^items(\[0\] must be bytes, another buffer, or a str| must be an iterable of messages), not <class "
                 ".*: each_key hashes integers")
        for items in (*(pandas.Series([1], dtype=kind) for kind in "Int64 Int32 Int8 UInt8 int64 uint8".split()),
                      numpy.arange(3), [numpy.int16(1)], pandas.Index([1])):
            self.refused(error, TypeError, rapidhash.each, items)
        for item in (numpy.float64(1), numpy.float32(1), numpy.bool_(True), numpy.complex64(1),
                     numpy.datetime64("2020-01-01"), numpy.timedelta64(1, "s")):
            self.refused(r"^items\[1\] must be bytes, another buffer, or a str, not <class 'numpy", TypeError,
                         rapidhash.each, [b"", item])
        rows = numpy.arange(6, dtype="uint8").reshape(3, 2)
        self.assertEqual(list(rapidhash.each(rows)), list(rapidhash.each(map(bytes, rows))))
        self.assertEqual(list(rapidhash.each(numpy.array(["a", "bc"]))), list(rapidhash.each(["a", "bc"])))

    def test_errors_name_the_place(self):
        levels, floats = pandas.MultiIndex.from_arrays([[1], [2]]), pandas.Series([2**40, None])
        records, parts = numpy.zeros(1, "i4,i4"), type("Series", (list,), {"__module__": "dask.dataframe.core"})([1])
        frame = pandas.DataFrame({"a": [1]})
        calls = {"items": rapidhash.each, r"columns\[0\]": rapidhash.each_key,
                 "hashes": lambda column: rapidhash.shard(column, 2)}
        for column, reason in (
                (levels, r"of object: pass its levels: \.get_level_values\(0\)"), (frame, "pass its columns"),
                (floats, r'of float64: float_bits .*, and \.astype\("Int64"\) ints of a Series'),
                (pandas.array([1.5], "Float64"), r"of Float64: float_bits .*"),
                (numpy.array([1.5]), "of float64: float_bits .*"), (records, ".*: pass its fields as columns"),
                (numpy.array([[[1]]])[0:0, 0], "of int64: it has 2 dimensions, not 1"),
                (numpy.array([1j]), r"of complex128: it has no fields: \.tolist\(\) makes a list"),
                (numpy.array(["2020-01-01"], "M8[s]"), r"of datetime64\[s\]: a time of NumPy has no offset: .*"),
                (parts, r"call \.map_partitions .*, or \.compute\(\) it")):
            for name, call in calls.items():
                if not (call is rapidhash.each and "dimensions" in reason):
                    self.refused(rf"^{name} must be an? .*, not <class '.*'>.*{reason}$", TypeError, call, column)
        self.assertEqual(list(rapidhash.each_key(floats.astype("Int64"))), keys([2**40, None]))
        self.refused(r"^columns\[1\] must be a column of fields, not <class '.*'>: .*not iterable", TypeError,
                     rapidhash.each_key, [1], 7)
        self.assertEqual(rapidhash.fingerprint(pandas.Series([1, 2], dtype="UInt64")), 3)
        self.refused(r"^hashes\[0\] must be from 0 to", OverflowError, rapidhash.shard, numpy.array([-1]), 16)
        array = numpy.array(NUMBERS)
        self.refused(r"^fields\[1\]: only integer scalar arrays", TypeError, rapidhash.v3_key, 1, array)
        self.refused(r"^columns\[0\]\[1\]: only integer scalar arrays", TypeError, rapidhash.each_key, [1, array])
        self.refused(r"^items\[1\]: ndarray is not C-contiguous$", ValueError, rapidhash.each, [b"", array[::2]])


if __name__ == "__main__":
    unittest.main()
