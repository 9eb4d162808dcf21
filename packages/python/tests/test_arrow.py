"""Tests columns of Apache Arrow with an installed copy of the package. The columns are made here by ctypes, as the C
data interface has them, so that each release is counted."""

import array
import contextlib
import ctypes
import gc
import operator
import re
import tracemalloc
import unittest
from ctypes import POINTER, Structure, c_char_p, c_int64, c_void_p
from datetime import date, datetime, timedelta, timezone
from uuid import UUID

import rapidhash
from test_buffers import lets_others_run

TEXTS = ["a", None, "", "b\0c", None, None, "c" * 300, "d", "é", None, "f"]
NUMBERS = [7, None, 0, 100, None, None, 127, 2, 3, None, 4]
LAYOUT = dict(zip("uzUZcCsSiIlL", "iiqqbBhHiIqQ"))


class Schema(Structure):
    pass


class Streamed(Structure):
    pass


class Array(Structure):
    pass


RELEASES = {kind: ctypes.CFUNCTYPE(None, POINTER(kind)) for kind in (Schema, Array, Streamed)}
Schema._fields_ = [("format", c_char_p), ("name", c_char_p), ("metadata", c_char_p), ("flags", c_int64),
                   ("n_children", c_int64), ("children", c_void_p), ("dictionary", c_void_p),
                   ("release", RELEASES[Schema]), ("private_data", c_void_p)]
Array._fields_ = [("length", c_int64), ("null_count", c_int64), ("offset", c_int64), ("n_buffers", c_int64),
                  ("n_children", c_int64), ("buffers", POINTER(c_void_p)), ("children", c_void_p),
                  ("dictionary", c_void_p), ("release", RELEASES[Array]), ("private_data", c_void_p)]
GIVES = {kind: ctypes.CFUNCTYPE(ctypes.c_int, POINTER(Streamed), POINTER(kind)) for kind in (Schema, Array)}
LAST = ctypes.CFUNCTYPE(c_void_p, POINTER(Streamed))
Streamed._fields_ = [("get_schema", GIVES[Schema]), ("get_next", GIVES[Array]), ("get_last_error", LAST),
                     ("release", RELEASES[Streamed]), ("private_data", c_void_p)]
new_capsule = ctypes.PYFUNCTYPE(ctypes.py_object, c_void_p, c_char_p, c_void_p)(("PyCapsule_New", ctypes.pythonapi))
pointer_in = ctypes.PYFUNCTYPE(c_void_p, c_void_p, c_char_p)(("PyCapsule_GetPointer", ctypes.pythonapi))


def destructor(kind, name):
    """Returns what releases the contents of a capsule that nobody took."""
    def destroy(capsule):
        held = kind.from_address(pointer_in(capsule, name))
        if held.release:
            held.release(ctypes.byref(held))
    return ctypes.PYFUNCTYPE(None, c_void_p)(destroy)


DESTROY = {kind: destructor(kind, name) for kind, name in (
    (Schema, b"arrow_schema"), (Array, b"arrow_array"), (Streamed, b"arrow_array_stream"))}
EPOCH = datetime(1970, 1, 1, tzinfo=timezone.utc)


def number_of(form, value):
    """Returns the integer of a field in a format that is not of strings."""
    if isinstance(value, datetime):
        micros = (value - EPOCH) // timedelta(microseconds=1)
        return {"s": micros // 10**6, "m": micros // 1000, "u": micros, "n": micros * 1000}[form[2]]
    if isinstance(value, date):
        return (value.toordinal() - 719163) * (86_400_000 if form == "tdm" else 1)
    return value


def buffers_of(form, rows):
    """Returns the buffers after the bits of a column."""
    parts = [b"null" if row is None else row.bytes if isinstance(row, UUID) else row.encode()
             if isinstance(row, str) else row for row in rows] if form[0] in "uUzZvw" else []
    if form in ("vu", "vz"):
        views, data, lent = b"", [b"", b""], 0
        for part in parts:
            lent += len(part) > 12
            if len(part) > 12:
                data[lent % 2] += b"?" + part
            place = [lent % 2, len(data[lent % 2]) - len(part)]
            rest = part.ljust(12, b"\0") if len(part) <= 12 else part[:4] + array.array("i", place).tobytes()
            views += len(part).to_bytes(4, "little") + rest
        return [views, *data, array.array("q", map(len, data)).tobytes()]
    if form[0] == "w":
        return [b"".join(part.ljust(int(form[2:]), b"\0")[:int(form[2:])] for part in parts)]
    if form in ("u", "U", "z", "Z"):
        places = [sum(map(len, parts[:at])) for at in range(len(parts) + 1)]
        return [array.array(LAYOUT[form], places).tobytes(), b"".join(parts)]
    if form == "b":
        return [sum(bool(row) << at for at, row in enumerate(rows)).to_bytes(len(rows) // 8 + 1, "little")]
    if form[0] == "d":
        scale = int(form.split(",")[1])
        numbers = [9 if row is None else int(row.scaleb(scale)) for row in rows]
        return [b"".join(number.to_bytes(16, "little", signed=True) for number in numbers)]
    kind = LAYOUT.get(form, "i" if form == "tdD" else "q")
    return [array.array(kind, [9 if row is None else number_of(form, row) for row in rows]).tobytes()]


class Column:
    """An object with a column. `released` has the structures in the order of their releases."""

    def __init__(self, form, values, offset=0, nulls=None, is_owner=True, **changed):
        rows = [*values[:1], None] * offset
        rows = rows[:offset] + values  # Rows before the offset are not of the column.
        bits = sum(1 << at for at, value in enumerate(rows) if value is not None)
        self.buffers = changed.pop("buffers") if "buffers" in changed else [] if form == "n" else [
            bits.to_bytes(len(rows) // 8 + 1, "little"), *buffers_of(form, rows)]
        self.released, self.is_owner, self.form, self.changed, self.kept = [], is_owner, form.encode(), changed, []
        nulls = sum(value is None for value in values) if nulls is None else nulls
        self.shape = changed.get("rows", len(values)), nulls, offset

    def lend(self):
        """Returns the structures of the schema and of the array."""
        pointers = (c_void_p * len(self.buffers))(*(ctypes.cast(c_char_p(buffer), c_void_p) for buffer in self.buffers))
        pointers = pointers if self.buffers else None
        dictionary = self.changed["lookup"].lend() if "lookup" in self.changed else (None, None)
        places = [self.changed.get("dictionary") if held is None else ctypes.addressof(held) for held in dictionary]
        schema = Schema(self.form, b"", None, 2, 0, None, places[0], RELEASES[Schema](self.release))
        column = Array(*self.shape, self.changed.get("count", len(self.buffers)), 0, pointers, None, places[1],
                       RELEASES[Array](self.release))
        self.kept += [schema, column, pointers, dictionary]
        return schema, column

    def __arrow_c_array__(self, requested_schema=None):
        schema, column = self.lend()
        pairs = (schema, Schema, b"arrow_schema"), (column, Array, b"arrow_array")
        return tuple(new_capsule(ctypes.addressof(held), self.changed.get("name", name),
                                 ctypes.cast(DESTROY[kind], c_void_p) if self.is_owner else None)
                     for held, kind, name in pairs)

    def release(self, held):
        self.released.append(type(held.contents).__name__)
        held.contents.release = RELEASES[type(held.contents)]()


class Stream:
    """An object with the arrays of a column, of which the stream fails at the place `fails`."""

    def __init__(self, form, parts, offset=0, fails=None):
        self.columns = [Column(form, part, offset) for part in parts]
        self.fails, self.kept, self.released = fails, [], 0

    def __arrow_c_stream__(self, requested_schema=None):
        left = [column.lend()[1] for column in self.columns]

        def give_schema(stream, place):
            place[0] = self.columns[0].lend()[0]
            return 0

        def give_next(stream, place):
            if self.fails == len(left):
                return 5
            place[0] = left.pop(0) if left else Array()
            return 0

        def release(stream):
            self.released += 1
            stream.contents.release = RELEASES[Streamed]()

        self.why = ctypes.create_string_buffer(b"no more disk")
        held = Streamed(GIVES[Schema](give_schema), GIVES[Array](give_next),
                        LAST(lambda stream: ctypes.addressof(self.why)), RELEASES[Streamed](release))
        self.kept.append(held)
        return new_capsule(ctypes.addressof(held), b"arrow_array_stream", ctypes.cast(DESTROY[Streamed], c_void_p))


class Arrow(unittest.TestCase):
    def setUp(self):
        self.columns = []

    def tearDown(self):
        for column in self.columns:
            self.assertEqual(sorted(column.released), ["Array", "Schema"], column.form)

    def column(self, *words, **changed):
        self.columns.append(Column(*words, **changed))
        return self.columns[-1]

    def test_texts(self):
        for form in "uzUZ":
            for offset in (0, 3, 8, 13):
                for is_owner in (True, False):
                    for words in ({}, {"seed": 7}, {"secrets": rapidhash.make_secrets(3)}):
                        found = rapidhash.each(self.column(form, TEXTS, offset, is_owner=is_owner), missing=5, **words)
                        self.assertEqual(found, rapidhash.each(TEXTS, missing=5, **words))
        out = array.array("Q", [0] * 2)
        self.assertIs(rapidhash.each(self.column("u", ["a", "b"]), "v1", out=out), out)
        self.assertEqual(list(out), [rapidhash.v1("a"), rapidhash.v1("b")])

    def test_keys(self):
        for form in "cCsSiIlL":
            for offset in (0, 5, 8):
                wanted = [rapidhash.v3_key(*row) for row in zip(NUMBERS, TEXTS, range(11))]
                columns = (self.column(form, NUMBERS, offset), self.column("uU"[offset % 2], TEXTS, offset),
                           list(range(11)))
                self.assertEqual(list(rapidhash.each_key(*columns)), wanted)

    def test_nulls(self):
        """A count of 0 hides the bits, of which there may be none, and -1 is an unknown count."""
        for missing in (0, 3):
            some = rapidhash.each(self.column("u", ["a", None], nulls=-1), missing=missing)
            self.assertEqual(list(some), [rapidhash.v3("a"), missing])
        self.assertEqual(rapidhash.each(self.column("u", ["a", None], nulls=0)), rapidhash.each(["a", "null"]))
        for nulls in (0, -1):
            bare = [None, array.array("i", [0, 1, 3]).tobytes(), b"abc"]
            found = rapidhash.each(self.column("u", ["", ""], nulls=nulls, buffers=bare))
            self.assertEqual(found, rapidhash.each(["a", "bc"]))
        text = ctypes.create_string_buffer(b"ab")
        far = [None, array.array("q", [2**32, 2**32 + 2]).tobytes(), ctypes.addressof(text) - 2**32]
        self.assertEqual(list(rapidhash.each(self.column("U", [""], buffers=far))), [rapidhash.v3("ab")])
        none, numbers, texts = (self.column(form, [], buffers=[None] * 3) for form in "ulZ")
        self.assertEqual([*rapidhash.each(none), *rapidhash.each_key(numbers, texts)], [])

    def test_nulls_alone(self):
        """A column without any value has Arrow's null type, which has no buffers."""
        room = array.array("Q", [1] * 3)
        for nulls in (0, 3, -1):
            self.assertEqual(list(rapidhash.each(self.column("n", [None] * 3, 5, nulls, buffers=[]), missing=7)),
                             [7] * 3)
            found = rapidhash.each_key(self.column("n", [None] * 3, nulls=nulls, buffers=[]), [1, 2, 3], out=room)
            self.assertEqual(list(found), [rapidhash.v3_key(None, number) for number in (1, 2, 3)])
        self.assertEqual(list(rapidhash.each_key(self.column("n", [], buffers=[]))), [])
        with self.assertRaisesRegex(TypeError, r"^items\[0\] is None: pass `missing`"):
            rapidhash.each(self.column("n", [None], buffers=[]))

    def test_refused_columns(self):
        """Each column is released once, also if another one or an argument is refused."""
        other = Schema()
        kinds = "must be an Arrow array of fields, "
        short, below = ([None, array.array("i", places).tobytes(), b"ab"] for places in ([0, 2, 1], [-1, 1]))
        ones = array.array("i", range(9)).tobytes()
        held = array.array("Q", [0] * 6)
        room, place = memoryview(held)[:4], held.buffer_info()[0]
        each, key = rapidhash.each, rapidhash.each_key
        for call, kind, error in (
                (lambda: each(self.column("u", TEXTS)), TypeError,
                 r"^items\[1\] is None: pass `missing`, the hash of a"),
                (lambda: each(self.column("l", [1])), TypeError, "^items must be an iterable of messages, not <class "
                 "'.*Column'>: each_key hashes integers and other fields$"),
                (lambda: rapidhash.shard(self.column("u", ["a"]), 2), TypeError, "^hashes must be an integer, .*, not "
                 "<class '.*Column'>: each_key and each hash such columns$"),
                *((lambda form=form: key(self.column(form, [1], buffers=[None, b"", b""])), TypeError,
                   rf"^columns\[0\] {kinds}not of the format '{re.escape(form)}'$")
                  for form in ("", "g", "v", "+s", "+l", "tsu:", "tsx:UTC", "ts", "td", "ttu", "tDs", "d:5", "d:5,",
                               "d:5,2,256", "d:5,99", "d:5,-99", "w:0", "w:", "w:-1", "uu")),
                (lambda: each(self.column("n", [], buffers=[], rows=2**61), missing=0, out=room[:0]), TypeError,
                 f"^items {kinds}not one of 2305843009213693952 rows$"),
                (lambda: key(self.column("n", [], buffers=[], rows=-1), out=room[:0]), TypeError,
                 rf"^columns\[0\] {kinds}not one of -1 rows$"),
                (lambda: key([1], self.column("tdD", [1], buffers=[None])), TypeError,
                 rf"^columns\[1\] {kinds}not one with 1 buffers$"),
                (lambda: key(self.column("i", [1], -1)), TypeError, f"{kinds}not one with the offset -1$"),
                (lambda: key(self.column("i", [1], buffers=[None, None])), TypeError, "1 rows without their buffer$"),
                (lambda: key(self.column("i", [1], dictionary=ctypes.addressof(other))), TypeError,
                 rf"^columns\[0\] {kinds}not one without a format$"),
                (lambda: key(self.column("u", ["a"], lookup=Column("u", ["a"]))), TypeError,
                 f"{kinds}not of the format 'u' with a dictionary$"),
                (lambda: key(self.column("i", [1], lookup=Column("g", [1]))), TypeError,
                 f"{kinds}not of the format 'g' with a dictionary$"),
                *((lambda place=place: key(self.column("i", [0, place], lookup=Column("u", ["a"]))), ValueError,
                   r"^columns\[0\]\[1\] has a place outside of its data$") for place in (1, -1, 2**31 - 1)),
                *((lambda view=view: each(self.column("vu", [1], buffers=[
                    None, array.array("i", view).tobytes(), bytes(20), array.array("q", [20] * 2).tobytes()])),
                   ValueError, r"^items\[0\] has a place outside of its data$")
                  for view in ([13, 0, 0, 8], [20, 0, 1, 0], [20, 0, -1, 0], [20, 0, 0, -1], [-1, 0, 0, 0])),
                (lambda: key(self.column("tsn:UTC", [0], buffers=[None, array.array("q", [1]).tobytes()])), ValueError,
                 r"^columns\[0\]\[0\] has no whole number of microseconds"),
                *((lambda far=far: key(self.column("tss:UTC", [0], buffers=[None, array.array("q", [far]).tobytes()])),
                   ValueError, r"^columns\[0\]\[0\] has a time outside") for far in (2**63 // 10**6 + 1, -2**63)),
                (lambda: key(self.column("l", [1]), self.column("g", [1])), TypeError, r"^columns\[1\] must be"),
                (lambda: key(self.column("l", [1]), self.column("u", ["a", "b"])), ValueError,
                 r"^columns\[1\] has 2 rows, and columns\[0\] has 1$"),
                (lambda: each(self.column("u", ["", ""], buffers=short)), ValueError,
                 r"^items\[1\] has offsets that do not ascend from 0$"),
                (lambda: each(self.column("u", [""], buffers=[None, ones, None])), ValueError,
                 r"^items\[0\] has a place outside of its data$"),
                (lambda: each(self.column("u", [""], buffers=below)), ValueError,
                 r"^items\[0\] has offsets that do not"),
                (lambda: key(self.column("u", ["", ""], buffers=short)), ValueError, r"^columns\[0\]\[1\] has offsets"),
                (lambda: each(self.column("u", ["a"]), out=array.array("Q")), ValueError,
                 "^out must have room for exactly 1"),
                (lambda: key([1] * 4, self.column("i", [7] * 4, buffers=[None, place]), out=room), ValueError,
                 r"^out must not overlap columns\[1\]$"),
                (lambda: key(self.column("u", [""] * 4, buffers=[None, place + 28, b""]), [1] * 4, out=room),
                 ValueError, r"^out must not overlap columns\[0\]$"),
                (lambda: each(self.column("u", [""] * 4, buffers=[None, ones, place + 30]), out=room), ValueError,
                 "^out must not overlap items$"),
                (lambda: each(self.column("u", [None] * 4, 3, buffers=[place, ones, b"ab"]), out=room, missing=0),
                 ValueError, "^out must not overlap items$"),
                (lambda: each(self.column("u", ["a"]), version="v99"), ValueError, "^version must be"),
                (lambda: each(Column("u", ["a"], is_owner=False, name=b"other")), ValueError, "incorrect name")):
            with self.subTest(error):
                self.assertRaisesRegex(kind, error, call)

    def test_the_parts_that_a_slice_reads(self):
        """The rows are the last four of the column. The room lies beside its parts, or over the last byte of one."""
        held, places = array.array("Q", [0] * 8), array.array("i", [0] * 30).tobytes()
        room, place = memoryview(held)[2:6], held.buffer_info()[0]
        start, end = place + 16, place + 48
        for offset, bits, offsets in ((6, start - 1, places), (16, start - 2, places), (0, None, start - 16),
                                      (16, end - 3, places), (16, start - 3, places), (16, end - 2, places)):
            lent = self.column("u", [""] * 4, offset, nulls=-1, buffers=[bits, offsets, b""])
            if bits in (start - 3, end - 2):
                self.assertIs(rapidhash.each(lent, out=room, missing=0), room)
            else:
                with self.assertRaisesRegex(ValueError, "^out must not overlap items$"):
                    rapidhash.each(lent, out=room, missing=0)

    def test_a_part_that_was_released(self):
        for at, kind in enumerate((Schema, Array)):
            column = Column("u", ["a"])
            pair = column.__arrow_c_array__()
            column.kept[at].release = RELEASES[kind]()
            with self.assertRaisesRegex(TypeError, "^items must be an Arrow array of .*, not a released one$"):
                rapidhash.each(type("Lent", (), {"__arrow_c_array__": lambda self: pair})())
            self.assertEqual(column.released, [{Schema: "Array", Array: "Schema"}[kind]])

    def test_a_column_that_was_taken(self):
        pair = self.column("u", ["a"]).__arrow_c_array__()
        lent = type("Lent", (), {"__arrow_c_array__": lambda self: pair})()
        self.assertEqual(list(rapidhash.each(lent)), [rapidhash.v3("a")])
        for call, place in ((rapidhash.each, "items"), (rapidhash.each_key, r"columns\[0\]")):
            with self.assertRaisesRegex(TypeError, f"^{place} must be an Arrow array of .*, not a released one$"):
                call(lent)

    def test_nothing_is_left(self):
        """Each call holds new objects, and it succeeds or fails after it has opened some of them. Python itself keeps
        some memory for later objects, but not after each round."""
        class Index:
            def __index__(self):
                return 2**62 + len(objects)

        def places(*offsets, kind="i"):
            return array.array(kind, offsets)

        objects, large, room = [], bytes(70_000), bytearray
        each, key, one, part = rapidhash.each, rapidhash.each_key, rapidhash.v3_key, rapidhash.each_slice
        for call in (
                lambda: each(Column("u", ["a"])), lambda: each(Column("u", [None])), lambda: key(Column("l", [1]), [2]),
                lambda: key(Column("l", [1]), Column("g", [1])),
                lambda: each(Column("u", ["a", None]), out=places(8, 9, kind="Q")),
                lambda: each([bytearray(9), bytearray(large)]), lambda: each([bytes(room(9)), [7]]),
                lambda: key([Index()], [bytes(room(9))], [bytearray(9)]), lambda: one(Index(), bytearray(9)),
                lambda: one(places(1)), lambda: key([{7}]), lambda: key([{7}], [1, 2]),
                lambda: key(places(1), places(1, 2)), lambda: key(places(1), [{7}]),
                lambda: key(places(1), out=places(1, 2, kind="Q")), lambda: key(places(1, kind="d")),
                lambda: part(b"abc", places(0, 3)), lambda: part(room(3), places(0, 1, kind="d")),
                lambda: part(7, places(0, 1)), lambda: part(room(3), places(0, 4)),
                lambda: part(room(3), places(0, 1), validity=bytearray(1)),
                lambda: part(room(3), places(0, 1), validity=room(), missing=0),
                lambda: part(room(3), places(0, 1), validity=room(1), missing=0),
                lambda: part(room(3), places(0, 1), validity=room(1), missing=-1)):
            def use():
                for _ in range(200):
                    with contextlib.suppress(TypeError, ValueError, OverflowError):
                        call()
                gc.collect()
                return tracemalloc.get_traced_memory()[0]

            tracemalloc.start()
            try:
                held = [use() for _ in range(7)]
            finally:
                tracemalloc.stop()
            self.assertLess(min(map(operator.sub, held[1:], held)), 1 << 12, call.__code__.co_consts)

    def test_streams(self):
        for fails in (None, 0, 1, 2, 3):
            stream = Stream("u", [["a"], [None, "b"], []], 1, fails)
            for call in (lambda: rapidhash.each(stream, missing=0), lambda: rapidhash.each_key(stream, [1, 2, 3])):
                if fails is None:
                    self.assertEqual(len(call()), 3)
                else:
                    with self.assertRaisesRegex(ValueError, "^(items|columns.0.): the Arrow stream failed: no more"):
                        call()
            self.assertEqual(stream.released, 2)
            self.assertEqual([column.released.count("Array") for column in stream.columns],
                             [2 * (fails is None or fails < 3 - at) for at in range(3)])
        gone = Stream("u", [[]])
        lent = [gone.__arrow_c_stream__()]
        gone.kept[0].release = RELEASES[Streamed]()
        with self.assertRaisesRegex(TypeError, "^items must be an Arrow stream, not a released one$"):
            rapidhash.each(type("Lent", (), {"__arrow_c_stream__": lambda self: lent[0]})())
        lent.clear()  # Before the stream is collected.

    def test_other_threads_run_meanwhile(self):
        column = Column("u", ["a" * 65_537])
        self.assertTrue(lets_others_run(lambda: rapidhash.each(column), 20_000))

    def test_what_is_no_pair(self):
        texts = Column("u", ["a"])
        fresh = type("Fresh", (list,), {"__getitem__": lambda self, at: texts.__arrow_c_array__()[at]})
        for pair in (None, 7, (), (1, 2), (1, 2, 3), fresh([1, 2])):
            kinds, error = (TypeError, ValueError), ""
            if not isinstance(pair, tuple):
                kinds, error = TypeError, "^items: __arrow_c_array__ must return a tuple, not <class "
            with self.assertRaisesRegex(kinds, error):
                rapidhash.each(type("Odd", (), {"__arrow_c_array__": lambda self: pair})())


if __name__ == "__main__":
    unittest.main()
