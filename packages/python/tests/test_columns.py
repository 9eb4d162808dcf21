"""Tests the hashes of many messages in one call with an installed copy of the package."""

import array
import collections
import contextlib
import ctypes
import mmap
import pickle
import signal
import sys
import unittest

import rapidhash
from test_buffers import lets_others_run
from test_rapidhash import VERSIONS

SEEDS = 0, 1, 2**32, 2**63, 2**64 - 1
ITEMS = [bytes(range(size)) for size in range(200)]
WHOLE = b"".join(ITEMS)
OFFSETS = [sum(range(size)) for size in range(201)]


def ways(items, **words):
    """Yields the hashes of messages of equal lengths or of any lengths, in each way."""
    whole = b"".join(items)
    offsets = [sum(map(len, items[:at])) for at in range(len(items) + 1)]
    yield rapidhash.each(items, **words)
    yield rapidhash.each(iter(items), **words)
    yield rapidhash.each(tuple(map(bytearray, items)), **words)
    for kind in "ilqILQ":
        yield rapidhash.each_slice(whole, array.array(kind, offsets), **words)
    if len(set(map(len, items))) == 1:
        yield rapidhash.each_row(whole, len(items[0]), **words)


class Named:
    """An object with an attribute of any name, as a Series of pandas has those of its labels."""
    kind = "m"

    def __getattr__(self, name):
        return self


class Columns(unittest.TestCase):
    def test_names_that_are_the_users(self):
        class Data(Named, bytearray):
            pass

        class Items(Named, list):
            pass

        class Field(bytes):
            mask = 5

        class Header(ctypes.Structure):
            _fields_ = [("mask", ctypes.c_uint16), ("columns", ctypes.c_uint16)]

        class Order(ctypes.Structure):
            _fields_ = [("filled", ctypes.c_uint16), ("to_numpy", ctypes.c_uint16)]

        class Both(ctypes.Structure):
            _fields_ = [("mask", ctypes.c_uint16), ("filled", ctypes.c_uint16)]

        for data in (Data(b"\1\0\2\0"), Field(b"\1\0\2\0"), Header(1, 2), Order(1, 2), Both(1, 2)):
            wanted = array.array("Q", [rapidhash.v3(bytes(data))])
            for found in ([rapidhash.v3(data)], [rapidhash.V3(data).intdigest()], rapidhash.each([data]),
                          rapidhash.each_row(data, 4), rapidhash.each_slice(data, array.array("i", [0, 4]))):
                self.assertEqual(list(found), list(wanted), type(data))
        self.assertEqual(rapidhash.v3_key(Data(b"abc")), rapidhash.v3_key(b"abc"))
        self.assertEqual(rapidhash.each(Items(["a", "b"])), rapidhash.each(["a", "b"]))
        self.assertEqual(rapidhash.each_key(Items([1, 2])), rapidhash.each_key([1, 2]))
        self.assertEqual(rapidhash.fingerprint(Items([1, 2])), 3)
        for names in ("columns isna", "mask filled", "to_numpy dtype"):
            pair = collections.namedtuple("Pair", names)
            self.assertEqual(rapidhash.each(pair("a", "b")), rapidhash.each(["a", "b"]))
            self.assertEqual(rapidhash.each_key(pair(1, 2)), rapidhash.each_key([1, 2]))
            self.assertEqual(rapidhash.fingerprint(pair(1, 2)), 3)

    def test_what_is_no_column(self):
        class Frame(dict):
            columns = ["a"]

        for items in ("text", b"bytes", bytearray(3), memoryview(bytes(4)).cast("B", (2, 2)), Frame()):
            with self.assertRaisesRegex(TypeError, "^items must be an iterable of messages, not <class '"):
                rapidhash.each(items)

    def test_objects_are_no_messages(self):
        class Pointers(ctypes.Structure):
            _fields_ = [("size", ctypes.c_size_t), ("text", ctypes.c_char_p)]

        objects = (ctypes.py_object * 2)("a", "b")
        words = ctypes.c_char_p(b"abc"), ctypes.c_wchar_p("abc"), ctypes.c_void_p(7), ctypes.pointer(ctypes.c_int(7))
        why = "^data must not be an array of objects or pointers, whose bytes are addresses"
        for data in (objects, Pointers(3, b"abc"), (ctypes.c_char_p * 2)(), ctypes.CFUNCTYPE(None)(print), *words):
            for call in (rapidhash.v3, rapidhash.V3, lambda data: rapidhash.each_row(data, 8)):
                with self.assertRaisesRegex(TypeError, why):
                    call(data)
        with self.assertRaisesRegex(TypeError, r"^items\[1\] must be bytes, another buffer, or a str, not "):
            rapidhash.each([b"", objects])

    def test_pointers_that_a_format_hides(self):
        """ctypes describes a union, and up to 3.12 a packed structure, as bytes, and leaves out the fields of a base
        class. A field's name can have a colon, as the end of a name in a format."""
        def union(kind, base=ctypes.Union, **words):
            return type("Union", (base,), {**words, "_fields_": [("first", kind), ("number", ctypes.c_uint64)]})

        text, number = union(ctypes.c_char_p), union(ctypes.c_uint32)
        plain = union(ctypes.c_uint32, ctypes.Structure)
        base = union(ctypes.c_void_p, ctypes.Structure)
        derived = type("Derived", (base,), {"_fields_": [("other", ctypes.c_uint64)]})
        colon = type("Colon", (ctypes.Structure,), {"_fields_": [("a:", ctypes.c_int), ("b", ctypes.c_void_p)]})
        unknown = type("Unknown", (ctypes._Pointer,), {})  # A pointer to a type that is defined later.
        kinds = [*map(union, (ctypes.c_void_p, ctypes.c_wchar_p, ctypes.py_object, ctypes.POINTER(ctypes.c_int),
                              ctypes.CFUNCTYPE(None), ctypes.c_char_p * 2, text, text * 3)),
                 union(ctypes.c_char_p, ctypes.Structure, _pack_=1), union(text, ctypes.Structure),
                 type("Derived", (text,), {"_fields_": [("other", ctypes.c_uint64)]}), text * 2, (text * 2) * 2,
                 derived, derived * 2, union(derived, ctypes.Structure), union(derived), colon, union(unknown)]
        for kind in kinds:
            coat = pickle.PickleBuffer(memoryview(kind()))
            for data in (kind(), memoryview(kind()), pickle.PickleBuffer(kind()), coat, memoryview(coat)):
                for call in (rapidhash.v3, rapidhash.V3, lambda data: rapidhash.each_row(data, 8)):
                    with self.assertRaisesRegex(TypeError, "^data must not be an array of objects or pointers, "):
                        call(data)
                self.assertRaises(TypeError, rapidhash.each, [data])
                self.assertRaises(TypeError, rapidhash.v3_key, data)
        for kind in (number, number * 2, union(ctypes.c_wchar * 2), union(ctypes.c_char * 8),
                     union(number, ctypes.Structure), union(number, ctypes.Structure, _pack_=1), plain * 2,
                     type("Derived", (plain,), {"_fields_": [("_type_", ctypes.c_uint64)]})):
            self.assertEqual(rapidhash.v3(kind()), rapidhash.v3(bytes(ctypes.sizeof(kind))))

    def test_unions_are_no_integers(self):
        class Number(ctypes.Union):
            _fields_ = [("number", ctypes.c_uint64), ("byte", ctypes.c_uint8)]

        room = (Number * 2)()
        for error, call in ((r"columns\[0\] must be a list", lambda: rapidhash.each_key(room)),
                            ("offsets must be", lambda: rapidhash.each_slice(b"a", room)),
                            ("hashes must be", lambda: rapidhash.fingerprint(room)),
                            ("out must be", lambda: rapidhash.each([b"", b""], out=room))):
            with self.assertRaisesRegex(TypeError, f"^{error}"):
                call()

    def test_they_have_the_hashes_of_the_calls(self):
        for version in VERSIONS:
            call, made = getattr(rapidhash, version), rapidhash.make_secrets(2**40 + 1, 1 if version == "v1" else 3)
            for words in ({}, {"secrets": made}, *({"seed": seed} for seed in SEEDS)):
                for items in (ITEMS, [ITEMS[1]] * 3, [ITEMS[11], ITEMS[150][:11]], [ITEMS[150]] * 9):
                    wanted = array.array("Q", (call(item, **words) for item in items))
                    for found in ways(items, version=version, **words):
                        self.assertEqual(found, wanted, (version, words))

    def test_known_values(self):
        self.assertEqual(list(rapidhash.each(["hello", b"", memoryview(b"hello")])),
                         [3327445792987248966, 232177599295442350, 3327445792987248966])
        self.assertEqual(list(rapidhash.each_row(b"hellohello", 5)), [3327445792987248966] * 2)
        self.assertEqual(list(rapidhash.each_slice("hello", array.array("i", [0, 0, 5]))),
                         [232177599295442350, 3327445792987248966])

    def test_long_messages(self):
        items = [bytes([at + 1]) * 1_100_000 for at in range(2)]
        for found in ways(items):
            self.assertEqual(list(found), [rapidhash.v3(item) for item in items])

    def test_offsets_need_not_start_at_0(self):
        found = rapidhash.each_slice(memoryview(WHOLE), memoryview(array.array("q", OFFSETS))[100:])
        self.assertEqual(found, rapidhash.each(ITEMS[100:]))
        self.assertEqual(rapidhash.each_slice(b"ab", (ctypes.c_int32 * 2)(1, 2)), rapidhash.each([b"b"]))

    def test_places_above_2_to_the_31_and_32(self):
        for kind, start in (("I", 2**31), ("L", 2**32), ("q", 2**32)):
            with mmap.mmap(-1, start + 8) as data:
                found = rapidhash.each_slice(data, array.array(kind, [start, start + 5]))
            self.assertEqual(found, rapidhash.each([bytes(5)]))
        with mmap.mmap(-1, 2**32 + 10) as data:
            half, data[-1] = len(data) // 2, 1
            with memoryview(data) as view, view[:half] as left, view[half:] as right:
                self.assertEqual(list(rapidhash.each_row(data, half)), [rapidhash.v3(left), rapidhash.v3(right)])
            encoding = rapidhash.V3(b"\2" + len(data).to_bytes(8, "little")).update(data)
            self.assertEqual(rapidhash.v3_key(data), encoding.intdigest())
        self.assertEqual(rapidhash.v3(bytes(2**32 + 5)), 8938949028826169308)  # As upstream's.

    def test_nothing_to_hash(self):
        empty = array.array("Q")
        for found in (rapidhash.each([]), rapidhash.each_row(b"", 4), rapidhash.each_slice(b"", array.array("i")),
                      rapidhash.each_slice(b"", array.array("i", [0])), rapidhash.each([], out=empty)):
            self.assertEqual(found, empty)
        for found in (rapidhash.each([], out=empty), rapidhash.each_row(b"", 4, out=empty),
                      rapidhash.each_slice(b"", array.array("i"), out=empty)):
            self.assertIs(found, empty)

    def test_a_class_over_list(self):
        class Hello(list):
            def __iter__(self):
                return iter([b"hello"])

        self.assertEqual(list(rapidhash.each(Hello())), [3327445792987248966])

    def test_a_long_column(self):
        whole, places = array.array("I", range(100_000)).tobytes(), range(0, 400_000, 4)
        items = [whole[at:at + 4] for at in places]
        wanted = array.array("Q", map(rapidhash.v3, items))
        self.assertEqual(rapidhash.each_row(whole, 4), wanted)
        self.assertEqual(rapidhash.each_slice(whole, array.array("i", [*places, 400_000])), wanted)
        for kind in (list, tuple, iter):
            self.assertEqual(rapidhash.each(kind(items)), wanted)
        self.assertEqual(rapidhash.each([bytes(200_000), "x" * 200_000]),
                         array.array("Q", [rapidhash.v3(bytes(200_000)), rapidhash.v3(b"x" * 200_000)]))


class Signals(unittest.TestCase):
    @unittest.skipUnless(hasattr(signal, "setitimer"), "no timers")
    def test_a_signal_ends_a_long_column(self):
        def stop(number, frame):
            raise InterruptedError

        room, before = array.array("Q", [0]) * 4_000_000, signal.signal(signal.SIGALRM, stop)
        try:
            for call, item in ((rapidhash.each, b""), (rapidhash.each_key, 7)):
                items = [item] * len(room)
                signal.setitimer(signal.ITIMER_REAL, 0.01)
                self.assertRaises(InterruptedError, call, items, out=room)
                self.assertEqual(room[-1], 0)
        finally:
            signal.signal(signal.SIGALRM, before)

    def test_other_threads_run_meanwhile(self):
        items, numbers = [b""] * 200_000, [7] * 200_000
        for call in (lambda: rapidhash.each(items), lambda: rapidhash.each(iter(items)),
                     lambda: rapidhash.each_key(numbers), lambda: rapidhash.shard(numbers, 9)):
            self.assertTrue(lets_others_run(call, 1000))


class Iterators(unittest.TestCase):
    def test_one_buffer_that_is_filled_again(self):
        def pieces(view):
            buffer = bytearray(1)
            for buffer[0] in WHOLE:
                yield view(buffer)

        for view in (bytearray, memoryview, lambda buffer: memoryview(buffer).toreadonly(), lambda buffer: buffer):
            found, room = rapidhash.each(pieces(view), "v1", 7), array.array("Q", [0]) * len(WHOLE)
            self.assertEqual(found, rapidhash.each_row(WHOLE, 1, "v1", 7))
            self.assertIs(rapidhash.each(pieces(view), "v1", 7, out=room), room)
            self.assertEqual(room, found)
            keys = rapidhash.each_key(pieces(view), memoryview(WHOLE))
            self.assertEqual(keys, rapidhash.each_key([bytes([byte]) for byte in WHOLE], memoryview(WHOLE)))

    def test_one_integer_that_changes(self):
        class Count:
            def __index__(self):
                return self.number

        def numbers(count):
            for count.number in range(9):
                yield count

        self.assertEqual(rapidhash.each_key(numbers(Count())), rapidhash.each_key(range(9)))

    def test_errors(self):
        def items(*values):
            yield from values
            raise LookupError("no more")

        room, text = array.array("Q", [0]), bytearray(b"a")
        for call, kind, error in (
            (lambda: rapidhash.each(items(text)), LookupError, "no more$"),
            (lambda: rapidhash.each(items(text, None)), TypeError, r"items\[1\] is None: pass `missing`"),
            (lambda: rapidhash.each(iter([text] * 2), out=room), ValueError, "out must have room for exactly 2 hashes"),
            (lambda: rapidhash.each(iter([text]), out=text), TypeError, "out must be a buffer of unsigned 64-bit"),
            (lambda: rapidhash.each(iter([text]), "v4"), ValueError, "version must be the name of a hash"),
            (lambda: rapidhash.each_key(items(text)), LookupError, "no more$"),
            (lambda: rapidhash.each_key(iter([text, memoryview(b"abc")[::2]])), BufferError, r"columns\[0\]\[1\]: "),
            (lambda: rapidhash.each_key(iter([array.array("b")])), TypeError, r"columns\[0\]\[0\] must be None"),
        ):
            with self.assertRaisesRegex(kind, f"^{error}"):
                call()
        self.assertEqual(rapidhash.each(iter([None, text]), missing=5, out=array.array("Q", [0, 0]))[0], 5)
        text.append(0)  # A bytearray refuses this while its buffer is exported.
        room.append(0)


class Out(unittest.TestCase):
    def test_the_room_of_the_caller(self):
        room, wanted = array.array("Q", [7]) * 202, rapidhash.each(ITEMS)
        part = memoryview(room)[1:201]
        self.assertIs(rapidhash.each(ITEMS, out=part), part)
        self.assertEqual((room[0], room[1:201], room[201]), (7, wanted, 7))
        unaligned = memoryview(bytearray(8 * 200 + 1))[1:].cast("Q")
        self.assertEqual(rapidhash.each_slice(WHOLE, array.array("I", OFFSETS), out=unaligned).tolist(), list(wanted))
        words = array.array("L" if array.array("L").itemsize == 8 else "Q", [0])  # NumPy's format on Linux
        for one in ((ctypes.c_uint64 * 1)(), words, memoryview(bytearray(8)).cast("@Q")):
            self.assertEqual(list(rapidhash.each([b"hello"], out=one)), [3327445792987248966])
        part.release()
        room.append(1)  # An array refuses this while its buffer is exported.

    def test_wrong_rooms(self):
        one, two = array.array("Q", [0]), memoryview(array.array("Q", [0, 0]))
        for call, kind, error in (
            (lambda: rapidhash.each([b"", b""], out=one), ValueError, "out must have room for exactly 2 hashes"),
            (lambda: rapidhash.each([], out=one), ValueError, "out must have room for exactly 0 hashes, and it has 1"),
            (lambda: rapidhash.each_row(b"", 1, out=one), ValueError, "out must have room for exactly 0 hashes"),
            (lambda: rapidhash.each_row(mmap.mmap(-1, 2**29), 1, out=array.array("Q")), ValueError,
             "out must have room for exactly 536870912 hashes, and it has 0"),
            (lambda: rapidhash.each([b""], out=bytearray(8)), TypeError, "out must be a buffer of unsigned 64-bit"),
            (lambda: rapidhash.each([b""], out=array.array("q", [0])), TypeError, "out must be a buffer of unsigned"),
            (lambda: rapidhash.each([b""], out=array.array("d", [0])), TypeError, "out must be a buffer of unsigned"),
            (lambda: rapidhash.each([b""], out=bytes(8)), BufferError, ""),
            (lambda: rapidhash.each([b"", b""], out=memoryview(array.array("Q", bytes(32)))[::2]), BufferError, ""),
            (lambda: rapidhash.each([b"", two[:1]], out=two), ValueError, "out must not overlap an item$"),
            (lambda: rapidhash.each_row(one, 8, out=one), ValueError, "out must not overlap data"),
            (lambda: rapidhash.each_slice(b"", two[:2], out=two[1:2]), ValueError, "out must not overlap offsets$"),
            (lambda: rapidhash.each_slice(one, array.array("i", [0, 1]), out=one), ValueError, "out must not overlap"),
        ):
            with self.assertRaisesRegex(kind, f"^{error}"):
                call()
        two[0] = two[1] = 7
        each = rapidhash.each([bytes(two[:1])] * 2)
        # An item may lie where its own hash is written: it is read before.
        self.assertEqual(rapidhash.each([two[:1], two[1:]], out=two).tolist(), list(each))

    def test_buffers_are_released(self):
        rows, room, offsets = bytearray(16), array.array("Q", [0, 0]), array.array("i", [0, 8, 16])
        item = bytes(bytearray(8))
        before = sys.getrefcount(item)
        for offset in (16, 17):
            offsets[2] = offset
            for call in (lambda: rapidhash.each_row(rows, 8, out=room), lambda: rapidhash.each([item, rows], out=room),
                         lambda: rapidhash.each_slice(rows, offsets, out=room), lambda: rapidhash.each([], out=room)):
                with contextlib.suppress(ValueError):
                    call()
        for buffer in (rows, room, offsets):
            buffer.append(0)  # Each refuses this while its buffer is exported.
        self.assertEqual(sys.getrefcount(item), before)


class Refused(unittest.TestCase):
    def test_pointers_have_no_end(self):
        for pointer in (ctypes.pointer((ctypes.c_char * 4)()), ctypes.POINTER(ctypes.c_uint64)()):
            for call, name in ((rapidhash.each, "items"), (rapidhash.fingerprint, "hashes")):
                with self.assertRaisesRegex(TypeError, f"^{name} must be .* iterable of .*: it has no end$"):
                    call(pointer)
        self.assertEqual(rapidhash.each((ctypes.c_char_p * 2)(b"a", b"b")), rapidhash.each(["a", "b"]))

    def test_items(self):
        for items in ([b"", 7], iter([b"", 7]), (b"", 7), [b"", 7, b""]):
            with self.assertRaisesRegex(
                    TypeError, r"^items\[1\] must be bytes, .* not <class 'int'>: each_key hashes integers and other"):
                rapidhash.each(items)
        with self.assertRaises(BufferError):
            rapidhash.each([memoryview(b"abc")[::2]])
        with self.assertRaisesRegex(TypeError, "^items must be an iterable of messages, not <class 'int'>: 'int' "):
            rapidhash.each(7)

    @unittest.skipIf(sys.version_info < (3, 12), "classes define buffers from 3.12 on")
    def test_a_list_that_an_item_empties(self):
        class Last(bytes):
            def __buffer__(self, flags):
                items.clear()
                return memoryview(b"")

        items = [Last(), b""]
        self.assertRaises(IndexError, rapidhash.each, items)

    def test_offsets(self):
        for numbers in ([0, 4], [2, 1], [-1, 2], [0, 3, 2], [0, 2**62], [-2**63, 0], [2**62, 2**62 + 1]):
            with self.assertRaisesRegex(
                    ValueError, r"^offsets\[\d\] and offsets\[\d\] must ascend from 0 to at most 3"):
                rapidhash.each_slice(b"abc", array.array("q", numbers))
        for numbers in ([0, 2**64 - 1], [2**63, 2**63], [2**32, 2**32 + 1]):
            with self.assertRaisesRegex(ValueError, "^offsets"):
                rapidhash.each_slice(b"abc", array.array("Q", numbers))
        with self.assertRaisesRegex(ValueError, r"^offsets\[1\]"):
            rapidhash.each_slice(b"abc", array.array("I", [0, 1, 2**32 - 1]))
        class Nothing(ctypes.Structure):
            pass  # whose items have no byte

        for offsets in (b"abcd", array.array("h", [0, 1]), array.array("d", [0, 1]), memoryview(bytes(16)).cast("B"),
                        (Nothing * 2)(), ctypes.c_int(1)):
            with self.assertRaisesRegex(TypeError, "^offsets must be a buffer of 32-bit or 64-bit integers$"):
                rapidhash.each_slice(b"abc", offsets)
        other = (ctypes.c_int32.__ctype_be__ if sys.byteorder == "little" else ctypes.c_int32.__ctype_le__) * 2
        with self.assertRaisesRegex(TypeError, "^offsets"):
            rapidhash.each_slice(b"abc", other(0, 1))

    def test_widths(self):
        for width in (0, -1, -2**70, -10**5000):  # Python writes no number of over 4300 digits.
            with self.assertRaisesRegex(ValueError, "^width must be at least 1$"):
                rapidhash.each_row(b"abc", width)
        for width in (2, 4, 2**32 + 3, 2**64 + 3, 10**5000):
            with self.assertRaisesRegex(ValueError, "^data has 3 bytes, which is no multiple of the width$"):
                rapidhash.each_row(b"abc", width)
        self.assertEqual(len(rapidhash.each_row(b"", 2**70)), 0)
        with self.assertRaisesRegex(TypeError, "^width must be an integer"):
            rapidhash.each_row(b"abc", 1.0)

    def test_buffers_with_gaps(self):
        gaps, whole, places = memoryview(bytes(8))[::2], b"abc", memoryview(array.array("i", [0, 1, 2, 3]))[::2]
        for call in (lambda: rapidhash.each_row(gaps, 1), lambda: rapidhash.each_slice(whole, places),
                     lambda: rapidhash.each_slice(whole, array.array("i", [0, 1]), validity=gaps, missing=0),
                     lambda: rapidhash.each_key([gaps]), lambda: rapidhash.v3_key(gaps)):
            self.assertRaises(BufferError, call)

    def test_the_rest(self):
        made, made_v1 = rapidhash.make_secrets(1), rapidhash.make_secrets(1, 1)
        for words, kind, error in (
            ({"version": "v99"}, ValueError, "version must be the name of a hash, such as 'v3', not 'v99'"),
            ({"version": 3}, TypeError, "version must be the name"), ({"version": "v3\0"}, ValueError, "version"),
            ({"seed": -1}, OverflowError, "seed must be"), ({"seed": 2**64}, OverflowError, "seed must be"),
            ({"seed": "1"}, TypeError, "seed must be"), ({"seed": 1, "secrets": made}, TypeError, "pass either"),
            ({"secrets": made_v1}, TypeError, "secrets of v3 must"), ({"secrets": bytes(64)}, TypeError, "secrets"),
            ({"version": "v1", "secrets": made}, TypeError, "secrets of v1 must"),
        ):
            for call in (lambda: rapidhash.each([b"a"], **words), lambda: rapidhash.each_row(b"a", 1, **words),
                         lambda: rapidhash.each_slice(b"a", array.array("i", [0, 1]), **words)):
                with self.assertRaisesRegex(kind, f"^{error}"):
                    call()


if __name__ == "__main__":
    unittest.main()
