"""Tests keys of several fields with an installed copy of the package."""

import array
import ctypes
import operator
import sys
import unittest

import rapidhash
from test_buffers import lets_others_run


class Buffer(ctypes.Structure):
    """The Py_buffer of CPython."""
    sizes = [(name, ctypes.POINTER(ctypes.c_ssize_t)) for name in ("shape", "strides", "suboffsets")]
    _fields_ = [("buf", ctypes.c_void_p), ("obj", ctypes.c_void_p), ("len", ctypes.c_ssize_t),
                ("itemsize", ctypes.c_ssize_t), ("readonly", ctypes.c_int), ("ndim", ctypes.c_int),
                ("format", ctypes.c_char_p), *sizes, ("internal", ctypes.c_void_p)]


class Keys(unittest.TestCase):
    def test_kinds_of_fields(self):
        user = 14742763072502883419
        for text in ("user", b"user", bytearray(b"user"), memoryview(b"user"), array.array("B", b"user"),
                     (ctypes.c_ubyte * 4)(*b"user"), (ctypes.c_char * 4)(*b"user"), memoryview(b"user").cast("c")):
            self.assertEqual(rapidhash.v3_key(text, 4711, None), user, type(text))

        class Index:
            def __index__(self):
                return 4711

        self.assertEqual(rapidhash.v3_key("user", Index(), None), user)
        names, numbers = ["user", "\u4e2d\u6587", None], [4711, -1, 0]
        wanted = [rapidhash.v3_key(*row) for row in zip(names, numbers)]
        for column in (numbers, tuple(numbers), iter(numbers), *(array.array(kind, numbers) for kind in "hilq")):
            self.assertEqual(list(rapidhash.each_key(names, column)), wanted)
        for kind in "BHILQ":
            self.assertEqual(rapidhash.each_key(array.array(kind, [7]))[0], rapidhash.v3_key(7))

    def test_a_letter_of_another_size(self):
        numbers, one = (ctypes.c_int32 * 2)(7, -1), lambda size: (ctypes.c_ssize_t * 1)(size)
        buffer = Buffer(ctypes.addressof(numbers), None, 8, 4, 1, 1, b"=l", one(2), one(4))
        view_of = ctypes.PYFUNCTYPE(ctypes.py_object, ctypes.POINTER(Buffer))(
            ("PyMemoryView_FromBuffer", ctypes.pythonapi))
        wanted = [rapidhash.v3_key(7), rapidhash.v3_key(-1)]
        self.assertEqual(list(rapidhash.each_key(view_of(buffer))), wanted)

    def test_long_keys(self):
        for size in (*range(230, 280), 1000, 100_000):
            for fields in ((bytes(size),), (7, bytes(size), None), ("a", bytes(100), bytes(size), -1)):
                parts = []
                for field in fields:
                    number = field if isinstance(field, int) else len(field or b"")
                    tag = b"\0" if field is None else b"\1" if isinstance(field, int) else b"\2"
                    text = field.encode() if isinstance(field, str) else field if isinstance(field, bytes) else b""
                    parts += [tag, b"" if field is None else number.to_bytes(8, "little", signed=True), text]
                self.assertEqual(rapidhash.v3_key(*fields, seed=7), rapidhash.v3(b"".join(parts), seed=7))

    def test_it_writes_to_a_buffer(self):
        out = array.array("Q", [0, 0])
        self.assertIs(rapidhash.each_key([1, 2], out=out), out)
        self.assertEqual(list(out), [rapidhash.v3_key(1), rapidhash.v3_key(2)])
        self.assertEqual(list(rapidhash.each_key([])), [])
        with self.assertRaisesRegex(ValueError, "out must have room for exactly 1 hashes, and it has 2"):
            rapidhash.each_key([1], out=out)
        words = memoryview(array.array("Q", [0, 0, 0]))
        with self.assertRaisesRegex(ValueError, r"^out must not overlap columns\[1\]$"):
            rapidhash.each_key([1, 2], words[:2], out=words[1:])
        field = words.cast("B")[:8]
        self.assertEqual(rapidhash.each_key([field, b""], out=words[:2])[0], rapidhash.v3_key(bytes(8)))
        with self.assertRaisesRegex(ValueError, "^out must not overlap a field$"):
            rapidhash.each_key([None, field], out=words[:2])

    def test_what_is_no_field(self):
        class Date(bytearray):  # as a date of NumPy, which has a buffer
            dtype = "M8[D]"

        class Wrong:
            def __index__(self):
                return "1"

        class Own:
            def __index__(self):
                raise KeyError("own")

        for value in (1.5, {}, object(), Date(8), array.array("i", [1]), array.array("d", [1]),
                      memoryview(b"").cast("b"), ctypes.c_ubyte(1), memoryview(b"a").cast("B", [])):
            with self.assertRaisesRegex(TypeError, r"^fields\[1\] must be None, a bool, an int, a str, .*, "
                                        r"not <class '.*'>(; float_bits makes an int of a float)?$"):
                rapidhash.v3_key(1, value)
            with self.assertRaisesRegex(TypeError, r"^columns\[1\]\[2\] must be None, a bool, an int, "):
                rapidhash.each_key([1, 2, 3], ["a", None, value])
        for value in (2**64, -2**63 - 1, 2**200):
            with self.assertRaisesRegex(OverflowError, r"^fields\[0\] must be from -2\*\*63 to 2\*\*64 - 1$"):
                rapidhash.v3_key(value)
        with self.assertRaisesRegex(OverflowError, r"^columns\[0\]\[1\] must be from -2\*\*63 to 2\*\*64 - 1$"):
            rapidhash.each_key([1, 2**64])
        for call, place in ((lambda: rapidhash.v3_key(1, "\ud800"), r"fields\[1\]"),
                            (lambda: rapidhash.each_key([1] * 1000, ["a"] * 999 + ["b\ud800"]), r"columns\[1\]\[999\]"),
                            (lambda: rapidhash.each(["a"] * 999 + ["b\ud800"]), r"items\[999\]")):
            with self.assertRaisesRegex(UnicodeEncodeError, rf"position \d: surrogates not allowed in {place}$"):
                call()
        for value, kind, reason in (
                (memoryview(b"abcd")[::2], BufferError, "memoryview: underlying buffer is not C-contiguous"),
                (Wrong(), TypeError, "__index__ returned non-int"), (Own(), KeyError, None)):
            places = ["", ""] if reason is None else [r"^fields\[0\]: ", r"^columns\[0\]\[1\]: "]
            for call, place in zip((lambda: rapidhash.v3_key(value), lambda: rapidhash.each_key([1, value])), places):
                with self.assertRaisesRegex(kind, place + (reason or "own")):
                    call()
        with self.assertRaisesRegex(TypeError, "pass either seed or secrets, not both"):
            rapidhash.v3_key(1, seed=1, secrets=rapidhash.make_secrets(1))

    def test_errors_keep_no_reference(self):
        class Wrong:
            def __index__(self):
                return "1"

        gaps, kinds = memoryview(b"abcd")[::2], (TypeError, BufferError, UnicodeEncodeError)
        before = [sys.getrefcount(kind) for kind in kinds]
        for _ in range(1000):
            for field, kind in zip((Wrong(), gaps, "\ud800"), kinds):
                self.assertRaises(kind, rapidhash.v3_key, field)
        after = [sys.getrefcount(kind) for kind in kinds]
        self.assertLess(max(map(operator.sub, after, before)), 100)

    def test_strides(self):
        numbers = array.array("i", range(10))
        for step in (1, 2, 3, 20, -1, -3):
            wanted = [rapidhash.v3_key(number) for number in numbers[::step]]
            self.assertEqual(list(rapidhash.each_key(memoryview(numbers)[::step])), wanted)
        words = memoryview(array.array("Q", bytes(8 * 20)))
        for column, out in ((words[::2], words[10:]), (words[9::-1], words[:10])):
            with self.assertRaisesRegex(ValueError, r"^out must not overlap columns\[0\]$"):
                rapidhash.each_key(column, out=out)
        self.assertEqual(rapidhash.each_key(words[9::-1], out=words[10:])[0], rapidhash.v3_key(0))

    def test_other_threads_run_meanwhile(self):
        numbers = array.array("q", range(10_000))
        self.assertTrue(lets_others_run(lambda: rapidhash.each_key(numbers, numbers), 20_000))
        self.assertFalse(lets_others_run(lambda: rapidhash.each_key(numbers[:9], [1] * 9), 20_000))

    def test_what_is_no_column(self):
        class Frame:
            columns = ["a"]

        class Nothing(ctypes.Structure):
            pass  # whose items have no byte

        for column in ("text", b"bytes", Frame(), 7):
            with self.assertRaisesRegex(TypeError, r"^columns\[1\] must be a column of fields, not <class '"):
                rapidhash.each_key([1], column)
        for column in (array.array("d", [1.5]), memoryview(bytes(4)).cast("B", (2, 2)), (Nothing * 2)()):
            with self.assertRaisesRegex(TypeError, r"^columns\[0\] must be a list, a tuple, or a buffer of integers"):
                rapidhash.each_key(column)
        for call in (rapidhash.each, rapidhash.each_key):
            with self.assertRaisesRegex(ValueError, "^invalid literal"):
                call(int(word) for word in ["own"])
        with self.assertRaisesRegex(TypeError, "and it is <class 'array.array'> of the format 'd'$"):
            rapidhash.each_key(array.array("d"))
        with self.assertRaisesRegex(ValueError, r"^columns\[1\] has 1 rows, and columns\[0\] has 2$"):
            rapidhash.each_key([1, 2], [1])
        with self.assertRaisesRegex(TypeError, "at least one column"):
            rapidhash.each_key()

    def test_a_class_over_list(self):
        class Other(list):
            def __iter__(self):
                return iter([7])

        self.assertEqual(list(rapidhash.each_key(Other([1, 2]))), [rapidhash.v3_key(7)])

    def test_a_list_that_shrinks(self):
        names = ["a", "b", "c"]

        class Shrinking:
            def __index__(self):
                names.clear()
                return 1

        with self.assertRaises(IndexError):
            rapidhash.each_key(names, [Shrinking()] * 3)

    def test_objects_before_a_buffer(self):
        """Their code needs the lock, without which buffers alone are hashed."""
        number = type("Number", (), {"__index__": lambda self: 7})()
        self.assertEqual(list(rapidhash.each_key([number], memoryview(b"a"))), [rapidhash.v3_key(7, 97)])


if __name__ == "__main__":
    unittest.main()
