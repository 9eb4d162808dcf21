"""Tests columns with missing messages with an installed copy of the package."""

import array
import unittest

import rapidhash

ITEMS = ["a", None, "", b"b", None, None, "c" * 300, "d", "e", None]
SEED = 7


def wanted(missing, **words):
    return array.array("Q", [missing if item is None else rapidhash.v3(item, **words) for item in ITEMS])


def column():
    """Returns the data, the offsets, and the bits of the items. The missing ones have bytes, which Arrow allows."""
    parts = [b"none" if item is None else item.encode() if isinstance(item, str) else item for item in ITEMS]
    offsets = [sum(map(len, parts[:at])) for at in range(len(parts) + 1)]
    bits = sum(1 << at for at, item in enumerate(ITEMS) if item is not None)
    return b"".join(parts), offsets, bits.to_bytes(2, "little")


class Missing(unittest.TestCase):
    def test_items(self):
        for missing in (0, 1, 2**64 - 1):
            for items in (ITEMS, tuple(ITEMS), iter(ITEMS)):
                self.assertEqual(rapidhash.each(items, missing=missing), wanted(missing))
        self.assertEqual(rapidhash.each(ITEMS, seed=SEED, missing=5), wanted(5, seed=SEED))
        made, out = rapidhash.make_secrets(3), array.array("Q", [9]) * len(ITEMS)
        self.assertIs(rapidhash.each(ITEMS, "v3", None, made, out, 6), out)
        self.assertEqual(out, wanted(6, secrets=made))

    def test_slices(self):
        data, offsets, bits = column()
        for kind in "ilqILQ":
            for validity in (bits, bytearray(bits) + b"\0", memoryview(bits)):
                found = rapidhash.each_slice(data, array.array(kind, offsets), validity=validity, missing=2**63)
                self.assertEqual(found, wanted(2**63))
        places = array.array("i", offsets)
        self.assertEqual(rapidhash.each_slice(data, places, missing=1), rapidhash.each_slice(data, places))
        self.assertEqual(list(rapidhash.each_slice(b"", array.array("i"), validity=b"", missing=1)), [])
        self.assertEqual(rapidhash.each_slice(bytes(16), array.array("i", range(17)), validity=b"\xff\xff", missing=1),
                         rapidhash.each([b"\0"] * 16))

    def test_refused_calls(self):
        data, offsets, bits = column()
        places, pair = array.array("i", offsets), array.array("Q", [0, 0])
        for call, kind, error in (
                (lambda: rapidhash.each(ITEMS), TypeError,
                 r"^items\[1\] is None: pass `missing`, the hash of a missing item$"),
                (lambda: rapidhash.each([7], missing=0), TypeError,
                 r"^items\[0\] must be bytes, another buffer, or a str"),
                (lambda: rapidhash.each([], missing="0"), TypeError, "^missing must be an integer, not <class 'str'>$"),
                (lambda: rapidhash.each([], missing=-1), OverflowError, r"^missing must be from 0 to 2\*\*64 - 1$"),
                (lambda: rapidhash.each([], missing=2**64), OverflowError, "^missing must be from 0"),
                (lambda: rapidhash.each_slice(data, places, validity=bits), TypeError,
                 "^pass `missing`, the hash of a missing string, with validity$"),
                (lambda: rapidhash.each_slice(data, places, validity=bits[:1], missing=0), ValueError,
                 "^validity must have a bit for each of 10 strings, and it has 1 bytes$"),
                (lambda: rapidhash.each_slice(data, places, validity=memoryview(bits * 5).cast("?"), missing=0),
                 TypeError, r"^validity must have a bit for each string, in bytes, and it is <class 'memoryview'> of "
                 r"the format '\?'$"),
                (lambda: rapidhash.each_slice(data, places, validity=array.array("q", [-1]), missing=0), TypeError,
                 "^validity must have a bit for each string, in bytes, and it is <class 'array.array'> of the "
                 "format 'q'$"),
                (lambda: rapidhash.each_slice(data, places, validity="text", missing=0), TypeError,
                 "^validity must be a buffer, not <class 'str'>$"),
                (lambda: rapidhash.each_slice(data, [0]), TypeError, "^offsets must be a buffer, not <class 'list'>$"),
                (lambda: rapidhash.each_slice([], places), TypeError, "^data must be bytes, another buffer, or a str"),
                (lambda: rapidhash.each_row([], 1), TypeError, "^data must be a buffer, not <class 'list'>$"),
                (lambda: rapidhash.each([], out=[]), TypeError, "^out must be a buffer, not <class 'list'>$"),
                (lambda: rapidhash.each([], out=b""), BufferError, "^out: "),
                (lambda: rapidhash.each_row(memoryview(data)[::2], 1), BufferError, "^data: "),
                (lambda: rapidhash.each_slice(b"ab", array.array("i", [0, 2, 1]), validity=b"\0", missing=0),
                 ValueError, r"^offsets\[1\] and offsets\[2\] must ascend")):
            with self.subTest(error):
                self.assertRaisesRegex(kind, error, call)
        with memoryview(pair) as view, self.assertRaisesRegex(ValueError, "^out must not overlap validity$"):
            rapidhash.each_slice(b"a", array.array("i", [0, 1]), out=view[:1], validity=view.cast("B"), missing=0)
        pair.append(0)  # An array refuses this while its buffer is exported.


if __name__ == "__main__":
    unittest.main()
