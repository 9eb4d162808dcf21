"""Tests columns and errors of shards, buckets and fingerprints with an installed copy of the package."""

import unittest
from array import array

import rapidhash
from rapidhash import bucket, fingerprint, first_hash, shard

class Shards(unittest.TestCase):
    def test_columns(self):
        keys = rapidhash.each_key(["a", "b", None], [1, 2, 3])
        out = array("Q", [0] * 3)
        self.assertIs(shard(keys, 10, out), out)
        self.assertEqual(list(out), [shard(key, 10) for key in keys])
        self.assertEqual(list(shard(memoryview(keys)[::2], 10)), [out[0], out[2]])
        buckets = array("Q", [bucket(key, 7) for key in keys])
        self.assertEqual(bucket(keys, 7, keys), buckets)
        self.assertEqual(shard(array("Q"), 10), array("Q"))

    def test_an_iterator_that_fills_one_item_again(self):
        class Item:
            number = 0

            def __index__(self):
                return self.number

        def rows(item=Item()):
            for item.number in range(1, 5):
                yield item
        self.assertEqual((fingerprint(rows()), list(shard(rows(), 2**64 - 1))), (10, [0, 1, 2, 3]))

    def test_what_is_refused(self):
        column, flat = memoryview(array("Q", [1, 2, 3])), memoryview(bytes(16)).cast("Q", (2, 1))
        for call, error, reason in (
                (lambda: shard(7, 0), ValueError, "count must be from 1 to 18446744073709551615, not 0"),
                (lambda: bucket(7, 0), ValueError, "count must be from 1 to 4294967295, not 0"),
                (lambda: bucket(7, 2**32), ValueError, "count must be from 1 to 4294967295, not 4294967296"),
                (lambda: first_hash(10, 10), ValueError, "shard must be below count, 10, not 10"),
                (lambda: shard(-1, 10), OverflowError, "hash must be from 0 to"),
                (lambda: shard("7", 10), TypeError,
                 "hashes must be an integer, or a column or an iterable of integers, not <class 'str'>"),
                (lambda: shard(array("q", [1, -1]), 10), OverflowError, "hashes[1] must be from 0 to 2**64 - 1"),
                (lambda: fingerprint(b"12345678"), TypeError, "hashes must be an integer, or a column or an iterable"),
                (lambda: shard([1, "2"], 10), TypeError, "hashes[1] must be an integer, not <class 'str'>"),
                (lambda: shard([1, None], 10), TypeError, "hashes[1] must be an integer, not <class 'NoneType'>"),
                (lambda: first_hash([9, 10], 10), ValueError, "shards[1] must be below count, 10"),
                (lambda: first_hash(array("d", [1]), 10), TypeError, "shards must be a list, a tuple, or a buffer of"),
                (lambda: bucket(flat, 10), TypeError, "a buffer of integers in a row, and it is"),
                (lambda: fingerprint(flat), TypeError, "a buffer of integers in a row, and it is"),
                (lambda: fingerprint(7), TypeError,
                 "hashes must be an integer, or a column or an iterable of integers, not <class 'int'>"),
                (lambda: fingerprint([1.5]), TypeError, "hashes[0] must be an integer, not <class 'float'>"),
                (lambda: shard(7, 10, array("Q", [1])), TypeError, "out needs a column of hashes, and this is one"),
                (lambda: fingerprint([-1]), OverflowError, "hashes[0] must be from 0 to 2**64 - 1"),
                (lambda: fingerprint(iter([2**64])), OverflowError, "hashes[0] must be from 0 to 2**64 - 1"),
                (lambda: fingerprint([10**5000]), OverflowError, "hashes[0] must be from 0 to 2**64 - 1"),
                (lambda: shard(column[:-1], 10, column[1:]), ValueError, "out must not overlap hashes"),
                (lambda: bucket(column[::-1], 10, column), ValueError, "out must not overlap hashes"),
                (lambda: shard(column[::2], 10, column[:2]), ValueError, "out must not overlap hashes"),
                (lambda: shard(array("Q", [1]), 10, array("Q")), ValueError,
                 "out must have room for exactly 1 hashes")):
            with self.assertRaises(error) as caught:
                call()
            self.assertIn(reason, str(caught.exception))


if __name__ == "__main__":
    unittest.main()
