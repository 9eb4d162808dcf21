"""Tests saved, restored and pickled hashers with an installed copy of the package."""

import array
import copy
import pickle
import unittest

import rapidhash
from test_rapidhash import DATA, STREAMS

FORMAT = "saved is no saved hasher, or one of another version of the format"
CHANGED = "the saved hasher was changed, or has another seed or other secrets"


class SavedStreams(unittest.TestCase):
    def refuse(self, hasher, saved, reason):
        before = hasher.intdigest()
        with self.assertRaises(ValueError) as caught:
            hasher._restore(saved)
        self.assertEqual((str(caught.exception), hasher.intdigest()), (reason, before))

    def test_what_restores(self):
        for kind in STREAMS:
            known = kind(DATA, seed=7).save()
            for saved in (known, bytearray(known), memoryview(known)):
                self.assertEqual(kind.restore(saved, seed=7).save(), known)

    def test_reasons(self):
        hasher, saved = rapidhash.V3(DATA), bytearray(rapidhash.V3(DATA).save())
        for at, reason in (0, FORMAT), (7, FORMAT), (10, CHANGED), (199, CHANGED), (207, CHANGED):
            saved[at] ^= 1
            self.refuse(hasher, saved, reason)
            saved[at] ^= 1
        for other in rapidhash.V3(seed=1), rapidhash.V3(secrets=rapidhash.make_secrets(1)):
            self.refuse(other, saved, CHANGED)

    def test_other_bytes(self):
        saved = rapidhash.V3Micro(DATA).save()
        for other, reason in (
                (b"", "a saved hasher has 208 bytes, not 0"),
                (saved + b"\0", "a saved hasher has 208 bytes, not 209"),
                (bytes(208), FORMAT),
                (saved[:9] + b"\3" + saved[10:], "the hasher was saved with 5 lanes and options 3, not 5 and 1")):
            self.refuse(rapidhash.V3Micro(), other, reason)
        with self.assertRaisesRegex(ValueError, "^the hasher was saved with 5 lanes and options 1, not 7 and 1$"):
            rapidhash.V3.restore(saved)
        for other in ("text", 7, None, [1]):
            with self.assertRaisesRegex(TypeError, "^saved must be a buffer, not <class '"):
                rapidhash.V3.restore(other)
        with self.assertRaises(BufferError):
            rapidhash.V3.restore(memoryview(bytes(416))[::2])
        self.assertEqual(rapidhash.V3Micro.restore(array.array("Q", saved)).save(), saved)


class Named(rapidhash.V3Nano):
    """A class over one, whose `__init__` has other arguments, and with slots, one of which stays empty."""
    __slots__ = "mark", "empty", "__dict__"

    def __init__(self, title):
        super().__init__(seed=7)
        self.title, self.mark = title, 5


class Pickles(unittest.TestCase):
    def test_pickles_and_copies_go_on(self):
        named = Named(["a", "title"])
        for hasher in (*(kind(**start) for kind in STREAMS for start in (
                {}, {"seed": 2**64 - 1}, {"secrets": rapidhash.make_secrets(5)})), named):
            for part in (b"", DATA, DATA):
                hasher.update(part)
                pickles = [pickle.dumps(hasher, protocol) for protocol in range(pickle.HIGHEST_PROTOCOL + 1)]
                for other in (*map(pickle.loads, pickles), copy.deepcopy(hasher), copy.copy(hasher)):
                    self.assertIs(type(other), type(hasher))
                    self.assertEqual((other.save(), other.seed), (hasher.save(), hasher.seed))
                    self.assertEqual(getattr(other, "__dict__", None), getattr(hasher, "__dict__", None))
                    self.assertEqual(getattr(other, "mark", None), getattr(hasher, "mark", None))
                    self.assertEqual(other.update(DATA).digest(), hasher.copy().update(DATA).digest())
        self.assertIsNot(copy.deepcopy(named).title, named.title)

    def test_a_hasher_that_is_not_started(self):
        hasher = rapidhash.V3.__new__(rapidhash.V3)
        for call in (hasher.save, hasher._words, lambda: hasher._restore(bytes(208)), lambda: pickle.dumps(hasher)):
            self.assertRaisesRegex(ValueError, "the hasher is not initialized", call)

    def test_a_pickle_of_secrets_is_for_every_machine(self):
        for made in (rapidhash.make_secrets(5), rapidhash.make_secrets(5, version=1)):
            words = b"".join(word.to_bytes(8, "little") for word in (made.seed, *made.secrets))
            self.assertIn(words, pickle.dumps(made, 4))


if __name__ == "__main__":
    unittest.main()
