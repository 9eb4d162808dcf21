"""Tests calls and secrets with an installed copy of the package."""

import copy
import doctest
import importlib.metadata
import inspect
import pickle
import sys
import unittest
import unittest.mock

import rapidhash
from test_rapidhash import DATA, KNOWN, VERSIONS, WITH_SEED_1, Power, run


class Package(unittest.TestCase):
    def test_a_collection_during_the_import(self):
        """Before 3.9, the garbage collector also visits a module that has no state yet."""
        self.assertEqual(run("import gc; gc.set_threshold(1); import rapidhash"), (0, ""))

    def test_version(self):
        self.assertEqual(rapidhash.__version__, importlib.metadata.version("yervound-rapidhash"))

    def test_examples_of_the_help(self):
        self.assertEqual(doctest.testmod(rapidhash, extraglobs={"rapidhash": rapidhash}), (0, 6))

    def test_all_names_are_there(self):
        modules = "array", "codecs", "copyreg", "functools", "operator", "os"
        shown = {name for name in vars(rapidhash) if name[0] != "_" and name not in modules}
        self.assertEqual(set(rapidhash.__all__), shown | {"__version__"})
        for name in rapidhash.__all__:
            self.assertTrue(getattr(rapidhash, name).__doc__, name)

    @unittest.skipIf(sys.version_info < (3, 12), "interpreters with a lock of their own came with 3.12")
    def test_interpreters_with_a_lock_of_their_own(self):
        interpreters = "_interpreters" if sys.version_info >= (3, 13) else "_xxsubinterpreters"
        self.assertEqual(run(f"import {interpreters} as own, rapidhash\n"
                             "for _ in range(2): own.run_string(own.create(), 'import rapidhash; "
                             "print(rapidhash.V3(secrets=rapidhash.make_secrets(1)).intdigest())')\n"
                             "print(rapidhash.V3(secrets=rapidhash.make_secrets(1)).intdigest())"),
                         (0, f"{rapidhash.v3(b'', secrets=rapidhash.make_secrets(1))}\n" * 3))

    @unittest.skipIf(sys.version_info < (3, 12), "interpreters with a lock of their own came with 3.12")
    def test_interpreters_that_run_at_once(self):
        """They share objects such as None and b"a"."""
        interpreters = "_interpreters" if sys.version_info >= (3, 13) else "_xxsubinterpreters"
        self.assertEqual(run(f"import {interpreters} as own, threading\n"
                             "code = 'import rapidhash\\nfor _ in range(9000): rapidhash.each([b\"a\", b\"b\"] * 99)'\n"
                             "pairs = [(own.create(), code) for _ in range(4)]\n"
                             "threads = [threading.Thread(target=own.run_string, args=pair) for pair in pairs]\n"
                             "for thread in threads: thread.start()\n"
                             "for thread in threads: thread.join()\n"
                             "print('end')"), (0, "end\n"))


class Calls(unittest.TestCase):
    def test_arguments_by_place_and_by_name(self):
        made = rapidhash.make_secrets(7)
        for value in (rapidhash.v3(DATA, 1), rapidhash.v3(DATA, seed=1), rapidhash.v3(seed=1, data=DATA),
                      rapidhash.v3(DATA, 1, None), rapidhash.v3(DATA, secrets=None, seed=1)):
            self.assertEqual(value, WITH_SEED_1)
        self.assertEqual(rapidhash.v3(DATA, None, made), rapidhash.V3(DATA, secrets=made).intdigest())
        self.assertNotEqual(rapidhash.v3(DATA, secrets=made), KNOWN)
        for name in VERSIONS:
            signature = inspect.signature(getattr(rapidhash, name))
            self.assertEqual(str(signature), "(data, seed=None, secrets=None)")

    def test_a_seed_is_what_counts_as_an_integer(self):
        self.assertEqual(rapidhash.v3(DATA, seed=Power(0)), WITH_SEED_1)
        self.assertEqual(rapidhash.V3(DATA, seed=Power(0)).intdigest(), WITH_SEED_1)
        self.assertEqual(rapidhash.v3(DATA, seed=0), KNOWN)
        self.assertNotEqual(rapidhash.v3(DATA, seed=2**64 - 1), KNOWN)
        self.assertRaisesRegex(ValueError, "^negative shift count$", rapidhash.v3, DATA, Power(-1))

    def test_an_error_of_the_argument(self):
        class Odd:
            @property
            def __class__(self):
                raise LookupError("no class")

        for call in (rapidhash.v3, rapidhash.V3):
            self.assertRaisesRegex(LookupError, "^no class$", call, DATA, None, Odd())

    def test_wrong_arguments(self):
        made, made_v1, data = rapidhash.make_secrets(1), rapidhash.make_secrets(1, version=1), bytearray(DATA)

        class Short(rapidhash.Secrets):
            _packed = bytes(63)

        empty, short = object.__new__(rapidhash.Secrets), object.__new__(Short)
        no_bytes, of_v3 = "data must be bytes, another buffer, or a str, not <class", "secrets of v3 must come from"
        for call, error in (
            (lambda: rapidhash.v3(data, sed=1), r"v3\(\) has no argument 'sed': expected data, seed, or secrets"),
            (lambda: rapidhash.v1(data, data=data), r"v1\(\) got the argument 'data' twice"),
            (lambda: rapidhash.v2_0(), r"v2_0\(\) is missing its argument data"),
            (lambda: rapidhash.v3(data, 1, None, 4), r"v3\(\) takes at most three arguments: data, seed, secrets"),
            (lambda: rapidhash.v3(1), f"{no_bytes} 'int'>"), (lambda: rapidhash.v3(None), f"{no_bytes} 'NoneType'>"),
            (lambda: rapidhash.V3(None), f"{no_bytes} 'NoneType'>"),
            (lambda: rapidhash.V3().update(7), f"{no_bytes} 'int'>"),
            (lambda: rapidhash.v3(data, seed=1.5), "seed must be an integer, not <class 'float'>"),
            (lambda: rapidhash.v3_protected(data, seed="1"), "seed must be an integer, not <class 'str'>"),
            (lambda: rapidhash.V3(data, seed="1"), "seed must be an integer, not <class 'str'>"),
            (lambda: rapidhash.V3(data, seed=""), "seed must be an integer, not <class 'str'>"),
            (lambda: rapidhash.V3(data, 0, made), "pass either seed or secrets, not both"),
            (lambda: rapidhash.v3(data, seed=1, secrets=made), "pass either seed or secrets, not both"),
            (lambda: rapidhash.make_secrets("1"), "number must be an integer, not <class 'str'>"),
            (lambda: rapidhash.make_secrets(1, "1"), "version must be an integer, not <class 'str'>"),
            (lambda: rapidhash.make_secrets(1, None), "version must be an integer, not <class 'NoneType'>"),
            *((lambda it=it: rapidhash.v3(data, secrets=it), of_v3) for it in (made_v1, bytes(64), empty, short)),
            *((lambda it=it: rapidhash.V3(data, secrets=it), "secrets of V3 must come")
              for it in (made_v1, bytes(64), empty, short)),
            *((lambda it=it: rapidhash.v1(data, secrets=it), "secrets of v1 must come") for it in (made, b"")),
        ):
            with self.subTest(error):
                self.assertRaisesRegex(TypeError, f"^{error}", call)
        for seed in (-1, 2**64, 2**64 + 1, -2**64):
            for call in (rapidhash.v3, rapidhash.V3, rapidhash.v1_hexdigest):
                self.assertRaisesRegex(OverflowError, r"^seed must be from 0 to 2\*\*64 - 1$", call, data, seed=seed)
        for number in (-1, 2**64):
            self.assertRaisesRegex(OverflowError, "^number must be from 0", rapidhash.make_secrets, number)
        for version in (0, 4, 99, -1, 10**5000):
            self.assertRaisesRegex(ValueError, "^version must be 1, 2 or 3$",
                                   rapidhash.make_secrets, 5, version)
        rapidhash.v3(data)
        rapidhash.V3(data)
        data.append(120)  # A bytearray refuses this while its buffer is exported.


class Secrets(unittest.TestCase):
    def test_they_do_not_change(self):
        for made in (rapidhash.make_secrets(0x12345678), rapidhash.make_secrets(0x12345678, version=1)):
            for name in ("seed", "of_the_caller"):
                with self.assertRaises(AttributeError):
                    setattr(made, name, 1)
            self.assertRaises(AttributeError, delattr, made, "_packed")
            with self.assertRaises(TypeError):
                made.secrets[0] = 1

    def test_copies(self):
        for made in (rapidhash.make_secrets(5), rapidhash.make_secrets(5, version=1)):
            for other in (copy.copy(made), copy.deepcopy(made), pickle.loads(pickle.dumps(made))):
                self.assertEqual((type(other), other.seed, other.secrets), (type(made), made.seed, made.secrets))
                self.assertEqual((made == other, hash(made)), (True, hash(other)))
            for wrong in (bytes(31), bytes(63), bytes(65)):
                self.assertRaises(ValueError, type(made), wrong)
            self.assertNotEqual(made, made._packed)  # Other libraries send bytes without their class.

    def test_a_class_of_its_own(self):
        class Own(rapidhash.Secrets):
            def __new__(cls, words, label):
                own = super().__new__(cls, words)
                own.label = label
                return own

        made = rapidhash.make_secrets(5)
        own = Own(made, "mine")
        self.assertEqual((own, own.label, made == unittest.mock.ANY), (made, "mine", True))
        self.assertEqual(rapidhash.v3(b"a", secrets=own), rapidhash.V3(b"a", secrets=made).intdigest())

    def test_their_text_has_no_words(self):
        made = rapidhash.make_secrets(0x12345678)
        for text in (repr(made), str(made), f"{made}"):
            self.assertEqual(text, "<Secrets, whose words are not shown>")


if __name__ == "__main__":
    unittest.main()
