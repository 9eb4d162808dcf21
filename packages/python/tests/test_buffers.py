"""Tests buffers, files, and memory maps with an installed copy of the package. packages/python/tests/python.sh runs it
per wheel."""

import array
import codecs
import ctypes
import hashlib
import io
import mmap
import os
import pathlib
import sys
import tempfile
import threading
import time
import tracemalloc
import unittest

import rapidhash

DATA = bytes(range(120))
LARGE = bytes(range(128)) * 2048  # All of it fits in a processor's own cache.
KNOWN = 7088138960297660729  # The V3 hash of DATA by the Rust crate, as in test_rapidhash.py


def lets_others_run(call, times):
    """Returns whether one of so many calls lets another thread run, which on a busy machine few of them may do. The
    switch interval is too long for the thread to preempt a call."""
    count, done, interval = [0], threading.Event(), sys.getswitchinterval()

    def other():
        while not done.is_set():
            count[0] += 1
            time.sleep(0)

    sys.setswitchinterval(1000)
    thread = threading.Thread(target=other)
    try:
        thread.start()
        before = count[0]
        return any(call() is not None and count[0] != before for _ in range(times))
    finally:
        done.set()
        sys.setswitchinterval(interval)
        thread.join()


class Long(bytes):
    """Bytes that report a wrong length."""

    def __len__(self):
        return 1 << 40


class Short(io.RawIOBase):
    """A file that returns seven bytes per read."""

    def __init__(self, data):
        super().__init__()
        self.rest, self.at = data, 0

    def readable(self):
        return True

    def readinto(self, buffer):
        given = self.rest[self.at:self.at + 7]
        self.at += 7
        buffer[:len(given)] = given
        return len(given)


class Counted(io.BytesIO):
    """A file that counts its reads, of which one may fail."""

    def __init__(self, data, failing=0):
        super().__init__(data)
        self.reads, self.failing = 0, failing

    def readinto(self, buffer):
        self.reads += 1
        if self.reads == self.failing:
            raise OSError("the third read failed")
        return super().readinto(buffer)


class Buffers(unittest.TestCase):
    def test_views(self):
        whole = memoryview(b"ab" + DATA + b"c")
        for view in (whole[2:122], whole[2:122].cast("B", [10, 12]), memoryview(bytearray(whole))[2:122]):
            self.assertEqual((rapidhash.v3(view), rapidhash.V3(view).intdigest()), (KNOWN, KNOWN))
        with self.assertRaises(BufferError):
            rapidhash.V3().update(whole[::2])
        long = Long(DATA)
        self.assertEqual((rapidhash.v3(long), rapidhash.V3(long).intdigest()), (KNOWN, KNOWN))
        whole.release()
        with self.assertRaises(ValueError):
            rapidhash.v3(whole)

    def test_the_names_of_fields(self):
        class Fields(ctypes.Structure):
            _fields_ = [("Oops", ctypes.c_uint8), ("O", ctypes.c_uint8)]

        class Objects(ctypes.Structure):
            _fields_ = [("x", ctypes.py_object)]

        self.assertEqual(rapidhash.v3(Fields(104, 105)), rapidhash.v3(b"hi"))
        self.assertEqual(rapidhash.each_row(Fields(104, 105), 2)[0], rapidhash.v3(b"hi"))
        for call in (rapidhash.v3, lambda data: rapidhash.each_row(data, 8)):
            with self.assertRaisesRegex(TypeError, "must not be an array of objects or pointers"):
                call(Objects())

    @unittest.skipIf(sys.version_info < (3, 12), "classes define buffers from 3.12 on")
    def test_a_buffer_of_a_subclass_of_bytes(self):
        class Other(bytes):
            def __buffer__(self, flags):
                return memoryview(DATA)

        self.assertEqual((rapidhash.v3(Other(b"a")), rapidhash.V3(Other(b"a")).intdigest()), (KNOWN, KNOWN))

    def assert_alike(self, limit, calls):
        """Fails if the least time of a call over its data is above so many times that of another. The data is in the
        cache after a first call. On a busy machine the rounds go on until the times are alike: those of a slow call
        never are."""
        def time_of(call, data):
            call(data)
            start = time.thread_time()
            call(data)
            return time.thread_time() - start

        least = [min(time_of(*call) for _ in range(9)) for call in calls]
        for _ in range(3000):
            if max(least) < limit * min(least):
                break
            least = [min(known, time_of(*call)) for known, call in zip(least, calls)]
        self.assertLess(max(least), limit * min(least), least)

    def test_a_piece_is_hashed_at_once(self):
        self.assert_alike(8, [(rapidhash.v3, LARGE), (rapidhash.V3().update, LARGE)])  # Byte by byte it is 30 or more.

    def test_no_kind_of_message_takes_longer(self):
        size = len(LARGE)
        offsets, text = array.array("i", [0, size]), LARGE.decode()
        calls = [(rapidhash.v3, kind) for kind in (LARGE, bytearray(LARGE), memoryview(LARGE), text)]
        calls += [(lambda kind: rapidhash.each([kind]), kind) for kind in (LARGE, bytearray(LARGE), text)]
        calls += [(lambda data: rapidhash.each_row(data, size), LARGE),
                  (lambda data: rapidhash.each_slice(data, offsets), LARGE)]
        self.assert_alike(1.5, calls)  # With a copy, a call takes twice as long.

    def test_other_threads_run_meanwhile(self):
        data, short, hasher = bytes(65_537), bytes(65_536), rapidhash.V3()
        offsets = array.array("i", [0, 8])
        for call in (lambda: rapidhash.v3(data), lambda: hasher.update(data), lambda: rapidhash.each([data]),
                     lambda: rapidhash.each_row(data, 65_537), lambda: rapidhash.each_slice(data, offsets)):
            self.assertTrue(lets_others_run(call, 2_000_000))
        for call in (lambda: rapidhash.v3(short), lambda: hasher.update(short), lambda: rapidhash.each([short])):
            self.assertFalse(lets_others_run(call, 20_000))


class Files(unittest.TestCase):
    def test_files(self):
        with tempfile.NamedTemporaryFile() as file:
            file.write(DATA)
            file.flush()
            for buffering in (0, -1):
                with open(file.name, "rb", buffering) as opened:
                    self.assertEqual(rapidhash.file_digest(opened).intdigest(), KNOWN)
                    self.assertEqual(rapidhash.file_digest(opened).intdigest(), rapidhash.v3(b""))
                    opened.seek(7)
                    self.assertEqual(rapidhash.file_digest(opened).intdigest(), rapidhash.v3(DATA[7:]))
            with open(file.name, encoding="latin-1") as text, self.assertRaises(ValueError):
                rapidhash.file_digest(text)

    def test_what_reads_otherwise(self):
        self.assertEqual(rapidhash.file_digest(Short(DATA)).intdigest(), KNOWN)
        begun = io.BytesIO(b"before" + DATA)
        begun.seek(6)
        self.assertEqual(rapidhash.file_digest(begun).intdigest(), KNOWN)
        long = bytes(range(251)) * 5000
        self.assertEqual(rapidhash.file_digest(Short(long[:500_000])).intdigest(), rapidhash.v3(long[:500_000]))
        counted = Counted(long)
        self.assertEqual(rapidhash.file_digest(counted).intdigest(), rapidhash.v3(long))
        self.assertLess(counted.reads, 10)
        with self.assertRaisesRegex(OSError, "^the third read failed$"):
            rapidhash.file_digest(Counted(long, 3))

    def test_what_is_no_binary_file(self):
        for size in (-1, (1 << 18) + 1, 10**9, 10**5000):
            lying = type("Lying", (), {"readinto": lambda self, buffer: size})()
            with self.assertRaisesRegex(OSError, r"^readinto\(\) must return a number from 0 to 262144$"):
                rapidhash.file_digest(lying)
        read, write = codecs.getreader("utf-8"), codecs.getwriter("utf-8")
        coded = (read(io.BytesIO(b"text")), codecs.StreamReaderWriter(io.BytesIO(b"text"), read, write),
                 codecs.EncodedFile(io.BytesIO(b"text"), "utf-8"))
        spooled = tempfile.SpooledTemporaryFile(mode="w+")
        self.addCleanup(spooled.close)
        reads = type("Reads", (), {"read": lambda self, size: b""})()
        for file in (io.StringIO("text"), reads, *coded, spooled):
            with self.assertRaisesRegex(ValueError, "^the file must be open in binary mode and have readinto, not <cl"):
                rapidhash.file_digest(file)
        for path in "path", b"path", pathlib.Path("path"):
            with self.assertRaisesRegex(TypeError, r"^the file must be open: with open\(.*path.*, \"rb\"\) as"):
                rapidhash.file_digest(path)
        with self.assertRaisesRegex(TypeError, "^digest must create a hasher, as V3 does, and it is <class 'int'>$"):
            rapidhash.file_digest(io.BytesIO(), 3)
        with self.assertRaisesRegex(ValueError, "^digest must be V3, or 'v3', 'v3_micro' or 'v3_nano', not 'v1'"):
            rapidhash.file_digest(io.BytesIO(), "v1")

    def test_names_of_hashlib(self):
        for name, kind in ("V3", rapidhash.V3), ("v3_micro", rapidhash.V3Micro), ("v3_nano", rapidhash.V3Nano):
            found = rapidhash.file_digest(io.BytesIO(DATA), name)
            self.assertEqual((type(found), found.digest()), (kind, kind(DATA, usedforsecurity=False).digest()))
        self.assertRaises(TypeError, rapidhash.V3, b"", None, None, False)
        with self.assertRaisesRegex(AttributeError, r"has no v2_1_digest: v2_1\(data\)\.to_bytes\(8, 'big'\) has the"):
            rapidhash.v2_1_digest
        with self.assertRaisesRegex(AttributeError, r"has no attribute 'new': V3\(data\) makes a hasher$"):
            rapidhash.new("v3")
        for name in "v4_digest", "_digest", "v3_diges":
            with self.assertRaisesRegex(AttributeError, f"^module 'rapidhash' has no attribute '{name}'$"):
                getattr(rapidhash, name)

    def test_hashers(self):
        made = rapidhash.file_digest(io.BytesIO(DATA), lambda: rapidhash.V3Micro(seed=1))
        self.assertEqual((type(made), made.intdigest()), (rapidhash.V3Micro, 13208658450986943527))
        self.assertEqual(rapidhash.file_digest(io.BytesIO(b"abc"), hashlib.sha256).digest(),
                         hashlib.sha256(b"abc").digest())
        if hasattr(hashlib, "file_digest"):
            self.assertEqual(hashlib.file_digest(io.BytesIO(DATA), rapidhash.V3).intdigest(), KNOWN)

    def test_a_file_that_is_not_ready(self):
        out, into = os.pipe()
        os.set_blocking(out, False)
        os.write(into, DATA)
        with open(out, "rb", 0) as file, open(into, "wb", 0), self.assertRaises(BlockingIOError):
            rapidhash.file_digest(file)

    def test_a_map_of_a_file_is_not_copied(self):
        with tempfile.TemporaryFile() as file:
            file.write(DATA)
            file.flush()
            with mmap.mmap(file.fileno(), 0, access=mmap.ACCESS_READ) as small:
                self.assertEqual((rapidhash.v3(small), rapidhash.V3(small).intdigest()), (KNOWN, KNOWN))
            file.truncate(1 << 24)
            with mmap.mmap(file.fileno(), 0, access=mmap.ACCESS_READ) as large:
                tracemalloc.start()
                try:
                    self.assertEqual(rapidhash.v3(large), rapidhash.V3(large).intdigest())
                    self.assertLess(tracemalloc.get_traced_memory()[1], 1 << 16)
                finally:
                    tracemalloc.stop()


if __name__ == "__main__":
    unittest.main()
