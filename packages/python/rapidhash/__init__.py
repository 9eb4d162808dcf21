"""rapidhash: fast, non-cryptographic 64-bit hashes.

    >>> import rapidhash
    >>> rapidhash.v3(b"hello")
    3327445792987248966
    >>> rapidhash.v3_hexdigest(b"hello")
    '2e2d7651b45f7946'
    >>> rapidhash.V3(b"hel").update(b"lo").hexdigest()
    '2e2d7651b45f7946'
    >>> rapidhash.each(["hello", b"hello"])
    array('Q', [3327445792987248966, 3327445792987248966])

A hash is an integer below 2**64, the same on every machine. `data` is any contiguous buffer, such as bytes, bytearray,
memoryview, array.array or mmap, or a str, which is hashed as its UTF-8. It is not copied. Threads can share a hasher.
Other threads run while a message of more than 64 KiB is hashed, or columns without Python objects.
"""

import codecs
import copyreg
import functools
import operator
import os
from array import array

from . import _columns, _extension
from ._extension import v1, v2_0, v2_1, v2_2, v3, v3_micro, v3_nano, v3_protected
from ._extension import v1_hexdigest, v2_0_hexdigest, v2_1_hexdigest, v2_2_hexdigest
from ._extension import v3_hexdigest, v3_micro_hexdigest, v3_nano_hexdigest, v3_protected_hexdigest
from ._fields import fields_of as _fields_of, float_bits
from ._secrets import Secrets, SecretsV1

__all__ = ["v1", "v2_0", "v2_1", "v2_2", "v3", "v3_micro", "v3_nano", "v3_protected",
           "v1_hexdigest", "v2_0_hexdigest", "v2_1_hexdigest", "v2_2_hexdigest",
           "v3_hexdigest", "v3_micro_hexdigest", "v3_nano_hexdigest", "v3_protected_hexdigest",
           "each", "each_row", "each_slice", "v3_key", "each_key", "shard", "first_hash", "bucket", "fingerprint",
           "float_bits", "make_secrets", "Secrets", "SecretsV1",
           "V3", "V3Micro", "V3Nano", "file_digest", "__version__"]

__version__ = "1.0.0"
_extension.fields_of = _fields_of  # the calls for keys ask it about a field of another type
_columns.of_arrow = _extension.arrow


def __getattr__(name):
    """Tells who knows hashlib's or xxhash's names what to write."""
    version = name[:-len("_digest")]
    if name.endswith("_digest") and f"{version}_hexdigest" in __all__:
        raise AttributeError(f"module 'rapidhash' has no {name}: {version}(data).to_bytes(8, 'big') has the bytes")
    hint = ": V3(data) makes a hasher" if name == "new" else ""
    raise AttributeError(f"module 'rapidhash' has no attribute {name!r}{hint}")


def make_secrets(number, version=3):
    """Returns a seed and secrets derived from a number, for V1 (`version` 1) or for every other version (2 or 3).
    If others choose the messages, use a random number.

    Raises OverflowError if the number is not from 0 to 2**64 - 1, and ValueError for another version."""
    version = _integer("version", version)
    if version not in (1, 2, 3):
        raise ValueError("version must be 1, 2 or 3")
    return SecretsV1(_extension.make_secrets_v1(number)) if version == 1 else Secrets(_extension.make_secrets(number))


def _integer(name, number):
    try:
        if not _extension.is_masked(number):
            return operator.index(number)
    except TypeError:
        pass
    raise TypeError(f"{name} must be an integer, not {type(number)!r}")


def _room(count):
    return array("Q", (0,)) * count


def _sort(kind):
    """Returns the name of the base class of ctypes that a class has, or None."""
    return next((base.__name__ for base in kind.__mro__ if base.__module__ == "_ctypes"), None)


@functools.lru_cache()
def _has_addresses(kind):
    """Returns whether a class is one of ctypes and has pointers or objects. Formats hide those of a union, or of a base
    class."""
    sort = _sort(kind)
    if sort == "_SimpleCData":
        return kind._type_ in "OPXZz"
    if sort == "Array":
        return _has_addresses(kind._type_)
    if sort in ("Structure", "Union"):
        fields = (field for base in kind.__mro__ for field in vars(base).get("_fields_", ()))
        return any(_has_addresses(field[1]) for field in fields)
    return sort is not None  # a pointer or a function


def _view(name, data):
    """Returns the buffer of an argument. The extension opens it again, to name its class in errors."""
    try:
        return memoryview(data)
    except TypeError:
        raise TypeError(f"{name} must be a buffer, not {type(data)!r}") from None
    except ValueError as error:  # of times of NumPy, or of a released view
        raise ValueError(f"{name}: {error}") from None


def _iterator(name, kind, items):
    try:
        if _sort(type(items)) == "_Pointer":
            raise TypeError("it has no end")
        return iter(items)
    except TypeError as error:
        raise TypeError(f"{name} must be {kind}, not {type(items)!r}: {error}") from None


def _opened(name, kind, column):
    """Returns a column. An iterator is read to its end."""
    opened = _columns.column_of(name, kind, column)
    if opened is None:
        items = _iterator(name, kind, column)
        items = tuple(map(_kept if kind is _columns.FIELDS else _extension.kept_number, items))
        opened = _columns.Column(items, len(items))
    return opened


def _each_column(column, out, *words):
    out = _room(column.rows) if out is None else out
    _extension.each_source(column.described(), *words[:3], out, *words[3:])
    return out


def each(items, version="v3", seed=None, secrets=None, out=None, missing=None):
    """Returns the hash of each item of an iterable, or of an Arrow array of strings or bytes, as an array.array of type
    'Q'.

    `version` is the name of a hash in this module. With `out`, writes to this buffer of unsigned 64-bit integers and
    returns it. If a call raises an error, the contents of `out` are unspecified. `missing`, an integer, is the hash of
    an item that is None, null in Arrow, masked in NumPy, or missing in a Series of pandas. Without it, such an item
    raises TypeError. So does a number: `each_key` hashes integers. Raises ValueError if `out` overlaps an Arrow
    array, or a later item."""
    if type(items) in (list, tuple):
        out = _room(len(items)) if out is None else out
        _extension.each(items, version, seed, secrets, out, missing)
        return out
    column, words = _columns.column_of("items", _columns.MESSAGES, items), (version, seed, secrets, missing)
    if column is None:
        iterator = _iterator("items", _columns.MESSAGES, items)
        hashes = _extension.each_next(iterator, version, seed, secrets, out, missing)
        return array("Q", hashes) if out is None else out
    picked = _columns.pick(column, missing, lambda part: _each_column(part, None, *words)) if out is None else None
    if picked is None:
        picked = _each_column(column, out, *words)
    return _columns.like([items], picked) if out is None else out


def each_row(data, width, version="v3", seed=None, secrets=None, out=None):
    """Returns the hash of each `width` bytes of a buffer, in the same way as `each`.

    Raises ValueError if `width` does not divide the number of bytes, or if `out` overlaps `data`."""
    view, width = _view("data", data), _integer("width", width)
    if width < 1:
        raise ValueError("width must be at least 1")
    count, rest = divmod(view.nbytes, width)
    if rest:
        raise ValueError(f"data has {view.nbytes} bytes, which is no multiple of the width")
    out = _room(count) if out is None else out
    _extension.each_row(data, version, seed, secrets, out, None, width if count else 1)
    return out


def each_slice(data, offsets, version="v3", seed=None, secrets=None, out=None, validity=None, missing=None):
    """Returns the hash of data[offsets[i]:offsets[i + 1]] for each i, in the same way as `each`: the columns of strings
    and of bytes in Apache Arrow's layout.

    `offsets` is a buffer of 32-bit or 64-bit integers. `validity` is a buffer of bytes with a bit for each slice, the
    lowest of a byte first: `missing` is the hash of a slice whose bit is 0. A byte of 0 or 1 for each slice is no bit.
    Raises ValueError if the offsets do not ascend within `data`, if there are too few bits, or if `out` overlaps
    another argument, and TypeError for an array of bools or of wider items, and for a masked array."""
    view = _view("offsets", offsets)
    out = _room(max(view.nbytes // max(view.itemsize, 1) - 1, 0)) if out is None else out
    _extension.each_slice(data, version, seed, secrets, out, missing, offsets, validity)
    return out


def v3_key(*fields, seed=None, secrets=None):
    """Returns the hash of a key of several fields, the same in every language. A field is None, a bool, an int, a str,
    bytes, a date, a datetime with an offset, a Decimal, a UUID, or a list or tuple of these. An int is from -2**63 to
    2**64 - 1. Missing values of pandas are None. `float_bits` makes an int of a float.

        >>> rapidhash.v3_key("user", 4711, None)
        14742763072502883419

    Raises TypeError for any other field, such as a float or a datetime without an offset, ValueError for a Decimal that
    is not finite or needs more than 150,000 characters, and OverflowError for an int outside the range."""
    return _extension.key(fields, seed, secrets)


def _kept(field):
    """Returns a field of an iterator, which may fill it again, with its own bytes, integer or items."""
    return tuple(map(_extension.kept, field)) if isinstance(field, (list, tuple)) else _extension.kept(field)


def each_key(*columns, seed=None, secrets=None, out=None):
    """Returns the hash of each row of one or more columns, as v3_key returns it, in the same way as `each`.

    A column is a list, a tuple or another iterable of fields, a buffer of integers or an array of NumPy of integers,
    booleans, days, texts, bytes or objects, a Series of pandas, whose missing values are None, as masked ones of NumPy
    are, or an Arrow array of these, times with a zone or decimals. Other threads run if each column is a buffer of
    integers or an Arrow array. Raises TypeError for any other column, such as a str or a DataFrame, or for an object
    that is no field, and ValueError if the columns have different numbers of rows or `out` overlaps one."""
    if not columns:
        raise TypeError("each_key() needs at least one column")
    opened = [_opened(f"columns[{at}]", _columns.FIELDS, column) for at, column in enumerate(columns)]
    keys = None
    if out is None and len(opened) == 1:
        keys = _columns.pick(opened[0], v3_key(None, seed=seed, secrets=secrets),
                             lambda part: _each_key([part], seed, secrets, None))
    keys = _each_key(opened, seed, secrets, out) if keys is None else keys
    return _columns.like(columns, keys) if out is None else out


def _each_key(opened, seed, secrets, out):
    out = _room(opened[0].rows) if out is None else out
    _extension.each_key(tuple(column.described() for column in opened), seed, secrets, out)
    return out


class _Hasher(_extension.Stream):
    __slots__ = ()
    digest_size = 8

    def _accept(self, seed, secrets):
        if seed is not None:
            raise TypeError("pass either seed or secrets, not both")
        self._start(self._packed_of(secrets))

    def _packed_of(self, secrets):
        packed = getattr(secrets, "_packed", None) if isinstance(secrets, Secrets) else None
        if not isinstance(packed, bytes) or len(packed) != 64:
            raise TypeError(f"secrets of {type(self).__name__} must come from make_secrets(number), "
                            f"and these are {type(secrets)!r}")
        return packed

    def copy(self):
        """Returns a hasher of the same message, with the same attributes."""
        other = self._copy()
        other._adopt(*self._attributes())
        return other

    __copy__ = copy

    @classmethod
    def restore(cls, saved, seed=None, secrets=None):
        """Returns a hasher of the message whose hasher `save` returned as bytes, with the same seed or secrets.

        Raises ValueError, which names the reason, if the bytes are changed or of another class, seed or secrets."""
        hasher = cls(seed=seed, secrets=secrets)
        hasher._restore(saved)
        return hasher

    def __reduce__(self):
        state = self.save(), self.seed, Secrets(self._words()), *self._attributes()
        return copyreg.__newobj__, (type(self),), state

    def __setstate__(self, state):
        saved, seed, secrets, *attributes = state
        self._start(self._packed_of(secrets), seed)
        self._restore(saved)
        self._adopt(*attributes)

    def _attributes(self):
        """Returns the attributes that subclasses keep in a dictionary and in slots."""
        slots = {name: getattr(self, name) for name in copyreg._slotnames(type(self)) if hasattr(self, name)}
        return getattr(self, "__dict__", {}), slots

    def _adopt(self, attributes, slots):
        for name, value in slots.items():
            setattr(self, name, value)
        if attributes:
            self.__dict__.update(attributes)


class V3(_extension.Stream7, _Hasher):
    """Hashes a message in pieces, with the methods of hashlib's objects. Threads can share a hasher.

    A pickle of a hasher contains its secrets, and what `save` returns does not. Raises TypeError if both `seed` and
    `secrets` are passed. Takes hashlib's `usedforsecurity`, and ignores it."""

    __slots__ = ("__weakref__",)
    name = "rapidhash_v3"
    block_size = 112


class V3Micro(_extension.Stream5, _Hasher):
    """Does the same for V3 micro, with five lanes, which equals V3 up to 80 bytes."""

    __slots__ = ("__weakref__",)
    name = "rapidhash_v3_micro"
    block_size = 80


class V3Nano(_extension.Stream3, _Hasher):
    """Does the same for V3 nano, with three lanes, which equals V3 up to 48 bytes."""

    __slots__ = ("__weakref__",)
    name = "rapidhash_v3_nano"
    block_size = 48


def _decided(call, name, hashes, count, out):
    """Returns what a hash decides, or what each hash of a column does."""
    column = None if isinstance(hashes, int) else _columns.column_of(name, _columns.HASHES, hashes)
    if column is None and (hasattr(type(hashes), "__index__") or not hasattr(type(hashes), "__iter__")):
        decided = call(hashes, count, None)
        if out is not None:
            raise TypeError("out needs a column of hashes, and this is one hash")
        return decided
    column = column or _opened(name, _columns.HASHES, hashes)
    room = _room(column.rows) if out is None else out
    call(column.described(), count, room)
    return _columns.like([hashes], room) if out is None else out


def shard(hashes, count, out=None):
    """Returns the shard of a hash, below `count`: the integer part of hash * count / 2**64.

    The hashes may also be a column of unsigned 64-bit integers, such as that of `each_key`. Then the shards are written
    to `out`, a new `array('Q')` by default, which is returned. Raises ValueError for a count of 0, and if `out`
    overlaps the column without being the column."""
    return _decided(_extension.shard, "hashes", hashes, count, out)


def first_hash(shard, count, out=None):
    """Returns the first hash of a shard, which has the hashes from it to before the first of the next shard, or those
    of a column of shards, as `shard` does.

    Raises ValueError if a shard is not below `count`."""
    return _decided(_extension.first_hash, "shards", shard, count, out)


def bucket(hashes, count, out=None):
    """Returns the bucket of a hash, below `count`, or those of a column, as `shard` does. `count` is below 2**32.

    Among more buckets a hash keeps its bucket, or has a new one (jump consistent hashing)."""
    return _decided(_extension.bucket, "hashes", hashes, count, out)


def fingerprint(hashes):
    """Returns the fingerprint of a column of hashes, or of an iterable: their sum modulo 2**64, in any order.

    Two tables with equally many rows and one fingerprint of their `each_key` have the same rows, but for a chance of
    one in 2**64. That does not hold against someone who chooses the rows."""
    return _extension.fingerprint(_opened("hashes", _columns.HASHES, hashes).described())


def file_digest(fileobj, digest=V3, /):
    """Hashes the rest of a binary file and returns the hasher, as hashlib.file_digest does.

    `digest` creates the hasher: V3, V3Micro, V3Nano, or, with a seed, `lambda: V3(seed=7)`. It may also be the name
    "v3", "v3_micro" or "v3_nano". Raises ValueError for a text file, and BlockingIOError for a non-blocking file that
    has no data yet."""
    if isinstance(digest, str):
        named = {kind.name[10:]: kind for kind in (V3, V3Micro, V3Nano)}.get(digest.lower())
        if named is None:
            raise ValueError(f"digest must be V3, or 'v3', 'v3_micro' or 'v3_nano', not {digest!r}: others "
                             "have no streams")
        digest = named
    if not callable(digest):
        raise TypeError(f"digest must create a hasher, as V3 does, and it is {type(digest)!r}")
    if isinstance(fileobj, (str, bytes, os.PathLike)):
        raise TypeError(f"the file must be open: with open({fileobj!r}, \"rb\") as file: file_digest(file)")
    read = getattr(fileobj, "readinto", None)
    decodes = isinstance(fileobj, (codecs.StreamReader, codecs.StreamRecoder))  # They lend readinto of their file.
    if read is None or decodes or isinstance(getattr(fileobj, "encoding", None), str):
        raise ValueError(f"the file must be open in binary mode and have readinto, not {type(fileobj)!r}")
    hasher = digest()
    buffer = bytearray(1 << 18)
    view = memoryview(buffer)
    while True:
        size = read(buffer)
        if size is None:
            raise BlockingIOError("the file is non-blocking and has no data yet")
        if not 0 <= size <= len(buffer):
            raise OSError(f"readinto() must return a number from 0 to {len(buffer)}")
        if size == 0:
            return hasher
        hasher.update(view[:size])
