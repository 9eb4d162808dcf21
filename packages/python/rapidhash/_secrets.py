"""The secrets of the hashes in the layout of the C library: 64-bit words, the seed first."""

from __future__ import annotations

import struct
import sys
from typing import Any, TypeVar

_Own = TypeVar("_Own", bound="_Words")


class _Words:
    """Immutable words, which a call copies. They are no bytes: other libraries send bytes without their class, and take
    those of one text for one value."""

    __slots__ = ("_packed",)
    _count = 0
    _packed: bytes

    def __new__(cls: type[_Own], words: bytes | _Words) -> _Own:
        packed = words._packed if isinstance(words, _Words) else words
        if len(packed) != 8 * cls._count:
            raise ValueError(f"{cls.__name__} must have {8 * cls._count} bytes: use make_secrets")
        made = super().__new__(cls)
        object.__setattr__(made, "_packed", bytes(packed))
        return made

    def __setattr__(self, name: str, value: object) -> None:
        if name == "_packed":
            raise AttributeError("the words of secrets cannot change")
        super().__setattr__(name, value)

    def __delattr__(self, name: str) -> None:
        if name == "_packed":
            raise AttributeError("the words of secrets cannot change")
        super().__delattr__(name)

    def __eq__(self, other: object) -> bool:
        if not isinstance(other, _Words):
            return NotImplemented
        return self._packed == other._packed

    def __hash__(self) -> int:
        return hash(self._packed)

    @property
    def seed(self) -> int:
        """The seed."""
        return int.from_bytes(self._packed[:8], sys.byteorder)

    @property
    def secrets(self) -> tuple[int, ...]:
        """The secrets, as a tuple of integers."""
        return struct.unpack(f"={self._count - 1}Q", self._packed[8:])

    def __reduce__(self) -> tuple[Any, ...]:
        return _made, (type(self), struct.pack(f"<{self._count}Q", self.seed, *self.secrets))

    def __dask_tokenize__(self) -> tuple[str, bytes]:
        return type(self).__name__, self._packed

    def __repr__(self) -> str:
        return f"<{type(self).__name__}, whose words are not shown>"

    __str__ = __repr__


def _made(kind: type[_Words], little: bytes) -> _Words:
    """Returns the words of a pickle, whose bytes have the same order on every machine."""
    return kind(struct.pack(f"={kind._count}Q", *struct.unpack(f"<{kind._count}Q", little)))


class Secrets(_Words):
    """A seed and the secrets for every version except V1."""

    __slots__ = ()
    _count = 8


class SecretsV1(_Words):
    """A seed and the secrets for V1."""

    __slots__ = ()
    _count = 4
