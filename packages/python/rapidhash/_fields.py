"""The fields of values that are neither None, an integer, a text nor bytes, by the rules of docs/ALGORITHM.md."""

from __future__ import annotations

import struct
import sys
from datetime import date, datetime, timedelta, timezone
from decimal import MAX_EMAX, MAX_PREC, MIN_EMIN, Context, Decimal
from typing import Any
from uuid import UUID

_EPOCH = datetime(1970, 1, 1, tzinfo=timezone.utc)
_EXACT = Context(prec=MAX_PREC, Emin=MIN_EMIN, Emax=MAX_EMAX)
_LONGEST = 150_000


def float_bits(number: float) -> int:
    """Returns the 64 bits of a float as an integer, which is a field of a key. Those of -0.0 are 0.

    Raises TypeError for another type, and ValueError for NaN."""
    if not isinstance(number, float):
        raise TypeError(f"number must be a float, not {type(number)!r}")
    if number != number:
        raise ValueError("number must not be NaN")
    # Arithmetic would take a small number for 0, where a library that was linked with -ffast-math is loaded.
    bits: int = struct.unpack("<Q", struct.pack("<d", number))[0]
    return bits if bits != 1 << 63 else 0


def _class(package: str, name: str) -> Any:
    """Returns a class of a package that may be imported, or no class."""
    return getattr(sys.modules.get(package), name, ())


def _is_missing(value: Any) -> bool:
    """Returns whether a value is a missing one of pandas."""
    pandas = sys.modules.get("pandas")
    return any(value is getattr(pandas, name, _is_missing) for name in ("NA", "NaT"))


def _of_time(time: Any) -> int:
    if datetime.utcoffset(time) is None:
        raise TypeError("a time must have an offset from UTC: .replace(tzinfo=timezone.utc) or .astimezone() gives one")
    if not isinstance(time, _class("pandas", "Timestamp")):
        passed = datetime.__sub__(time, _EPOCH)  # A class of its own may have another difference.
    elif time.nanosecond:
        raise ValueError("a time must be a whole number of microseconds: .floor('us') cuts it")
    else:
        passed = time - _EPOCH  # Its year can be above those of a datetime.
    return int(passed // timedelta(microseconds=1))


def _of_decimal(number: Decimal) -> str:
    if not Decimal.is_finite(number):  # A class of its own may have other answers, here and below.
        raise ValueError("a decimal number must be finite")
    if Decimal.is_zero(number):
        return "0"
    number = Decimal.normalize(number, _EXACT)
    sign, digits, exponent = number.as_tuple()
    assert isinstance(exponent, int)
    whole = max(len(digits) + exponent, 1)
    if sign + whole + (exponent < 0) - min(exponent, 0) > _LONGEST:
        raise ValueError(f"a decimal number must have at most {_LONGEST:,} characters without an exponent")
    return f"{number:f}"


def _of_list(value: list[Any] | tuple[Any, ...]) -> tuple[Any, ...]:
    items = tuple(value)  # Another thread may change a list.
    if any(isinstance(item, (list, tuple)) for item in items):
        raise TypeError("a list in a key must not contain a list")
    return len(items), *items


def _of_numpy(value: Any) -> tuple[int | None] | None:
    """Returns the field of a day of NumPy or of a missing time, or None for another time, which has no offset."""
    numpy = sys.modules["numpy"]
    if numpy.isnat(value):
        return (None,)
    unit, count = numpy.datetime_data(value)  # such as 7 days
    if unit not in ("D", "W"):
        return None
    days = int(value.astype("int64")) * count * (7 if unit == "W" else 1)
    if not -2**63 <= days < 2**63:
        raise ValueError("a date must fit into 64 bits of days")
    return (days,)


def fields_of(value: Any) -> tuple[Any, ...] | None:
    """Returns the fields of a value, of which the items of a list can be of any type of a field, or None for another
    type."""
    if _is_missing(value):
        return (None,)
    if isinstance(value, datetime):
        return (_of_time(value),)
    if isinstance(value, date):
        return (date.toordinal(value) - 719163,)
    if isinstance(value, Decimal):
        return (_of_decimal(value),)
    if isinstance(value, UUID):
        return (value.bytes,)
    if isinstance(value, (list, tuple)):
        return _of_list(value)
    if isinstance(value, _class("numpy", "bool_")):
        return (int(value),)
    return _of_numpy(value) if isinstance(value, _class("numpy", "datetime64")) else None
