"""What a column is: one answer for all calls. It asks for the class of a column, never for an attribute that its user
may have named, and imports neither NumPy nor pandas."""

from __future__ import annotations

import sys
from array import array
from typing import Any

MESSAGES = "an iterable of messages"
FIELDS = "a column of fields"
HASHES = "an integer, or a column or an iterable of integers"
_NUMBERS = "each_key hashes integers and other fields"
of_arrow: Any = None  # __init__.py sets it to the call of the extension that takes a column of Arrow.


def class_of(package: str, name: str) -> Any:
    """Returns a class of a package that may be imported, or no class."""
    return getattr(sys.modules.get(package), name, ())


def has(value: Any, name: str) -> bool:
    """Returns whether the class of a value has an attribute. The class of a named tuple has those that its user
    named."""
    return not isinstance(value, tuple) and hasattr(type(value), name)


def _own() -> tuple[Any, ...]:
    """Returns the classes of columns of NumPy and pandas."""
    return (class_of("numpy", "ndarray"), class_of("pandas", "Series"), class_of("pandas", "Index"),
            class_of("pandas.api.extensions", "ExtensionArray"))


class Column:
    """A column: its values are a list, a tuple, a buffer of integers or objects, or a capsule of Arrow's. `mask` has a
    byte of 1 for each missing row, `codes` the places of the values, and `isna` knows a missing object. The sort of the
    fields is b for texts and bytes, i for integers, f for others, n if all are missing, and ? if they tell it."""

    __slots__ = ("values", "rows", "sort", "mask", "codes", "isna")

    def __init__(self, values: Any, rows: int, sort: str = "?", mask: Any = None, codes: Any = None,
                 isna: Any = None) -> None:
        self.values, self.rows, self.sort, self.mask, self.codes, self.isna = values, rows, sort, mask, codes, isna

    def described(self) -> tuple[Any, ...]:
        """Returns what the extension opens."""
        return self.values, self.mask, self.codes, self.isna


class Refused(Exception):
    """Why a column is refused: a reason, and the class of the error if it is no TypeError."""


def _of_times(times: Any, unit: str) -> Column:
    """Returns a column of microseconds of instants of pandas, which are 64-bit integers of a unit."""
    mask = times == -2**63
    times = times.copy()
    times[mask] = 0
    if unit == "ns":
        if (times % 1000).any():
            raise Refused("a time must be a whole number of microseconds: .dt.floor('us') cuts it", ValueError)
        times //= 1000
    else:
        factor = {"s": 10**6, "ms": 1000, "us": 1}[unit]
        if (abs(times) > (2**63 - 1) // factor).any():
            raise Refused("a time must fit into 64 bits of microseconds", ValueError)
        times *= factor
    return Column(times, len(times), "f", mask)


def _of_days(numpy: Any, days: Any) -> Column:
    if numpy.datetime_data(days.dtype)[0] not in "DW":
        raise Refused("a time of NumPy has no offset: pandas.Series(times).dt.tz_localize('UTC') gives one")
    whole, missing = days.astype("M8[D]"), numpy.isnat(days)
    if (whole.astype(days.dtype) != days)[~missing].any():
        raise Refused("a date must fit into 64 bits of days", ValueError)
    return Column(whole.view("i8"), len(days), "f", missing)


def _of_numpy(numpy: Any, items: Any, isna: Any = None) -> Column:
    """Returns the column of an array of NumPy in one dimension."""
    mask = None
    if isinstance(items, numpy.ma.MaskedArray):
        mask, items = numpy.ma.getmaskarray(items), numpy.ma.getdata(items)
    items, kind, rows = items.view(numpy.ndarray), items.dtype.kind, len(items)
    if kind in "iu":
        column = Column(items.astype(items.dtype.newbyteorder("="), copy=False), rows, "i")
    elif kind == "b":
        column = Column(items, rows, "f")
    elif kind == "O":
        column = Column(items if getattr(sys, "_is_gil_enabled", lambda: True)() else items.tolist(), rows, isna=isna)
    elif kind in "US":
        column = Column(items.tolist(), rows, "b")
    elif kind == "M":
        column = _of_days(numpy, items)
    elif kind == "f" and (rows == 0 or isna is not None and isna(items).all()):
        column = Column((None,) * rows, rows, "n")
    else:
        raise Refused({"f": "float_bits makes an int of a float, and .astype(\"Int64\") ints of a Series",
                       "m": ".astype(\"int64\") makes integers of durations",
                       "V": "pass its fields as columns"}.get(kind, "it has no fields: .tolist() makes a list"))
    if mask is not None:
        column.mask = mask if column.mask is None else mask | column.mask
    return column


def _of_pandas(pandas: Any, numpy: Any, column: Any) -> Column:
    """Returns the column of a Series, an Index, or an array of pandas."""
    if isinstance(column, pandas.MultiIndex):
        raise Refused("pass its levels: .get_level_values(0)")
    dtype = column.dtype
    items = column.array if isinstance(column, (pandas.Series, pandas.Index)) else column
    if isinstance(dtype, pandas.CategoricalDtype):
        return Column(items.categories.to_numpy(dtype=object), len(items), codes=items.codes)
    if isinstance(dtype, pandas.DatetimeTZDtype):
        return _of_times(items.asi8, getattr(dtype, "unit", "ns"))
    if isinstance(dtype, pandas.SparseDtype):
        items = items.to_dense()
    elif isinstance(dtype, (pandas.PeriodDtype, pandas.IntervalDtype)):
        raise Refused("it has no fields of a key: .astype(str) makes texts")
    elif getattr(dtype, "na_value", None) is pandas.NA:
        if dtype.kind in "iub":
            mask = items.isna()
            whole = items.to_numpy(dtype=getattr(dtype, "numpy_dtype", dtype.type), na_value=0)
            return Column(whole, len(whole), "f" if dtype.kind == "b" else "i", mask)
        if dtype.kind == "f" and not items.isna().all():
            raise Refused("float_bits makes an int of a float, and .astype(\"Int64\") ints of a Series")
        items = items.to_numpy(dtype=object)
    elif not isinstance(dtype, numpy.dtype):  # Only an array of another library knows which of its items are missing.
        known = _of_numpy(numpy, items.to_numpy(), pandas.isna)
        known.mask = numpy.asarray(items.isna(), dtype=bool) | (False if known.mask is None else known.mask)
        return known
    else:
        items = items.to_numpy()
    if items.dtype.kind == "M":
        raise Refused("a time must have an offset from UTC: .dt.tz_localize('UTC') gives one")
    return _of_numpy(numpy, items, pandas.isna)


def _of_buffer(kind: str, column: Any) -> Column | None:
    """Returns the column of another buffer. Of messages, its items are some, but for integers."""
    try:
        view = memoryview(column)
    except TypeError:
        return None
    except ValueError as error:  # of a released view
        raise Refused(str(error), ValueError) from None
    if view.ndim == 0 and kind is not FIELDS:
        return None
    if isinstance(column, memoryview) and view.ndim > 1 and kind is MESSAGES:
        raise Refused(f"it has {view.ndim} dimensions, not 1")
    letter = view.format.strip("@=<>")
    is_known = isinstance(column, (array, memoryview)) and view.ndim == 1 and letter in "bhilqBHILQ?"
    if kind is MESSAGES and not is_known:
        return None
    return Column(column, len(view) if view.ndim else 1, "f" if letter == "?" else "i" if is_known else "?")


def _of_any(name: str, kind: str, column: Any) -> Column | None:
    """Returns a column, or None for another object, which may be an iterator."""
    if isinstance(column, (str, bytes, bytearray)):
        raise Refused("")
    if type(column) in (list, tuple):
        return Column(column, len(column))
    if isinstance(column, class_of("numpy", "generic")):
        if kind is HASHES:
            return None
        raise Refused("it is a single item")
    numpy: Any = sys.modules.get("numpy")
    if isinstance(column, class_of("numpy", "ndarray")):
        if column.ndim > 1 and kind is MESSAGES and not isinstance(column, numpy.ma.MaskedArray):
            return None
        if column.ndim == 0 and kind is HASHES:
            return None
        if column.ndim != 1:
            raise Refused(f"it has {column.ndim} dimensions, not 1")
        return _of_numpy(numpy, column)
    if isinstance(column, _own()):
        return _of_pandas(sys.modules["pandas"], numpy, column)
    if str(type(column).__module__).partition(".")[0] in ("dask", "dask_expr"):
        raise Refused("call .map_partitions with a function that hashes a part, or .compute() it")
    if has(column, "columns"):
        raise Refused("pass its columns")
    for lend in "__arrow_c_array__", "__arrow_c_stream__":
        if has(column, lend):
            return Column(*of_arrow(column, name, lend == "__arrow_c_stream__"))
    return _of_buffer(kind, column)


def column_of(name: str, kind: str, column: Any) -> Column | None:
    """Returns a column, or None for another object, which may be an iterator. Raises TypeError for what cannot be a
    column of this kind."""
    try:
        known = _of_any(name, kind, column)
        if known is not None and kind is MESSAGES and known.sort in "if":
            raise Refused(_NUMBERS)
        if known is not None and kind is HASHES and known.sort in "bf":
            raise Refused("each_key and each hash such columns")
        return known
    except Refused as error:
        reason, *kinds = error.args
        if kinds:
            raise kinds[0](f"{name}: {reason}") from None
        dtype = f" of {column.dtype}" if isinstance(column, _own()) else ""
        why = f": {reason}" if reason else ""
        raise TypeError(f"{name} must be {kind}, not {type(column)!r}{dtype}{why}") from None


def like(columns: Any, hashes: array[int]) -> Any:
    """Returns hashes as a Series with the index of the first one, as an array of NumPy if a column is of NumPy or
    pandas, or as they are."""
    numpy: Any = sys.modules.get("numpy")
    series = class_of("pandas", "Series")
    for column in columns:
        if isinstance(column, series):
            return sys.modules["pandas"].Series(numpy.asarray(hashes, dtype="u8"), index=column.index)
    return numpy.asarray(hashes, dtype="u8") if any(isinstance(column, _own()) for column in columns) else hashes


def pick(column: Column, missing: Any, call: Any) -> Any:
    """Returns the hashes of a column of categories, each hashed once by a call, or None if one has no hash: a row may
    lack it."""
    if column.codes is None or missing is None and (column.codes < 0).any():
        return None
    try:
        hashes = call(Column(column.values, len(column.values)))
    except Exception:
        return None
    numpy: Any = sys.modules["numpy"]
    hashes = numpy.asarray(hashes, dtype="u8")
    return numpy.append(hashes, numpy.uint64(missing or 0))[column.codes]  # -1 is the last place.
