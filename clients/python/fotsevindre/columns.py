"""Calls over whole columns: buffers of integers, arrays of numpy, series of pandas, and lists."""

import array
import functools
import operator
import sys
from typing import Any, Callable, SupportsIndex, TypeVar

from . import _core
from ._core import Date
from .errors import is_like_date
from .formats import Format
from .schedules import Workdays, range_of

_R = TypeVar("_R")
_WORDS = {"D": "days", "s": "seconds"}
# The units of datetime64 in columns with these names.
_UNITS = {"dates": "D", "others": "D", "seconds": "s", "readings": "s"}
SECONDS = {"s": 1, "ms": 10**3, "us": 10**6, "ns": 10**9}
# How many of a unit of datetime64 are in a day or a second.
_FACTORS = {(name, unit): count * seconds for name, count in SECONDS.items()
    for unit, seconds in (("D", 86400), ("s", 1))}
# The types of dates to which C adds days in one pass, and whether they are times in nanoseconds, and
# the types of these days.
_QUICK: dict[Any, bool] = {"<M8[D]": False, "<M8[ns]": True} if sys.byteorder == "little" else {}
_MOVES = {"<i8", "<m8[D]"}


def _whole(values: Any, unit: str) -> Any:
    """Returns the days or seconds of an array of datetime64 or timedelta64 in 64 bits."""
    kind = "datetime64" if values.dtype.kind == "M" else "timedelta64"
    factor = _FACTORS.get((values.dtype.str[4:-1], unit))
    if factor:
        numbers = values.view("int64")
        whole = numbers // factor
        if (whole * factor == numbers).all():
            return whole
    # This takes longer, and NaT stays.
    found = values.astype(f"{kind}[{unit}]", copy=False)
    if found is not values and not ((found == values) | (found != found)).all():
        raise ValueError(f"expected whole {_WORDS[unit]} in a column of {values.dtype}; "
            f".astype('{kind}[{unit}]'), or of pandas .dt.floor('{unit}'), truncates")
    return found.view("int64")


def _of_array(values: Any, code: str, unit: str | None) -> Any:
    """Returns the numbers of an array of numpy, in one piece and in the bits of the code. C takes
    days of numpy in 64 bits."""
    letter = values.dtype.kind
    if letter == "M" and unit:
        values, code = _whole(values, unit), "q"
    elif letter == "m" and code == "q" and unit == "":
        values = _whole(values, "D")
    elif letter == "O" and unit == "D":
        values = sys.modules["numpy"].array(_days_of(values.tolist()))
    elif letter not in "iu":
        raise TypeError(f"expected a column of integers, not {values.dtype}")
    low, high = range_of(code)[0], range_of(code)[-1]
    if values.dtype != code and ((values < low) | (values > high)).any():
        raise OverflowError(f"a number in a column is out of range; expected {low} to {high}")
    return values.astype(code, order="C", copy=False)


def _number(value: Any) -> Any:
    return value.to_julian_day() if isinstance(value, Date) else value


def _days_of(values: Any) -> Any:
    """Returns the Julian days of a list of dates or of such numbers."""
    try:
        return array.array("i", map(_number, values))
    except TypeError:
        row, wrong = next(((row, one) for row, one in enumerate(values) if not isinstance(one, (Date, SupportsIndex))), (0, values))
        way = "; strings_to_dates parses strings" if isinstance(wrong, str) else \
            "; Date.from_date, or pandas.to_datetime for a column, converts dates" if is_like_date(wrong) else ""
        raise TypeError(f"expected a column of integers or of Date, not {type(wrong).__name__} in row {row}{way}") from None


def _column(values: Any, code: str, unit: str | None) -> Any:
    """Returns the numbers of a column, as C has them: the buffer itself if it has these bits in one
    piece, else a copy. A column of dates has the unit "D", one of times "s", and parts of durations
    have none."""
    if getattr(getattr(values, "dtype", None), "tz", None) is not None:
        accessor = ".dt" * hasattr(values, "dt")
        raise ValueError(f"expected a column without a time zone; {accessor}.tz_localize(None) removes it")
    if hasattr(values, "to_numpy"):
        # Columns such as Int64 of pandas can have missing numbers.
        bits = getattr(values.dtype, "numpy_dtype", None)
        if bits is not None and values.isna().any():
            raise ValueError("expected a column without missing numbers; "
                ".fillna(..) replaces them, and .dropna() removes their rows")
        values = values.to_numpy() if bits is None else values.to_numpy(bits)
    if isinstance(values, (list, tuple)):
        return _days_of(values) if unit == "D" else array.array(code, values)
    is_array = hasattr(values, "dtype")
    view = _of_array(values, code, unit) if is_array else memoryview(values)
    if view.ndim != 1:
        raise TypeError(f"expected a column of one dimension, not {view.ndim}")
    if is_array:
        return view
    found = view.format.lstrip("@=" + ("<" if sys.byteorder == "little" else ">"))
    if found not in tuple("bhilqBHILQ"):
        raise TypeError(f"expected a column of integers, not of format '{view.format}'")
    is_same = found.islower() == code.islower() and view.itemsize == array.array(code).itemsize
    if is_same and view.c_contiguous:
        return view
    # array raises OverflowError if a number does not fit.
    return array.array(code, view.tolist())


def _is_scalar(values: Any) -> bool:
    is_number = hasattr(values, "__index__") and not getattr(values, "ndim", 0)
    return is_number or isinstance(values, Date)


class _Like:
    """Makes the columns of a result like those that were given."""

    def __init__(self, columns: dict[str, Any]) -> None:
        arrays = {name: one for name, one in columns.items() if hasattr(one, "dtype")}
        arrays.pop("texts", None)
        self.numpy: Any = sys.modules.get("numpy") if arrays else None
        # The units of results that are times because the arguments are.
        pairs = (("dates", "dates"), ("readings", "seconds"), ("seconds", "seconds"))
        self.times = {made: _UNITS[given] for given, made in pairs
            if given in arrays and arrays[given].dtype.kind == "M"}
        # There is one more bound than there are rows.
        rows = [one for name, one in arrays.items() if name != "bounds"]
        self.series = next((one for one in rows if hasattr(one, "to_numpy")), None)
        masked = self.numpy.ma.MaskedArray if self.numpy else ()
        self.masks = [one.mask for one in rows if isinstance(one, masked)]

    def in_unit(self, found: Any, name: str) -> Any:
        """Returns times in the unit of the series that was given, if they fit: pandas takes much
        longer for that."""
        given = self.series.dtype.str[4:-1] if self.series is not None else ""
        factor = _FACTORS.get((given, self.times[name]), 1)
        numbers, limit = found.view("int64"), 2**63 // factor
        if factor == 1 or not len(found) or numbers.min() <= -limit or numbers.max() >= limit:
            return found
        return (numbers * factor).view(f"datetime64[{given}]")

    def made(self, name: str, column: Any) -> Any:
        """Returns a column of a result: of datetime64 if that was given, with the same mask and
        index."""
        if not self.numpy or name == "texts":
            return column
        found = self.numpy.asarray(column)
        if name == "bounds":
            return found
        if name in self.times:
            found = found.view(f"datetime64[{self.times[name]}]")
            found = self.in_unit(found, name)
        if self.masks:
            found = self.numpy.ma.MaskedArray(found, self.numpy.logical_or.reduce(self.masks))
        return self.wrapped(found)

    def wrapped(self, found: Any) -> Any:
        """Returns an array as the series or the index that was given."""
        if self.series is None:
            return found
        if hasattr(self.series, "index"):
            return type(self.series)(found, index=self.series.index)
        # An Index of pandas has none, and a DatetimeIndex takes any numbers for times.
        return sys.modules["pandas"].Index(found)


@functools.lru_cache
def _text(dtype: Any) -> Any:
    """Returns the name of a type, which numpy writes anew each time."""
    return getattr(dtype, "str", None)


def days_later(kind: Callable[..., _R], dates: Any, days: Any) -> _R | None:
    """Returns the result of `dates_add_days` if C takes such columns in one pass, and else `None`."""
    numpy: Any = sys.modules.get("numpy")
    are_times = _QUICK.get(_text(getattr(dates, "dtype", None)))
    if not numpy or are_times is None:
        return None
    is_array, times = type(dates) is numpy.ndarray, dates
    if not is_array:
        if not hasattr(dates, "to_numpy"):
            return None
        times, days = dates.to_numpy(), days.to_numpy() if hasattr(days, "to_numpy") else days
    if type(days) is not int:
        is_numpy = type(days) is numpy.ndarray or isinstance(days, numpy.generic)
        if not is_numpy or _text(days.dtype) not in _MOVES:
            return None
    made = numpy.empty(times.size, "M8[D]" if is_array and are_times else times.dtype)
    statuses = numpy.zeros(times.size, "B")
    error_count = _core.days_later(times, made, statuses, days, are_times, are_times and not is_array)
    if error_count is None:
        return None
    if not is_array:
        like = _Like({"dates": dates})
        made, statuses = like.wrapped(made), like.wrapped(statuses)
    return kind(made, statuses, error_count)


def call(kind: Callable[..., _R], name: str, reads: str, writes: str,
         extra: Workdays | Format | tuple[Any, ...] | None, **columns: Any) -> _R:
    """Calls C for columns by their names, with numbers in these letters and working days, a format,
    a zone or a unit, and makes the result."""
    for one, given in columns.items():
        if one != "texts" and isinstance(given, (bytes, bytearray)):
            raise TypeError(f"expected numbers in {one}, not {type(given).__name__}")
    single = [one for one, given in columns.items() if _is_scalar(given)]
    if len(single) == len(columns):
        raise TypeError("expected a column; call a method of Date or Zone for one value")
    like, reads, writes = _Like(columns), reads.replace("W", "B"), writes.replace("W", "B")
    has_units = name != "durations_texts"
    found = {one: _column(columns[one], code, _UNITS.get(one, "") if has_units else None)
        for one, code in zip(columns, reads) if one == "bounds" or one not in single}
    rows = len(found["bounds"]) - 1 if "bounds" in found else len(next(iter(found.values())))
    room = {"dates_calendar_texts": 13, "moments_texts": 38, "durations_texts": 36}.get(name, 0)
    if name == "dates_format" and isinstance(extra, Format):
        # 15 bytes for each item, of which the number comes first.
        room = 15 * max(1, int.from_bytes(extra._items[:4], sys.byteorder))
    if rows < 0:
        raise ValueError("no bounds; expected one more than there are texts")
    if rows * room > 2**31 - 1:
        raise OverflowError(f"too many rows; expected at most {(2**31 - 1) // room} in one call")
    for one, code in zip(columns, reads):
        if one not in found:
            found[one] = array.array(code, [_number(columns[one])]) * rows
    lengths = {"texts": rows * room, "bounds": rows + 1}
    made: dict[str, Any] = {
        one: array.array("q" if one in like.times else code, [0]) * lengths.get(one, rows)
        for one, code in zip(getattr(kind, "_fields"), writes)}
    read = (found[one] for one in columns)
    error_count = _core.over_columns(name, (*read, *made.values()), extra)
    if "texts" in made:
        made["texts"] = made["texts"][:made["bounds"][rows]].tobytes()
    return kind(*(like.made(one, column) for one, column in made.items()), error_count)
