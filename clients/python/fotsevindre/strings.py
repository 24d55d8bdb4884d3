"""Whole columns of strings: lists, arrays of NumPy, series and indexes of pandas, and columns of
Apache Arrow."""

from __future__ import annotations

import sys
from typing import Any, Callable

from . import _core, arrow
from ._core import Date, OffsetDateTime, UtcOffset
from .calls import dates_calendar_texts, dates_format, dates_parse, dates_parse_format, dates_parse_iso
from .calls import moments_parse, moments_parse_iso, moments_texts, parse_rfc3339, rfc3339_text
from .columns import SECONDS
from .errors import status_error
from .formats import Format
from .zones import Zone

_ERRORS = ("raise", "missing", "column")
_EPOCH = 2440588
_DAY = 86_400 * 10**9
# No number of a row in 32 bits and in 64, the latter of which is NaT.
_NONE, _NAT = -2**31, -2**63
# The days of datetime64[ns] since 1970, except the first one, which it has in part, and the
# nanoseconds that it has of the last one.
_FIRST, _LAST = -106_751, 106_751
_OF_LAST = 2**63 - _LAST * _DAY


def _is_missing(value: Any) -> bool:
    """Returns whether a value is None, NaN, NaT or the NA of pandas."""
    is_nan = isinstance(value, float) and value != value
    return value is None or is_nan or type(value).__name__ in ("NAType", "NaTType")


def _rows_of(strings: Any) -> Any:
    """Returns the strings of a column as a list or as an array of objects in one piece."""
    if isinstance(strings, (str, bytes)) or not hasattr(strings, "__iter__"):
        raise TypeError(f"expected a column of strings, not {type(strings).__name__}")
    if getattr(strings, "ndim", 1) != 1:
        raise TypeError(f"expected a column of one dimension, not {strings.ndim}")
    values = strings.to_numpy() if hasattr(strings, "to_numpy") else strings
    letter = getattr(getattr(values, "dtype", None), "kind", "")
    if letter == "O" and type(values) is sys.modules["numpy"].ndarray:
        return sys.modules["numpy"].ascontiguousarray(values)
    rows = values.tolist() if hasattr(values, "tolist") else list(values)
    return [row.decode() for row in rows] if letter == "S" else rows


class _Strings:
    """A column of strings as C takes it: parts with the bytes of their rows and the bounds of these,
    and the numbers of the missing rows."""

    def __init__(self, given: Any) -> None:
        self.given, self.is_arrow = given, arrow.is_column(given)
        self.rows: Any
        if self.is_arrow:
            self.rows, self.parts, self.missing = arrow.strings_of(given)
            return
        self.rows = _rows_of(given)
        data, bounds, self.missing = _core.join_strings(self.rows, _is_missing)
        numpy: Any = sys.modules.get("numpy")
        self.parts = [(data, numpy.frombuffer(bounds, "int32") if numpy else memoryview(bounds).cast("i"))]

    def parsed(self, parse: Callable[..., Any], *format: Any) -> Any:
        """Returns the columns of a function for all parts, one after another. A missing row has an error."""
        found = [parse(data, bounds, *format) for data, bounds in self.parts]
        if len(found) > 1:
            *columns, counts = zip(*found)
            found = [type(found[0])(*map(sys.modules["numpy"].concatenate, columns), sum(counts))]
        if self.is_arrow:
            found[0].statuses[self.missing] = 1
        return found[0]

    def checked(self, statuses: Any, parse: Callable[[Any], Any], errors: str) -> list[str | None]:
        """Raises an error for the first row that has a string without a result, or returns the
        errors of all rows."""
        numpy: Any = sys.modules.get("numpy")
        failed: list[int]
        if numpy is None:
            absent = set(self.missing)
            failed = [row for row, status in enumerate(statuses) if status and row not in absent]
        else:
            wrong = numpy.asarray(statuses) != 0
            wrong[self.missing] = False
            failed = numpy.flatnonzero(wrong).tolist()
        if errors == "raise" and failed:
            row = failed[0]
            raise ValueError(f"row {row}: {self.rows[row]!r}: {_reason(self.rows[row], parse)}")
        reasons: list[str | None] = [None] * (len(self.rows) if errors == "column" else 0)
        for row in failed if reasons else ():
            reasons[row] = _reason(self.rows[row], parse)
        return reasons

    def with_errors(self, values: Any, reasons: Any, errors: str) -> Any:
        """Returns the values, with the column of errors if that is wanted."""
        return (values, _texts_like(self.given, reasons)) if errors == "column" else values


def _reason(row: Any, parse: Callable[[Any], Any]) -> str:
    """Returns the error of a string, which `parse` raises."""
    try:
        parse(row)
    except (ValueError, OverflowError) as error:
        return str(error)
    return "out of range of datetime64[ns]"


def _like(given: Any, values: Any) -> Any:
    """Returns values as the column that was given: with its index and its name, if it has them."""
    if hasattr(given, "index") and hasattr(given, "name"):
        return type(given)(values, index=given.index, name=given.name)
    if hasattr(given, "to_numpy"):
        return sys.modules["pandas"].Index(values, name=given.name)
    return values


def _texts_like(given: Any, texts: Any) -> Any:
    """Returns strings as a list, an array of objects, a series or an index of pandas, or a column of
    Arrow."""
    if arrow.is_column(given):
        return arrow.column_of_strings(texts)
    if not hasattr(given, "dtype"):
        return texts
    numpy: Any = sys.modules["numpy"]
    objects = numpy.empty(len(texts), object)
    objects[:] = texts
    return _like(given, objects)


def _printed(given: Any, columns: Any, missing: Any) -> Any:
    """Returns the strings of a result like a column, and `None` for a missing row. Raises
    `ValueError` for another row without a string."""
    if columns.error_count:
        wrong = columns.statuses
        if hasattr(wrong, "dtype"):
            wrong = (wrong * ~missing).tolist()
        row = next((row for row, status in enumerate(wrong) if status and not missing[row]), None)
        if row is not None:
            raise ValueError(f"row {row}: {status_error(wrong[row])}")
    if arrow.is_column(given):
        return arrow.ArrowColumn("u", columns.statuses != 0, columns.bounds.tobytes(), columns.texts)
    texts, bounds = columns.texts.decode(), list(columns.bounds)
    rows = [texts[start:end] for start, end in zip(bounds, bounds[1:])]
    if columns.error_count:
        rows = [None if status else row for row, status in zip(rows, columns.statuses)]
    return _texts_like(given, rows)


def _check_option(errors: str) -> None:
    if errors not in _ERRORS:
        raise ValueError(f"unknown errors {errors!r}; expected 'raise', 'missing' or 'column'")


def strings_to_dates(strings: Any, format: Format | str | None = None, *, iso: bool = False, errors: str = "raise") -> Any:
    """Parses a column of strings like `Date.parse`, like `Date.strptime` by a format, or with `iso=True`
    like `Date.parse_iso`. A list gives a list of `Date`, an array of NumPy one of `datetime64[D]`, a
    series or an index of pandas one of `datetime64[ns]`, and a column of Arrow an `ArrowColumn` of
    date32. A missing value stays one. A row without a result raises `ValueError` with its number, or
    is missing, or with `"column"` the errors are a second column. A format and `iso=True` together
    raise `ValueError`.

    >>> strings_to_dates(["2024-02-29", None])
    [Date(2024, 2, 29), None]
    >>> strings_to_dates(["29.02.2023"], "%d.%m.%Y", errors="column")
    ([None], ['day 29 is out of range 1 to 28 (February 2023)'])
    >>> strings_to_dates(["20240229", "2024-W09"], iso=True)
    [Date(2024, 2, 29), Date(2024, 2, 26)]
    """
    _check_option(errors)
    if iso and format is not None:
        raise ValueError("expected a format or iso=True, not both")
    column = _Strings(strings)
    parse: Callable[[Any], Any] = Date.parse_iso if iso else Date.parse
    if format is None:
        found = column.parsed(dates_parse_iso if iso else dates_parse)
    else:
        form = format
        found = column.parsed(dates_parse_format, form)
        parse = lambda row: Date.strptime(row, form)
    dates, statuses = found.dates, found.statuses
    if not column.is_arrow and not hasattr(strings, "dtype"):
        reasons = column.checked(statuses, parse, errors)
        made = [None if status else Date.from_julian_day(int(day)) for day, status in zip(dates, statuses)]
        return column.with_errors(made, reasons, errors)
    numpy: Any = sys.modules["numpy"]
    is_pandas = not column.is_arrow and hasattr(strings, "to_numpy")
    if is_pandas:
        far = (dates < _EPOCH + _FIRST) | (dates > _EPOCH + _LAST)
        statuses = numpy.where(far & (statuses == 0), 1, statuses)
    reasons = column.checked(statuses, parse, errors)
    if column.is_arrow:
        return column.with_errors(arrow.ArrowColumn("tdD", statuses != 0, dates - numpy.int32(_EPOCH)), reasons, errors)
    days = (dates.astype("int64") - _EPOCH) * (_DAY if is_pandas else 1)
    days[statuses != 0] = _NAT
    return column.with_errors(_like(strings, days.view("datetime64[ns]" if is_pandas else "datetime64[D]")), reasons, errors)


def strings_to_instants(strings: Any, zone: str | None = None, *, iso: bool = False, errors: str = "raise") -> Any:
    """Parses a column of strings of RFC 3339 like `parse_rfc3339`, or with `iso=True` like
    `OffsetDateTime.parse_iso`. A list gives a list of `OffsetDateTime`, an array of NumPy one of
    `datetime64[ns]` at UTC, a series or an index of pandas one of `datetime64[ns, UTC]`, and a column
    of Arrow an `ArrowColumn` of timestamp[ns, UTC], or of the zone for these two. `errors` is as in
    `strings_to_dates`.

    >>> strings_to_instants(["2024-02-29T23:59:59+01:00"])[0].unix_timestamp()
    1709247599
    >>> strings_to_instants(["20240229T235959,5+01"], iso=True)[0].isoformat()
    '2024-02-29T23:59:59.500000+01:00'
    """
    _check_option(errors)
    column = _Strings(strings)
    parse: Callable[[Any], Any] = OffsetDateTime.parse_iso if iso else parse_rfc3339
    found = column.parsed(moments_parse_iso if iso else moments_parse)
    if not column.is_arrow and not hasattr(strings, "dtype"):
        reasons = column.checked(found.statuses, parse, errors)
        parts = zip(found.statuses, found.dates, found.times, found.offsets)
        made = [None if status else _core.make_moment(*moment) for status, *moment in parts]
        return column.with_errors(made, reasons, errors)
    numpy: Any = sys.modules["numpy"]
    below = found.times.astype("int64") - found.offsets.astype("int64") * 10**9
    passed = below // _DAY
    days, below = found.dates.astype("int64") - _EPOCH + passed, below - passed * _DAY
    far = (days < _FIRST) | (days > _LAST) | (days == _LAST) & (below >= _OF_LAST)
    statuses = numpy.where(far & (found.statuses == 0), 1, found.statuses)
    reasons = column.checked(statuses, parse, errors)
    days[statuses != 0] = 0
    nanoseconds = days * _DAY + below
    nanoseconds[statuses != 0] = _NAT
    if column.is_arrow:
        return column.with_errors(arrow.ArrowColumn(f"tsn:{zone or 'UTC'}", statuses != 0, nanoseconds), reasons, errors)
    values = nanoseconds.view("datetime64[ns]")
    if hasattr(strings, "to_numpy"):
        index = sys.modules["pandas"].DatetimeIndex(values, tz="UTC")
        values = _like(strings, index.tz_convert(zone) if zone else index)
    return column.with_errors(values, reasons, errors)


def dates_to_strings(dates: Any, format: Format | str | None = None) -> Any:
    """Returns the strings of a column of dates, as of ISO 8601, or by a format. Dates are in a list,
    or `datetime64` of whole days, or dates or timestamps of Arrow. A missing date is `None`, and
    another row without a string raises `ValueError`.

    >>> dates_to_strings([Date(2024, 2, 29), Date(2024, 3, 1)], "%d.%m.%Y")
    ['29.02.2024', '01.03.2024']
    """
    values: Any = dates
    if arrow.is_column(dates):
        values, zone = arrow.times_of(dates, "dates")
        if zone:
            raise ValueError(f"expected a column without a time zone, not with {zone}")
    elif not hasattr(dates, "dtype") or dates.dtype.kind == "O":
        values = [_NONE if _is_missing(one) else one for one in dates]
    missing = [one == _NONE for one in values] if isinstance(values, list) else values != values
    found = dates_calendar_texts(values) if format is None else dates_format(values, format)
    return _printed(dates, found, missing)


def _seconds_of(values: Any) -> tuple[Any, Any]:
    """Returns the whole seconds of an array of datetime64, and the nanoseconds below them."""
    if values.dtype.str[4:-1] not in SECONDS:
        values = values.astype("datetime64[s]")
    numbers, count = values.view("int64"), SECONDS[values.dtype.str[4:-1]]
    whole = numbers // count
    return whole, (numbers - whole * count) * (10**9 // count)


def _local_of(instants: Any) -> tuple[Any, Any]:
    """Returns the times of a column of instants at UTC, and their offsets in seconds."""
    numpy: Any = sys.modules["numpy"]
    if arrow.is_column(instants):
        values, zone = arrow.times_of(instants, "timestamps")
        if not zone:
            raise ValueError("expected a column with a time zone; cast it to timestamp('us', 'UTC')")
        if zone[0] in "+-":
            return values, numpy.full(len(values), UtcOffset.parse(zone).whole_seconds())
        return values, Zone(zone).offsets(numpy.where(values == values, _seconds_of(values)[0], 0)).offsets
    if not hasattr(instants, "to_numpy"):
        return instants, numpy.zeros(len(instants), "int64")
    index = sys.modules["pandas"].DatetimeIndex(instants)
    if index.tz is None:
        raise ValueError("expected a column with a time zone; .dt.tz_localize('UTC') adds one")
    local, values = index.tz_localize(None).to_numpy(), index.tz_convert("UTC").tz_localize(None).to_numpy()
    return values, (local - values).astype("timedelta64[s]").view("int64")


def _rfc3339_text(row: int, moment: OffsetDateTime) -> str:
    text = rfc3339_text(moment.date(), moment.time(), moment.offset)
    if text is None:
        raise ValueError(f"row {row}: {moment} has no string of RFC 3339")
    return text


def instants_to_strings(instants: Any) -> Any:
    """Returns the strings of RFC 3339 of a column of instants: of a list of `OffsetDateTime`, of
    `datetime64` of NumPy at UTC, or of a series or an index of pandas, or a column of Arrow, with a
    time zone, at its offsets. A missing instant is `None`, and another row without a string raises
    `ValueError`.

    >>> instants_to_strings(strings_to_instants(["2024-02-29T23:59:59+01:00"]))
    ['2024-02-29T23:59:59+01:00']
    """
    if not hasattr(instants, "dtype") and not arrow.is_column(instants):
        return [None if _is_missing(one) else _rfc3339_text(row, one) for row, one in enumerate(instants)]
    values, offsets = _local_of(instants)
    missing = values != values
    seconds, below = _seconds_of(values)
    seconds = seconds + offsets
    dates = seconds // 86_400 + _EPOCH
    dates[missing | (abs(dates) > 2**31 - 1)] = _NONE
    found = moments_texts(dates.astype("int32"), (seconds % 86_400 * 10**9 + below).astype("uint64"), offsets.astype("int32"))
    return _printed(instants, found, missing)
