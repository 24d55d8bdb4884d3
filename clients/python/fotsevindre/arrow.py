"""Columns of Apache Arrow, by its C data interface for Python."""

from __future__ import annotations

import importlib
import sys
from typing import Any

from . import _core

_STRINGS = ("u", "U", "vu", "z", "Z", "vz")
_NAMES = {"u": "string", "tdD": "date32"}
_UNITS = {"D": "D", "s": "s", "m": "ms", "u": "us", "n": "ns"}


class ArrowColumn:
    """A column of Apache Arrow, which the functions on columns of strings return for another one.

    `pyarrow.array(column)`, `polars.Series(column)` and other packages take it by
    `__arrow_c_array__`. `type` is its type, such as `date32`, `string` or `timestamp[ns, UTC]`.
    """

    def __init__(self, format: str, missing: Any, *buffers: Any) -> None:
        self._format, self._rows, self._buffers = format, len(missing), [bytes(one) for one in buffers]
        self._missing = int(missing.sum())
        bits = importlib.import_module("numpy").packbits(~missing, bitorder="little") if self._missing else b""
        self._buffers.insert(0, bytes(bits))

    @property
    def type(self) -> str:
        """The name of the type."""
        return _NAMES.get(self._format, f"timestamp[ns, {self._format[4:]}]")

    @property
    def null_count(self) -> int:
        """The number of missing rows."""
        return self._missing

    def __len__(self) -> int:
        return self._rows

    def __repr__(self) -> str:
        return f"<ArrowColumn of {self.type}, {self._rows} rows, {self._missing} missing>"

    def __arrow_c_schema__(self) -> Any:
        """Returns a capsule with the type."""
        return _core.arrow_schema(self._format)

    def __arrow_c_array__(self, requested_schema: Any = None) -> tuple[Any, Any]:
        """Returns capsules with the type and the rows. They never have another type."""
        return self.__arrow_c_schema__(), _core.arrow_array(self._rows, self._missing, *self._buffers)

def is_column(values: Any) -> bool:
    """Returns whether a value is a column of Arrow, and none of pandas, which can be one, too."""
    is_arrow = hasattr(values, "__arrow_c_array__") or hasattr(values, "__arrow_c_stream__")
    pandas: Any = sys.modules.get("pandas")
    return is_arrow and not (pandas and isinstance(values, (pandas.Series, pandas.Index)))

def _read(column: Any, expected: str, formats: tuple[str, ...]) -> tuple[str, list[tuple[Any, ...]]]:
    """Returns the format of a column, and its parts. Raises `TypeError` for other formats."""
    given = column.__arrow_c_array__ if hasattr(column, "__arrow_c_array__") else column.__arrow_c_stream__
    format, parts = _core.arrow_read(given())
    if not format.startswith(formats):
        hint = "; cast it to strings" if format == "dictionary" else "; select one" if format == "+s" else ""
        raise TypeError(f"expected a column of {expected}, not of Arrow's format '{format}'{hint}")
    return format, parts

class _Rows:
    """The strings of a column by their numbers."""

    def __init__(self, parts: list[tuple[Any, ...]]) -> None:
        self.parts = parts

    def __getitem__(self, row: int) -> str:
        for data, bounds, *_ in self.parts:
            if row < len(bounds) - 1:
                return bytes(data[bounds[row]:bounds[row + 1]]).decode("utf-8", "surrogateescape")
            row -= len(bounds) - 1
        raise IndexError(row)

    def __len__(self) -> int:
        return sum(len(part[1]) - 1 for part in self.parts)

def _missing_rows(parts: list[tuple[Any, ...]], lengths: list[int]) -> Any:
    """Returns whether each row is missing."""
    numpy = importlib.import_module("numpy")
    found = [numpy.zeros(rows, bool) if part[2] is None else numpy.frombuffer(part[2], bool)
        for part, rows in zip(parts, lengths)]
    return numpy.concatenate(found) if found else numpy.zeros(0, bool)

def strings_of(column: Any) -> tuple[_Rows, list[tuple[Any, Any]], Any]:
    """Returns the strings of a column, parts with their bytes and their bounds, which aren't copied
    if these have 32 bits, and the numbers of the missing rows."""
    numpy = importlib.import_module("numpy")
    _, parts = _read(column, "strings", _STRINGS)
    found = [(data, numpy.frombuffer(bounds, "int32"), *rest) for data, bounds, *rest in parts]
    found = found or [(b"", numpy.zeros(1, "int32"), None, None)]
    missing = _missing_rows(found, [len(part[1]) - 1 for part in found])
    return _Rows(found), [(part[0], part[1]) for part in found], numpy.flatnonzero(missing).tolist()

def times_of(column: Any, expected: str) -> tuple[Any, str]:
    """Returns the times of a column of dates or timestamps as `datetime64`, and the name of the
    zone, which can be empty."""
    numpy = importlib.import_module("numpy")
    format, parts = _read(column, expected, ("td", "ts"))
    found = [numpy.frombuffer(part[0], "int32" if format == "tdD" else "int64").astype("int64") for part in parts]
    numbers = numpy.concatenate(found) if found else numpy.zeros(0, "int64")
    numbers[_missing_rows(parts, list(map(len, found)))] = -2**63
    return numbers.view(f"datetime64[{_UNITS[format[2]]}]"), format[4:]


def column_of_strings(texts: list[str | None]) -> ArrowColumn:
    """Returns a column of strings, of which some are missing."""
    numpy = importlib.import_module("numpy")
    rows = [(text or "").encode("utf-8", "surrogatepass") for text in texts]
    bounds = numpy.zeros(len(rows) + 1, "int32")
    numpy.cumsum([len(row) for row in rows], out=bounds[1:])
    return ArrowColumn("u", numpy.array([text is None for text in texts], bool), bounds, b"".join(rows))
