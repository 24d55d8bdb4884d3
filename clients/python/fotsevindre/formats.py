"""Formats of strings."""

from __future__ import annotations

import dataclasses
import operator
from typing import Any, SupportsIndex

from . import _core, errors
from .names import Names


@dataclasses.dataclass(frozen=True, init=False, repr=False)
class Format:
    """Format(text): a format in the syntax of `strftime`, such as "%d/%m/%Y".

    Methods take it in place of such a string, which is then parsed only once. A string that isn't a
    format raises `FormatError`.
    """

    _items: bytes
    _text: str = dataclasses.field(compare=False)
    _is_description: bool = dataclasses.field(compare=False)
    # The pivot of a lenient format, or -1 without one, and None for a format that isn't lenient.
    _pivot: int | None

    def __init__(self, text: str) -> None:
        self._set(text, False)

    def _set(self, text: str, is_description: bool) -> Format:
        items = _core.format_new(text, is_description)
        vars(self).update(
            _items=items, _text=text, _is_description=is_description, _pivot=None)
        return self

    def lenient(self, pivot: SupportsIndex | None = None) -> Format:
        """Returns the format that parses variants of its strings, too: numbers with or without
        padding, names in any case or by three letters, and any run of white space. With a pivot, %y
        is one of the 100 years from it on. `strptime` raises `ValueError` if two values could have
        the same string.

        >>> str(Date.strptime("7 FEB 24", Format("%d %B %y").lenient(pivot=1970)))
        '2024-02-07'
        """
        number = -1 if pivot is None else operator.index(pivot)
        if pivot is not None and not 0 <= number <= 9900:
            raise ValueError(f"{number} is out of range; expected a pivot from 0 to 9900")
        made = self.__class__.__new__(self.__class__)
        vars(made).update(vars(self), _pivot=number)
        return made

    def with_names(self, names: Names) -> NamedFormat:
        """Returns the format with names in place of the English names. Raises `NamesError` if two values
        could have the same string, and `ValueError` for a lenient format.

        >>> str(Date.strptime("29 f\xe9vrier 2024", Format("%-d %B %Y").with_names(Names.of("fr"))))
        '2024-02-29'
        """
        return NamedFormat(self, names)

    @classmethod
    def from_description(cls, text: str) -> Format:
        """Creates a format in the syntax of the Rust crate `time`, such as
        "[day]/[month]/[year]"."""
        return cls.__new__(cls)._set(text, True)

    def __repr__(self) -> str:
        made = f"Format{'.from_description' * self._is_description}({self._text!r})"
        if self._pivot is None:
            return made
        return f"{made}.lenient({'' if self._pivot < 0 else self._pivot})"

    def __reduce__(self) -> tuple[Any, ...]:
        return _made, (self._text, self._is_description, self._pivot)


@dataclasses.dataclass(frozen=True)
class NamedFormat:
    """A format with names in place of the English names, from `Format.with_names`. `strptime` compares
    names as they are, and the longest one wins."""

    format: Format
    names: Names
    _named: bytes = dataclasses.field(init=False, repr=False, compare=False)

    def __post_init__(self) -> None:
        if self.format._pivot is not None:
            raise ValueError("a lenient format has no names of other languages")
        named = self.format._items + self.names._bytes()
        vars(self).update(_named=named)
        error = errors.names_error(_core.names_check(named), self.format._items, self.names)
        if error:
            raise error

    @property
    def _text(self) -> str:
        return self.format._text

    def __repr__(self) -> str:
        return f"{self.format!r}.with_names({self.names!r})"


def _made(text: str, is_description: bool, pivot: int | None) -> Format:
    """Returns the format of a pickle."""
    format = Format.from_description(text) if is_description else Format(text)
    return format if pivot is None else format.lenient(None if pivot < 0 else pivot)


def format_of(format: str | Format) -> Format:
    """Returns a format, or makes one of a string."""
    return format if isinstance(format, Format) else Format(format)
