"""The exceptions, and which status raises which."""

import datetime
import enum
from typing import Any

from . import explanations
from ._core import Date, OffsetDateTime, PlainDateTime
from .messages import MESSAGES, NAMES, PARTS

# C counts weekdays from 1.
_MESSAGES = {**MESSAGES, 6: "invalid weekday; expected 0 (Monday) to 6 (Sunday)"}


# The attributes of an error are its arguments, since a function that sets them takes as long as the
# rest of an error.


class _Explained(ValueError):
    """An error with two attributes that makes its sentence when it is printed: most errors aren't.

    An error raised in C has more arguments after them: the owner of the method that failed, the
    number of the method, and its arguments."""

    @property
    def args(self) -> tuple[Any, ...]:  # type: ignore[override]
        """The attributes."""
        return self._all()[:2]

    def _all(self) -> tuple[Any, ...]:
        return BaseException.args.__get__(self)  # type: ignore[attr-defined, no-any-return]

    def __repr__(self) -> str:
        return f"{type(self).__name__}{self.args!r}"

    def __str__(self) -> str:
        try:
            # A pickle has the sentence.
            return vars(self).get("_words") or self._sentence(*self._all()[2:]) or self._short()
        except (AttributeError, LookupError, OverflowError, TypeError, ValueError):
            return self._short()

    def __reduce__(self) -> tuple[Any, ...]:
        return type(self), self.args, {**vars(self), "_words": str(self)}

    def _short(self) -> str:
        """Returns the sentence of an error without arguments."""
        raise NotImplementedError

    def _sentence(self, owner: Any, call: int, *given: Any) -> str | None:
        """Returns the sentence for a method and its arguments, if there is one."""
        raise NotImplementedError


class ComponentRange(_Explained):
    """A component is out of range. `name` is its name, and `is_conditional` says whether its range
    depends on other components.

    The range of a day depends on the month and the year, and the range of an hour on nothing.
    """

    __match_args__ = ("name", "is_conditional")

    @property
    def name(self) -> str:
        """The name of the component."""
        return self.args[0]  # type: ignore[no-any-return]

    @property
    def is_conditional(self) -> bool:
        """True if the range depends on other components."""
        return self.args[1]  # type: ignore[no-any-return]

    def _short(self) -> str:
        return f"{self.name} was not in range"

    def _sentence(self, owner: Any, call: int, *given: Any) -> str | None:
        return explanations.of_component(self.name, owner, *explanations.arguments(call, given))


class ParseError(_Explained):
    """A string has none of the forms that a method parses. `position` is the first wrong
    character, from 0.

    If the string ends too early, and more characters could complete it, `is_end` is true, and
    `position` is its length.
    """

    __match_args__ = ("position", "is_end")

    @property
    def position(self) -> int:
        """The first wrong character, from 0."""
        return self.args[0]  # type: ignore[no-any-return]

    @property
    def is_end(self) -> bool:
        """True if the string ends too early."""
        return self.args[1]  # type: ignore[no-any-return]

    def _short(self) -> str:
        return f"unexpected {'end' if self.is_end else 'byte'} at {self.position}"

    def _sentence(self, owner: Any, call: int, *given: Any) -> str | None:
        return explanations.of_position(self.position, owner, *explanations.arguments(call, given))


class ContradictionError(ValueError):
    """A component of a string isn't the component of the value that the others determine, such as
    the weekday of `Wed 2024-02-29`. `name` is its name."""

    __match_args__ = ("name",)

    @property
    def name(self) -> str:
        """The name of the component."""
        return self.args[0]  # type: ignore[no-any-return]

    def __str__(self) -> str:
        return f"{self.name} contradicts the other components"


class FormatError(ValueError):
    """A string is not a format. No item begins at `position`, from 0, or it is `None` if the format
    has more than 64 items."""

    __match_args__ = ("position",)

    @property
    def position(self) -> int | None:
        """The position at which no item begins, from 0."""
        return self.args[0]  # type: ignore[no-any-return]

    # The item, if it is known.
    _item: str | None = None

    def __str__(self) -> str:
        if self.position is None:
            return "too many items in a format; expected at most 64"
        return f"unknown item {self._item + ' ' if self._item else ''}in a format at {self.position}"


class NamesError(ValueError):
    """Two values could have the same string in a format with names. `item` is the index of an item in
    the format, from 0: each byte, number, name and sign is an item.

    `name` can be read as `other`, since they are the same, or since it goes on to `other` with what
    comes after the item. For a number, a fraction or a sign, `name` is `None`, and `other` is the first
    character with which it can go on.
    """

    __match_args__ = ("item", "name", "other")

    @property
    def item(self) -> int:
        """The index of the item in the format, from 0."""
        return self.args[0]  # type: ignore[no-any-return]

    @property
    def name(self) -> str | None:
        """The name that can go on, or `None`."""
        return self.args[1]  # type: ignore[no-any-return]

    @property
    def other(self) -> str:
        """The other name, or a character."""
        return self.args[2]  # type: ignore[no-any-return]

    def __str__(self) -> str:
        if self.name is None:
            return f'item {self.item} can go on with "{self.other}"'
        if self.name == self.other:
            return f'two names of item {self.item} are "{self.name}"'
        return f'"{self.name}" of item {self.item} can go on to "{self.other}"'


class ParseRuleErrorKind(enum.Enum):
    """Why a part of the string of a recurrence is wrong."""

    Unknown = "unknown part"
    Twice = "duplicate {}"
    TooMany = "too many values in {}"
    Value = "invalid value of {}"
    Missing = "missing FREQ"


class ParseRuleError(ValueError):
    """The string of a recurrence is invalid. `kind` and `position`, from 0, describe the first
    wrong part.

    `part` is its name, or `None` for the kinds `Unknown` and `Missing`.
    """

    __match_args__ = ("position", "kind", "part")

    @property
    def position(self) -> int:
        """The first wrong character, from 0."""
        return self.args[0]  # type: ignore[no-any-return]

    @property
    def kind(self) -> ParseRuleErrorKind:
        """Why the part is wrong."""
        return self.args[1]  # type: ignore[no-any-return]

    @property
    def part(self) -> str | None:
        """The name of the part."""
        return self.args[2] if len(self.args) > 2 else None

    def __str__(self) -> str:
        return f"{self.kind.value.format(self.part or 'part')} at {self.position}"


class EventError(ValueError):
    """A calendar file or a line of an event is invalid. `reason` and `position`, from 0, describe
    the first wrong line in the file without folds, or in the lines of the event. `line` is its
    name, such as `RDATE`, or `None`. A value of the wrong kind has no position."""

    __match_args__ = ("position", "reason", "line")

    @property
    def position(self) -> int | None:
        """The start of the first wrong line, from 0, or `None` for a value of the wrong kind."""
        return self.args[0]  # type: ignore[no-any-return]

    @property
    def reason(self) -> str:
        """Why the line is wrong."""
        return self.args[1]  # type: ignore[no-any-return]

    @property
    def line(self) -> str | None:
        """The name of the line."""
        return self.args[2]  # type: ignore[no-any-return]

    def __str__(self) -> str:
        where = "" if self.position is None else f" at {self.position}"
        return f"{self.reason}{' in ' + self.line if self.line else ''}{where}"


class ZoneError(ValueError):
    """The bytes or the string of a time zone are invalid. `reason` and `position`, from 0, describe
    the first wrong byte."""

    __match_args__ = ("position", "reason")

    @property
    def position(self) -> int:
        """The first wrong byte, from 0."""
        return self.args[0]  # type: ignore[no-any-return]

    @property
    def reason(self) -> str:
        """Why the byte is wrong."""
        return self.args[1]  # type: ignore[no-any-return]

    def __str__(self) -> str:
        return f"{self.reason} at {self.position}"


# The lines of an event, in the order of C. Their numbers come after the parts of a recurrence.
_LINES = (None, "DTSTART", "RRULE", "RDATE", "EXDATE")

# By status: the name of a component, and whether its range is conditional. The statuses of components
# are from 16 to 29, from 64 to 67, whose ranges are, and from 75 to 80.
COMPONENTS = tuple((NAMES[status], 64 <= status < 68) if status in (*range(16, 30), *range(64, 68), *range(75, 81)) else None
    for status in range(81))


def check(value: Any, kind: type) -> Any:
    """Returns the value, or raises `TypeError` if it has another type."""
    if not isinstance(value, kind):
        way = "use its date()" if hasattr(value, "date") else "convert it with Date.from_date"
        hint = f"; {way}" if kind is Date and is_like_date(value) else ""
        raise TypeError(f"expected {kind.__name__}, not {type(value).__name__}{hint}")
    return value


def is_like_date(value: object) -> bool:
    """Returns whether a value is a date of another library or a date-time."""
    dates = (datetime.date, PlainDateTime, OffsetDateTime)
    return isinstance(value, dates) or hasattr(value, "dtype")


def status_error(status: int, position: int | None = None, part: int = 0) -> Exception | None:
    """Returns the exception that a method of one value would raise for the status of a row, or
    `None` for 0. For a wrong string that is a `ValueError`, or with its position a `ParseError`.

    >>> status_error(0), status_error(64)
    (None, ComponentRange('day', True))
    """
    component = COMPONENTS[status] if 0 <= status < len(COMPONENTS) else None
    if component:
        return ComponentRange(*component)
    if status == 0:
        return None
    if position is not None:
        if part > len(PARTS) or status in (86, 87):
            line = _LINES[max(part - len(PARTS) - 1, 0)]
            return EventError(None if position < 0 else position, NAMES[status], line)
        if status in (8, 31):
            return ParseError(position, status == 31)
        if status in (38, 39):
            return FormatError(position if status == 38 else None)
        if status == 43:
            return ContradictionError(NAMES[position])
        if 32 <= status <= 36:
            kind = tuple(ParseRuleErrorKind)[status - 32]
            return ParseRuleError(position, kind, PARTS[part - 1] if part else None)
        if 49 <= status <= 63:
            return ZoneError(position, NAMES[status])
        if status == 90:
            return ValueError(f"{NAMES[status]} at {position}")
    message = _MESSAGES.get(status, f"unknown status {status}")
    return OverflowError(message) if status in (1, 7) else ValueError(message)


def format_error(status: int, position: int, format: str, is_description: bool) -> Exception | None:
    """Returns the error of a string that isn't a format."""
    error = status_error(status, position)
    if status == 38 and isinstance(error, FormatError) and not is_description:
        error._item = explanations.item_at(format[position:])
    return error


# The tables of names, by the number of a name in a format.
_TABLES = ("months", "short_months", "weekdays", "short_weekdays", "periods", "lower_periods")


def names_error(found: tuple[int, int, int, int, int], items: bytes, names: Any) -> Exception | None:
    """Returns the error of a format with names, or `None`."""
    status, byte, item, name, other = found
    if status == 93:
        # The items come after their count. Each is a kind and a number.
        table = getattr(names, _TABLES[items[4 + 2 * item + 1]])
        return NamesError(item, table[name], table[other])
    return NamesError(item, None, chr(byte)) if status == 94 else status_error(status)


def insufficient_format(format: Any) -> ValueError:
    """Returns the error of a format that doesn't determine a value."""
    return ValueError(explanations.remedy(format))
