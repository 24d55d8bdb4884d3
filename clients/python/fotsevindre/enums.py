"""Months, weekdays, and what other enums and results are made of."""

import enum
from typing import NamedTuple, SupportsIndex, TypeVar

from . import _core
from .errors import ComponentRange

_C = TypeVar("_C", bound="_Cycle")


class _Cycle(enum.IntEnum):
    """A month or a weekday. They are ints, go round, and are all true."""

    def previous(self: _C) -> _C:
        """Returns the value before. Before January it is December, and before Monday Sunday."""
        return self.nth_prev(1)

    def next(self: _C) -> _C:
        """Returns the value after. After December it is January, and after Sunday Monday."""
        return self.nth_next(1)

    def nth_next(self: _C, n: SupportsIndex) -> _C:
        """Returns the value `n` places after. Nine months after July it is April, and ten days
        after Sunday Wednesday."""
        return self._moved("nth_next", n)

    def nth_prev(self: _C, n: SupportsIndex) -> _C:
        """Returns the value `n` places before. Nine months before July it is October, and ten days
        before Sunday Thursday."""
        return self._moved("nth_prev", n)

    def _moved(self: _C, name: str, n: SupportsIndex) -> _C:
        kind = type(self)
        return kind(getattr(_core, f"{kind.__name__.lower()}_{name}")(self, n))

    __repr__ = enum.Enum.__str__

    def __bool__(self) -> bool:
        return True


class Month(_Cycle):
    """A month of the year, from `January`, 1, to `December`, 12.

    A month is an int: `f"{month:02}"` and `str(month)` are its number, and `month.name` is its
    name.

    >>> Month(5), Month.July.nth_next(9), Month.February.length(2020), f"{Month.May:02}"
    (Month.May, Month.April, 29, '05')
    """

    __str__ = int.__repr__

    def __format__(self, specification: str) -> str:
        return format(int(self), specification)

    January, February, March, April, May, June = range(1, 7)
    July, August, September, October, November, December = range(7, 13)

    @classmethod
    def _missing_(cls, value: object) -> None:
        if isinstance(value, int):
            raise ComponentRange("month", False)

    def length(self, year: SupportsIndex) -> int:
        """Returns the number of days of the month in a year, from 28 to 31."""
        return _core.days_in_month(self, year)


class Weekday(_Cycle):
    """A day of the week, from `Monday`, 0, to `Sunday`, 6, like `datetime.date.weekday`.

    A weekday is an int, but `str(weekday)` and `f"{weekday}"` are its name. Calls that take a
    weekday take only a `Weekday`.

    >>> Weekday(4), Weekday.Sunday.nth_next(10), Weekday.Friday.number_from_sunday()
    (Weekday.Friday, Weekday.Wednesday, 6)
    >>> f"{Weekday.Monday}", f"{Weekday.Monday:d}"
    ('Monday', '0')
    >>> Weekday.Saturday in {5, 6}
    True
    """

    Monday, Tuesday, Wednesday, Thursday, Friday, Saturday, Sunday = range(7)

    def __str__(self) -> str:
        return self.name

    def __format__(self, specification: str) -> str:
        return format(int(self) if specification.endswith("d") else self.name, specification)

    def number_from_monday(self) -> int:
        """Returns the number from 1 (Monday) to 7 (Sunday)."""
        return int(self) + 1

    def number_from_sunday(self) -> int:
        """Returns the number from 1 (Sunday) to 7 (Saturday)."""
        return (int(self) + 1) % 7 + 1

    def number_days_from_monday(self) -> int:
        """Returns the number of days since Monday, from 0 to 6."""
        return int(self)

    def number_days_from_sunday(self) -> int:
        """Returns the number of days since Sunday, from 0 to 6."""
        return (int(self) + 1) % 7


YearFraction = NamedTuple("YearFraction", [("numerator", int), ("denominator", int)])
YearFraction.__doc__ = "A fraction of a year: what was counted, over what a year counts."


class Choice(enum.IntEnum):
    """A number with a name, and the string of both is the name, such as Frequency.Daily."""

    __str__ = __repr__ = enum.Enum.__str__

    def __format__(self, specification: str) -> str:
        return format(str(self), specification)
