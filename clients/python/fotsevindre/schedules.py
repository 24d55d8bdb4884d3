"""Days that follow each other, ranges of days, working days and recurrences."""

from __future__ import annotations

import array
import contextlib
import dataclasses
import functools
import itertools
import operator
import re
import struct
from collections.abc import Callable, Collection, Iterable, Iterator, Sequence
from typing import Any, NamedTuple, SupportsIndex, TypeGuard, TypeVar, overload

from . import _core
from ._core import Date, OffsetDateTime, Period, PlainDateTime, Time, UtcOffset
from .choices import Frequency
from .enums import Month, Weekday
from .errors import check, is_like_date
from .zones import Zone, ZonedDateTime

# The lists of a rule, and their numbers in C as the module array has them.
_LISTS = {"months": "B", "weeks": "b", "year_days": "h", "month_days": "b", "weekdays": "b",
    "set_positions": "h", "dates": "i", "exceptions": "i"}
# The calendars of holidays, by their numbers in C.
_CALENDARS = ("target", "us-federal", "nyse", "england-and-wales", *(
    f"de-{state}" for state in "bw by be bb hb hh he mv ni nw rp sl sn st sh th".split()))
_UNTIL = "%Y%m%dT%H%M%S%.fZ"
_NANOSECOND = _core.nanoseconds(1)
_Readings = Iterable[PlainDateTime]
_S = TypeVar("_S", Date, PlainDateTime, ZonedDateTime)


def _pages(page: Callable[..., tuple[list[Any], Any]], follow: Callable[[Any], Any], first: Any,
           cursor: Any = None) -> Iterator[Any]:
    """Iterates over what a function returns, from the first or what follows, on longer and longer
    pages, with a cursor that each page has for the next one."""
    length = 64
    while first is not None:
        values, cursor = page(first, length, cursor)
        yield from values
        first = follow(values[-1]) if len(values) == length else None
        length = min(2 * length, 4096)


def _earliest() -> OffsetDateTime:
    """Returns the first instant of the range."""
    return PlainDateTime.MIN.assume_offset(UtcOffset(25, 59, 59))


def _packed(readings: _Readings) -> bytes:
    """Returns local times as C has them: Julian days, offsets, and nanoseconds since midnight."""
    return b"".join(struct.pack("iiQ", check(one, PlainDateTime).date().to_julian_day(), 0,
        (one.time() - Time()).whole_nanoseconds()) for one in readings)


def _is_date(value: object) -> TypeGuard[Date]:
    """Returns whether a value is a `Date`, or raises `TypeError` for a date of another library or a
    date-time, of which `in` would be false without a word."""
    return isinstance(check(value, Date) if is_like_date(value) else value, Date)


@dataclasses.dataclass(frozen=True, repr=False, slots=True)
class Days(Sequence[Date]):
    """Days that follow each other, which `Date.iter_to` returns: a sequence with a length,
    indexes, slices and a reversed order.

    >>> days = Date(2024, 2, 28).iter_to(Date(2024, 3, 2))
    >>> len(days), days[1], list(reversed(days))[:2], Date(2024, 3, 3) in days
    (4, Date(2024, 2, 29), [Date(2024, 3, 2), Date(2024, 3, 1)], False)
    """

    _julian_days: range

    def __len__(self) -> int:
        return len(self._julian_days)

    @overload
    def __getitem__(self, index: SupportsIndex) -> Date: ...

    @overload
    def __getitem__(self, index: slice) -> Days: ...

    def __getitem__(self, index: SupportsIndex | slice) -> Date | Days:
        if isinstance(index, slice):
            return Days(self._julian_days[index])
        return Date.from_julian_day(self._julian_days[index])

    def __iter__(self) -> Iterator[Date]:
        return map(Date.from_julian_day, self._julian_days)

    def __contains__(self, date: object) -> bool:
        return _is_date(date) and date.to_julian_day() in self._julian_days

    def __repr__(self) -> str:
        if not self:
            return "Date.MAX.iter_to(Date.MIN)"
        step = self._julian_days.step if len(self) > 1 else 1
        first, last = sorted((self[0], self[-1]))
        return f"{first!r}.iter_to({last!r}){'' if step == 1 else f'[::{step}]'}"


@dataclasses.dataclass(frozen=True, slots=True)
class DateRange(Collection[Date]):
    """The days from a date up to another, which isn't in the range, or no day. An end
    before the start raises `ValueError`.

    >>> march = DateRange(Date(2024, 3, 1), Date(2024, 4, 1))
    >>> len(march), Date(2024, 4, 1) in march, march.share(DateRange(Date(2024, 3, 22), march.end))
    (31, False, (10, 31))
    """

    start: Date
    end: Date

    def __post_init__(self) -> None:
        _core.date_range_length(check(self.start, Date), check(self.end, Date))

    @classmethod
    def parse(cls, text: str) -> DateRange:
        """Parses an interval of ISO 8601 by two dates, or by a date and a period, or raises ParseError,
        ComponentRange, ValueError or OverflowError.

        >>> DateRange.parse("2024-01-01/P1M") == DateRange.parse("P1M/2024-02-01")
        True
        """
        return cls(*_core.date_interval_parse(text))

    def __len__(self) -> int:
        return _core.date_range_length(self.start, self.end)

    def __iter__(self) -> Iterator[Date]:
        julian_days = range(self.start.to_julian_day(), self.end.to_julian_day())
        return map(Date.from_julian_day, julian_days)

    def __contains__(self, date: object) -> bool:
        return _is_date(date) and _core.date_range_contains(self.start, self.end, date)

    def overlaps(self, other: DateRange) -> bool:
        """Returns whether a day is in both ranges."""
        return _core.date_range_overlaps(self.start, self.end, *_ends(other))

    def intersection(self, other: DateRange) -> DateRange | None:
        """Returns the days that are in both ranges, or None if no day is."""
        ends = _core.date_range_intersection(self.start, self.end, *_ends(other))
        return None if ends is None else DateRange(*ends)

    def share(self, other: DateRange) -> tuple[int, int]:
        """Returns how many days of the range are in the other one, and how many days it has."""
        return _core.date_range_share(self.start, self.end, *_ends(other))


@dataclasses.dataclass(frozen=True)
class Steps(Iterable[_S]):
    """Steps(start, period, count=0): the dates or date-times from a start on, each a period later. Each
    is counted from the start, so nothing drifts. They end after a number of them, if it isn't 0, and
    at the end of the range.

    A period that isn't positive raises `ValueError`, and so does one with a duration for dates.

    >>> [str(date) for _, date in zip(range(3), Steps(Date(2024, 1, 31), Period(months=1)))]
    ['2024-01-31', '2024-02-29', '2024-03-31']
    """

    start: _S
    period: Period
    count: int = 0

    def __post_init__(self) -> None:
        start: Any = self.start.local() if hasattr(self.start, "local") else self.start
        if start.step_of(self.period, start) is None:
            raise ValueError("expected a positive period, of dates without a duration")
        if operator.index(self.count) < 0:
            raise ValueError(f"{self.count} is out of range; expected a number from 0 on")

    @staticmethod
    def parse(text: str) -> Steps[Date]:
        """Parses a repeated interval of dates in ISO 8601, or raises like `DateRange.parse`.

        >>> [str(date) for date in Steps.parse("R3/2024-01-31/P1M")]
        ['2024-01-31', '2024-02-29', '2024-03-31']
        """
        return Steps(*_core.repeated_dates_parse(text))

    @staticmethod
    def parse_date_times(text: str) -> Steps[PlainDateTime]:
        """Parses a repeated interval of local date-times in ISO 8601, or raises like
        `DateRange.parse`.

        >>> [str(step) for step in Steps.parse_date_times("R2/2024-01-31T09:00/P1M")]
        ['2024-01-31 9:00:00.0', '2024-02-29 9:00:00.0']
        """
        return Steps(*_core.repeated_pairs_parse(text))

    def __iter__(self) -> Iterator[_S]:
        with contextlib.suppress(OverflowError):
            for n in range(self.count) if self.count else itertools.count():
                yield self.start.nth_period(self.period, n)


def _ends(range_of_days: DateRange) -> tuple[Date, Date]:
    return check(range_of_days, DateRange).start, range_of_days.end


class Workdays(_core.Workdays):
    """The given weekdays without holidays, by default Monday to Friday. The holidays are any dates, and
    are sorted once.

    >>> Workdays().add_workdays(Date(2024, 2, 29), 10)
    Date(2024, 3, 14)
    """

    __slots__ = ()

    def __new__(cls, weekdays: Iterable[Weekday] = tuple(Weekday)[:5],
                holidays: Iterable[Date] = ()) -> Workdays:
        """Checks the weekdays and the holidays."""
        weekmask = sum({1 << check(weekday, Weekday) for weekday in weekdays})
        julian_days = array.array("i", (check(holiday, Date).to_julian_day() for holiday in holidays))
        return super().__new__(cls, weekmask, julian_days.tobytes())

    @staticmethod
    def from_rules(rules: str, first: Date = Date(1990, 1, 1), last: Date = Date(2059, 12, 31)
                   ) -> Workdays:
        """Monday to Friday without the holidays of rules from one date through another. Each line has
        a rule, such as `12-25 SA-1 SU+1` or `easter-2`. An invalid rule raises `ValueError`, and so do
        more than 1024 holidays.

        >>> Workdays.from_rules("easter-2\\n2024-04-01").add_workdays(Date(2024, 3, 28), 1)
        Date(2024, 4, 2)
        """
        return Workdays(holidays=_core.rules_holidays(rules, first, last))

    @staticmethod
    def of(calendar: str, first: Date = Date(1990, 1, 1), last: Date = Date(2059, 12, 31)
           ) -> Workdays:
        """Monday to Friday without the holidays of a calendar from one date through another. It is
        `target`, `us-federal`, `nyse`, `england-and-wales`, or a state of Germany, such as `de-be`.
        Another name raises `ValueError`, and so do more than 1024 holidays.

        >>> Workdays.of("target").add_workdays(Date(2024, 3, 28), 1)
        Date(2024, 4, 2)
        """
        if check(calendar, str) not in _CALENDARS:
            raise ValueError(f"unknown calendar {calendar!r}; expected {', '.join(_CALENDARS)}")
        return Workdays(holidays=_core.calendar_holidays(_CALENDARS.index(calendar), first, last))

    @property
    def weekdays(self) -> tuple[Weekday, ...]:
        """The working weekdays, from Monday."""
        return tuple(weekday for weekday in Weekday if self._weekmask >> weekday & 1)

    @property
    def holidays(self) -> tuple[Date, ...]:
        """The holidays, in order."""
        return tuple(self._holidays)

    def __eq__(self, other: object) -> bool:
        if not isinstance(other, Workdays):
            return NotImplemented
        return (self._weekmask, self._holidays) == (other._weekmask, other._holidays)

    def __hash__(self) -> int:
        return hash((self._weekmask, self.holidays))

    def __repr__(self) -> str:
        return f"Workdays(weekdays={list(self.weekdays)}, holidays={self._holidays})"

    def __reduce__(self) -> tuple[Any, ...]:
        return Workdays, (self.weekdays, self.holidays)


@functools.cache
def range_of(code: str) -> range:
    """Returns the numbers that the module array has room for by a code."""
    count = 256**array.array(code).itemsize
    return range(-count // 2, count // 2) if code.islower() else range(count)


def _fit(number: SupportsIndex, code: str) -> int:
    number, allowed = operator.index(number), range_of(code)
    if number not in allowed:
        raise OverflowError(f"{number} is out of range; expected {allowed[0]} to {allowed[-1]}")
    return number


def _numbers_of(weekday: Any) -> tuple[int, int]:
    """Returns a weekday of a rule, as C has it: its number, 0 for every one, and the number of the
    weekday from 1."""
    number, day = (None, weekday) if isinstance(weekday, int) else weekday
    if number is not None and operator.index(number) == 0:
        raise ValueError("invalid number 0 of a weekday; "
            "use the Weekday without a number for every one")
    return number or 0, check(day, Weekday) + 1


@dataclasses.dataclass(frozen=True)
class Rule:
    """A recurrence rule in a subset of RFC 5545. An iteration returns its days in order.

    A day is in every n-th day, week, month or year from the start, and in each list that isn't
    empty: `months`, `weeks` and `year_days` of the year, `month_days`, with -1 for the last one,
    and `weekdays`: a `Weekday` or, for the last Friday of the month, `(-1, Weekday.Friday)`.
    `set_positions` select from the days of each period that are in these lists. `dates` (`RDATE`)
    are days too, and `exceptions` (`EXDATE`) aren't. At most 62 values in a list, or 1024 dates.

    >>> last_fridays = Rule(Date(2024, 1, 1), Frequency.Monthly, weekdays=[(-1, Weekday.Friday)])
    >>> last_fridays.first_days(2), last_fridays.next_after(Date(2024, 8, 30))
    ([Date(2024, 1, 26), Date(2024, 2, 23)], Date(2024, 9, 27))
    """

    start: Date
    frequency: Frequency
    interval: int = 1
    week_start: Weekday = Weekday.Monday
    months: Sequence[int] = ()
    month_days: Sequence[int] = ()
    weekdays: Sequence[Weekday | tuple[int, Weekday]] = ()
    until: Date | None = None
    weeks: Sequence[int] = ()
    year_days: Sequence[int] = ()
    set_positions: Sequence[int] = ()
    dates: Sequence[Date] = ()
    exceptions: Sequence[Date] = ()

    def __post_init__(self) -> None:
        for name, values in zip(_LISTS, operator.attrgetter(*_LISTS)(self)):
            if not hasattr(values, "__iter__"):
                raise TypeError(f"expected a list, such as {name}=[{values!r}], not {values!r}")
            vars(self)[name] = tuple(values)
        _core.rule_contains(self._parts, self.start)

    @functools.cached_property
    def _parts(self) -> tuple[Any, ...]:
        """The tuple that to_rule in C takes."""
        lists = {
            **vars(self), "months": [min(max(0, operator.index(one)), 255) for one in self.months],
            "weekdays": [one for weekday in self.weekdays for one in _numbers_of(weekday)]}
        return (
            check(self.start, Date), Date.MAX if self.until is None else check(self.until, Date),
            int(check(self.frequency, Frequency)), _fit(self.interval, "I"),
            check(self.week_start, Weekday),
            *(array.array(code, [check(one, Date).to_julian_day() if code == "i" else
                _fit(one, code) for one in lists[name]]).tobytes()
                if lists[name] else b"" for name, code in _LISTS.items()))

    def next_after(self, date: Date) -> Date | None:
        """Returns the first day of the rule after the day, or `None` if no more follow."""
        return _core.rule_next_after(self._parts, date)

    def previous_before(self, date: Date) -> Date | None:
        """Returns the last day of the rule before the day, or `None` if no such day exists."""
        return _core.rule_previous_before(self._parts, date)

    def days_after(self, date: Date) -> Iterator[Date]:
        """Iterates over the days of the rule after the day, in order."""
        def page(last: Date, length: int, cursor: None) -> tuple[list[Date], None]:
            return _core.rule_days_after(self._parts, last, length), cursor

        return _pages(page, lambda last: last, check(date, Date))

    def first_days(self, count: SupportsIndex) -> list[Date]:
        """Returns the first `count` days of the rule."""
        return list(itertools.islice(self, operator.index(count)))

    def __iter__(self) -> Iterator[Date]:
        return itertools.chain([Date.MIN] if Date.MIN in self else [], self.days_after(Date.MIN))

    def __contains__(self, date: object) -> bool:
        return _is_date(date) and _core.rule_contains(self._parts, date)

    def __reversed__(self) -> Iterator[Date]:
        day = Date.MAX if Date.MAX in self else self.previous_before(Date.MAX)
        while day is not None:
            yield day
            day = self.previous_before(day)


class RecurrenceCursor(NamedTuple):
    """How far a recurrence is counted, for its next page: plain numbers, which you can keep. They
    are the Julian day and the nanoseconds since midnight of the last day or local time that is
    counted, and the maximum number of those after it."""

    date: int
    left: int
    time: int


@dataclasses.dataclass(frozen=True)
class Recurrence:
    """A recurrence as the string of RFC 5545 after `RRULE:`, and its parts.

    `text` has the parts in one order. Recurrences with the same parts are equal. An empty list
    excludes no day. `until` is the last day, `until_moment` the instant of an `UNTIL` that has one,
    such as 19971224T000000Z, and `count` the number of times, if given.

    >>> last_fridays = Recurrence.parse("byday=-1fr;count=3;freq=monthly")
    >>> list(last_fridays.days(Date(2024, 1, 1)))
    [Date(2024, 1, 26), Date(2024, 2, 23), Date(2024, 3, 29)]
    >>> last_fridays, last_fridays.count, last_fridays.weekdays
    (Recurrence(text='FREQ=MONTHLY;COUNT=3;BYDAY=-1FR'), 3, ((-1, Weekday.Friday),))
    """

    text: str
    frequency: Frequency = dataclasses.field(init=False, repr=False, compare=False)
    interval: int = dataclasses.field(init=False, repr=False, compare=False)
    week_start: Weekday = dataclasses.field(init=False, repr=False, compare=False)
    until: Date | None = dataclasses.field(init=False, repr=False, compare=False)
    count: int | None = dataclasses.field(init=False, repr=False, compare=False)
    months: tuple[Month, ...] = dataclasses.field(init=False, repr=False, compare=False)
    weeks: tuple[int, ...] = dataclasses.field(init=False, repr=False, compare=False)
    year_days: tuple[int, ...] = dataclasses.field(init=False, repr=False, compare=False)
    month_days: tuple[int, ...] = dataclasses.field(init=False, repr=False, compare=False)
    weekdays: tuple[Weekday | tuple[int, Weekday], ...] = dataclasses.field(
        init=False, repr=False, compare=False)
    set_positions: tuple[int, ...] = dataclasses.field(init=False, repr=False, compare=False)
    until_moment: OffsetDateTime | None = dataclasses.field(init=False, repr=False, compare=False)

    def __post_init__(self) -> None:
        _, *names = self.__dataclass_fields__
        parts = dict(zip(names, _core.recurrence_parse(self.text)))
        lists = {k: tuple(array.array(_LISTS[k], parts[k])) for k in parts.keys() & _LISTS}
        numbers, text = iter(lists["weekdays"]), _core.recurrence_text(self.text)
        # The parts of C have only the day of such an UNTIL.
        last = re.search("UNTIL=([0-9]{8}T[0-9]{6}Z)", text)
        moment = last and PlainDateTime.strptime(last[1], _UNTIL).assume_utc()
        vars(self).update(
            {**parts, **lists}, text=text, until_moment=moment,
            frequency=Frequency(parts["frequency"]), count=parts["count"] or None,
            months=tuple(map(Month, lists["months"])),
            weekdays=tuple((number, Weekday(day - 1)) if number else Weekday(day - 1)
                for number, day in zip(numbers, numbers)))

    def __str__(self) -> str:
        return self.text

    def __format__(self, specification: str) -> str:
        return format(str(self), specification)

    @classmethod
    def parse(cls, text: str) -> Recurrence:
        """Parses a string, or raises `ParseRuleError`."""
        return cls(text)

    @classmethod
    def from_parts(
        cls, frequency: Frequency, *, interval: int = 1, count: int | None = None,
        until: Date | OffsetDateTime | None = None, bymonth: int | Iterable[int] = (),
        byweekno: int | Iterable[int] = (), byyearday: int | Iterable[int] = (),
        bymonthday: int | Iterable[int] = (),
        byweekday: Weekday | Iterable[Weekday | tuple[int, Weekday]] = (),
        byhour: int | Iterable[int] = (), byminute: int | Iterable[int] = (),
        bysecond: int | Iterable[int] = (), bysetpos: int | Iterable[int] = (),
        wkst: Weekday = Weekday.Monday
    ) -> Recurrence:
        """Creates a recurrence from its parts, with the names of RFC 5545 and of `dateutil`. Raises
        `ParseRuleError` for an invalid value, and for parts that exclude each other.

        >>> print(Recurrence.from_parts(Frequency.Monthly, byweekday=[(-1, Weekday.Friday)]))
        FREQ=MONTHLY;BYDAY=-1FR
        """
        def listed(values: Any, text_of: Callable[[Any], object] = operator.index) -> str:
            values = values if isinstance(values, Iterable) else (values,)
            return ",".join(f"{text_of(value)}" for value in values)

        def weekday_text(weekday: Any) -> str:
            number, day = weekday if isinstance(weekday, tuple) else ("", weekday)
            return f"{number}{check(day, Weekday).name[:2].upper()}"

        parts = {
            "FREQ": check(frequency, Frequency).name.upper(), "INTERVAL": operator.index(interval),
            "COUNT": "" if count is None else operator.index(count),
            "UNTIL": until.to_utc().strftime(_UNTIL) if isinstance(until, OffsetDateTime) else
                "" if until is None else str(check(until, Date)).replace("-", ""),
            "BYMONTH": listed(bymonth), "BYWEEKNO": listed(byweekno),
            "BYYEARDAY": listed(byyearday), "BYMONTHDAY": listed(bymonthday),
            "BYDAY": listed(byweekday, weekday_text), "BYHOUR": listed(byhour),
            "BYMINUTE": listed(byminute), "BYSECOND": listed(bysecond),
            "BYSETPOS": listed(bysetpos), "WKST": weekday_text(check(wkst, Weekday))}
        return cls(";".join(f"{name}={value}" for name, value in parts.items() if value != ""))

    def rule(self, start: Date) -> Rule:
        """Returns the rule from a start, without the number of times."""
        names = Rule.__dataclass_fields__.keys() & vars(self)
        return Rule(start, **{name: vars(self)[name] for name in names})

    def days(self, start: Date) -> Iterator[Date]:
        """Iterates over the days from a start to `COUNT`, `UNTIL` or the end of the range."""
        return self.days_from(start, start)

    def days_from(self, start: Date, date: Date) -> Iterator[Date]:
        """Iterates over the days from a start, without the days before the date."""
        days = functools.partial(_core.recurrence_days, self.text, check(start, Date))
        return _pages(days, Date.next_day, check(date, Date), self.cursor())

    def cursor(self) -> RecurrenceCursor:
        """Returns the cursor for a first page."""
        return RecurrenceCursor(*_core.recurrence_cursor_new(self.text))

    def next_days(self, cursor: RecurrenceCursor, length: int, start: Date,
                  since: Date | None = None) -> tuple[list[Date], RecurrenceCursor]:
        """Returns the first days that a cursor leaves, without those before `since`, and the cursor
        for the next page. A page has at most 4096 days, and fewer than `length` if no more follow.

        >>> daily, start = Recurrence.parse("FREQ=DAILY;COUNT=3"), Date(2024, 2, 28)
        >>> page, cursor = daily.next_days(daily.cursor(), 2, start)
        >>> page, cursor
        ([Date(2024, 2, 28), Date(2024, 2, 29)], RecurrenceCursor(date=2460370, left=1, time=0))
        >>> daily.next_days(cursor, 2, start)[0]
        [Date(2024, 3, 1)]
        """
        low = start if since is None else since
        page, left = _core.recurrence_days(
            self.text, check(start, Date), check(low, Date), length, cursor)
        return page, RecurrenceCursor(*left)

    def next_readings(self, cursor: RecurrenceCursor, length: int, start: PlainDateTime,
                      since: PlainDateTime | None = None, *, dates: _Readings = (),
                      exceptions: _Readings = ()
                      ) -> tuple[list[PlainDateTime], RecurrenceCursor]:
        """Returns the first local times like `readings`, and a cursor that holds what is counted of
        `COUNT`. For the next page pass it, and a nanosecond after the last local time as `since`."""
        first = PlainDateTime.MIN if since is None else check(since, PlainDateTime)
        page, left = self._times(start, dates, exceptions, None)(first, length, cursor)
        return page, RecurrenceCursor(*left)

    def next_moments(self, cursor: RecurrenceCursor, length: int, start: PlainDateTime, zone: Zone,
                     after: OffsetDateTime | None = None, *, dates: _Readings = (),
                     exceptions: _Readings = ()
                     ) -> tuple[list[OffsetDateTime], RecurrenceCursor]:
        """Returns the first date-times like `moments`, but only those after an instant, and a cursor
        that holds what is counted of `COUNT`. For the next page pass it, and the last date-time as
        `after`. The exceptions are local times."""
        times = self._times(start, dates, exceptions, check(zone, Zone)._zone)
        low = _earliest() if after is None else check(after, OffsetDateTime)
        page, left = times(low, length, cursor)
        return page, RecurrenceCursor(*left)

    def readings(self, start: PlainDateTime, since: PlainDateTime | None = None, *,
                 dates: _Readings = (), exceptions: _Readings = ()) -> Iterator[PlainDateTime]:
        """Iterates over the local times from a start to the end, in order, each once, and
        without those before `since`. `dates` (RDATE) are local times too, and `exceptions` (EXDATE)
        aren't. They have the times of `BYHOUR`, `BYMINUTE` and `BYSECOND`, or of the start.

        >>> start = PlainDateTime.parse("1997-09-02T09:00:00")
        >>> list(Recurrence.parse("FREQ=DAILY;BYHOUR=9,17;COUNT=3").readings(start))[1:]
        [PlainDateTime(1997, 9, 2, 17, 0), PlainDateTime(1997, 9, 3, 9, 0)]
        """
        first = PlainDateTime.MIN if since is None else check(since, PlainDateTime)
        times = self._times(start, dates, exceptions, None)
        return _pages(times, lambda last: last.checked_add(_NANOSECOND), first, self.cursor())

    def moments(self, start: PlainDateTime, zone: Zone, since: OffsetDateTime | None = None, *,
                dates: _Readings = (), exceptions: Iterable[PlainDateTime | OffsetDateTime] = ()
                ) -> Iterator[OffsetDateTime]:
        """Iterates over the date-times at which the clocks of a zone show these local times, in order,
        each once, and without those before `since`. A time that the clocks skip or show twice means
        `Local.compatible`. An exception can be an instant."""
        less = [*exceptions]
        instants = [one for one in less if isinstance(one, OffsetDateTime)]
        readings = [one for one in less if not isinstance(one, OffsetDateTime)]
        times = self._times(start, dates, readings, check(zone, Zone)._zone)
        low = _earliest() if since is None else check(since, OffsetDateTime)
        pages = _pages(
            times, lambda last: last, low.checked_sub(_NANOSECOND) or _earliest(), self.cursor())
        return (one for one in pages if one >= low and one not in instants)

    def _times(self, start: PlainDateTime, dates: _Readings, exceptions: _Readings, zone: Any
               ) -> Callable[..., tuple[list[Any], Any]]:
        given = self.text, check(start, PlainDateTime), _packed(dates), _packed(exceptions)
        return functools.partial(_core.recurrence_times, given, zone)
