# The types of the module `_core`. From this stub tools/python_members writes their code in C and
# their doc strings, and the members in Python, which have code below their doc string. The order of
# the types is that of `State` in core.c.
import datetime
import functools
import operator
from datetime import timedelta
from typing import Any, Callable, ClassVar, Iterable, Iterator, SupportsIndex, Tuple, final
from typing import overload

from _typeshed import structseq
from typing_extensions import Self

from . import _core
from .choices import CalendarUnit, Convention, DayCount, RoundingMode
from .conversions import instant_of, parts_of, pydantic_schema, value_of
from .enums import Month, Weekday, YearFraction
from .errors import check
from .formats import Format, NamedFormat
from .schedules import Days
from .zones import Zone

# An int. One that doesn't fit the parameter in C becomes the nearest number, or one that the call
# rejects by its name. One that must fit raises OverflowError.
Int = SupportsIndex
Fits = SupportsIndex
# The tuple that to_rule in C takes, and the capsule that to_zone takes.
_Rule = tuple[Any, ...]
_Zone = Any

class IsoCalendarDate(structseq[int], Tuple[int, int, int]):
    "An ISO week date, whose weekday is from 1 (Monday) to 7 (Sunday)."
    @property
    def year(self) -> int: "The ISO year."
    @property
    def week(self) -> int: "The week from 1 to 53."
    @property
    def weekday(self) -> int: "The weekday from 1 (Monday) to 7."

class _Text:
    def __str__(self) -> str: ...
    def isoformat(self) -> str: "Returns the string of ISO 8601, like str."
    def __copy__(self) -> Self: ...
    def __deepcopy__(self, memo: Any) -> Self: ...

    def __format__(self, specification: str) -> str:
        "Formats by a format, which has a percent sign, or else the string of the value."
        if "%" in specification and hasattr(self, "strftime"):
            return self.strftime(specification)
        return format(str(self), specification)

    @classmethod
    def __get_pydantic_core_schema__(cls, source: Any, handler: Any) -> Any:
        "Returns how Pydantic 2 reads and writes the type: as the string of `isoformat`."
        return pydantic_schema(cls)
    @classmethod
    def __get_validators__(cls) -> Iterator[Callable[[Any], Any]]:
        "Returns the function by which Pydantic 1 reads the type."
        return iter([lambda value: value_of(cls, value)])

class _Value(_Text):
    def __lt__(self, other: Self) -> bool: ...
    def __le__(self, other: Self) -> bool: ...
    def __gt__(self, other: Self) -> bool: ...
    def __ge__(self, other: Self) -> bool: ...
    def __hash__(self) -> int: ...
    def __repr__(self) -> str: ...
    def __reduce__(self) -> tuple[Any, ...]: ...
    def __reduce_ex__(self, protocol: Any) -> tuple[Any, ...]: ...

class _Moved:
    def checked_add(self, duration: SignedDuration) -> Self | None:
        "Returns the value plus a duration, or None out of range."
    def checked_sub(self, duration: SignedDuration) -> Self | None:
        "Returns the value minus a duration, or None out of range."
    def saturating_add(self, duration: SignedDuration) -> Self:
        "Returns the value plus a duration, or the nearest end of the range."
    def saturating_sub(self, duration: SignedDuration) -> Self:
        "Returns the value minus a duration, or the nearest end of the range."

class _Formatted:
    def strftime(self, format: str | Format | NamedFormat) -> str:
        """Returns the string by a format, or raises ValueError if that shows more than the value
        has, such as `%Z`, which `Zone.strftime` prints."""
    @classmethod
    def strptime(cls, text: str, format: str | Format | NamedFormat) -> Self:
        """Parses the string of a value by a format, and no other string, or raises ParseError,
        ComponentRange or ContradictionError; ValueError if the strings of the format don't
        determine such a value."""

class _DateParts:
    def __radd__(self, other: timedelta) -> Self: ...
    @property
    def year(self) -> int: "The year, from -999999 to 999999."
    @property
    def month(self) -> Month: "The Month."
    @property
    def day(self) -> int: "The day of the month, from 1 to 31."
    @property
    def ordinal(self) -> int: "The day of the year, from 1 to 366."
    @property
    def iso_week(self) -> int: "The week of the ISO week date, from 1 to 53."
    @property
    def sunday_based_week(self) -> int: "The Sundays of the year up to the day, 0 to 53."
    @property
    def monday_based_week(self) -> int: "The Mondays of the year up to the day, 0 to 53."
    def weekday(self) -> Weekday: "Returns the Weekday."
    def isoweekday(self) -> int: "Returns the number of the weekday, from 1 (Monday) to 7 (Sunday)."
    def isocalendar(self) -> IsoCalendarDate:
        "Returns ISO year, week and weekday, from 1 (Monday) to 7 (Sunday)."
    def to_calendar_date(self) -> tuple[int, Month, int]:
        "Returns the year, the Month and the day of the month."
    def to_ordinal_date(self) -> tuple[int, int]: "Returns the year and the ordinal."
    def to_iso_week_date(self) -> tuple[int, int, Weekday]: "Returns ISO year, week and Weekday."
    def to_julian_day(self) -> int: "Returns the Julian day."
    def replace_year(self, number: Int) -> Self: "Replaces the year."
    def replace_month(self, number: Int) -> Self: "Replaces the month."
    def replace_day(self, number: Int) -> Self: "Replaces the day."
    def replace_ordinal(self, number: Int) -> Self: "Replaces the ordinal."

class _Shifted:
    @overload
    def __add__(self, other: SignedDuration | timedelta) -> Self: ...
    @overload
    def __add__(self, other: Period) -> Self: ...
    @overload
    def __sub__(self, other: Self) -> SignedDuration: ...
    @overload
    def __sub__(self, other: SignedDuration | timedelta | Period) -> Self: ...
    def checked_add_period(self, period: Period) -> Self | None:
        "Returns the value plus a Period like +, or None out of range."

class _MonthMoves:
    def checked_add_months(self, number: Int) -> Self | None:
        "Adds months, and takes the last day of a shorter month; returns None out of range."
    def checked_add_years(self, number: Int) -> Self | None:
        "Adds years, and takes the last day of a shorter month; returns None out of range."
    def add_months(self, number: Int) -> Self:
        "Adds months, and takes the last day of a shorter month; OverflowError out of range."
    def add_years(self, number: Int) -> Self:
        "Adds years, and takes the last day of a shorter month; OverflowError out of range."

class _TimeParts:
    @property
    def hour(self) -> int: "The hour, from 0 to 23."
    @property
    def minute(self) -> int: "The minute of the hour, from 0 to 59."
    @property
    def second(self) -> int: "The second of the minute, from 0 to 59."
    @property
    def millisecond(self) -> int: "The whole milliseconds of the second, from 0 to 999."
    @property
    def microsecond(self) -> int: "The whole microseconds of the second, from 0 to 999999."
    @property
    def nanosecond(self) -> int: "The nanoseconds of the second, from 0 to 999999999."
    def as_hms(self) -> tuple[int, int, int]: "Returns the hour, minute and second."
    def as_hms_milli(self) -> tuple[int, int, int, int]:
        "Returns the hour, minute, second and millisecond."
    def as_hms_micro(self) -> tuple[int, int, int, int]:
        "Returns the hour, minute, second and microsecond."
    def as_hms_nano(self) -> tuple[int, int, int, int]:
        "Returns the hour, minute, second and nanosecond."
    def replace_hour(self, number: Int) -> Self: "Replaces the hour."
    def replace_minute(self, number: Int) -> Self: "Replaces the minute."
    def replace_second(self, number: Int) -> Self: "Replaces the second."
    def replace_millisecond(self, number: Int) -> Self:
        "Replaces all below the second by milliseconds."
    def replace_microsecond(self, number: Int) -> Self:
        "Replaces all below the second by microseconds."
    def replace_nanosecond(self, number: Int) -> Self:
        "Replaces all below the second by nanoseconds."
    def truncate_to_hour(self) -> Self:
        "Sets all below the hour to zero."
    def truncate_to_minute(self) -> Self:
        "Sets all below the minute to zero."
    def truncate_to_second(self) -> Self:
        "Sets all below the second to zero."
    def truncate_to_millisecond(self) -> Self:
        "Sets all below the millisecond to zero."
    def truncate_to_microsecond(self) -> Self:
        "Sets all below the microsecond to zero."

class Date(_Value, _DateParts, _MonthMoves, _Shifted, _Moved, _Formatted):
    """Date(year, month, day): a day of the proleptic Gregorian calendar, from MIN, -999999-01-01,
    to MAX, 999999-12-31.

    + and - with a SignedDuration, and methods that add one, move by its whole days; with a timedelta
    they take only whole days. + with a Period takes none with a duration. Dates have a
    SignedDuration between them.
    """
    MIN: ClassVar[Date] = Date(-999999, 1, 1)
    MAX: ClassVar[Date] = Date(999999, 12, 31)
    def __new__(cls, year: Int, month: Int, day: Int) -> Date: ...
    @classmethod
    def from_calendar_date(cls, year: Int, month: Int, day: Int) -> Date:
        "Creates the date of a year, a Month or its number, and a day of the month."
    @classmethod
    def from_ordinal_date(cls, year: Int, ordinal: Int) -> Date:
        "Creates a date of a year and ordinal."
    @classmethod
    def from_iso_week_date(cls, year: Int, week: Int, weekday: Weekday) -> Date:
        "Creates the date of an ISO year, a week and a Weekday."
    @classmethod
    def from_julian_day(cls, julian_day: Int) -> Date:
        "Creates the date with a Julian day: 2451545 is 2000-01-01."
    @classmethod
    def nth_weekday_of_month(cls, year: Int, month: Int, weekday: Weekday, n: Int) -> Date:
        "Returns the n-th day, from 1, with a Weekday in a year and month."
    @classmethod
    def last_weekday_of_month(cls, year: Int, month: Int, weekday: Weekday) -> Date:
        "Returns the last day with a Weekday in a year and month."
    @classmethod
    def parse(cls, text: str) -> Date:
        "Parses 2024-02-29, 2024-060 or 2024-W09-4, or raises ParseError or ComponentRange."
    @classmethod
    def parse_iso(cls, text: str) -> Date:
        "Parses a date in all formats of ISO 8601, such as 20240229, 2024060 and 2024-W09."
    @classmethod
    def fromisoformat(cls, text: str) -> Date:
        "Parses 2024-02-29, 2024-060 or 2024-W09-4, or raises ParseError or ComponentRange."
    @classmethod
    def parse_julian_day(cls, text: str) -> Date: "Parses a Julian day, such as J2460370."
    @property
    def quarter(self) -> int: "The quarter of the year, from 1 to 4."
    def calendar_text(self) -> str: "Returns the date, such as 2024-02-29, like str."
    def ordinal_text(self) -> str: "Returns the ordinal date, such as 2024-060."
    def week_text(self) -> str: "Returns the week date, such as 2024-W09-4."
    def julian_text(self) -> str: "Returns the Julian day, such as J2460370."
    def next_day(self) -> Date | None: "Returns the next day, None after MAX."
    def previous_day(self) -> Date | None: "Returns the previous day, None before MIN."
    def next_occurrence(self, weekday: Weekday) -> Date:
        "Returns the first day after this one with a Weekday, else OverflowError."
    def prev_occurrence(self, weekday: Weekday) -> Date:
        "Returns the last day before this one with a Weekday, else OverflowError."
    def checked_next_occurrence(self, weekday: Weekday) -> Date | None:
        "Returns the first day after this one with a Weekday, or None."
    def checked_prev_occurrence(self, weekday: Weekday) -> Date | None:
        "Returns the last day before this one with a Weekday, or None."
    def nth_next_occurrence(self, weekday: Weekday, n: Int) -> Date:
        "Returns the n-th day after this one with a Weekday, n from 1 to 255."
    def nth_prev_occurrence(self, weekday: Weekday, n: Int) -> Date:
        "Returns the n-th day before this one with a Weekday, n from 1 to 255."
    def checked_nth_next_occurrence(self, weekday: Weekday, n: Int) -> Date | None:
        "Returns the same, or None out of range and for 0."
    def checked_nth_prev_occurrence(self, weekday: Weekday, n: Int) -> Date | None:
        "Returns the same, or None out of range and for 0."
    def replace(
            self, *, year: Int | None = None, month: Int | None = None,
            day: Int | None = None) -> Date:
        "Replaces the components that are given by name: year, month, day."
    def saturating_add_months(self, number: Int) -> Date:
        "Adds months like add_months, or returns the nearest end of the range."
    def months_until(self, other: Date) -> int:
        "Returns the whole months to the other day, such as an age; negative if that is earlier."
    def years_until(self, other: Date) -> int:
        "Returns the whole years to the other day, such as an age; negative if that is earlier."
    def period_until(self, other: Date) -> Period: "Returns years, months and days to another day."
    def period_until_by(self, other: Date, unit: CalendarUnit) -> Period:
        """Returns the period to another day with a CalendarUnit as its largest part: days, weeks
        and days, months and days, or years, months and days."""
    def nth_period(self, period: Period, n: Int) -> Date:
        """Returns the date n times a Period later, counted from this date, so that nothing drifts:
        with a month 31 January leads to 29 February and 31 March. OverflowError out of range."""
    def step_of(self, period: Period, date: Date) -> int | None:
        """Returns the greatest n for which nth_period isn't after a date, or None if the date is
        earlier than this one, or if the period has a duration or isn't positive."""
    def day_count(self, other: Date, convention: DayCount) -> YearFraction:
        "Returns the fraction of a year to the other day by a DayCount."
    def first_of_month(self) -> Date: "Returns the first day of the month."
    def first_of_quarter(self) -> Date: "Returns the first day of the quarter."
    def first_of_year(self) -> Date: "Returns the first day of the year."
    def last_of_month(self) -> Date: "Returns the last day of the month."
    def last_of_quarter(self) -> Date: "Returns the last day of the quarter."
    def last_of_year(self) -> Date: "Returns the last day of the year."
    def first_of_iso_week(self) -> Date: "Returns the Monday of the ISO week."
    def last_of_iso_week(self) -> Date | None: "Returns the Sunday of the ISO week, None past MAX."
    def on_or_after(self, weekday: Weekday) -> Date | None:
        "Returns the first day from this one on with a Weekday, or None."
    def on_or_before(self, weekday: Weekday) -> Date | None:
        "Returns the last day up to this one with a Weekday, or None."
    @staticmethod
    def today(zone: Zone | None = None) -> Date:
        "Returns the current date by the clocks of a zone, or by the system's local clock."
        return PlainDateTime.now(zone).date()
    def iter_to(self, end: Date) -> Days:
        """Returns the days from this one to `end`, both included, as a sequence; none if this one
        is later."""
        return Days(range(self.to_julian_day(), check(end, Date).to_julian_day() + 1))

    @classmethod
    def from_date(cls, date: datetime.date) -> Date:
        "Converts a `datetime.date`. Of a `datetime.datetime`, take its `date()`."
    def to_date(self) -> datetime.date:
        "Converts to a `datetime.date`, which has the years 1 to 9999, or raises `OverflowError`."

class Time(_Value, _TimeParts, _Formatted):
    """Time(hour=0, minute=0, second=0, *, nanosecond=0): a time of day, from MIDNIGHT to MAX,
    23:59:59.999999999.

    + and - with a SignedDuration wrap around midnight; times have a SignedDuration between them.
    """
    MIDNIGHT: ClassVar[Time] = Time(0, 0, 0, nanosecond=0)
    MAX: ClassVar[Time] = Time(23, 59, 59, nanosecond=999999999)
    def __new__(
        cls, hour: Int = 0, minute: Int = 0, second: Int = 0, *, nanosecond: Int = 0) -> Time: ...
    def __add__(self, other: SignedDuration) -> Time: ...
    @overload
    def __sub__(self, other: Time) -> SignedDuration: ...
    @overload
    def __sub__(self, other: SignedDuration) -> Time: ...
    @classmethod
    def from_hms(cls, hour: Int, minute: Int, second: Int) -> Time:
        "Creates the time of an hour, a minute and a second."
    @classmethod
    def from_hms_milli(cls, hour: Int, minute: Int, second: Int, millisecond: Int) -> Time:
        "Creates the time of an hour, a minute, a second and milliseconds."
    @classmethod
    def from_hms_micro(cls, hour: Int, minute: Int, second: Int, microsecond: Int) -> Time:
        "Creates the time of an hour, a minute, a second and microseconds."
    @classmethod
    def from_hms_nano(cls, hour: Int, minute: Int, second: Int, nanosecond: Int) -> Time:
        "Creates the time of an hour, a minute, a second and nanoseconds."
    @classmethod
    def parse(cls, text: str) -> Time:
        """Parses a time, such as 9:05, 09:05:00 or 9:05:00.25, or raises ParseError or
        ComponentRange."""
    @classmethod
    def parse_iso(cls, text: str) -> Time:
        "Parses a time of day in all formats of ISO 8601, such as T225959,5, 2259 and 22."
    @classmethod
    def fromisoformat(cls, text: str) -> Time:
        """Parses a time, such as 9:05, 09:05:00 or 9:05:00.25, or raises ParseError or
        ComponentRange."""
    def replace(
            self, *, hour: Int | None = None, minute: Int | None = None, second: Int | None = None,
            nanosecond: Int | None = None) -> Time:
        "Replaces the components that are given by name: hour, minute, second, nanosecond."
    def round(self, unit: SignedDuration, mode: RoundingMode = RoundingMode.HalfCeil) -> Time:
        """Rounds to a multiple of a unit that divides the day, counted from midnight; 24:00 is 0:00.
        ValueError for another unit."""
    def duration_until(self, other: Time) -> SignedDuration:
        "Returns the duration forward to the other time, below 24 hours."
    def duration_since(self, other: Time) -> SignedDuration:
        "Returns the duration forward from the other time, below 24 hours."
    def adjusting_add(self, duration: SignedDuration) -> tuple[int, Time]:
        """Returns a carry of -1, 0 or 1 days beyond whole days, and the time a duration
        later."""
    def adjusting_sub(self, duration: SignedDuration) -> tuple[int, Time]:
        """Returns a carry of -1, 0 or 1 days beyond whole days, and the time a duration
        earlier."""
    @classmethod
    def from_time(cls, time: datetime.time) -> Time:
        "Converts a `datetime.time` without a time zone, or raises `ValueError`."
    def to_time(self) -> datetime.time:
        "Converts to a `datetime.time`, or raises `ValueError` for nanoseconds."

class UtcOffset(_Value, _Formatted):
    """UtcOffset(hours=0, minutes=0, seconds=0): an offset from UTC, from -25:59:59 to +25:59:59,
    positive to the east."""
    UTC: ClassVar[UtcOffset] = UtcOffset()
    def __new__(cls, hours: Int = 0, minutes: Int = 0, seconds: Int = 0) -> UtcOffset: ...
    def __neg__(self) -> UtcOffset: ...
    @classmethod
    def from_hms(cls, hours: Int, minutes: Int, seconds: Int) -> UtcOffset:
        """Creates the offset of hours, minutes and seconds. The first one that isn't zero gives
        the sign of all."""
    @classmethod
    def from_whole_seconds(cls, seconds: Int) -> UtcOffset:
        "Creates the offset of seconds, from -93599 to 93599."
    @classmethod
    def parse(cls, text: str) -> UtcOffset:
        "Parses an offset, such as Z, +01:00 or -05:30:00, or raises ParseError or ComponentRange."
    @classmethod
    def fromisoformat(cls, text: str) -> UtcOffset:
        "Parses an offset, such as Z, +01:00 or -05:30:00, or raises ParseError or ComponentRange."
    def as_hms(self) -> tuple[int, int, int]: "Returns hours, minutes and seconds, with one sign."
    def whole_hours(self) -> int: "Returns the whole hours, truncated toward zero."
    def whole_minutes(self) -> int: "Returns the whole minutes, truncated toward zero."
    def whole_seconds(self) -> int: "Returns the whole seconds, truncated toward zero."
    def minutes_past_hour(self) -> int:
        "Returns the minutes past the whole hours, from -59 to 59."
    def seconds_past_minute(self) -> int:
        "Returns the seconds past the whole minutes, from -59 to 59."
    def is_utc(self) -> bool: "Returns whether it is 0."
    def is_positive(self) -> bool: "Returns whether it is positive."
    def is_negative(self) -> bool: "Returns whether it is negative."
    def to_timezone(self) -> datetime.timezone:
        "Converts to a `datetime.timezone`, or raises `ValueError` from 24 hours on."
    @classmethod
    def from_timezone(cls, timezone: datetime.timezone) -> UtcOffset:
        "Converts a `datetime.timezone`, or raises `ValueError` for parts of a second."

class _Unit:
    def __get__(self, instance: None, owner: Any) -> Callable[[SupportsIndex], SignedDuration]: ...

class _Part:
    @overload
    def __get__(self, instance: None, owner: Any) -> Callable[[SupportsIndex], SignedDuration]: ...
    @overload
    def __get__(self, instance: SignedDuration, owner: Any) -> int: ...

class SignedDuration(_Value, _Moved):
    """SignedDuration(*, weeks, days, hours, minutes, seconds, milliseconds, microseconds,
    nanoseconds): a signed length of time.

    It has whole seconds in 64 bits and nanoseconds, and is exact. * and / take an int of 32 bits.
    /, // and % also take a duration: its whole number of times is an int, and / a float.
    """
    weeks: ClassVar[_Unit]
    hours: ClassVar[_Unit]
    minutes: ClassVar[_Unit]
    milliseconds: ClassVar[_Unit]
    days: ClassVar[_Part]
    seconds: ClassVar[_Part]
    microseconds: ClassVar[_Part]
    nanoseconds: ClassVar[_Part]
    ZERO: ClassVar[SignedDuration] = SignedDuration(nanoseconds=0)
    NANOSECOND: ClassVar[SignedDuration] = SignedDuration(nanoseconds=1)
    MICROSECOND: ClassVar[SignedDuration] = SignedDuration(microseconds=1)
    MILLISECOND: ClassVar[SignedDuration] = SignedDuration(milliseconds=1)
    SECOND: ClassVar[SignedDuration] = SignedDuration(seconds=1)
    MINUTE: ClassVar[SignedDuration] = SignedDuration(minutes=1)
    HOUR: ClassVar[SignedDuration] = SignedDuration(hours=1)
    DAY: ClassVar[SignedDuration] = SignedDuration(days=1)
    WEEK: ClassVar[SignedDuration] = SignedDuration(weeks=1)
    MIN: ClassVar[SignedDuration] = SignedDuration.new(-2**63, -999999999)
    MAX: ClassVar[SignedDuration] = SignedDuration.new(2**63 - 1, 999999999)

    def __new__(cls, *, weeks: Fits = 0, days: Fits = 0, hours: Fits = 0, minutes: Fits = 0,
                seconds: Fits = 0, milliseconds: Fits = 0, microseconds: Fits = 0,
                nanoseconds: Fits = 0) -> SignedDuration: ...

    def __add__(self, other: SignedDuration) -> SignedDuration: ...
    def __sub__(self, other: SignedDuration) -> SignedDuration: ...
    def __mul__(self, other: SupportsIndex) -> SignedDuration: ...
    def __rmul__(self, other: SupportsIndex) -> SignedDuration: ...
    @overload
    def __truediv__(self, other: SupportsIndex) -> SignedDuration: ...
    @overload
    def __truediv__(self, other: SignedDuration) -> float: ...
    def __floordiv__(self, other: SignedDuration) -> int: ...
    def __mod__(self, other: SignedDuration) -> SignedDuration: ...
    def __neg__(self) -> SignedDuration: ...
    def __abs__(self) -> SignedDuration: ...
    def __bool__(self) -> bool: ...
    @classmethod
    def new(cls, seconds: Fits, nanoseconds: Fits) -> SignedDuration:
        "Creates the sum of seconds, in 64 bits, and nanoseconds, in 32 bits."
    def is_zero(self) -> bool: "Returns whether the duration is zero."
    def is_negative(self) -> bool: "Returns whether the duration is negative."
    def is_positive(self) -> bool: "Returns whether the duration is positive."
    def whole_weeks(self) -> int:
        "Returns the whole weeks, truncated toward zero."
    def whole_days(self) -> int:
        "Returns the whole days, truncated toward zero."
    def whole_hours(self) -> int:
        "Returns the whole hours, truncated toward zero."
    def whole_minutes(self) -> int:
        "Returns the whole minutes, truncated toward zero."
    def whole_seconds(self) -> int:
        "Returns the whole seconds, truncated toward zero."
    def subsec_milliseconds(self) -> int:
        """Returns the milliseconds below the second, from
        -999 to 999."""
    def subsec_microseconds(self) -> int:
        """Returns the microseconds below the second, from
        -999999 to 999999."""
    def subsec_nanoseconds(self) -> int:
        """Returns the nanoseconds below the second, from
        -999999999 to 999999999."""
    @classmethod
    def parse(cls, text: str) -> SignedDuration:
        """Parses hours, minutes and seconds of ISO 8601, such as PT2H30M0.5S or -PT36H, or raises
        ParseError or ComponentRange. P1D isn't a duration."""
    @classmethod
    def fromisoformat(cls, text: str) -> SignedDuration:
        """Parses hours, minutes and seconds of ISO 8601, such as PT2H30M0.5S or -PT36H, or raises
        ParseError or ComponentRange. P1D isn't a duration."""
    def round(self, unit: SignedDuration, mode: RoundingMode = RoundingMode.HalfCeil) -> SignedDuration:
        """Rounds to a multiple of a positive unit. ValueError for another unit, and OverflowError out
        of range."""
    def abs(self) -> SignedDuration: "Returns the absolute value, at most MAX."
    def checked_neg(self) -> SignedDuration | None:
        "Returns the duration with the other sign, or None out of range."
    def checked_mul(self, number: Fits) -> SignedDuration | None:
        "Returns the product with an int of 32 bits, or None out of range."
    def checked_div(self, number: Fits) -> SignedDuration | None:
        "Returns the quotient truncated toward zero, or None for 0 and out of range."
    def saturating_mul(self, number: Fits) -> SignedDuration:
        "Returns the product with an int of 32 bits, or the nearest limit."
    def whole_nanoseconds(self) -> int: "Returns the whole nanoseconds, as an int of any size."
    def total_seconds(self) -> float: "Returns the nearest float to the seconds."
    def whole_microseconds(self) -> int:
        "Returns the whole microseconds, truncated toward zero, as an int of any size."
        return self.whole_seconds() * 10**6 + self.subsec_microseconds()
    def whole_milliseconds(self) -> int:
        "Returns the whole milliseconds, truncated toward zero, as an int of any size."
        return self.whole_seconds() * 10**3 + self.subsec_milliseconds()
    def unsigned_abs(self) -> tuple[int, int]:
        "Returns the seconds and nanoseconds of the absolute value, as ints of any size."
        return abs(self.whole_seconds()), abs(self.subsec_nanoseconds())

    @staticmethod
    def nanoseconds_i128(nanoseconds: Int) -> SignedDuration:
        "Creates a duration of nanoseconds, from `MIN` to `MAX`."
        sign = -1 if operator.index(nanoseconds) < 0 else 1
        seconds, rest = divmod(abs(operator.index(nanoseconds)), 10**9)
        return SignedDuration.new(sign * seconds, sign * rest)

    @staticmethod
    def try_sum(durations: Iterable[SignedDuration]) -> SignedDuration | None:
        "Returns the sum, `ZERO` of none, or `None` if a sum of the first ones is out of range."
        total = SignedDuration.ZERO
        for duration in durations:
            found = total.checked_add(duration)
            if found is None:
                return None
            total = found
        return total

    @classmethod
    def from_timedelta(cls, delta: datetime.timedelta) -> SignedDuration:
        "Converts a `datetime.timedelta`, exactly."
    def to_timedelta(self) -> datetime.timedelta:
        """Converts to a `datetime.timedelta`. Raises `OverflowError` out of its range, and
        `ValueError` for nanoseconds."""

class Period(_Text):
    """Period(*, years, months, weeks, days, duration): how much later something is by the calendar
    and by the clock.

    No part is negative if another one is positive. A date moves by the years and months first, and
    then by the weeks and days. 12 months aren't equal to a year.
    """

    def __new__(cls, *, years: Fits = 0, months: Fits = 0, weeks: Fits = 0, days: Fits = 0,
                duration: SignedDuration = SignedDuration()) -> Period: ...

    def __eq__(self, other: object) -> bool: ...
    def __hash__(self) -> int: ...
    def __neg__(self) -> Period: ...
    @classmethod
    def parse(cls, text: str) -> Period:
        """Parses a period of ISO 8601, such as P1Y2M10DT2H30M or -P2W, or raises ParseError or
        ComponentRange."""
    @classmethod
    def fromisoformat(cls, text: str) -> Period:
        """Parses a period of ISO 8601, such as P1Y2M10DT2H30M or -P2W, or raises ParseError or
        ComponentRange."""
    @property
    def years(self) -> int: "The years, in 32 bits."
    @property
    def months(self) -> int: "The months, in 32 bits."
    @property
    def weeks(self) -> int: "The weeks, in 32 bits."
    @property
    def days(self) -> int: "The days, in 32 bits."
    @property
    def duration(self) -> SignedDuration: "The exact duration."
    def __repr__(self) -> str:
        return f"Period({', '.join(f'{name}={part!r}' for name, part in parts_of(self).items())})"
    def __reduce__(self) -> tuple[Any, ...]:
        return functools.partial(Period, **parts_of(self)), ()

class _DateTime(_Value, _DateParts, _MonthMoves, _TimeParts, _Moved, _Formatted):
    def date(self) -> Date: "Returns the date."
    def time(self) -> Time: "Returns the time of day."
    def replace_date(self, date: Date) -> Self: "Replaces the date."
    def replace_time(self, time: Time) -> Self: "Replaces the time of day."

    def to_datetime(self) -> datetime.datetime:
        """Converts to a `datetime.datetime`, with the `datetime.timezone` of the offset if there is
        one; errors like `Date.to_date`, `Time.to_time` and `UtcOffset.to_timezone`."""

class PlainDateTime(_DateTime, _Shifted):
    """PlainDateTime(date, time), or PlainDateTime(year, month, day, hour=0, minute=0, second=0, *,
    nanosecond=0): a date and a time of day, from MIN to MAX.

    + and - with a SignedDuration or a timedelta are exact, and with a Period move the date and then
    by its duration; date-times have a SignedDuration between them.
    """
    MIN: ClassVar[PlainDateTime] = PlainDateTime(Date.MIN, Time.MIDNIGHT)
    MAX: ClassVar[PlainDateTime] = PlainDateTime(Date.MAX, Time.MAX)
    @overload
    def __new__(cls, date: Date, time: Time) -> PlainDateTime: ...
    @overload
    def __new__(
        cls, year: Int, month: Int, day: Int, hour: Int = 0, minute: Int = 0, second: Int = 0, *,
        nanosecond: Int = 0) -> PlainDateTime: ...
    @classmethod
    def new(cls, date: Date, time: Time) -> PlainDateTime:
        "Creates the date-time of a date and a time."
    @classmethod
    def combine(cls, date: Date, time: Time) -> PlainDateTime:
        "Creates the date-time of a date and a time."
    def replace(
            self, *, year: Int | None = None, month: Int | None = None, day: Int | None = None,
            hour: Int | None = None, minute: Int | None = None, second: Int | None = None,
            nanosecond: Int | None = None) -> PlainDateTime:
        "Replaces the components that are given by name."
    @staticmethod
    def now(zone: Zone | None = None) -> PlainDateTime:
        """Returns the current date and time by the clocks of a zone, or by the system's local
        clock."""
        if zone is None:
            return _core.local_now()
        return OffsetDateTime.now().in_zone(zone).local()
    @classmethod
    def parse(cls, text: str) -> PlainDateTime:
        """Parses a date, T or a space, and a time, such as 2024-02-29T23:59:59.25; errors like
        Date.parse and Time.parse."""
    @staticmethod
    def parse_interval(text: str) -> tuple[PlainDateTime, PlainDateTime]:
        """Parses an interval of ISO 8601, such as 2024-01-01T08:00/PT90M, and returns its ends; errors
        like DateRange.parse."""
        return _core.pair_interval_parse(text)
    @classmethod
    def parse_iso(cls, text: str) -> PlainDateTime:
        "Parses a date-time in all formats of ISO 8601, such as 20240229T2259; a date is its midnight."
    @classmethod
    def fromisoformat(cls, text: str) -> PlainDateTime:
        """Parses a date, T or a space, and a time, such as 2024-02-29T23:59:59.25; errors like
        Date.parse and Time.parse."""
    def round(self, unit: SignedDuration, mode: RoundingMode = RoundingMode.HalfCeil) -> PlainDateTime:
        """Rounds the time of day like `Time.round`, where 24:00 is the next date; OverflowError out of
        range."""
    def nth_period(self, period: Period, n: Int) -> PlainDateTime:
        "Returns the date-time n times a Period later, like `Date.nth_period`."
    def step_of(self, period: Period, plain: PlainDateTime) -> int | None:
        "Returns the greatest n for which nth_period isn't after a date-time, like `Date.step_of`."
    def period_until(self, other: PlainDateTime) -> Period:
        """Returns years, months and days, and the exact rest below a day, to another date-time. Added
        to this one, the period gives the other."""
    def period_until_by(self, other: PlainDateTime, unit: CalendarUnit) -> Period:
        "Returns the same with a CalendarUnit as the largest part, like `Date.period_until_by`."
    def assume_utc(self) -> OffsetDateTime: "Returns the same date and time at UTC."
    def assume_offset(self, offset: UtcOffset) -> OffsetDateTime:
        "Returns the same date and time at an offset."

    @classmethod
    def from_datetime(cls, value: datetime.datetime) -> PlainDateTime:
        "Converts a `datetime.datetime` without a time zone, or raises `ValueError`."

class OffsetDateTime(_DateTime):
    """OffsetDateTime(date, time, offset), or OffsetDateTime(year, month, day, hour=0, minute=0,
    second=0, *, nanosecond=0, offset): a date and a time of day at an offset from UTC.

    Values compare and hash by instant, regardless of offset. + and - with a SignedDuration or a
    timedelta keep the offset.
    """
    UNIX_EPOCH: ClassVar[OffsetDateTime] = OffsetDateTime(Date(1970, 1, 1), Time(), UtcOffset())
    @overload
    def __new__(cls, date: Date, time: Time, offset: UtcOffset) -> OffsetDateTime: ...
    @overload
    def __new__(
        cls, year: Int, month: Int, day: Int, hour: Int = 0, minute: Int = 0, second: Int = 0, *,
        nanosecond: Int = 0, offset: UtcOffset) -> OffsetDateTime: ...
    def replace(
            self, *, year: Int | None = None, month: Int | None = None, day: Int | None = None,
            hour: Int | None = None, minute: Int | None = None, second: Int | None = None,
            nanosecond: Int | None = None, offset: UtcOffset | None = None) -> OffsetDateTime:
        "Replaces the components that are given by name."
    @classmethod
    def now(cls, offset: UtcOffset = UtcOffset()) -> OffsetDateTime:
        "Returns the current date and time at an offset, at UTC by default."
    def timestamp(self) -> float: "Returns the nearest float to the Unix time in seconds."
    @staticmethod
    def fromtimestamp(timestamp: float, offset: UtcOffset = UtcOffset()) -> OffsetDateTime:
        """Creates the date-time of a Unix time in seconds at an offset, UTC by default. A float is
        rounded to microseconds, as in `datetime`."""
        return OffsetDateTime.from_unix_duration(instant_of(timestamp)).to_offset(offset)
    def __add__(self, other: SignedDuration | timedelta) -> OffsetDateTime: ...
    @overload
    def __sub__(self, other: OffsetDateTime
                ) -> SignedDuration: ...
    @overload
    def __sub__(self, other: SignedDuration | timedelta
                ) -> OffsetDateTime: ...
    @property
    def offset(self) -> UtcOffset: "The offset from UTC."
    @classmethod
    def new_in_offset(cls, date: Date, time: Time, offset: UtcOffset) -> OffsetDateTime:
        "Creates the date-time of a date, a time of day and an offset."
    @classmethod
    def combine(cls, date: Date, time: Time, offset: UtcOffset) -> OffsetDateTime:
        "Creates the date-time of a date, a time of day and an offset."
    @classmethod
    def new_utc(cls, date: Date, time: Time) -> OffsetDateTime:
        "Creates the date-time of a date and a time of day at UTC."
    @classmethod
    def parse(cls, text: str) -> OffsetDateTime:
        """Parses a date-time and an offset, such as 2024-02-29T23:59:59.25+01:00; a space may come
        before the offset."""
    @classmethod
    def parse_iso(cls, text: str) -> OffsetDateTime:
        "Parses a date-time and an offset in all formats of ISO 8601, such as 20240229T2259+01."
    @classmethod
    def fromisoformat(cls, text: str) -> OffsetDateTime:
        """Parses a date-time and an offset, such as 2024-02-29T23:59:59.25+01:00; a space may come
        before the offset."""
    @classmethod
    def from_unix_timestamp(cls, seconds: Int) -> OffsetDateTime:
        "Creates the date-time at UTC of a Unix time in seconds."
    @classmethod
    def from_unix_duration(cls, duration: SignedDuration) -> OffsetDateTime:
        "Creates the date-time at UTC of a Unix time."
    def round(self, unit: SignedDuration, mode: RoundingMode = RoundingMode.HalfCeil) -> OffsetDateTime:
        "Rounds the time of day like `PlainDateTime.round`, at the same offset."
    def to_offset(self, offset: UtcOffset) -> OffsetDateTime:
        "Returns the same instant at another offset, or raises OverflowError."
    def checked_to_offset(self, offset: UtcOffset) -> OffsetDateTime | None:
        "Returns the same instant at another offset, or None out of range."
    def to_utc(self) -> OffsetDateTime:
        "Returns the same instant at UTC, or raises OverflowError."
    def checked_to_utc(self) -> OffsetDateTime | None:
        "Returns the same instant at UTC, or None out of range."
    def replace_offset(self, offset: UtcOffset) -> OffsetDateTime:
        "Returns the same date and time at another offset, which is another instant."
    def replace_date_time(self, date_time: PlainDateTime) -> OffsetDateTime:
        "Returns another date and time at the same offset."
        return check(date_time, PlainDateTime).assume_offset(self.offset)
    def local(self) -> PlainDateTime: "Returns the date and time without the offset."
    def unix_timestamp(self) -> int: "Returns the Unix time in whole seconds, rounded down."
    def unix_duration(self) -> SignedDuration: "Returns the Unix time as a duration."
    def unix_timestamp_nanos(self) -> int:
        "Returns the Unix time in nanoseconds, as an int of any size."
        return self.unix_duration().whole_nanoseconds()
    def in_zone(self, zone: Zone) -> OffsetDateTime:
        "Returns the same instant in a time zone, or raises `OverflowError`."
        return check(zone, Zone).in_zone(self)

    @classmethod
    def from_datetime(cls, value: datetime.datetime) -> OffsetDateTime:
        "Converts a `datetime.datetime` with an offset of whole seconds, or raises `ValueError`."

    @staticmethod
    def from_unix_timestamp_nanos(timestamp: Int) -> OffsetDateTime:
        "Creates the date-time at UTC of Unix nanoseconds, or raises ComponentRange as timestamp."
        seconds, rest = divmod(operator.index(timestamp), 10**9)
        seconds = max(-2**62, min(seconds, 2**62))
        return OffsetDateTime.from_unix_duration(SignedDuration.new(seconds, rest))

class Workdays:
    def __new__(cls, weekmask: int, holidays: bytes) -> Self: ...
    @property
    def _weekmask(self) -> int: "A bit for each working weekday, from Monday."
    @property
    def _holidays(self) -> list[Date]: "The holidays, in order."
    def is_workday(self, date: Date) -> bool: "Returns whether the day is a working day."
    def next_workday(self, date: Date) -> Date | None:
        "Returns the first working day after the day, or None out of range."
    def previous_workday(self, date: Date) -> Date | None:
        "Returns the last working day before the day, or None out of range."
    def add_workdays(self, date: Date, days: Int) -> Date:
        "Returns the n-th working day after the day, or before it; for 0 the first from the day on."
    def checked_add_workdays(self, date: Date, days: Int) -> Date | None:
        "Returns the same, or None out of range."
    def workdays_between(self, start: Date, end: Date) -> int:
        """Returns the number of working days from the earlier day on, without the later; negative
        if the other day is earlier."""
    def adjust(self, date: Date, convention: Convention) -> Date | None:
        "Returns the working day that the day moves to by a Convention, or None out of range."
