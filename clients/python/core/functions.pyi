# The functions of the module `_core`, as types.pyi has its types. Those with a doc string are
# public, and those of units are members of SignedDuration. An editor takes the names from the imports.
from typing import Any

from .enums import Choice, Month, Weekday
from .formats import Format
from .schedules import Workdays
from .types import Date, Fits, Int, OffsetDateTime, Period, PlainDateTime, SignedDuration, Time
from .types import UtcOffset, _Rule, _Zone

# ---- months, weekdays and years

def days_in_month(month: Int, year: Fits) -> int: "Returns the number of days of a month in a year."
def days_in_year_month(year: Fits, month: Int) -> int: "Returns the days of a year's month."
def is_leap_year(year: Fits) -> bool: "Returns whether the year is a leap year."
def days_in_year(year: Fits) -> int: "Returns the number of days of the year, 365 or 366."
def weeks_in_year(year: Fits) -> int: "Returns the number of ISO weeks of the year, 52 or 53."
def month_nth_next(month: Month, n: Fits) -> Month: ...
def month_nth_prev(month: Month, n: Fits) -> Month: ...
def weekday_nth_next(weekday: Weekday, n: Fits) -> Weekday: ...
def weekday_nth_prev(weekday: Weekday, n: Fits) -> Weekday: ...

# ---- pairs, texts and Unix times

def easter(year: Fits) -> Date:
    """Returns Easter Sunday of a year, as western churches celebrate it, or raises ComponentRange.

    >>> str(easter(2024)), str(julian_easter(2024))
    ('2024-03-31', '2024-05-05')
    """
def julian_easter(year: Fits) -> Date:
    """Returns Easter Sunday of a year of the Julian calendar, as orthodox churches celebrate it, or
    raises ComponentRange."""
def add_to_pair(date: Date, time: Time, duration: SignedDuration) -> tuple[Date, Time] | None:
    "Returns the date and time a duration later, or None out of range."
def sub_from_pair(date: Date, time: Time, duration: SignedDuration) -> tuple[Date, Time] | None:
    "Returns the date and time a duration earlier, or None out of range."
def rfc3339_text(date: Date, time: Time, offset: UtcOffset) -> str | None:
    """Returns the string of RFC 3339 of a date, a time and an offset, or None for a year outside 0
    to 9999, and for an offset with seconds or of 24 hours or more."""
def unix_text(date: Date, time: Time, offset: UtcOffset) -> str:
    "Returns the Unix time of a date, a time and an offset as a string, such as @1709164800.5."
def unix_duration(date: Date, time: Time, offset: UtcOffset) -> SignedDuration:
    "Returns the Unix time of a date, a time and an offset as a duration."
def unix_pair(duration: SignedDuration, offset: UtcOffset) -> tuple[Date, Time] | None:
    "Returns the date and time of a Unix time at an offset, or None out of range."
def parse_rfc3339(text: str) -> tuple[Date, Time, UtcOffset]:
    """Parses a string of RFC 3339 to a date, a time and an offset, or raises ParseError or
    ComponentRange. A second of 60 is rejected."""
def parse_unix(text: str) -> tuple[Date, Time]:
    "Parses a Unix time, such as @1709164800.5, to a date and a time at UTC."

# ---- for the files in Python

def weeks(number: Fits) -> SignedDuration:
    """Creates a duration of weeks of 7 days, from
    -15250284452471 to 15250284452471."""
def days(number: Fits) -> SignedDuration:
    """Creates a duration of days of 24 hours, from
    -106751991167300 to 106751991167300."""
def hours(number: Fits) -> SignedDuration:
    """Creates a duration of hours, from -2562047788015215 to
    2562047788015215."""
def minutes(number: Fits) -> SignedDuration:
    """Creates a duration of minutes, from -153722867280912930 to
    153722867280912930."""
def seconds(number: Fits) -> SignedDuration:
    "Creates a duration of seconds, in 64 bits."
def milliseconds(number: Fits) -> SignedDuration:
    "Creates a duration of milliseconds, in 64 bits."
def microseconds(number: Fits) -> SignedDuration:
    "Creates a duration of microseconds, in 64 bits."
def nanoseconds(number: Fits) -> SignedDuration:
    "Creates a duration of nanoseconds, in 64 bits."
def component_text(status: Fits, value: Int, year: Int, month: Int) -> str: ...
def parse_error_text(status: Fits, text: str) -> str: ...
def format_error_text(status: Fits, text: str, format: str | Format, pivot: Fits) -> str: ...
def setup(*types: Any) -> None: ...
def has_layouts(*values: Any) -> bool: ...
def unit(make: Any, place: int) -> Any: ...
def now() -> SignedDuration: ...
def local_now() -> PlainDateTime: ...
def make_time(nanoseconds: Fits) -> Time: ...
def make_plain(julian_day: Fits, nanoseconds: Fits) -> PlainDateTime: ...
def make_moment(julian_day: Fits, nanoseconds: Fits, seconds: Fits) -> OffsetDateTime: ...
def make_duration(seconds: Fits, nanoseconds: Fits) -> SignedDuration: ...
def rule_next_after(rule: _Rule, date: Date) -> Date | None: ...
def rule_previous_before(rule: _Rule, date: Date) -> Date | None: ...
def rule_contains(rule: _Rule, date: Date) -> bool: ...
def rule_days_after(rule: _Rule, date: Date, length: int) -> list[Date]: ...
def calendar_holidays(calendar: int, first: Date, last: Date) -> list[Date]: ...
def rules_holidays(rules: str, first: Date, last: Date) -> list[Date]: ...
def date_range_contains(start: Date, end: Date, date: Date) -> bool: ...
def date_range_length(start: Date, end: Date) -> int: ...
def date_range_overlaps(start: Date, end: Date, first: Date, last: Date) -> bool: ...
def date_range_intersection(start: Date, end: Date, first: Date, last: Date
                            ) -> tuple[Date, Date] | None: ...
def date_range_share(start: Date, end: Date, first: Date, last: Date) -> tuple[int, int]: ...
def date_interval_parse(text: str) -> tuple[Date, Date]: ...
def pair_interval_parse(text: str) -> tuple[PlainDateTime, PlainDateTime]: ...
def repeated_dates_parse(text: str) -> tuple[Date, Period, int]: ...
def repeated_pairs_parse(text: str) -> tuple[PlainDateTime, Period, int]: ...
def recurrence_parse(text: str) -> tuple[Any, ...]: ...
def recurrence_text(text: str) -> str: ...
def recurrence_cursor_new(text: str) -> tuple[Any, ...]: ...
def recurrence_days(text: str, start: Date, date: Date, length: int, cursor: tuple[Any, ...]
                    ) -> tuple[list[Date], tuple[Any, ...]]: ...
def recurrence_times(given: tuple[Any, ...], zone: Any, first: Any, length: int,
                     cursor: tuple[Any, ...]) -> tuple[list[Any], tuple[Any, ...]]: ...
def event_lines(text: bytes) -> list[bytes]: ...
def fold(text: bytes) -> bytes: ...
def event_value(lines: bytes, name: bytes | None) -> bytes | None: ...
def event_start(lines: bytes) -> Date | PlainDateTime | OffsetDateTime: ...
def event_recurrence_lines(lines: bytes) -> bytes: ...
def event_days(lines: bytes, date: Date, length: int) -> list[Date]: ...
def event_times(lines: bytes, zone: Any, first: Any, length: int) -> list[Any]: ...
def zone_new(data: bytes, is_posix: bool) -> _Zone: ...
def zone_offset(zone: _Zone, seconds: int) -> UtcOffset: ...
def zone_local_type(zone: _Zone, seconds: int) -> tuple[UtcOffset, bool, int, int]: ...
def zone_next_change(zone: _Zone, seconds: int) -> int | None: ...
def zone_previous_change(zone: _Zone, seconds: int) -> int | None: ...
def moment_in_zone(moment: OffsetDateTime, zone: _Zone) -> OffsetDateTime: ...
def moment_format_in_zone(moment: OffsetDateTime, zone: _Zone, format: str | Format) -> str: ...
def zone_resolve(zone: _Zone, plain: PlainDateTime) -> tuple[int, int, int, UtcOffset,
                 UtcOffset]: ...
def zone_moment(zone: _Zone, plain: PlainDateTime, policy: int) -> OffsetDateTime: ...
def zoned_at(zone: _Zone, unix_time: SignedDuration) -> OffsetDateTime: ...
def zoned_from_local(zone: _Zone, plain: PlainDateTime, policy: int) -> OffsetDateTime: ...
def zoned_with_local(zone: _Zone, moment: OffsetDateTime, date: Date, time: Time,
                     policy: int) -> OffsetDateTime: ...
def zoned_add(zone: _Zone, moment: OffsetDateTime, duration: SignedDuration) -> OffsetDateTime: ...
def zoned_sub(zone: _Zone, moment: OffsetDateTime, duration: SignedDuration) -> OffsetDateTime: ...
def zoned_checked_add(zone: _Zone, moment: OffsetDateTime,
                      duration: SignedDuration) -> OffsetDateTime | None: ...
def zoned_checked_sub(zone: _Zone, moment: OffsetDateTime,
                      duration: SignedDuration) -> OffsetDateTime | None: ...
def zoned_add_period(zone: _Zone, moment: OffsetDateTime, period: Period,
                     policy: int) -> OffsetDateTime: ...
def zoned_checked_add_period(zone: _Zone, moment: OffsetDateTime, period: Period,
                             policy: int) -> OffsetDateTime | None: ...
def zoned_nth_period(zone: _Zone, moment: OffsetDateTime, period: Period, n: Int,
                     policy: int) -> OffsetDateTime: ...
def zoned_period_until(zone: _Zone, moment: OffsetDateTime, other: OffsetDateTime, unit: CalendarUnit,
                       policy: int) -> Period: ...
def zoned_moved_to(zone: _Zone, moment: OffsetDateTime, date: Date, policy: int) -> OffsetDateTime: ...
def zoned_round(zone: _Zone, moment: OffsetDateTime, unit: SignedDuration, mode: RoundingMode
                ) -> OffsetDateTime: ...
def zoned_start_of(zone: _Zone, moment: OffsetDateTime, unit: CalendarUnit) -> OffsetDateTime: ...
def zoned_end_of(zone: _Zone, moment: OffsetDateTime, unit: CalendarUnit) -> OffsetDateTime: ...
def zoned_start_of_day(zone: _Zone, date: Date) -> OffsetDateTime: ...
def zoned_day_length(zone: _Zone, date: Date) -> SignedDuration: ...
def format_new(text: str, is_description: bool) -> bytes: ...
def names_of_language(code: str) -> bytes: ...
def names_check(named: bytes) -> tuple[int, int, int, int, int]: ...
def days_later(times: Any, made: Any, statuses: Any, days: Any, are_times: bool,
               are_made_times: bool) -> int | None: ...
def join_strings(rows: Any, is_missing: Any) -> tuple[bytes, bytes, list[int]]: ...
def arrow_read(given: Any) -> tuple[str, list[tuple[Any, ...]]]: ...
def arrow_schema(format: str) -> Any: ...
def arrow_array(*given: Any) -> Any: ...
def over_columns(name: str, columns: tuple[Any, ...], extra: Any) -> int: ...

# ---- choices, with the names and numbers of fotsevindre.h

class CalendarUnit(Choice): "A unit of the calendar. A week is from Monday to Sunday."
class Convention(Choice):
    "How a day moves to a working day, with the names of the ISDA Definitions."
class DayCount(Choice):
    "How the days of interest are counted, by the names of the 2006 ISDA Definitions."
class Frequency(Choice): "The unit of the interval of a rule."
class LocalKind(Choice): "How often the clocks of a zone show a local time: once, never or twice."
class RoundingMode(Choice):
    """How to round to a multiple: down, up, toward zero, or to the nearest one, of two to the greater
    or to the even one."""
class Policy(Choice):
    """How to take a local time in a gap or a fold. In a gap, `Compatible` and `Later` move it forward
    by the length of the gap, and `Earlier` back. In a fold, `Compatible` and `Earlier` mean the
    first. `Reject` means neither."""

# ---- columns, which columns.py prepares. A class has the columns that a function writes. The functions
# have the arguments of fotsevindre.h.

class DateColumns: "Julian days in 32 bits, or `datetime64[D]` if the dates were."
class CalendarDateColumns: "Years in 32 bits, and months and days in 8."
class OrdinalDateColumns: "Years in 32 bits, and ordinals in 16."
class IsoWeekDateColumns: "ISO years in 32 bits, and weeks and weekdays from Monday, 0, in 8."
class WeekdayColumns: "Weekdays from Monday, 0, in 8 bits; 255 in a row without one."
class OffsetColumns: "Seconds of offsets in 32 bits."
class InstantColumns:
    """Unix times in 64 bits, or `datetime64[s]` if the times were `datetime64`; -2**63 or `NaT` in a
    row without one."""
class NumberColumns: "Numbers in 32 bits; -2147483648 in a row without one."
class MomentColumns:
    "Julian days in 32 bits, nanoseconds since midnight in 64, and seconds of offsets in 32."
class TimeColumns: "Nanoseconds since midnight in 64 bits; 2**64 - 1 in a row without a time."
class PairColumns: "Julian days in 32 bits, and nanoseconds since midnight in 64."
class DurationColumns:
    "Seconds in 64 bits, and nanoseconds in 32; -2**63 and -2147483648 in a row without a duration."
class TextColumns:
    """The bytes of strings, one after another, and their bounds, one more than rows: a string is
    `texts[bounds[k]:bounds[k + 1]]`, and has no bytes in a row without one."""

def dates_from_julian_days(julian_days: object) -> DateColumns:
    """Creates the dates of Julian days.

    >>> tuple(dates_from_julian_days([2451545, 366963560]))
    (array('i', [2451545, -2147483648]), array('B', [0, 18]), 1)
    """
def dates_from_calendar_dates(years: object, months: object, days: object) -> DateColumns:
    "Creates the dates of years, months and days."
def dates_from_ordinal_dates(years: object, ordinals: object) -> DateColumns:
    "Creates the dates of years and ordinals."
def dates_from_iso_week_dates(years: object, weeks: object, weekdays: object) -> DateColumns:
    "Creates the dates of ISO years, weeks and weekdays."
def dates_to_calendar_dates(dates: object) -> CalendarDateColumns:
    "Returns the years, months and days of dates."
def dates_to_ordinal_dates(dates: object) -> OrdinalDateColumns:
    "Returns the years and ordinals of dates."
def dates_to_iso_week_dates(dates: object) -> IsoWeekDateColumns:
    "Returns the ISO years, weeks and weekdays."
def dates_weekdays(dates: object) -> WeekdayColumns:
    "Returns the weekdays of dates, from Monday, 0."
def calendar_dates_to_iso_week_dates(years: object, months: object,
                                     days: object) -> IsoWeekDateColumns:
    "Converts years, months and days."
def dates_add_days(dates: object, days: object) -> DateColumns:
    "Returns the dates some days later."
def dates_add_months(dates: object, months: object) -> DateColumns:
    "Returns the dates like `Date.checked_add_months`."
def dates_add_workdays(dates: object, days: object, workdays: Workdays) -> DateColumns:
    "Returns the dates like `Workdays.checked_add_workdays`."
def dates_workdays_between(dates: object, others: object, workdays: Workdays) -> NumberColumns:
    """Counts the days like `Workdays.workdays_between`.

    >>> tuple(dates_workdays_between([Date(2000, 1, 1)], Date(2001, 1, 1), Workdays()))
    (array('i', [260]), array('B', [0]), 0)
    """
def dates_parse(texts: object, bounds: object) -> DateColumns:
    """Parses strings in a buffer of bytes like `Date.parse`.

    String k is the bytes from bound k to bound k + 1.

    >>> tuple(dates_parse(b"2024-02-292024-0602024-02-30", [0, 10, 18, 28]))
    (array('i', [2460370, 2460370, -2147483648]), array('B', [0, 0, 64]), 1)
    """
def moments_parse(texts: object, bounds: object) -> MomentColumns:
    "Parses such strings like `parse_rfc3339`."
def dates_parse_iso(texts: object, bounds: object) -> DateColumns:
    """Parses strings in a buffer of bytes like `Date.parse_iso`.

    >>> tuple(dates_parse_iso(b"202402292024-W09", [0, 8, 16]))
    (array('i', [2460370, 2460367]), array('B', [0, 0]), 0)
    """
def moments_parse_iso(texts: object, bounds: object) -> MomentColumns:
    "Parses strings in a buffer of bytes like `OffsetDateTime.parse_iso`."
def dates_calendar_texts(dates: object) -> TextColumns:
    """Returns the calendar dates of dates, one after another.

    >>> tuple(dates_calendar_texts([Date(2024, 2, 29)]))
    (b'2024-02-29', array('i', [0, 10]), array('B', [0]), 0)
    """
def moments_texts(dates: object, times: object, offsets: object) -> TextColumns:
    """Returns the strings of RFC 3339, one after another.

    The times are nanoseconds since midnight, and the offsets seconds."""
def times_round(times: object, unit: SignedDuration, mode: RoundingMode) -> TimeColumns:
    """Rounds times of day, in nanoseconds since midnight, like `Time.round`.

    >>> tuple(times_round([32_850_000_000_000], SignedDuration(minutes=15), RoundingMode.HalfCeil))
    (array('Q', [33300000000000]), array('B', [0]), 0)
    """
def pairs_round(dates: object, times: object, unit: SignedDuration,
                mode: RoundingMode) -> PairColumns:
    "Rounds dates and times of day like `PlainDateTime.round`."
def durations_parse(texts: object, bounds: object) -> DurationColumns:
    """Parses strings in a buffer of bytes like `SignedDuration.parse`.

    >>> tuple(durations_parse(b"PT1H30MPT0.5S", [0, 7, 13]))
    (array('q', [5400, 0]), array('i', [0, 500000000]), array('B', [0, 0]), 0)
    """
def durations_texts(seconds: object, nanoseconds: object) -> TextColumns:
    """Returns the strings of durations, one after another, like `str`.

    The durations are seconds and nanoseconds, which don't differ in sign."""
def dates_parse_format(texts: object, bounds: object, format: str | Format) -> DateColumns:
    "Parses strings in a buffer of bytes like `Date.strptime`."
def dates_format(dates: object, format: str | Format) -> TextColumns:
    """Returns the strings of dates by a format, one after another.

    >>> tuple(dates_format([Date(2024, 2, 29)], "%A"))
    (b'Thursday', array('i', [0, 8]), array('B', [0]), 0)
    """
def _zone_offsets(seconds: object, zone: _Zone) -> OffsetColumns: ...
def _zone_instants(readings: object, zone: _Zone) -> InstantColumns: ...
def _zoned_add_days(seconds: object, days: object, zone: _Zone) -> InstantColumns: ...
def _zoned_add_months(seconds: object, months: object, zone: _Zone) -> InstantColumns: ...
def _zoned_starts_of_day(seconds: object, zone: _Zone) -> InstantColumns: ...
