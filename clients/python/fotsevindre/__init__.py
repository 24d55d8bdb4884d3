"""Dates, times of day, date-times, offsets from UTC, durations, months, weekdays, working days and
recurrences.

The names come from the Rust crate `time`. The results come from a proved library, which is part
of the compiled module `_core`.

    >>> from fotsevindre import Date, SignedDuration
    >>> Date(2024, 2, 29) + SignedDuration(days=366)
    Date(2025, 3, 1)

A component out of range raises `ComponentRange`, and an invalid string `ParseError` or
`ParseRuleError`. If a result is out of range, methods named `checked_*`, and others that say so,
return `None`, and operators and other methods raise `OverflowError`. A value of the wrong type raises
`TypeError`. Ints of any size are safe: none wraps around.

Values are immutable. They compare and hash by their number, date-times at an offset by instant.
`str` returns the string of ISO 8601, and `repr` an expression for the value.
"""

import datetime as _datetime

from . import _core, choices as _choices, errors as _errors
from .enums import Month, Weekday, YearFraction
from .errors import ComponentRange, ContradictionError, EventError, FormatError, NamesError, ParseError, ParseRuleError
from .errors import ParseRuleErrorKind, ZoneError, status_error
from .formats import NamedFormat as _NamedFormat

_core.setup(_datetime.date, _datetime.time, _datetime.datetime, _datetime.timedelta,
    _datetime.tzinfo, _datetime.timezone,
    _core.has_layouts(_datetime.date(2024, 2, 29), _datetime.time(1, 2, 3, 4),
        _datetime.datetime(2024, 2, 29, 1, 2, 3, 4), _datetime.timedelta(-1, 2, 3)), Weekday, _choices.CalendarUnit,
    _choices.RoundingMode, _choices.Convention, _choices.DayCount, YearFraction,
    _NamedFormat, status_error, _errors.format_error, _errors.insufficient_format, ComponentRange, ParseError, _errors.COMPONENTS, *Month, *Weekday)

from . import calls as _calls, members as _members
from ._core import IsoCalendarDate
from .arrow import ArrowColumn
from .calls import *
from .events import Event, Recurrences, fold
from .formats import Format, NamedFormat
from .names import Names
from .schedules import DateRange, Days, Recurrence, RecurrenceCursor, Rule, Steps, Workdays
from .strings import dates_to_strings, instants_to_strings, strings_to_dates, strings_to_instants
from .zones import Local, Zone, ZonedDateTime

__version__ = "0.2.0"

__all__ = [
    "ArrowColumn", "ComponentRange", "ContradictionError", "DateRange", "Days", "Event", "EventError", "Format", "FormatError",
    "IsoCalendarDate", "Local", "Month", "NamedFormat", "Names", "NamesError", "ParseError", "ParseRuleError", "ParseRuleErrorKind", "Recurrence", "RecurrenceCursor", "Recurrences", "Rule", "Steps", "Weekday",
    "Workdays", "YearFraction", "Zone", "ZonedDateTime", "ZoneError", "dates_to_strings", "fold",
    "instants_to_strings", "status_error", "strings_to_dates", "strings_to_instants",
]
# A checker of types reads literals only; a test compares these names with calls.__all__.
__all__ += [
    "Date", "Time", "UtcOffset", "SignedDuration", "Period", "PlainDateTime", "OffsetDateTime",
    "days_in_month", "days_in_year_month", "is_leap_year", "days_in_year", "weeks_in_year", "easter",
    "julian_easter",
    "add_to_pair", "sub_from_pair", "rfc3339_text", "unix_text", "unix_duration", "unix_pair",
    "parse_rfc3339", "parse_unix", "CalendarUnit", "Convention", "DayCount", "Frequency", "LocalKind",
    "RoundingMode", "Policy", "DateColumns", "CalendarDateColumns", "OrdinalDateColumns", "IsoWeekDateColumns",
    "WeekdayColumns", "OffsetColumns", "InstantColumns", "NumberColumns", "MomentColumns",
    "TimeColumns", "PairColumns", "DurationColumns", "TextColumns", "dates_from_julian_days", "dates_from_calendar_dates",
    "dates_from_ordinal_dates", "dates_from_iso_week_dates", "dates_to_calendar_dates",
    "dates_to_ordinal_dates", "dates_to_iso_week_dates", "dates_weekdays",
    "calendar_dates_to_iso_week_dates", "dates_add_days", "dates_add_months", "dates_add_workdays",
    "dates_workdays_between", "dates_parse", "moments_parse", "dates_parse_iso", "moments_parse_iso",
    "dates_calendar_texts", "moments_texts", "times_round", "pairs_round", "durations_parse", "durations_texts",
    "dates_parse_format", "dates_format",
]

# Errors and pickles name the package.
for _name in __all__:
    globals()[_name].__module__ = __name__
