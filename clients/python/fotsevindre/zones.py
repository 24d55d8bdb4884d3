"""Time zones."""

from __future__ import annotations

import contextlib
import dataclasses
import datetime
import functools
import importlib.resources
import operator
import os
import pathlib
import re
import zoneinfo
from typing import TYPE_CHECKING, Any, SupportsIndex, overload

# The file calls.py imports this one, so only calls use its names.
from . import _core, calls
from ._core import Date, IsoCalendarDate, OffsetDateTime, Period, PlainDateTime, SignedDuration
from ._core import Time, UtcOffset
from .choices import CalendarUnit, LocalKind, Policy, RoundingMode
from .conversions import instant_of
from .enums import Month, Weekday
from .errors import ParseError, ZoneError, check
from .formats import Format

# The names of files that the folder of the zones has, and the bytes that a file has at most, as in
# fotsevindre_zones.h.
_KEY = re.compile("[A-Za-z][A-Za-z0-9_+/-]*")
_MAX_BYTES = 65536
# Sets the attributes of a frozen value at once.
_set = object.__setattr__


@dataclasses.dataclass(frozen=True)
class Local:
    """The instants at which the clocks of a zone show a local time, which `Zone.resolve` returns.

    `offset_before` and `offset_after` are the offsets before and after the gap or the fold, and the
    same without one. `instants` are exactly the Unix times at which clocks show it.
    """

    reading: PlainDateTime
    kind: LocalKind
    instants: tuple[int, ...]
    offset_before: UtcOffset
    offset_after: UtcOffset
    _zone: Any = dataclasses.field(repr=False, compare=False)

    def compatible(self) -> OffsetDateTime:
        """Returns the date-time that RFC 5545 and most calendars mean: in a gap the local time moved
        forward by its length, in a fold the first. `OverflowError` if it is out of range."""
        return self._by(Policy.Compatible)

    def earlier(self) -> OffsetDateTime:
        """Returns the first date-time, in a gap the local time moved back by its length."""
        return self._by(Policy.Earlier)

    def later(self) -> OffsetDateTime:
        """Returns the second date-time, in a gap the local time moved forward by its length."""
        return self._by(Policy.Later)

    def reject(self) -> OffsetDateTime | None:
        """Returns the date-time if clocks show the local time once, else `None`."""
        return self._by(Policy.Reject) if self.kind is LocalKind.Single else None

    def _by(self, policy: Policy) -> OffsetDateTime:
        """Returns the date-time that a policy selects."""
        return _core.zone_moment(self._zone, self.reading, policy)


_KINDS = (LocalKind.Single, *LocalKind)


def _seconds(moment: OffsetDateTime | SupportsIndex) -> int:
    """Returns the Unix time of an instant in seconds."""
    if isinstance(moment, OffsetDateTime):
        return moment.unix_timestamp()
    return operator.index(moment)


def _read(path: Any) -> bytes | None:
    """Returns the bytes of a regular file, or `None`. A pipe would wait."""
    with contextlib.suppress(OSError):
        if path.is_file():
            return bytes(path.read_bytes())
    return None


def _file_of(key: str) -> bytes:
    """Returns the bytes of the file of a zone, from the system or the package tzdata."""
    if not _KEY.fullmatch(key):
        raise LookupError(f"invalid name of a time zone: {key!r}")
    data = _read(pathlib.Path(os.environ.get("TZDIR") or "/usr/share/zoneinfo", key))
    if data is None:
        with contextlib.suppress(ImportError):
            data = _read(importlib.resources.files("tzdata.zoneinfo").joinpath(*key.split("/")))
    if data is None:
        raise LookupError(f"no time zone {key!r}")
    if len(data) > _MAX_BYTES:
        raise LookupError(f"the file of the time zone {key!r} has more than {_MAX_BYTES} bytes")
    return data


@dataclasses.dataclass(frozen=True, init=False, repr=False)
class Zone:
    """Zone(key): a time zone of the IANA database, such as `Europe/Berlin`.

    Its file comes from the folder in the environment variable TZDIR or from /usr/share/zoneinfo,
    else from the package `tzdata`, if it is installed. It is read once: the same key gives the same
    object until `clear_cache`. `LookupError` if a regular file of at most 65536 bytes isn't there, and
    `ZoneError` if it isn't valid. An instant is an `OffsetDateTime` or Unix seconds.
    `key` is the name of the zone, or its POSIX string.

    >>> berlin = Zone.from_posix("CET-1CEST,M3.5.0,M10.5.0/3")
    >>> OffsetDateTime.from_unix_timestamp(1711846800).in_zone(berlin)
    OffsetDateTime(2024, 3, 31, 3, 0, offset=UtcOffset(2))
    >>> berlin.resolve(PlainDateTime.parse("2024-03-31T02:30:00")).compatible()
    OffsetDateTime(2024, 3, 31, 3, 30, offset=UtcOffset(2))
    """

    key: str
    _data: bytes
    _is_posix: bool
    _zone: Any = dataclasses.field(compare=False)

    def __new__(cls, key: str) -> Zone:
        """Returns the zone of a key, which is read once."""
        return cls._of(check(key, str), _file_of(key), False)

    @staticmethod
    def clear_cache() -> None:
        """Forgets the zones that were read, so that `Zone(key)` reads their files again."""
        Zone.__new__.cache_clear()  # type: ignore[attr-defined]

    @classmethod
    def _of(cls, key: str, data: bytes, is_posix: bool) -> Zone:
        try:
            zone = _core.zone_new(data, is_posix)
        except ParseError as error:
            raise ZoneError(error.position, "unexpected end") from None
        made = object.__new__(cls)
        vars(made).update(key=key, _data=data, _is_posix=is_posix, _zone=zone)
        return made

    def __eq__(self, other: object) -> bool:
        if isinstance(other, datetime.tzinfo):
            raise TypeError(f"can't compare Zone with {type(other).__name__}; compare with Zone(key)")
        return isinstance(other, Zone) and (self.key, self._data, self._is_posix) == (other.key, other._data, other._is_posix)

    @classmethod
    def from_file(cls, data: bytes, key: str = "") -> Zone:
        """Creates the zone of the bytes of a TZif file, or raises `ZoneError`."""
        return cls._of(key, bytes(memoryview(data)), False)

    @classmethod
    def from_posix(cls, text: str) -> Zone:
        """Creates the zone of a POSIX string, such as CET-1CEST,M3.5.0,M10.5.0/3."""
        return cls._of(text, text.encode("utf-8", "surrogatepass"), True)

    def offset_at(self, moment: OffsetDateTime | SupportsIndex) -> UtcOffset:
        """Returns the offset at an instant."""
        return _core.zone_offset(self._zone, _seconds(moment))

    def is_daylight_at(self, moment: OffsetDateTime | SupportsIndex) -> bool:
        """Returns whether an instant is in daylight saving time."""
        return _core.zone_local_type(self._zone, _seconds(moment))[1]

    def abbreviation_at(self, moment: OffsetDateTime | SupportsIndex) -> str:
        """Returns the abbreviation at an instant, such as CEST."""
        _, _, start, length = _core.zone_local_type(self._zone, _seconds(moment))
        return self._data[start:start + length].decode()

    def next_change(self, moment: OffsetDateTime | SupportsIndex) -> int | None:
        """Returns the Unix time of the first change after an instant, or `None`."""
        return _core.zone_next_change(self._zone, _seconds(moment))

    def previous_change(self, moment: OffsetDateTime | SupportsIndex) -> int | None:
        """Returns the Unix time of the last change that isn't after an instant, or `None`."""
        return _core.zone_previous_change(self._zone, _seconds(moment))

    def resolve(self, reading: PlainDateTime) -> Local:
        """Returns exactly the instants at which the clocks show a local time."""
        kind, earlier, later, before, after = _core.zone_resolve(self._zone, reading)
        instants = ((earlier,), (), (earlier, later))[kind - 1]
        made = Local.__new__(Local)
        _set(made, "__dict__", {
            "reading": reading, "kind": _KINDS[kind], "instants": instants, "offset_before": before,
            "offset_after": after, "_zone": self._zone})
        return made

    def in_zone(self, moment: OffsetDateTime) -> OffsetDateTime:
        """Returns the same instant in this zone, like `OffsetDateTime.in_zone`."""
        return _core.moment_in_zone(moment, self._zone)

    def start_of_day(self, date: Date) -> ZonedDateTime:
        """Returns the first instant at which the clocks have reached midnight of a date, or raises
        `OverflowError`."""
        return ZonedDateTime._at(_core.zoned_start_of_day(self._zone, date), self)

    def day_length(self, date: Date) -> SignedDuration:
        """Returns the duration from the start of a day to the start of the next day, or raises
        `OverflowError`."""
        return _core.zoned_day_length(self._zone, date)

    def strftime(self, moment: OffsetDateTime, format: str | Format) -> str:
        """Returns the string of the same instant in this zone by a format, with the
        abbreviation for `%Z`, and raises the errors of `in_zone` and of `OffsetDateTime.strftime`."""
        return _core.moment_format_in_zone(moment, self._zone, format)

    def offsets(self, seconds: Any) -> calls.OffsetColumns:
        """Returns the offsets at a column of Unix times, in seconds or `datetime64`."""
        if hasattr(seconds, "dtype") and (seconds != seconds).any():
            raise ValueError("expected a time in each row, not NaT; drop or mask these rows")
        return calls._zone_offsets(seconds, self._zone)

    def instants(self, readings: Any, policy: Policy = Policy.Compatible) -> calls.InstantColumns:
        """Returns the Unix times of a column of local times, which are the seconds by the clock since
        1970-01-01 0:00, or `datetime64`, by a policy."""
        return calls._zone_instants(readings, self._by(policy))

    def add_days(
            self, seconds: Any, days: Any, policy: Policy = Policy.Compatible) -> calls.InstantColumns:
        """Returns the Unix times some days after a column of Unix times, in seconds or
        `datetime64`, with the same time of day by the clocks and by a policy."""
        return calls._zoned_add_days(seconds, days, self._by(policy))

    def add_months(
            self, seconds: Any, months: Any,
            policy: Policy = Policy.Compatible) -> calls.InstantColumns:
        """Returns the Unix times some months later, like `add_days`."""
        return calls._zoned_add_months(seconds, months, self._by(policy))

    def starts_of_day(self, seconds: Any) -> calls.InstantColumns:
        """Returns the Unix times of the starts of the days that the clocks show at a column of Unix
        times, in seconds or `datetime64`."""
        return calls._zoned_starts_of_day(seconds, self._zone)

    def _by(self, policy: Policy) -> tuple[Any, int]:
        return self._zone, int(check(policy, Policy))

    def __str__(self) -> str:
        return self.key

    def __repr__(self) -> str:
        maker = ".from_posix" if self._is_posix else ""
        return f"Zone{maker}({self.key!r})"

    def __reduce__(self) -> tuple[Any, ...]:
        if self._is_posix:
            return type(self).from_posix, (self.key,)
        return type(self).from_file, (self._data, self.key)


# The cache is around the function itself, which takes less time than a call of another one.
setattr(Zone, "__new__", staticmethod(functools.cache(Zone.__new__)))


def _part(name: str) -> Any:
    """Returns a property with a component of what the clocks show."""
    return property(operator.attrgetter(f"_moment.{name}"))


@dataclasses.dataclass(frozen=True, init=False, repr=False, eq=False)
class ZonedDateTime:
    """ZonedDateTime(moment, zone): the instant of an `OffsetDateTime` in a time zone, with the date
    and the time of day that the clocks show then.

    Values compare and hash by instant, regardless of zone, and equal an `OffsetDateTime` of the same
    instant. + and - with a `SignedDuration` or a `timedelta` move the instant, and + with a `Period`
    like `add_period`. If what the clocks show is out of range, methods raise `OverflowError`, and by
    `Policy.Reject` they raise `ValueError` in a gap and in a fold.

    >>> berlin = Zone.from_posix("CET-1CEST,M3.5.0,M10.5.0/3")
    >>> noon = ZonedDateTime.from_local(PlainDateTime.parse("2024-03-30T12:00"), berlin)
    >>> str(noon + Period(days=1)), str(noon + SignedDuration(days=1))
    ('2024-03-31T12:00:00+02:00', '2024-03-31T13:00:00+02:00')
    """

    zone: Zone
    _moment: OffsetDateTime

    if TYPE_CHECKING:
        @property
        def year(self) -> int: ...
        @property
        def month(self) -> Month: ...
        @property
        def day(self) -> int: ...
        @property
        def hour(self) -> int: ...
        @property
        def minute(self) -> int: ...
        @property
        def second(self) -> int: ...
        @property
        def microsecond(self) -> int: ...
        @property
        def nanosecond(self) -> int: ...
        @property
        def offset(self) -> UtcOffset: ...

    if not TYPE_CHECKING:
        year, month, day, hour = map(_part, ("year", "month", "day", "hour"))
        minute, second, microsecond = map(_part, ("minute", "second", "microsecond"))
        nanosecond, offset = map(_part, ("nanosecond", "offset"))

    def __init__(self, moment: OffsetDateTime, zone: Zone) -> None:
        moment = check(zone, Zone).in_zone(moment)
        _set(self, "__dict__", {"zone": zone, "_moment": moment})

    @classmethod
    def _at(cls, moment: OffsetDateTime, zone: Zone) -> ZonedDateTime:
        """Returns a value of a moment with the offset of the zone."""
        made = cls.__new__(cls)
        _set(made, "__dict__", {"zone": zone, "_moment": moment})
        return made

    @classmethod
    def from_local(cls, reading: PlainDateTime, zone: Zone,
                   policy: Policy = Policy.Compatible) -> ZonedDateTime:
        """Creates the date-time that a local time means by a policy."""
        number = check(policy, Policy)
        return cls._at(_core.zoned_from_local(check(zone, Zone)._zone, reading, number), zone)

    @classmethod
    def from_unix_duration(cls, duration: SignedDuration, zone: Zone) -> ZonedDateTime:
        """Creates the date-time of a Unix time."""
        return cls._at(_core.zoned_at(check(zone, Zone)._zone, duration), zone)

    @classmethod
    def from_unix_timestamp(cls, seconds: SupportsIndex, zone: Zone) -> ZonedDateTime:
        """Creates the date-time of a Unix time in seconds."""
        return cls.from_unix_duration(SignedDuration.new(seconds, 0), zone)

    @classmethod
    def from_unix_timestamp_nanos(cls, timestamp: SupportsIndex, zone: Zone) -> ZonedDateTime:
        """Creates the date-time of a Unix time in nanoseconds."""
        return cls.from_unix_duration(SignedDuration.nanoseconds_i128(timestamp), zone)

    @classmethod
    def now(cls, zone: Zone) -> ZonedDateTime:
        """Returns the current date-time in a zone."""
        return cls.from_unix_duration(_core.now(), zone)

    @classmethod
    def fromtimestamp(cls, timestamp: float, zone: Zone) -> ZonedDateTime:
        """Creates the date-time of a Unix time in seconds, like `OffsetDateTime.fromtimestamp`."""
        return cls.from_unix_duration(instant_of(timestamp), zone)

    @classmethod
    def from_datetime(cls, value: datetime.datetime) -> ZonedDateTime:
        """Converts the instant of a `datetime.datetime` with a `zoneinfo.ZoneInfo`, whose key is the
        name of the zone, or raises `ValueError`."""
        key = getattr(check(value, datetime.datetime).tzinfo, "key", None)
        if key is None:
            raise ValueError("expected a datetime.datetime with a zoneinfo.ZoneInfo that has a key")
        return cls(OffsetDateTime.from_datetime(value), Zone(key))

    def to_datetime(self) -> datetime.datetime:
        """Converts to a `datetime.datetime` with the `zoneinfo.ZoneInfo` of the key of the zone, or
        raises its errors, such as `LookupError` for a POSIX string, and the errors of
        `OffsetDateTime.to_datetime`."""
        return self._moment.to_datetime().astimezone(zoneinfo.ZoneInfo(self.zone.key))

    def to_offset_date_time(self) -> OffsetDateTime:
        """Returns what the clocks show, with their offset."""
        return self._moment

    def to_utc(self) -> OffsetDateTime:
        """Returns the same instant at UTC, or raises `OverflowError` if its date is out of range."""
        return self._moment.to_utc()

    def date(self) -> Date:
        """Returns the date."""
        return self._moment.date()

    def time(self) -> Time:
        """Returns the time of day."""
        return self._moment.time()

    def local(self) -> PlainDateTime:
        """Returns the date and the time of day."""
        return self._moment.local()

    def weekday(self) -> Weekday:
        """Returns the `Weekday`."""
        return self._moment.weekday()

    def isoweekday(self) -> int:
        """Returns the number of the weekday, from 1 (Monday) to 7 (Sunday)."""
        return self._moment.isoweekday()

    def isocalendar(self) -> IsoCalendarDate:
        """Returns ISO year, week and weekday, from 1 (Monday) to 7 (Sunday)."""
        return self._moment.isocalendar()

    def isoformat(self) -> str:
        """Returns the string of what the clocks show, with their offset, like `str`."""
        return self._moment.isoformat()

    def timestamp(self) -> float:
        """Returns the nearest float to the Unix time in seconds."""
        return self._moment.timestamp()

    def unix_timestamp(self) -> int:
        """Returns the Unix time in whole seconds, rounded down."""
        return self._moment.unix_timestamp()

    def unix_timestamp_nanos(self) -> int:
        """Returns the Unix time in nanoseconds."""
        return self._moment.unix_timestamp_nanos()

    def unix_duration(self) -> SignedDuration:
        """Returns the Unix time as a duration."""
        return self._moment.unix_duration()

    def in_zone(self, zone: Zone) -> ZonedDateTime:
        """Returns the same instant in another zone."""
        return ZonedDateTime(self._moment, zone)

    def with_local(
            self, reading: PlainDateTime, policy: Policy = Policy.Compatible) -> ZonedDateTime:
        """Replaces the local time. Keeps the offset if the clocks show the new one at it, and
        otherwise goes by the policy."""
        return self._with(check(reading, PlainDateTime).date(), reading.time(), policy)

    def with_date(self, date: Date, policy: Policy = Policy.Compatible) -> ZonedDateTime:
        """Replaces the date, like `with_local`."""
        return self._with(date, self.time(), policy)

    def with_time(self, time: Time, policy: Policy = Policy.Compatible) -> ZonedDateTime:
        """Replaces the time of day, like `with_local`."""
        return self._with(self.date(), time, policy)

    def _with(self, date: Date, time: Time, policy: Policy) -> ZonedDateTime:
        number = check(policy, Policy)
        moment = _core.zoned_with_local(self.zone._zone, self._moment, date, time, number)
        return self._at(moment, self.zone)

    def replace(self, *, policy: Policy = Policy.Compatible, **components: int) -> ZonedDateTime:
        """Replaces the components of the local time that are given by name, such as `hour`, like
        `with_local`."""
        return self.with_local(self.local().replace(**components), policy)

    def start_of_day(self) -> ZonedDateTime:
        """Returns the start of the day, like `Zone.start_of_day`."""
        return self.zone.start_of_day(self.date())

    def day_length(self) -> SignedDuration:
        """Returns the length of the day, like `Zone.day_length`."""
        return self.zone.day_length(self.date())

    def add_period(self, period: Period, policy: Policy = Policy.Compatible) -> ZonedDateTime:
        """Returns the date-time a period later. Years and months move the date, then weeks and
        days; the policy says what the same time of day means there. Then the duration moves the
        instant. A period with only a duration ignores the policy."""
        number = check(policy, Policy)
        moment = _core.zoned_add_period(self.zone._zone, self._moment, period, number)
        return self._at(moment, self.zone)

    def checked_add_period(
            self, period: Period, policy: Policy = Policy.Compatible) -> ZonedDateTime | None:
        """Returns the same, or `None` out of range."""
        number = check(policy, Policy)
        moment = _core.zoned_checked_add_period(self.zone._zone, self._moment, period, number)
        return None if moment is None else self._at(moment, self.zone)

    def nth_period(self, period: Period, n: SupportsIndex,
                   policy: Policy = Policy.Compatible) -> ZonedDateTime:
        """Returns the date-time n times a period later, counted from this one, so that nothing
        drifts."""
        number = check(policy, Policy)
        return self._at(
            _core.zoned_nth_period(self.zone._zone, self._moment, period, n, number), self.zone)

    def period_until(
            self, other: ZonedDateTime, unit: CalendarUnit = CalendarUnit.Year,
            policy: Policy = Policy.Compatible) -> Period:
        """Returns the period to another date-time, with a `CalendarUnit` as its largest part, and the
        exact rest. Added to this one by the policy, it gives the other."""
        moment = _core.moment_in_zone(check(other, ZonedDateTime)._moment, self.zone._zone)
        number = check(policy, Policy)
        return _core.zoned_period_until(self.zone._zone, self._moment, moment, unit, number)

    def moved_to(self, date: Date, policy: Policy = Policy.Compatible) -> ZonedDateTime:
        """Returns the same time of day on another date, such as the next working day, by the policy.
        On its own date it stays as it is."""
        number = check(policy, Policy)
        return self._at(
            _core.zoned_moved_to(self.zone._zone, self._moment, date, number), self.zone)

    def round(self, unit: SignedDuration, mode: RoundingMode = RoundingMode.HalfCeil) -> ZonedDateTime:
        """Rounds to a multiple of a unit since the midnight of the date, by what the clocks show, like
        `PlainDateTime.round`. The result keeps the offset if the clocks show it at this offset. To
        24 hours it is the start of the day or of the next one."""
        return self._at(_core.zoned_round(self.zone._zone, self._moment, unit, mode), self.zone)

    def start_of(self, unit: CalendarUnit) -> ZonedDateTime:
        """Returns the start of the day, ISO week, month, quarter or year."""
        return self._at(_core.zoned_start_of(self.zone._zone, self._moment, unit), self.zone)

    def end_of(self, unit: CalendarUnit) -> ZonedDateTime:
        """Returns the end of a unit: a nanosecond before the start of the next one."""
        return self._at(_core.zoned_end_of(self.zone._zone, self._moment, unit), self.zone)

    def add_months(
            self, number: SupportsIndex, policy: Policy = Policy.Compatible) -> ZonedDateTime:
        """Adds months like `add_period`, and takes the last day of a shorter month."""
        return self.add_period(Period(months=number), policy)

    def add_years(
            self, number: SupportsIndex, policy: Policy = Policy.Compatible) -> ZonedDateTime:
        """Adds years like `add_period`; 29 February becomes the 28th in a common year."""
        return self.add_period(Period(years=number), policy)

    def checked_add(self, duration: SignedDuration) -> ZonedDateTime | None:
        """Returns the date-time a duration later, or `None` out of range."""
        moment = _core.zoned_checked_add(self.zone._zone, self._moment, duration)
        return None if moment is None else self._at(moment, self.zone)

    def checked_sub(self, duration: SignedDuration) -> ZonedDateTime | None:
        """Returns the date-time a duration earlier, or `None` out of range."""
        moment = _core.zoned_checked_sub(self.zone._zone, self._moment, duration)
        return None if moment is None else self._at(moment, self.zone)

    def __add__(self, other: SignedDuration | datetime.timedelta | Period) -> ZonedDateTime:
        if isinstance(other, Period):
            return self.add_period(other)
        duration = _duration(other)
        if duration is None:
            return NotImplemented
        return self._at(_core.zoned_add(self.zone._zone, self._moment, duration), self.zone)

    def __radd__(self, other: datetime.timedelta) -> ZonedDateTime:
        return self + other if isinstance(other, datetime.timedelta) else NotImplemented

    @overload
    def __sub__(self, other: ZonedDateTime) -> SignedDuration: ...

    @overload
    def __sub__(self, other: SignedDuration | datetime.timedelta | Period) -> ZonedDateTime: ...

    def __sub__(self, other: Any) -> Any:
        if isinstance(other, ZonedDateTime):
            return self._moment - other._moment
        if isinstance(other, Period):
            return self.add_period(-other)
        duration = _duration(other)
        if duration is None:
            return NotImplemented
        return self._at(_core.zoned_sub(self.zone._zone, self._moment, duration), self.zone)

    def __eq__(self, other: object) -> bool:
        # A value of datetime raises TypeError, as it does for an OffsetDateTime.
        return self._moment == (other._moment if isinstance(other, ZonedDateTime) else other)

    def __lt__(self, other: ZonedDateTime) -> bool:
        return self._moment < other._moment if isinstance(other, ZonedDateTime) else NotImplemented

    def __le__(self, other: ZonedDateTime) -> bool:
        return self._moment <= other._moment if isinstance(other, ZonedDateTime) else NotImplemented

    def __hash__(self) -> int:
        return hash(self._moment)

    def strftime(self, format: str | Format) -> str:
        """Returns the string by a format, like `Zone.strftime`."""
        return self.zone.strftime(self._moment, format)

    def __format__(self, specification: str) -> str:
        is_format = "%" in specification
        return self.strftime(specification) if is_format else format(str(self), specification)

    def __str__(self) -> str:
        return str(self._moment)

    def __repr__(self) -> str:
        return f"ZonedDateTime({self._moment!r}, {self.zone!r})"

    def __copy__(self) -> ZonedDateTime:
        return self

    def __deepcopy__(self, memo: object) -> ZonedDateTime:
        return self


def _duration(move: object) -> SignedDuration | None:
    """Returns the duration of a `SignedDuration` or a `timedelta`, and else `None`."""
    if isinstance(move, datetime.timedelta):
        return SignedDuration.from_timedelta(move)
    return move if isinstance(move, SignedDuration) else None
