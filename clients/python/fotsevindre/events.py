"""Events of calendar files."""

from __future__ import annotations

import dataclasses
import functools
import re
from collections.abc import Callable, Iterator
from typing import Any

from . import _core
from ._core import Date, OffsetDateTime, PlainDateTime, UtcOffset
from .errors import check
from .schedules import _NANOSECOND, _pages
from .zones import Zone


def _event_pages(page: Callable[..., list[Any]], follow: Callable[[Any], Any], first: Any
                 ) -> Iterator[Any]:
    """Iterates over pages like `_pages`, without a cursor."""
    return _pages(lambda low, length, cursor: (page(low, length), cursor), follow, first)


def _bytes(text: str | bytes) -> bytes:
    """Returns the bytes of a file, or raises `TypeError`."""
    file: bytes = text.encode(errors="surrogatepass") if isinstance(text, str) else check(text, bytes)
    return file


def fold(text: str | bytes) -> bytes:
    """Returns a text with its lines folded, as calendar files have them: CR LF and a space come
    before the 76th byte of a line, and then before each 74 bytes. A fold can be within a character
    of several bytes, so the result is bytes.

    >>> [len(line) for line in fold("SUMMARY:" + "x" * 150).split(b"\\r\\n")]
    [75, 75, 10]
    """
    return _core.fold(_bytes(text))


@dataclasses.dataclass(frozen=True, slots=True)
class Event:
    """An event of a calendar file (RFC 5545): the lines of a `VEVENT` without folds.

    Its set has the lines `DTSTART`, `RRULE`, `RDATE` and `EXDATE`. A method for the set raises
    `EventError` for the first invalid one, or for a value of another kind than the method returns.

    >>> event = Event(b"SUMMARY:Rent\\nDTSTART:20240131\\nRRULE:FREQ=MONTHLY;BYMONTHDAY=-1;COUNT=2\\n")
    >>> event.summary, event.start, list(event.days())
    ('Rent', Date(2024, 1, 31), [Date(2024, 1, 31), Date(2024, 2, 29)])
    """

    lines: bytes

    def __post_init__(self) -> None:
        check(self.lines, bytes)

    def value(self, name: str) -> str | None:
        """Returns the value of the first line with a name in any case, or `None` without such a
        line. Escapes such as `\\,` stay.

        >>> Event(b"dtend;VALUE=DATE:20240201\\n").value("DTEND")
        '20240201'
        """
        value = _core.event_value(self.lines, check(name, str).encode())
        return None if value is None else value.decode(errors="replace")

    @property
    def summary(self) -> str | None:
        """The value of `SUMMARY` without its escapes, or `None`."""
        value = self.value("SUMMARY")
        return value and re.sub(r"\\(.)", lambda found: "\n" if found[1] in "nN" else found[1], value)

    @property
    def start(self) -> Date | PlainDateTime | OffsetDateTime:
        """The value of `DTSTART`: a date, a local time, or a time in UTC."""
        return _core.event_start(self.lines)

    @property
    def zone(self) -> str | None:
        """The name of the zone of the set (`TZID`), or `None` if no line names one."""
        _core.event_start(self.lines)
        value = _core.event_value(self.lines, None)
        return None if value is None else value.decode(errors="replace")

    @property
    def recurrence_lines(self) -> bytes:
        """The lines of the set in one form: `DTSTART`, `RRULE`, `RDATE` and `EXDATE`, each with CR
        LF. They have the same set.

        >>> Event(b"UID:1\\ndtstart:20240131\\nrrule:count=2;freq=daily\\n").recurrence_lines
        b'DTSTART;VALUE=DATE:20240131\\r\\nRRULE:FREQ=DAILY;COUNT=2\\r\\n'
        """
        return _core.event_recurrence_lines(self.lines)

    def days(self, since: Date | None = None) -> Iterator[Date]:
        """Iterates over the days of an event of dates, in order, without those before `since`."""
        days = functools.partial(_core.event_days, self.lines)
        return _event_pages(days, Date.next_day, Date.MIN if since is None else check(since, Date))

    def readings(self, since: PlainDateTime | None = None) -> Iterator[PlainDateTime]:
        """Iterates over the local times of an event of times, in order, without those before
        `since`. If `DTSTART` has a `Z`, they are times in UTC."""
        times = functools.partial(_core.event_times, self.lines, None)
        first = PlainDateTime.MIN if since is None else check(since, PlainDateTime)
        return _event_pages(times, lambda last: last.checked_add(_NANOSECOND), first)

    def moments(self, zone: Zone | None = None, since: OffsetDateTime | None = None
                ) -> Iterator[OffsetDateTime]:
        """Iterates over the date-times of an event with a local `DTSTART` in a zone, in order, each
        instant once, without those before `since`. The default is the zone of the event. A time
        that the clocks skip or show twice means `Local.compatible`.

        >>> event = Event(b"DTSTART;TZID=Europe/Berlin:20240330T023000\\nRRULE:FREQ=DAILY;COUNT=2\\n")
        >>> [str(moment) for moment in event.moments()]
        ['2024-03-30T02:30:00+01:00', '2024-03-31T03:30:00+02:00']
        """
        if zone is None:
            name = self.zone
            if name is None:
                raise ValueError("the event names no zone; expected the argument zone")
            zone = Zone(name)
        times = functools.partial(_core.event_times, self.lines, check(zone, Zone)._zone)
        first = PlainDateTime.MIN.assume_offset(UtcOffset(25, 59, 59))
        low = first if since is None else check(since, OffsetDateTime)
        pages = _event_pages(times, lambda last: last, low.checked_sub(_NANOSECOND) or first)
        return (one for one in pages if one >= low)


class Recurrences(tuple[Event, ...]):
    """The events of a calendar file, each with its set."""

    __slots__ = ()

    @classmethod
    def from_ics(cls, text: str | bytes) -> Recurrences:
        """Returns the events (`VEVENT`) of a calendar file, or raises `EventError` if one has no
        end. `VTODO`, `VJOURNAL`, `EXRULE`, `RECURRENCE-ID` and the rules of a `VTIMEZONE` aren't
        applied.

        >>> text = "BEGIN:VCALENDAR\\nBEGIN:VEVENT\\nDTSTART:20240229\\nEND:VEVENT\\nEND:VCALENDAR\\n"
        >>> [list(event.days()) for event in Recurrences.from_ics(text)]
        [[Date(2024, 2, 29)]]
        """
        return cls(map(Event, _core.event_lines(_bytes(text))))
