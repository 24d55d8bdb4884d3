"""Tests of events of calendar files. Expected values are from the examples of RFC 5545, counted by hand, or from dateutil, if it is installed."""

import datetime
import itertools
import random
import unittest
import zoneinfo

try:
    from dateutil import rrule, tz
except ImportError:
    rrule = tz = None

from fotsevindre import Date, Event, EventError, PlainDateTime, Recurrences, SignedDuration, Zone, fold

# Parts of the examples of RFC 5545, 3.6.1 and 4, and an alarm.
FILE = """BEGIN:VCALENDAR
BEGIN:VTIMEZONE
TZID:America/New_York
BEGIN:STANDARD
DTSTART:19981025T020000
RRULE:FREQ=YEARLY;BYDAY=-1SU;BYMONTH=10
END:STANDARD
END:VTIMEZONE
BEGIN:VEVENT
DTSTART:19960918T143000Z
DTEND:19960920T220000Z
SUMMARY:Networld+Interop Conference\\, 1996
DESCRIPTION:Networld+Interop Conference
  and Exhibit
END:VEVENT
BEGIN:VEVENT
UID:guid-1.example.com
SUMMARY;LANGUAGE=en:XYZ Project Review
DTSTART;TZID=America/New_York:19980312T083000
DTEND;TZID=America/New_York:19980312T093000
END:VEVENT
BEGIN:VEVENT
DTSTART;VALUE=DATE:19971102
SUMMARY:Our Blissful Anniversary
RRULE:FREQ=YEARLY
EXDATE;VALUE=DATE:19981102
BEGIN:VALARM
SUMMARY:Alarm
EXDATE:x
END:VALARM
END:VEVENT
END:VCALENDAR
"""


def at(text):
    return PlainDateTime.fromisoformat(text)


class Events(unittest.TestCase):
    def test_files(self):
        for text in (FILE, FILE.replace("\n", "\r\n"), FILE.encode(), FILE.lower().replace("america/new_york", "America/New_York")):
            events = Recurrences.from_ics(text)
            self.assertEqual([event.start for event in events], [at("1996-09-18T14:30:00").assume_utc(), at("1998-03-12T08:30:00"), Date(1997, 11, 2)])
            self.assertEqual([event.zone for event in events], [None, "America/New_York", None])
            self.assertEqual([type(event) for event in events], [Event] * 3)
        events = Recurrences.from_ics(FILE)
        self.assertEqual([event.summary for event in events], ["Networld+Interop Conference, 1996", "XYZ Project Review", "Our Blissful Anniversary"])
        self.assertEqual([event.value("dtend") for event in events], ["19960920T220000Z", "19980312T093000", None])
        self.assertEqual(events[0].value("DESCRIPTION"), "Networld+Interop Conference and Exhibit")
        self.assertEqual(list(itertools.islice(events[2].days(), 3)), [Date(1997, 11, 2), Date(1999, 11, 2), Date(2000, 11, 2)])
        self.assertEqual(next(events[2].days(Date(2024, 11, 3))), Date(2025, 11, 2))
        self.assertEqual(list(events[0].readings()), [at("1996-09-18T14:30:00")])
        self.assertEqual([str(one) for one in events[1].moments()], ["1998-03-12T08:30:00-05:00"])
        self.assertEqual([str(one) for one in events[1].moments(Zone("Europe/Berlin"))], ["1998-03-12T08:30:00+01:00"])
        self.assertEqual(list(events[1].moments(since=at("1998-03-12T13:30:01").assume_utc())), [])
        self.assertEqual(Recurrences.from_ics(""), ())

    def test_characters(self):
        # A fold can be within a character.
        text = "BEGIN:VEVENT\nDTSTART:20240101\nSUMMARY:Fête à Noël\\; soirée\\nici\nEND:VEVENT\n".encode()
        at_byte = text.index("ê".encode()) + 1
        (event,) = Recurrences.from_ics(text[:at_byte] + b"\r\n " + text[at_byte:])
        self.assertEqual((event.summary, event.value("SUMMARY")), ("Fête à Noël; soirée\nici", "Fête à Noël\\; soirée\\nici"))
        (event,) = Recurrences.from_ics("BEGIN:VEVENT\nSUMMARY:\udc80\nEND:VEVENT")
        self.assertEqual(event.summary, "\ufffd" * 3)

    def test_folds(self):
        # RFC 5545, 3.1: a line has at most 75 bytes without its end.
        line = "0123456789" * 7
        for text, folded in (
            ("", b""), (line + "01234", b"%b01234"), (line + "01234\r\nA\n", b"%b01234\r\nA\n"), (line + "012345", b"%b01234\r\n 5"), (line + "0123é", b"%b0123\xc3\r\n \xa9"),
            (line + "01234" + line + "01234\n", b"%b01234\r\n " + line.encode() + b"0123\r\n 4\n"),
            ("DESCRIPTION:This is a long description that exists on a long line.", b"DESCRIPTION:This is a long description that exists on a long line."),
        ):
            wanted = folded.replace(b"%b", line.encode())
            self.assertEqual((fold(text), fold(text.encode())), (wanted, wanted))
        self.assertEqual(fold("x" * 100000), b"\r\n ".join([b"x" * 75, *[b"x" * 74] * 1350, b"x" * 25]))
        text = FILE.replace("Blissful", "Blissful é" * 30)
        self.assertEqual(Recurrences.from_ics(fold(text)), Recurrences.from_ics(text))
        self.assertLessEqual(max(map(len, fold(text).splitlines())), 75)
        for wrong in (None, 1, bytearray(b"x")):
            self.assertRaises(TypeError, fold, wrong)

    def test_recurrence_lines(self):
        for lines, wanted in (
            (b"dtstart:20240101", b"DTSTART;VALUE=DATE:20240101\r\nRRULE:FREQ=DAILY;COUNT=1\r\n"),
            (b"EXDATE:19960402T010000Z,19960403T010000Z\nSUMMARY:x\nrrule:byday=-1su;freq=yearly\nDTSTART:19960401T010000Z",
                b"DTSTART:19960401T010000Z\r\nRRULE:FREQ=YEARLY;BYDAY=-1SU\r\nEXDATE:19960402T010000Z,19960403T010000Z\r\n"),
            (b"DTSTART:19960405T090000Z\nRDATE;VALUE=PERIOD:19960403T020000Z/19960403T040000Z,19960404T010000Z/PT3H\n",
                b"DTSTART:19960405T090000Z\r\nRRULE:FREQ=DAILY;COUNT=1\r\nRDATE:19960403T020000Z,19960404T010000Z\r\n"),
            (b"DTSTART:20240101T090000\nRDATE;VALUE=PERIOD:20240102T090000/end",
                b"DTSTART:20240101T090000\r\nRRULE:FREQ=DAILY;COUNT=1\r\nRDATE:20240102T090000\r\n"),
            (b"DTSTART;TZID=Europe/Berlin:20240101T090000\nRDATE:20240102,20240103T090000\n",
                b"DTSTART;TZID=Europe/Berlin:20240101T090000\r\nRRULE:FREQ=DAILY;COUNT=1\r\nRDATE;VALUE=DATE:20240102\r\nRDATE;TZID=Europe/Berlin:20240103T090000\r\n"),
        ):
            self.assertEqual(Event(lines).recurrence_lines, wanted)
            self.assertEqual(Event(wanted).recurrence_lines, wanted)
        for event in Recurrences.from_ics(FILE):
            again = Event(event.recurrence_lines)
            self.assertEqual((again.start, again.zone, again.recurrence_lines), (event.start, event.zone, event.recurrence_lines))
        # Longer than the lines that say it.
        zone = "z" * 200
        values = ",".join(["20240102", "20240103T090000"] * 31)
        wanted = f"DTSTART;TZID={zone}:20240101T090000\r\nRRULE:FREQ=DAILY;COUNT=1\r\n" + f"RDATE;VALUE=DATE:20240102\r\nRDATE;TZID={zone}:20240103T090000\r\n" * 31
        self.assertEqual(Event(f"DTSTART;TZID={zone}:20240101T090000\nRDATE:{values}".encode()).recurrence_lines, wanted.encode())

    def test_errors(self):
        for text, position, reason in (
            ("BEGIN:VEVENT\nEND:VEVENT\nX:1\nBEGIN:VEVENT\nUID:1\n", 28, "unclosed event"),
            ("X:1\nBEGIN:VEVENT\nEND:VCALENDAR\n", 17, "other end of an event"),
        ):
            with self.assertRaises(EventError) as raised:
                Recurrences.from_ics(text)
            self.assertEqual((raised.exception.position, raised.exception.reason, raised.exception.line, str(raised.exception)), (position, reason, None, f"{reason} at {position}"))
        for lines, said in (
            ("UID:1\n", "missing start at 6"),
            ("UID:1\nDTSTART:20230229\n", "invalid value in DTSTART at 6"),
            ("DTSTART:20240101\nSUMMARY:Two\nDTSTART:20240102\n", "duplicate part in DTSTART at 29"),
            ("DTSTART:20240101\r\nRRULE:FREQ=FORTNIGHTLY\r\n", "invalid value in RRULE at 18"),
            ("DTSTART:20240101\nRRULE:COUNT=2\n", "missing FREQ in RRULE at 17"),
            ("DTSTART:20240101\nRDATE:20240102,x\n", "invalid value in RDATE at 17"),
            ("DTSTART:20240101T090000\nEXDATE;VALUE=PERIOD:20240101T090000/PT1H\n", "invalid value in EXDATE at 24"),
            (f"DTSTART:20240101\nEXDATE:{','.join(['20240101'] * 63)}\n", "too many values in EXDATE at 17"),
            ("DTSTART;TZID=A:20240101T090000\nEXDATE;TZID=B:20240102T090000\n", "other zone in EXDATE at 31"),
        ):
            event = Event(lines.encode())
            calls = (lambda: event.start, lambda: event.zone, lambda: event.recurrence_lines, lambda: next(event.days()), lambda: next(event.readings()), lambda: next(event.moments(Zone.from_posix("UTC0"))))
            for call in calls:
                with self.assertRaises(EventError) as raised:
                    call()
                self.assertEqual(str(raised.exception), said)
        dates, times = Event(b"DTSTART:20240101\n"), Event(b"DTSTART:20240101T090000Z\n")
        for call, line in (
            (lambda: next(dates.readings()), "DTSTART"), (lambda: next(times.days()), "DTSTART"), (lambda: next(times.moments(Zone.from_posix("UTC0"))), "DTSTART"),
            (lambda: next(Event(b"DTSTART:20240101\nRRULE:FREQ=HOURLY\n").days()), "RRULE"),
        ):
            with self.assertRaises(EventError) as raised:
                call()
            self.assertEqual(raised.exception.args, (None, "wrong kind of value", line))
            self.assertEqual(str(raised.exception), f"wrong kind of value in {line}")
        self.assertRaisesRegex(ValueError, "^the event names no zone; expected the argument zone$", dates.moments)
        for call in (lambda: Event("DTSTART:20240101"), lambda: Recurrences.from_ics(1), lambda: dates.value(b"UID"), lambda: dates.days(at("2024-01-01T00:00")),
                lambda: times.readings(Date(2024, 1, 1)), lambda: times.moments(1)):
            self.assertRaises(TypeError, call)

    def test_pages(self):
        # More than one page, and a search in the middle.
        days = list(Event(b"DTSTART:20240101\nRRULE:FREQ=DAILY;COUNT=5000\nEXDATE:20240102\n").days())
        self.assertEqual((len(days), days[1], days[-1]), (4999, Date(2024, 1, 3), Date(2024, 1, 1) + SignedDuration(days=4999)))
        hours = list(Event(b"DTSTART:20240101T000000Z\nRRULE:FREQ=HOURLY;COUNT=300\n").readings(at("2024-01-02T00:30:00")))
        self.assertEqual((len(hours), hours[0], hours[-1]), (275, at("2024-01-02T01:00:00"), at("2024-01-13T11:00:00")))

    @unittest.skipUnless(rrule, "needs dateutil")
    def test_dateutil(self):
        # Drawn sets in New York, whose occurrences dateutil finds from the same text.
        draw = random.Random(5545)
        for _ in range(300):
            start = datetime.datetime(2023, 1, 1, 9) + datetime.timedelta(days=draw.randrange(700), minutes=draw.randrange(0, 1440, 30))
            rule = f"FREQ={draw.choice(['DAILY', 'WEEKLY;BYDAY=MO,WE,FR', 'MONTHLY', 'MONTHLY;BYMONTHDAY=1,15,-1', 'YEARLY;BYMONTH=3,11'])}"
            rule += f";INTERVAL={draw.randrange(1, 5)};COUNT={draw.randrange(1, 30)}"
            near = [f"{start + datetime.timedelta(days=draw.randrange(60)):%Y%m%dT%H%M%S}" for _ in range(6)]
            lines = [f"DTSTART:{start:%Y%m%dT%H%M%S}", f"RRULE:{rule}", f"RDATE:{','.join(near[:2])}", f"EXDATE:{','.join(near[2:])}", "SUMMARY:Drawn"]
            wanted = [*rrule.rrulestr("\n".join(lines[:4]), forceset=True)]
            draw.shuffle(lines)
            (event,) = Recurrences.from_ics("\r\n".join(["BEGIN:VEVENT", *lines, "END:VEVENT"]))
            self.assertEqual([str(one) for one in event.readings()], [one.isoformat() for one in wanted], lines)
            zone = zoneinfo.ZoneInfo("America/New_York")
            moments = [one.replace(tzinfo=zone) for one in wanted if tz.datetime_exists(one, zone)]
            found = [str(one) for one in event.moments(Zone("America/New_York"))]
            if len(moments) == len(wanted):
                self.assertEqual(found, [one.isoformat() for one in moments], lines)


if __name__ == "__main__":
    unittest.main()
