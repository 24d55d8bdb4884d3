"""Tests of time zones. Expected values are from GNU date, from the examples of RFC 5545, and from the modules zoneinfo, for all files of the
system, and dateutil, if it is installed."""

import copy
import datetime
import doctest
import importlib
import itertools
import operator
import os
import pathlib
import pickle
import random
import shutil
import struct
import sys
import tempfile
import unittest
import zoneinfo
from unittest import mock

try:
    from dateutil import rrule
except ImportError:
    rrule = None

from fotsevindre import Date, Frequency, LocalKind, OffsetDateTime, ParseRuleError, PlainDateTime, Policy, Recurrence, Time, Weekday, Zone, ZoneError, zones

FOLDER = pathlib.Path(os.environ.get("TZDIR", "/usr/share/zoneinfo"))
EPOCH = datetime.datetime(1970, 1, 1)
SECOND = datetime.timedelta(seconds=1)
# The readings and Unix times of the years 1 to 9999, but for their first and last days.
FIRST, LAST = -62135510400, 253402128000
# Instants of each zone that are drawn between 1900 and 2100, and beyond.
DRAWN = 1000


def at(text):
    return PlainDateTime.parse(text)


def texts(local):
    """Returns what the policies make of a reading."""
    return tuple(map(str, (local.compatible(), local.earlier(), local.later(), local.reject())))


class WorkedRows(unittest.TestCase):
    def test_gaps(self):
        for key, reading, compatible, earlier in (
            ("Europe/Berlin", "2024-03-31T02:30:00", "2024-03-31T03:30:00+02:00", "2024-03-31T01:30:00+01:00"),
            ("Australia/Lord_Howe", "2024-10-06T02:15:00", "2024-10-06T02:45:00+11:00", "2024-10-06T01:45:00+10:30"),
            ("Pacific/Apia", "2011-12-30T12:00:00", "2011-12-31T12:00:00+14:00", "2011-12-29T12:00:00-10:00"),
            ("Pacific/Kiritimati", "1994-12-31T12:00:00", "1995-01-01T12:00:00+14:00", "1994-12-30T12:00:00-10:00"),
            ("Antarctica/Troll", "2024-03-31T02:30:00", "2024-03-31T04:30:00+02:00", "2024-03-31T00:30:00+00:00"),
        ):
            local = Zone(key).resolve(at(reading))
            self.assertEqual((local.kind, local.instants, *texts(local)), (LocalKind.Gap, (), compatible, earlier, compatible, "None"), key)

    def test_folds(self):
        for key, reading, instants in (
            ("Europe/Berlin", "2024-10-27T02:30:00", (1729989000, 1729992600)), ("Australia/Lord_Howe", "2024-04-07T01:45:00", (1712414700, 1712416500)),
            ("Africa/Casablanca", "2024-03-10T02:30:00", (1710034200, 1710037800)), ("Europe/Dublin", "2024-10-27T01:30:00", (1729989000, 1729992600)),
        ):
            zone = Zone(key)
            local = zone.resolve(at(reading))
            first, second = (OffsetDateTime.from_unix_timestamp(instant).in_zone(zone) for instant in instants)
            self.assertEqual((local.kind, local.instants), (LocalKind.Fold, instants), key)
            self.assertEqual((local.compatible(), local.earlier(), local.later(), local.reject()), (first, first, second, None), key)
            self.assertEqual((first.local(), second.local()), (at(reading),) * 2)

    def test_offsets(self):
        # The winter time of Dublin is the one with the mark of daylight saving time.
        for key, instant, offset, is_daylight, abbreviation in (
            ("Europe/Berlin", 1711846799, 3600, False, "CET"), ("Europe/Berlin", 1711846800, 7200, True, "CEST"), ("Europe/Dublin", 1704110400, 0, True, "GMT"),
            ("Europe/Dublin", 1719835200, 3600, False, "IST"), ("Etc/UTC", 0, 0, False, "UTC"), ("Asia/Kathmandu", 1700000000, 20700, False, "+0545"),
        ):
            zone = Zone(key)
            found = zone.offset_at(instant).whole_seconds(), zone.is_daylight_at(instant), zone.abbreviation_at(OffsetDateTime.from_unix_timestamp(instant))
            self.assertEqual(found, (offset, is_daylight, abbreviation), key)
            other = datetime.datetime.fromtimestamp(instant, zoneinfo.ZoneInfo(key))
            text = "%a, %d %b %Y %H:%M:%S %Z %z"
            self.assertEqual(zone.strftime(OffsetDateTime.from_unix_timestamp(instant), text), other.strftime(text), key)

    def test_changes(self):
        berlin, utc = Zone("Europe/Berlin"), Zone("Etc/UTC")
        self.assertEqual((berlin.next_change(1700000000), berlin.next_change(1711846799), berlin.previous_change(1711846800)), (1711846800,) * 3)
        self.assertEqual((utc.next_change(0), utc.previous_change(0), utc.resolve(at("2024-03-31T02:30:00")).instants), (None, None, (1711852200,)))

    def test_posix(self):
        berlin = Zone.from_posix("CET-1CEST,M3.5.0,M10.5.0/3")
        self.assertEqual([berlin.offset_at(instant).whole_seconds() for instant in (1711846799, 1711846800, 4102444800)], [3600, 7200, 3600])
        self.assertEqual(Zone.from_posix("<-03>3").abbreviation_at(0), "-03")
        self.assertEqual(berlin.strftime(OffsetDateTime.from_unix_timestamp(1711846800), "%H:%M %Z"), "03:00 CEST")
        for text, position, reason in (
            ("", 0, "invalid abbreviation"), ("CE1", 0, "invalid abbreviation"), ("CET", 3, "invalid POSIX offset"), ("CET25", 3, "invalid POSIX offset"),
            ("CET-1CEST", 9, "invalid POSIX offset"), ("CET-1CEST,J60,J300", 10, "invalid day of a rule"),
            ("CET-1CEST,M3.5.0/168,M10.5.0", 16, "invalid time of a rule"), ("CET-1CEST,M3.5.0,M10.5.0/3x", 26, "trailing bytes"),
            ("CET-1CEST,M3.5.0,M4.5.0", 5, "months of a rule too close"), ("C\ud800T1", 0, "invalid abbreviation"),
        ):
            with self.assertRaises(ZoneError) as error:
                Zone.from_posix(text)
            self.assertEqual((error.exception.position, error.exception.reason), (position, reason), text)

    def test_values(self):
        berlin = Zone("Europe/Berlin")
        for same in (Zone("Europe/Berlin"), copy.copy(berlin), pickle.loads(pickle.dumps(berlin))):
            self.assertEqual((same, hash(same), str(same), repr(same)), (berlin, hash(berlin), "Europe/Berlin", "Zone('Europe/Berlin')"))
        self.assertNotEqual(berlin, Zone("Europe/Vienna"))
        self.assertFalse(berlin == "Europe/Berlin" or berlin == None or Zone.from_posix("CET-1") == Zone.from_posix("CET-2"))
        for other in (zoneinfo.ZoneInfo("Europe/Berlin"), datetime.timezone.utc):
            for compare in (operator.eq, operator.ne, lambda one, two: one in [two]):
                for pair in ((berlin, other), (other, berlin)):
                    self.assertRaisesRegex(TypeError, "^can't compare Zone with", compare, *pair)
        for key in ("", "No/Where", "../zoneinfo/Europe/Berlin", "/usr/share/zoneinfo/Europe/Berlin", "Europe", "a\0b", "\ud800"):
            self.assertRaises(LookupError, Zone, key)
        for call in (
            lambda: Zone(1), lambda: berlin.offset_at(1.0), lambda: berlin.resolve(0), lambda: OffsetDateTime.UNIX_EPOCH.in_zone("Europe/Berlin"),
            lambda: Zone.from_posix(b"CET-1"), lambda: berlin.strftime(0, "%Z"), lambda: Zone.from_file(5),
        ):
            self.assertRaises((TypeError, AttributeError), call)
        self.assertRaises(ValueError, lambda: OffsetDateTime.UNIX_EPOCH.strftime("%Z"))
        self.assertRaises(OverflowError, lambda: OffsetDateTime(PlainDateTime.MAX.date(), PlainDateTime.MAX.time(), OffsetDateTime.UNIX_EPOCH.offset).in_zone(berlin))
        # The rule goes on to the ends of 64 bits.
        self.assertEqual([berlin.offset_at(instant).whole_seconds() for instant in (-10**30, 10**30)], [3208, 3600])

    def test_columns(self):
        berlin = Zone("Europe/Berlin")
        found = berlin.offsets([1711846799, 1711846800])
        self.assertEqual((list(found.offsets), list(found.statuses), found.error_count), ([3600, 7200], [0, 0], 0))
        readings = [1711852200, 1729996200, 1700000000]
        for policy, seconds, statuses in (
            (Policy.Compatible, [1711848600, 1729989000, 1699996400], [0, 0, 0]), (Policy.Earlier, [1711845000, 1729989000, 1699996400], [0, 0, 0]),
            (Policy.Later, [1711848600, 1729992600, 1699996400], [0, 0, 0]), (Policy.Reject, [-2**63, -2**63, 1699996400], [47, 48, 0]),
        ):
            found = berlin.instants(readings, policy)
            self.assertEqual((list(found.seconds), list(found.statuses), found.error_count), (seconds, statuses, sum(map(bool, statuses))), policy)


def moments(text, start, key, **more):
    """Returns the texts of the moments of a recurrence."""
    return list(map(str, Recurrence.parse(text).moments(at(start), zone=Zone(key), **more)))


def days_of(rows):
    """Yields the texts of moments at 9:00 in New York, by the year and EDT or EST before months and days such as 9.2-30, 10.1,3."""
    for row in rows.split("; "):
        year, name, days = row.split(" ", 2)
        for part in days.split(" "):
            month, _, numbers = part.partition(".")
            for one in numbers.split(","):
                first, _, last = one.partition("-")
                for day in range(int(first), int(last or first) + 1):
                    yield f"{year}-{int(month):02}-{day:02}T09:00:00-0{'EDT EST'.index(name) // 4 + 4}:00"


class RecurrencesInZones(unittest.TestCase):
    # Examples of RFC 5545, 3.8.5.3, with DTSTART;TZID=America/New_York at 9:00 and all of their printed days.
    EXAMPLES = [
        ("FREQ=DAILY;COUNT=10", "1997-09-02", "1997 EDT 9.2-11"),
        ("FREQ=DAILY;UNTIL=19971224T000000Z", "1997-09-02", "1997 EDT 9.2-30 10.1-25; 1997 EST 10.26-31 11.1-30 12.1-23"),
        ("FREQ=DAILY;INTERVAL=10;COUNT=5", "1997-09-02", "1997 EDT 9.2,12,22 10.2,12"),
        ("FREQ=YEARLY;UNTIL=20000131T140000Z;BYMONTH=1;BYDAY=SU,MO,TU,WE,TH,FR,SA", "1998-01-01", "1998 EST 1.1-31; 1999 EST 1.1-31; 2000 EST 1.1-31"),
        ("FREQ=DAILY;UNTIL=20000131T140000Z;BYMONTH=1", "1998-01-01", "1998 EST 1.1-31; 1999 EST 1.1-31; 2000 EST 1.1-31"),
        ("FREQ=WEEKLY;COUNT=10", "1997-09-02", "1997 EDT 9.2,9,16,23,30 10.7,14,21; 1997 EST 10.28 11.4"),
        ("FREQ=WEEKLY;UNTIL=19971224T000000Z", "1997-09-02", "1997 EDT 9.2,9,16,23,30 10.7,14,21; 1997 EST 10.28 11.4,11,18,25 12.2,9,16,23"),
        ("FREQ=WEEKLY;UNTIL=19971007T000000Z;WKST=SU;BYDAY=TU,TH", "1997-09-02", "1997 EDT 9.2,4,9,11,16,18,23,25,30 10.2"),
        ("FREQ=WEEKLY;INTERVAL=2;UNTIL=19971224T000000Z;WKST=SU;BYDAY=MO,WE,FR", "1997-09-01",
            "1997 EDT 9.1,3,5,15,17,19,29 10.1,3,13,15,17; 1997 EST 10.27,29,31 11.10,12,14,24,26,28 12.8,10,12,22"),
        ("FREQ=MONTHLY;COUNT=10;BYDAY=1FR", "1997-09-05", "1997 EDT 9.5 10.3; 1997 EST 11.7 12.5; 1998 EST 1.2 2.6 3.6 4.3; 1998 EDT 5.1 6.5"),
        ("FREQ=MONTHLY;UNTIL=19971224T000000Z;BYDAY=1FR", "1997-09-05", "1997 EDT 9.5 10.3; 1997 EST 11.7 12.5"),
        ("FREQ=MONTHLY;INTERVAL=2;COUNT=10;BYDAY=1SU,-1SU", "1997-09-07", "1997 EDT 9.7,28; 1997 EST 11.2,30; 1998 EST 1.4,25 3.1,29; 1998 EDT 5.3,31"),
        ("FREQ=MONTHLY;COUNT=6;BYDAY=-2MO", "1997-09-22", "1997 EDT 9.22 10.20; 1997 EST 11.17 12.22; 1998 EST 1.19 2.16"),
        ("FREQ=YEARLY;COUNT=10;BYMONTH=6,7", "1997-06-10",
            "1997 EDT 6.10 7.10; 1998 EDT 6.10 7.10; 1999 EDT 6.10 7.10; 2000 EDT 6.10 7.10; 2001 EDT 6.10 7.10"),
        ("FREQ=MONTHLY;COUNT=3;BYDAY=TU,WE,TH;BYSETPOS=3", "1997-09-04", "1997 EDT 9.4 10.7; 1997 EST 11.6"),
    ]

    def test_examples_of_the_rfc(self):
        for text, start, rows in self.EXAMPLES:
            self.assertEqual(moments(text, f"{start}T09:00:00", "America/New_York"), [*days_of(rows)], text)

    def test_gaps_and_folds(self):
        for text, start, key, wanted in (
            ("FREQ=DAILY;COUNT=3", "2024-03-30T02:30", "Europe/Berlin", "03-30T02:30:00+01:00, 03-31T03:30:00+02:00, 04-01T02:30:00+02:00"),
            ("FREQ=DAILY;COUNT=3", "2024-03-31T02:30", "Europe/Berlin", "03-31T03:30:00+02:00, 04-01T02:30:00+02:00, 04-02T02:30:00+02:00"),
            ("FREQ=DAILY;COUNT=3", "2024-10-26T02:30", "Europe/Berlin", "10-26T02:30:00+02:00, 10-27T02:30:00+02:00, 10-28T02:30:00+01:00"),
            ("FREQ=DAILY;COUNT=3", "2024-04-06T01:45:00.5", "Australia/Lord_Howe",
                "04-06T01:45:00.500000+11:00, 04-07T01:45:00.500000+11:00, 04-08T01:45:00.500000+10:30"),
            ("FREQ=DAILY;COUNT=3", "2024-10-05T02:15", "Australia/Lord_Howe", "10-05T02:15:00+10:30, 10-06T02:45:00+11:00, 10-07T02:15:00+11:00"),
            ("FREQ=WEEKLY;BYDAY=SU;COUNT=2", "2024-03-27T02:30", "Etc/UTC", "03-31T02:30:00+00:00, 04-07T02:30:00+00:00"),
            # In the gap 2:30 and 3:30 are one moment, and in the fold 2:30 is the earlier one.
            ("FREQ=DAILY;BYHOUR=1,2,3;BYMINUTE=30;COUNT=7", "2024-03-30T02:00", "Europe/Berlin",
                "03-30T02:30:00+01:00, 03-30T03:30:00+01:00, 03-31T01:30:00+01:00, 03-31T03:30:00+02:00, 04-01T01:30:00+02:00, 04-01T02:30:00+02:00"),
            ("FREQ=WEEKLY;BYDAY=SU,WE;BYHOUR=1,2,3;BYMINUTE=30;COUNT=5", "2024-10-27T01:30", "Europe/Berlin",
                "10-27T01:30:00+02:00, 10-27T02:30:00+02:00, 10-27T03:30:00+01:00, 10-30T01:30:00+01:00, 10-30T02:30:00+01:00"),
        ):
            self.assertEqual(moments(text, start, key), [f"2024-{one}" for one in wanted.split(", ")], (text, start, key))

    def test_left_out_day(self):
        # Apia has no 30 December 2011: its noon and the noon of the 31st are one instant. COUNT and a day of UNTIL go by the clocks.
        days = ["2011-12-28T12:00:00-10:00", "2011-12-29T12:00:00-10:00", "2011-12-31T12:00:00+14:00", "2012-01-01T12:00:00+14:00"]
        for end, wanted in (("COUNT=3", days[:3]), ("COUNT=4", days[:3]), ("COUNT=5", days), ("UNTIL=20111230", days[:3]), ("UNTIL=20120101", days)):
            self.assertEqual(moments(f"FREQ=DAILY;{end}", "2011-12-28T12:00", "Pacific/Apia"), wanted, end)
        for since, wanted in ((0, days), (1325325600, days[3:]), (1325282400, days[2:]), (1325282401, days[3:]), (2**31, [])):
            since = OffsetDateTime.from_unix_timestamp(since).in_zone(Zone("Pacific/Niue"))
            self.assertEqual(moments("FREQ=DAILY;COUNT=5", "2011-12-28T12:00", "Pacific/Apia", since=since), wanted, since)
        self.assertEqual(moments("FREQ=YEARLY;COUNT=1", "2011-12-30T12:00", "Pacific/Apia"), days[2:3])

    def test_order(self):
        # The clocks go forward by 44 hours on 31 March 2024, so that two readings there come after later ones.
        zone = Zone.from_posix("AAA24BBB-20,M3.5.0/0,M10.5.0/0")
        found = list(Recurrence.parse("FREQ=DAILY;COUNT=6").moments(at("2024-03-30T12:00"), zone))
        self.assertEqual([str(one.local()) for one in found], ["2024-03-30T12:00:00"] + [
            f"2024-04-{day}T{hour:02}:00:00" for day, hour in (("02", 8), ("02", 12), ("03", 8), ("03", 12), ("04", 12))])
        self.assertEqual(found, sorted(found))
        # In the last days of the range, 48 hours are left out.
        zone = Zone.from_posix("AAA24BBB-24,M12.5.0/130,M6.1.0")
        last = [str(one.date()) for one in Recurrence.parse("FREQ=DAILY").moments(PlainDateTime(Date(999999, 12, 29), Time(12)), zone)]
        self.assertEqual(last, ["+999999-12-29", "+999999-12-30"])
        first = Recurrence.parse("FREQ=DAILY").moments(PlainDateTime.MIN, Zone.from_posix("<+03>-3"), OffsetDateTime.UNIX_EPOCH)
        self.assertEqual(str(next(first)), "1970-01-02T00:00:00+03:00")

    def test_lists_of_readings(self):
        """The exceptions of a calendar are readings, or instants. In the gap of 31 March, 2:30 and 3:30 are one moment."""
        berlin, start, rule = Zone("Europe/Berlin"), at("2024-03-31T00:30"), Recurrence.parse("FREQ=DAILY;BYHOUR=2,3;BYMINUTE=30;COUNT=4")
        all_four = [OffsetDateTime.parse(one) for one in ("2024-03-31T01:30Z", "2024-04-01T00:30Z", "2024-04-01T01:30Z")]
        for exceptions, wanted in (
            ([], all_four), ([at("2024-03-31T02:30")], all_four), ([at("2024-03-31T02:30"), at("2024-03-31T03:30")], all_four[1:]),
            (iter([all_four[0].to_offset(berlin.offset_at(0))]), all_four[1:]), ([all_four[1], at("2024-04-01T03:30"), all_four[1]], all_four[:1]),
        ):
            self.assertEqual(list(rule.moments(start, berlin, exceptions=exceptions)), wanted)
        # Other readings can come before the start, which isn't an occurrence.
        dates = [at("2024-10-27T02:30"), at("2024-03-30T02:30"), at("2024-03-31T03:30")]
        found = [str(one) for one in rule.moments(start, berlin, dates=dates, exceptions=all_four)]
        self.assertEqual(found, ["2024-03-30T02:30:00+01:00", "2024-10-27T02:30:00+02:00"])

    def test_instants_of_until(self):
        # Ends of a calendar are instants. Their days can be others in the zone.
        for until, key, start, wanted in (
            ("20250101T045959Z", "America/New_York", "2024-12-30T09:00", ["2024-12-30", "2024-12-31"]),
            ("20241230T230000Z", "Asia/Tokyo", "2024-12-30T08:00", ["2024-12-30", "2024-12-31"]),
            ("20241230T225959Z", "Asia/Tokyo", "2024-12-30T08:00", ["2024-12-30"]), ("20241229T225959Z", "Asia/Tokyo", "2024-12-30T08:00", []),
            ("20161231T235960Z", "Etc/UTC", "2016-12-31T23:59:59", ["2016-12-31"]),
        ):
            recurrence = Recurrence.parse(f"rrule:freq=daily;until={until.lower()}" if until == "20241230T230000Z" else f"FREQ=DAILY;UNTIL={until}")
            self.assertEqual([str(one.date()) for one in recurrence.moments(at(start), Zone(key))], wanted, until)
            written = until.replace("60Z", "59Z")
            self.assertEqual((recurrence.text, str(recurrence.until).replace("-", "")), (f"FREQ=DAILY;UNTIL={written}", until[:8]))
            instant = OffsetDateTime.from_datetime(datetime.datetime.strptime(written + "+0000", "%Y%m%dT%H%M%SZ%z"))
            made = Recurrence.from_parts(Frequency.Daily, until=instant.in_zone(Zone(key)))
            for same in (Recurrence.parse(recurrence.text), copy.copy(recurrence), pickle.loads(pickle.dumps(recurrence)), made):
                self.assertEqual((same, hash(same), vars(same), same.until_moment), (recurrence, hash(recurrence), vars(recurrence), instant))
            self.assertEqual(recurrence.rule(Date(2016, 12, 31)).until, recurrence.until)
            self.assertNotEqual(recurrence, Recurrence.parse(f"FREQ=DAILY;UNTIL={until[:8]}"))
        for text in ("FREQ=DAILY;UNTIL=20241231", "FREQ=DAILY;UNTIL=20241231T080000", "FREQ=DAILY;COUNT=1"):
            self.assertIsNone(Recurrence.parse(text).until_moment)
        self.assertEqual(Recurrence.parse("FREQ=DAILY;UNTIL=00000101T000000Z").until_moment.date(), Date(0, 1, 1))
        # The text has no nanoseconds, and no years of more digits.
        for instant in (at("2024-12-31T23:59:59.5").assume_utc(), PlainDateTime(Date.MAX, Time()).assume_utc()):
            with self.assertRaisesRegex(ParseRuleError, "^invalid value of UNTIL at 22$"):
                Recurrence.from_parts(Frequency.Daily, until=instant)

    def test_errors(self):
        daily, start, berlin = Recurrence.parse("FREQ=DAILY"), at("2024-03-31T02:30"), Zone("Europe/Berlin")
        for arguments, expected in (
            ((start.date(), berlin), "PlainDateTime, not Date"), ((datetime.datetime(2024, 3, 31), berlin), "PlainDateTime, not datetime"),
            ((start.assume_utc(), berlin), "PlainDateTime, not OffsetDateTime"), ((start, "Europe/Berlin"), "Zone, not str"),
            ((start, zoneinfo.ZoneInfo("Europe/Berlin")), "Zone, not ZoneInfo"), ((start, berlin, start), "OffsetDateTime, not PlainDateTime"),
            ((start, berlin, 0), "OffsetDateTime, not int"),
        ):
            with self.assertRaisesRegex(TypeError, f"^expected {expected}$"):
                daily.moments(*arguments)
        self.assertRaises(TypeError, daily.moments, start)

    @unittest.skipUnless(rrule, "dateutil is not installed")
    def test_against_dateutil(self):
        """Rules that start at a change of a zone, by the readings of dateutil and the instants of zoneinfo."""
        draw, merged = random.Random(71), 0
        keys = ["America/New_York", "Europe/Berlin", "Australia/Lord_Howe", "Pacific/Apia", "Africa/Casablanca", "Antarctica/Troll", "Asia/Kathmandu"]
        for _ in range(400):
            key = draw.choice(keys)
            info, zone = zoneinfo.ZoneInfo(key), Zone(key)
            change = zone.next_change(draw.randrange(1200000000, 1700000000)) or 1300000000
            near = OffsetDateTime.from_unix_timestamp(change + draw.randrange(-7200, 93600, 900)).to_offset(zone.offset_at(change - 1)).local()
            start = near.to_datetime() - datetime.timedelta(days=draw.choice((0, 0, 1, 2, 7, 30)))
            frequency, interval, week_start = draw.choice(list(Frequency)[:4]), draw.choice((1, 1, 1, 2, 3)), draw.choice(list(Weekday))
            parts = {"bymonth": draw.sample(range(1, 13), 9)} if draw.random() < 0.3 else {}
            if frequency != Frequency.Weekly and draw.random() < 0.3:
                parts["bymonthday"] = draw.sample([*range(1, 32), -1, -2], 12)
            weekdays = draw.sample(list(Weekday), draw.randint(1, 4)) if draw.random() < 0.5 else []
            numbers = [draw.choice((1, 2, -1)) if frequency == Frequency.Monthly and "bymonthday" not in parts else 0] * len(weekdays)
            if draw.random() < 0.5:
                parts["count"] = draw.randint(1, 40)
            for name, values in (("byhour", {start.hour, (start.hour + 1) % 24}), ("byminute", {0, 30, start.minute}), ("bysecond", {0, 59})):
                if draw.random() < 0.4:
                    parts[name] = sorted(values)
            ours = Recurrence.from_parts(
                frequency, interval=interval, wkst=week_start, **parts,
                byweekday=[(number, one) if number else one for number, one in zip(numbers, weekdays)])
            days = [rrule.weekdays[one](number) if number else rrule.weekdays[one] for number, one in zip(numbers, weekdays)]
            theirs = rrule.rrule(
                {Frequency.Daily: rrule.DAILY, Frequency.Weekly: rrule.WEEKLY, Frequency.Monthly: rrule.MONTHLY, Frequency.Yearly: rrule.YEARLY}[frequency],
                start, interval, int(week_start), byweekday=days or None, **parts)
            end = start + datetime.timedelta(days=draw.randrange(1, 800))
            readings = list(itertools.takewhile(lambda one: one < end, theirs))
            wanted = sorted({(reading.replace(tzinfo=info) - datetime.datetime(1970, 1, 1, tzinfo=datetime.timezone.utc)) // SECOND for reading in readings})
            merged += len(wanted) < len(readings)
            found = ours.moments(PlainDateTime.from_datetime(start), zone)
            found = [one for one in itertools.islice(found, len(wanted))]
            self.assertEqual([one.unix_timestamp() for one in found], wanted, (key, str(start), str(ours)))
            for one in found:
                self.assertEqual(one.offset, zone.offset_at(one), (key, one))
            half = found[len(found) // 2:]
            if half:
                since = ours.moments(PlainDateTime.from_datetime(start), zone, half[0])
                self.assertEqual(list(itertools.islice(since, len(half))), half, (key, str(start), str(ours)))
        self.assertGreater(merged, 0)


class HostileBytes(unittest.TestCase):
    """Each is an error, or a zone that answers."""

    def is_sound(self, data):
        try:
            zone = Zone.from_file(data)
        except ZoneError as error:
            self.assertLessEqual(error.position, len(data))
            return
        for instant in (-2**63, -10**9, 0, 1711846800, 4102444800, 2**63 - 1):
            self.assertLess(abs(zone.offset_at(instant).whole_seconds()), 93600)
            zone.abbreviation_at(instant)
        for reading in ("1916-04-30T23:30:00", "2024-03-31T02:30:00"):
            for instant in zone.resolve(at(reading)).instants:
                self.assertEqual(OffsetDateTime.from_unix_timestamp(instant).in_zone(zone).local(), at(reading))

    def test_cut(self):
        for key in ("Europe/Berlin", "Australia/Lord_Howe", "Etc/UTC"):
            data = (FOLDER / key).read_bytes()
            for length in range(len(data)):
                self.is_sound(data[:length])

    def test_changed(self):
        for key in ("Europe/Berlin", "Australia/Lord_Howe", "Etc/UTC"):
            data = (FOLDER / key).read_bytes()
            for index, byte in enumerate(data):
                for other in (0, 255, (byte + 1) % 256):
                    self.is_sound(data[:index] + bytes([other]) + data[index + 1:])

    def test_counts(self):
        data = (FOLDER / "Europe/Berlin").read_bytes()
        second = data.index(b"TZif", 4)
        for header, index in itertools.product((0, second), range(6)):
            start = header + 20 + 4 * index
            for count in (2**32 - 1, 2**31, 2**24):
                self.is_sound(data[:start] + struct.pack(">I", count) + data[start + 4:])


def changes_in(data):
    """Returns the Unix times of the changes in a file."""
    def size(counts, width):
        return counts[3] * width + counts[3] + 6 * counts[4] + counts[5] + counts[2] * (width + 4) + counts[1] + counts[0]
    start = 44 + size(struct.unpack(">6I", data[20:44]), 4)
    counts = struct.unpack(">6I", data[start + 20:start + 44])
    return struct.unpack_from(f">{counts[3]}q", data, start + 44)


class WithoutFiles(unittest.TestCase):
    def test_package(self):
        """The package tzdata, made of the files of the system, where the system has none."""
        keys = zoneinfo.available_timezones()
        with tempfile.TemporaryDirectory() as made:
            empty, package = pathlib.Path(made, "empty"), pathlib.Path(made, "site", "tzdata")
            empty.mkdir()
            for key in keys:
                path = package / "zoneinfo" / key
                path.parent.mkdir(parents=True, exist_ok=True)
                shutil.copy(FOLDER / key, path)
            for folder in (package, package / "zoneinfo"):
                (folder / "__init__.py").touch()
            others = {name: module for name, module in sys.modules.items() if name.partition(".")[0] != "tzdata"}
            with mock.patch.dict(os.environ, TZDIR=str(empty)), mock.patch.dict(sys.modules, others, clear=True):
                with mock.patch.object(sys, "path", [path for path in sys.path if not pathlib.Path(path, "tzdata").exists()]):
                    importlib.invalidate_caches()
                    self.addCleanup(Zone.clear_cache)
                    Zone.clear_cache()
                    self.assertRaises(LookupError, Zone, "Europe/Berlin")
                    sys.path.insert(0, str(package.parent))
                    self.assertEqual([Zone("Europe/Berlin").abbreviation_at(instant) for instant in (1711846799, 1711846800)], ["CET", "CEST"])
                    for key in keys:
                        self.assertEqual(zones._file_of(key), (FOLDER / key).read_bytes(), key)
                    for key in ("Europe/Berln", "Europe", "a\0b", "\ud800", "../Europe/Berlin", "", "/etc/localtime", "Europe/../Zulu", "zone.tab", "1", "Europe/Berlin "):
                        self.assertRaises(LookupError, Zone, key)
                    # A file of the system comes first, but not a pipe.
                    shutil.copy(FOLDER / "Europe/Berlin", empty / "Zulu")
                    os.mkfifo(empty / "GMT")
                    Zone.clear_cache()
                    self.assertEqual([Zone(key).abbreviation_at(1711846800) for key in ("Zulu", "GMT")], ["CEST", "GMT"])
                    # It is read once.
                    (empty / "Zulu").unlink()
                    self.assertIs(Zone("Zulu"), Zone("Zulu"))
                    Zone.clear_cache()
                    self.assertEqual(Zone("Zulu").abbreviation_at(0), "UTC")
                    (empty / "Large").write_bytes((FOLDER / "Europe/Berlin").read_bytes().ljust(65537))
                    self.assertRaises(LookupError, Zone, "Large")


class AgainstZoneinfo(unittest.TestCase):
    """All files of the system, at each change and at drawn instants."""

    def offset(self, info, instant):
        return (EPOCH + instant * SECOND).replace(tzinfo=datetime.timezone.utc).astimezone(info).utcoffset() // SECOND

    def instants(self, info, reading):
        """Returns the instants at which zoneinfo shows a reading."""
        local = (EPOCH + reading * SECOND).replace(tzinfo=info)
        candidates = {reading - local.replace(fold=fold).utcoffset() // SECOND for fold in (0, 1)}
        return tuple(sorted(instant for instant in candidates if instant + self.offset(info, instant) == reading))

    def check_readings(self, key, info, zone, readings):
        for reading in readings:
            date_time = OffsetDateTime.from_unix_timestamp(reading).local()
            self.assertEqual(zone.resolve(date_time).instants, self.instants(info, reading), (key, reading))

    def check_file(self, key, data, draw):
        info, zone = zoneinfo.ZoneInfo(key), Zone.from_file(data)
        changes = {change for change in changes_in(data) if FIRST < change < LAST}
        later = [2**31]
        for _ in range(6):
            later.append(zone.next_change(later[-1]) or LAST)
        changes.update(change for change in later if change < LAST)
        drawn = [draw.randrange(-2208988800, 4102444800) for _ in range(DRAWN)] + [draw.randrange(FIRST, LAST) for _ in range(DRAWN // 10)]
        instants = sorted({change + near for change in changes for near in (-1, 0, 1)}) + drawn
        found = zone.offsets(instants)
        self.assertEqual(found.error_count, 0)
        for instant, offset in zip(instants, found.offsets):
            self.assertEqual(offset, self.offset(info, instant), (key, instant))
        readings = {change + self.offset(info, change + side) + near for change in changes for side in (-1, 0) for near in (-1, 0, 1)}
        self.check_readings(key, info, zone, sorted(readings))

    def test_all_files(self):
        draw, seen = random.Random(1), set()
        for key in sorted(zoneinfo.available_timezones()):
            file = FOLDER / key
            data = file.read_bytes() if file.is_file() else b""
            if data and data not in seen:
                seen.add(data)
                self.check_file(key, data, draw)
        self.assertGreater(len(seen), 200)


def load_tests(loader, tests, _pattern):
    tests.addTests(doctest.DocFileSuite("../../../docs/ZONES.md", encoding="utf-8"))
    return tests


if __name__ == "__main__":
    unittest.main()
