"""Tests of the months, the working days, the recurrences and the day counts of the Python client. Expected values are from calendars, from the
memorandum of the ISDA, from the examples of RFC 5545, from the calendar of the standard library, one day at a time, and from dateutil, if it is
installed."""

import array
import calendar
import copy
import dataclasses
import datetime
import itertools
import pickle
import random
import unittest

try:
    from dateutil import relativedelta, rrule
except ImportError:
    relativedelta = rrule = None

import fotsevindre
from fotsevindre import (
    CalendarUnit, ComponentRange, Convention, Date, DateRange, DayCount, Frequency, Month, OffsetDateTime, ParseError, ParseRuleError, ParseRuleErrorKind, Period, PlainDateTime, Recurrence, RecurrenceCursor,
    Rule, SignedDuration, Steps, Time, Weekday, Workdays, Zone, easter, julian_easter)


def day(year, month, day_of_month):
    return Date.from_calendar_date(year, month, day_of_month)


HOLIDAYS = [day(2024, month, of_month) for month, of_month in (
    (1, 1), (1, 15), (2, 19), (5, 27), (6, 19), (7, 4), (9, 2), (11, 11), (11, 28), (12, 25))]


class Months(unittest.TestCase):
    def test_months(self):
        for date, months, wanted in (
            (day(2023, 1, 31), 1, day(2023, 2, 28)), (day(2024, 1, 31), 1, day(2024, 2, 29)), (day(2024, 3, 31), -1, day(2024, 2, 29)),
            (day(2023, 12, 15), 1, day(2024, 1, 15)), (Date.MAX, 1, None), (Date.MIN, -1, None), (Date.MIN, 10**30, None),
        ):
            self.assertEqual(date.checked_add_months(months), wanted)
        self.assertEqual(Date.MIN.saturating_add_months(10**30), Date.MAX)
        self.assertEqual(Date.MAX.saturating_add_months(-10**30), Date.MIN)
        self.assertEqual(day(2024, 2, 29).checked_add_years(1), day(2025, 2, 28))
        self.assertEqual(day(1980, 6, 1).years_until(day(2024, 5, 31)), 43)
        self.assertEqual(day(1980, 6, 1).years_until(day(2024, 6, 1)), 44)
        self.assertEqual(day(2023, 1, 31).months_until(day(2022, 12, 30)), -1)
        self.assertEqual(day(2023, 1, 31).period_until(day(2024, 3, 2)), Period(years=1, months=1, days=2))
        self.assertEqual(day(2024, 3, 2).period_until(day(2023, 1, 31)), Period(years=-1, months=-1, days=-2))

    def test_drawn_months(self):
        draw = random.Random(1)
        for _ in range(500):
            year, months = draw.randrange(1, 9000), draw.randrange(-5000, 5000)
            date = datetime.date(year, 1, 1) + datetime.timedelta(draw.randrange(365))
            index = date.year * 12 + date.month - 1 + months
            if index >= 12:
                to_year, to_month = divmod(index, 12)
                most = calendar.monthrange(to_year, to_month + 1)[1] if to_year < 10000 else 0
                wanted = day(to_year, to_month + 1, min(date.day, most))
                self.assertEqual(day(date.year, date.month, date.day).checked_add_months(months), wanted)

    def test_periods(self):
        hour = SignedDuration.HOUR
        for start, period, wanted in (
            (day(2000, 1, 31), Period(months=1, days=1), day(2000, 3, 1)), (day(2000, 1, 31), Period(months=2), day(2000, 3, 31)),
            (day(2024, 2, 29), Period(years=1, days=1), day(2025, 3, 1)), (day(2024, 3, 31), Period(months=-1, days=-1), day(2024, 2, 28)),
            (day(2024, 1, 1), Period(weeks=1, days=1), day(2024, 1, 9)), (Date.MAX, Period(), Date.MAX), (Date.MAX, Period(days=1), None),
            (Date.MIN, Period(years=-2**31), None), (Date.MIN, Period(years=1999998, months=11, days=30), Date.MAX),
        ):
            self.assertEqual(start.checked_add_period(period), wanted)
            if wanted is None:
                self.assertRaises(OverflowError, lambda: start + period)
                self.assertRaises(OverflowError, start.nth_period, period, 1)
            else:
                reading = PlainDateTime(start, Time(23))
                self.assertEqual((start + period, start.nth_period(period, 1), reading + period), (wanted, wanted, PlainDateTime(wanted, Time(23))))
                self.assertEqual(reading.checked_add_period(period), reading + period)
        # Steps of a month don't drift.
        self.assertEqual([day(2024, 1, 31).nth_period(Period(months=1), n) for n in (0, 1, 2, 3, -2)],
            [day(2024, 1, 31), day(2024, 2, 29), day(2024, 3, 31), day(2024, 4, 30), day(2023, 11, 30)])
        self.assertRaises(OverflowError, day(2024, 1, 31).nth_period, Period(days=1), 10**30)
        self.assertEqual(PlainDateTime(day(2000, 1, 31), Time(23)) + Period(months=1, duration=2 * hour), PlainDateTime(day(2000, 3, 1), Time(1)))
        self.assertIsNone(PlainDateTime.MAX.checked_add_period(Period(duration=SignedDuration.NANOSECOND)))
        for call in (lambda: day(2024, 1, 1) + Period(duration=hour), lambda: day(2024, 1, 1).checked_add_period(Period(duration=hour)),
                lambda: day(2024, 1, 1).nth_period(Period(duration=hour), 0), lambda: Period(years=1, days=-1), lambda: Period(weeks=-1, duration=hour)):
            self.assertRaises(ValueError, call)
        for call in (lambda: Period(days=1) - day(2024, 1, 1), lambda: Period(days=1) + day(2024, 1, 1), lambda: Time() - Period(), lambda: Time() + Period(), lambda: hour + Period(),
                lambda: OffsetDateTime.UNIX_EPOCH + Period(days=1), lambda: OffsetDateTime.UNIX_EPOCH - Period(days=1), lambda: Period(1), lambda: Period(days=1.0), lambda: Period(duration=1),
                lambda: day(2024, 1, 1).checked_add_period(1), lambda: Period() < Period(), lambda: Period() + Period()):
            self.assertRaises(TypeError, call)
        for name in ("years", "months", "weeks", "days"):
            self.assertRaises(OverflowError, Period, **{name: 2**31})
            self.assertEqual(getattr(Period(**{name: -2**31}), name), -2**31)

    def test_periods_by_a_unit(self):
        for start, end, units in (
            (day(2000, 1, 31), day(2001, 3, 2), (Period(days=396), Period(weeks=56, days=4), Period(months=13, days=2), Period(years=1, months=1, days=2))),
            (day(2024, 3, 2), day(2023, 1, 31), (Period(days=-396), Period(weeks=-56, days=-4), Period(months=-13, days=-2),
                Period(years=-1, months=-1, days=-2))),
            (day(2023, 1, 31), day(2023, 2, 28), (Period(days=28), Period(weeks=4), Period(months=1), Period(months=1))),
            (Date.MIN, Date.MIN, (Period(),) * 4),
        ):
            by_day, by_week, by_month, by_year = units
            wanted = [by_day, by_week, by_month, by_month, by_year]
            self.assertEqual([start.period_until_by(end, unit) for unit in CalendarUnit], wanted)
            self.assertEqual({start + period for period in wanted}, {end})
            self.assertEqual(start.period_until(end), by_year)
        self.assertEqual(Date.MIN.period_until_by(Date.MAX, CalendarUnit.Day), Period(days=(Date.MAX - Date.MIN).days))
        for call in (lambda: day(2024, 1, 1).period_until_by(day(2024, 1, 2), 1), lambda: day(2024, 1, 1).period_until_by(1, CalendarUnit.Day),
                lambda: day(2024, 1, 1).period_until_by(day(2024, 1, 2), Frequency.Monthly)):
            self.assertRaises(TypeError, call)

    def test_ranges(self):
        march, later = DateRange(day(2024, 3, 1), day(2024, 4, 1)), DateRange(day(2024, 3, 22), day(2024, 5, 1))
        empty, year, leap = (DateRange(day(2024, 3, 9), day(2024, 3, 9)), DateRange(day(2024, 1, 1), day(2025, 1, 1)),
            DateRange(day(2024, 2, 29), day(2024, 3, 1)))
        for one, other, share in (
            (march, later, (10, 31)), (later, march, (10, 40)), (march, empty, (0, 31)), (empty, march, (0, 0)), (leap, march, (0, 1)), (year, leap, (1, 366)),
            (year, year, (366, 366)),
        ):
            both = set(one) & set(other)
            self.assertEqual((one.share(other), one.share(other)[0], len(one)), (share, len(both), share[1]))
            self.assertEqual((one.overlaps(other), set(one.intersection(other) or ())), (bool(both), both))
            self.assertEqual({date for date in year if date in one}, set(one) & set(year))
        self.assertEqual((march.intersection(later), march.intersection(leap)), (DateRange(later.start, march.end), None))
        self.assertEqual((pickle.loads(pickle.dumps(march)), copy.copy(march)), (march, march))
        self.assertEqual((len(DateRange(Date.MIN, Date.MAX)), list(DateRange(Date.MIN, Date.MIN))), ((Date.MAX - Date.MIN).whole_days(), []))
        self.assertRaises(ValueError, DateRange, march.end, march.start)
        for call in (lambda: DateRange(march.start, 1), lambda: march.share(1), lambda: march.overlaps(march.start), lambda: datetime.date(2024, 3, 1) in march):
            self.assertRaises(TypeError, call)

    def test_steps(self):
        start, month = day(2024, 1, 31), Period(months=1)
        for date, step in ((start, 0), (day(2024, 2, 28), 0), (day(2024, 2, 29), 1), (day(2024, 3, 30), 1), (day(2024, 3, 31), 2), (day(2024, 1, 30), None)):
            self.assertEqual(start.step_of(month, date), step)
        for period in (Period(), Period(days=-1), Period(days=1, duration=SignedDuration.HOUR)):
            self.assertIsNone(start.step_of(period, start))
        self.assertRaises(TypeError, start.step_of, 1, start)
        draw = random.Random(3)
        for _ in range(300):
            period = Period(years=draw.randrange(2), months=draw.randrange(3), weeks=draw.randrange(2), days=draw.randrange(1, 9))
            date = start + Period(days=draw.randrange(2000))
            step = start.step_of(period, date)
            self.assertTrue(start.nth_period(period, step) <= date < start.nth_period(period, step + 1), (period, date))

    def test_texts_of_periods(self):
        rows = [
            (Period(), "PT0S"), (Period(days=1), "P1D"), (Period(days=-1), "-P1D"), (Period(weeks=2), "P2W"), (Period(months=1), "P1M"),
            (Period(years=1, months=2, days=10, duration=SignedDuration(hours=2, minutes=30, milliseconds=500)), "P1Y2M10DT2H30M0.5S"),
            (Period(weeks=-1, days=-3, duration=SignedDuration(minutes=-1)), "-P1W3DT1M"),
        ]
        for period, text in rows:
            self.assertEqual((str(period), period.isoformat(), Period.parse(text), Period.fromisoformat(text)), (text, text, period, period))
        self.assertEqual((Period.parse("PT36H"), Period.parse("P0001Y0M")), (Period(duration=SignedDuration(hours=36)), Period(years=1)))
        for text, position, is_end in [("", 0, True), ("P", 1, True), ("P1DT", 4, True), ("P1", 2, True), ("1D", 0, False), ("P1D2M", 3, False), ("P1.5D", 2, False), ("P-1D", 1, False), ("p1d", 0, False)]:
            with self.assertRaises(ParseError, msg=text) as caught:
                Period.parse(text)
            self.assertEqual((caught.exception.position, caught.exception.is_end), (position, is_end), text)
        for letter, name in zip("YMWD", ("years", "months", "weeks", "days")):
            with self.assertRaisesRegex(ComponentRange, f"^{name} "):
                Period.parse(f"P{2**31}{letter}")

    def test_periods_of_date_times(self):
        start, month = PlainDateTime(2024, 1, 31, 8), Period(months=1)
        self.assertEqual([start.nth_period(month, n) for n in (0, 1, 2, -2)], [start, PlainDateTime(2024, 2, 29, 8), PlainDateTime(2024, 3, 31, 8), PlainDateTime(2023, 11, 30, 8)])
        self.assertEqual((start.nth_period(Period(days=1, duration=SignedDuration(hours=12)), 2), PlainDateTime(2000, 1, 31, 8).step_of(month, PlainDateTime(2000, 2, 29, 7, 59))), (PlainDateTime(2024, 2, 3, 8), 0))
        self.assertEqual((start.step_of(month, PlainDateTime(2024, 2, 29, 8)), start.step_of(month, PlainDateTime(2024, 1, 31)), start.step_of(-month, start)), (1, None, None))
        noon, end = PlainDateTime(2024, 1, 31, 12), PlainDateTime(2024, 3, 1, 11)
        self.assertEqual((noon.period_until(end), noon.period_until_by(end, CalendarUnit.Day)), (Period(months=1, duration=SignedDuration(hours=23)), Period(days=29, duration=SignedDuration(hours=23))))
        self.assertEqual(end.period_until(end), Period())
        draw = random.Random(100)
        for _ in range(1000):
            one, other = (PlainDateTime(day(2024, 1, 1) + SignedDuration(days=draw.randint(-10**5, 10**5)), Time(draw.randrange(24), draw.randrange(60))) for _ in "12")
            for unit in CalendarUnit:
                period = one.period_until_by(other, unit)
                self.assertEqual((one + period, abs(period.duration) < SignedDuration.DAY), (other, True))
            period = Period(months=draw.randint(0, 30), days=draw.randint(1, 30), duration=SignedDuration(hours=draw.randint(0, 50)))
            step = min(one, other).step_of(period, max(one, other))
            self.assertTrue(min(one, other).nth_period(period, step) <= max(one, other) < min(one, other).nth_period(period, step + 1))
        self.assertRaises(OverflowError, PlainDateTime.MAX.nth_period, month, 1)
        for call in (lambda: start.nth_period(month), lambda: start.nth_period(1, 1), lambda: start.step_of(month, day(2024, 1, 1)), lambda: start.period_until(day(2024, 1, 1)), lambda: start.period_until_by(end, 1)):
            self.assertRaises(TypeError, call)

    def test_steps(self):
        start, month = day(2024, 1, 31), Period(months=1)
        self.assertEqual(list(itertools.islice(Steps(start, month), 4)), [start, day(2024, 2, 29), day(2024, 3, 31), day(2024, 4, 30)])
        self.assertEqual(list(itertools.islice(Steps(PlainDateTime(start, Time(8)), month), 2)), [PlainDateTime(2024, 1, 31, 8), PlainDateTime(2024, 2, 29, 8)])
        self.assertEqual(list(Steps(Date.MAX, month)), [Date.MAX])
        self.assertEqual(len(list(Steps(day(999990, 1, 31), Period(years=1)))), 10)
        self.assertEqual((Steps(start, month), hash(Steps(start, month)), eval(repr(Steps(start, month)))), (Steps(start, month), hash(Steps(start, month)), Steps(start, month)))
        for period in (Period(), -month, Period(duration=SignedDuration.DAY)):
            self.assertRaises(ValueError, Steps, start, period)

    def test_periods_are_values(self):
        named = {"years": 1, "months": 12, "weeks": 7, "days": 30, "duration": SignedDuration(hours=2, nanoseconds=1)}
        period = Period(**named)
        self.assertEqual({name: getattr(period, name) for name in named}, named)
        self.assertEqual((repr(period), repr(Period()), repr(Period(days=-1))), (
            "Period(years=1, months=12, weeks=7, days=30, duration=SignedDuration(hours=2, nanoseconds=1))", "Period()", "Period(days=-1)"))
        for same in (Period(**named), copy.copy(period), copy.deepcopy(period), *(pickle.loads(pickle.dumps(period, protocol)) for protocol in range(6))):
            self.assertEqual((same, hash(same)), (period, hash(period)))
        for name in named:
            other = Period(**{**named, name: 2 * named[name]})
            self.assertTrue(other != period and hash(other) != hash(period) and not other == period)
        self.assertNotEqual(Period(months=12), Period(years=1))
        self.assertRaises(AttributeError, setattr, period, "years", 2)

    def test_drawn_periods(self):
        draw = random.Random(2)
        for _ in range(500 if relativedelta else 0):
            sign = draw.choice((1, -1))
            named = {name: sign * draw.randrange(most) for name, most in (("years", 500), ("months", 50), ("weeks", 50), ("days", 500))}
            start = datetime.datetime(draw.randrange(1000, 3000), draw.randrange(1, 13), 1) + datetime.timedelta(draw.randrange(31), draw.randrange(86400))
            wanted = start + relativedelta.relativedelta(**named)
            self.assertEqual((Date.from_date(start.date()) + Period(**named)).to_date(), wanted.date())
            seconds = sign * draw.randrange(10**6)
            moved = PlainDateTime.from_datetime(start) + Period(**named, duration=SignedDuration(seconds=seconds))
            self.assertEqual(moved.to_datetime(), wanted + datetime.timedelta(seconds=seconds))

    def test_ends(self):
        leap = day(2024, 2, 29)
        self.assertEqual((leap.first_of_month(), leap.last_of_month()), (day(2024, 2, 1), leap))
        self.assertEqual((leap.first_of_quarter(), leap.last_of_quarter(), leap.quarter), (day(2024, 1, 1), day(2024, 3, 31), 1))
        self.assertEqual((leap.first_of_year(), leap.last_of_year()), (day(2024, 1, 1), day(2024, 12, 31)))
        self.assertEqual((day(2021, 1, 1).first_of_iso_week(), day(2021, 1, 1).last_of_iso_week()), (day(2020, 12, 28), day(2021, 1, 3)))
        self.assertIsNone(Date.MAX.last_of_iso_week())

    def test_hours(self):
        """The examples of RFC 5545 by hours and minutes. Days of such a rule don't exist."""
        start = PlainDateTime(1997, 9, 2, 9)
        for text, times in (("FREQ=HOURLY;INTERVAL=3;UNTIL=19970902T170000", "09:00 12:00 15:00"), ("FREQ=MINUTELY;INTERVAL=15;COUNT=6", "09:00 09:15 09:30 09:45 10:00 10:15"),
                            ("FREQ=MINUTELY;INTERVAL=90;COUNT=4", "09:00 10:30 12:00 13:30"), ("FREQ=SECONDLY;INTERVAL=1800;COUNT=2", "09:00 09:30")):
            recurrence = Recurrence.parse(text)
            self.assertEqual([found.strftime("%F %R") for found in recurrence.readings(start)], [f"1997-09-02 {time}" for time in times.split()], text)
            self.assertRaises(ParseRuleError, lambda: list(recurrence.days(start.date())))
            self.assertRaises(ValueError, lambda: recurrence.rule(start.date()).first_days(1))
        self.assertEqual(str(Recurrence.from_parts(Frequency.Hourly, count=3)), "FREQ=HOURLY;COUNT=3")
        self.assertRaises(ValueError, lambda: Rule(start.date(), Frequency.Minutely).first_days(1))

    def test_intervals(self):
        january = DateRange(day(2024, 1, 1), day(2024, 2, 1))
        for text in ("2024-01-01/2024-02-01", "2024-01-01/P1M", "P1M/2024-02-01", "2024-001/P4W3D", "2024-W01-1/2024-W05-4"):
            self.assertEqual(DateRange.parse(text), january, text)
        shift = PlainDateTime(2024, 1, 1, 8), PlainDateTime(2024, 1, 1, 9, 30)
        for text in ("2024-01-01T08:00/2024-01-01T09:30", "2024-01-01T08:00/PT90M", "PT1H30M/2024-01-01T09:30"):
            self.assertEqual(PlainDateTime.parse_interval(text), shift, text)
        self.assertEqual([str(date) for date in Steps.parse("R3/2024-01-31/P1M")], ["2024-01-31", "2024-02-29", "2024-03-31"])
        self.assertEqual(Steps.parse("R/2024-01-01/2024-01-08"), Steps(day(2024, 1, 1), Period(days=7)))
        self.assertEqual(list(Steps.parse_date_times("R3/2024-01-31T09:00/P1M")), [PlainDateTime(2024, *rest, 9) for rest in ((1, 31), (2, 29), (3, 31))])
        self.assertEqual(Steps.parse_date_times("R/2024-01-01T08:00/2024-01-01T09:30"), Steps(PlainDateTime(2024, 1, 1, 8), Period(duration=SignedDuration(minutes=90))))
        self.assertEqual(len(list(Steps(PlainDateTime(2024, 1, 1), Period(months=1), 5))), 5)
        self.assertRaises(ValueError, Steps, day(2024, 1, 1), Period(days=7), -1)
        for text, error in (("2024-02-01/2024-01-01", ValueError), ("2024-01-01/PT1H", ValueError), ("+999999-12-31/P1D", OverflowError), ("2024-13-01/P1M", ComponentRange),
                            ("2024-01-01/P2147483648Y", ComponentRange), ("2024-01-01", ParseError), ("2024-01-01/-P1M", ParseError)):
            self.assertRaises(error, DateRange.parse, text)
        for text in ("R0/2024-01-31/P1M", "R4294967296/2024-01-31/P1M", "R5/P1M/2024-01-31", "R5/2024-01-31/P0D", "R5/2024-01-31/PT1H", "R5/2024-01-31/2024-01-30"):
            self.assertRaises(ValueError, Steps.parse, text)
        for text in ("R0/2024-01-31T09:00/P1M", "R5/P1M/2024-01-31T09:00", "R5/2024-01-31T09:00/PT0S", "R5/2024-01-31T09:00/2024-01-31T08:59", "R5/2024-01-31/P1M"):
            self.assertRaises(ValueError, Steps.parse_date_times, text)
        self.assertRaises(TypeError, DateRange.parse, b"2024-01-01/P1M")
        self.assertRaises(ParseError, PlainDateTime.parse_interval, "2024-01-01/P1M")

    def test_easter(self):
        """Published dates: in 1954 and 2049 an exception makes it a week earlier."""
        rows = [(1583, "04-10", "04-10"), (1943, "04-25", "04-25"), (1954, "04-18", "04-25"), (2000, "04-23", "04-30"), (2024, "03-31", "05-05"), (2049, "04-18", "04-25"), (4099, "04-19", "05-03")]
        for year, western, orthodox in rows:
            self.assertEqual((str(easter(year)), str(julian_easter(year))), (f"{year}-{western}", f"{year}-{orthodox}"))
        for call, year in ((easter, 10**6), (easter, -10**6), (julian_easter, 999_999), (julian_easter, -2**31)):
            with self.assertRaises(ComponentRange) as refused:
                call(year)
            self.assertEqual((refused.exception.name, refused.exception.is_conditional), ("year", False))
        self.assertRaises(OverflowError, easter, 2**31)
        self.assertRaises(TypeError, easter, Date(2024, 1, 1))

    def test_calendars(self):
        """Published holidays: the New Year of 2022 was on the last day of 2021 in the United States."""
        year = day(2021, 1, 1), day(2021, 12, 31)
        self.assertEqual([str(holiday)[5:] for holiday in Workdays.of("us-federal", *year).holidays],
                         "01-01 01-18 02-15 05-31 06-18 07-05 09-06 10-11 11-11 11-25 12-24 12-31".split())
        self.assertEqual([str(holiday)[5:] for holiday in Workdays.of("de-sn", *year).holidays],
                         "01-01 04-02 04-05 05-01 05-13 05-24 10-03 10-31 11-17 12-25 12-26".split())
        self.assertTrue(Workdays.of("de-be").is_workday(day(2018, 3, 8)))
        self.assertFalse(Workdays.of("de-be").is_workday(day(2019, 3, 8)))
        self.assertEqual(Workdays.of("nyse").weekdays, Workdays().weekdays)
        self.assertRaises(ValueError, Workdays.of, "de")
        self.assertRaises(ValueError, Workdays.of, "us-federal", Date.MIN, Date.MAX)
        self.assertRaises(TypeError, Workdays.of, 1)
        self.assertRaises(TypeError, Workdays.of, "nyse", "2024-01-01")

    def test_rules_of_holidays(self):
        """The published holidays of Saxony in 2021 and of the United States, by rules."""
        year = day(2021, 1, 1), day(2021, 12, 31)
        saxony = """# Saxony\r
            01-01\neaster-2\neaster+1\n05-01\neaster+39\neaster+50\n10-03\n10-31
            11-WE>=16 1995..   # Buß- und Bettag
            12-25\n12-26"""
        self.assertEqual(Workdays.from_rules(saxony, *year), Workdays.of("de-sn", *year))
        states = Workdays.from_rules("01-01 SA-1 SU+1\n11-4th\n05-lastmo", *year)
        self.assertEqual([str(holiday)[5:] for holiday in states.holidays], "01-01 05-31 11-25 12-31".split())
        self.assertEqual(Workdays.from_rules("", *year), Workdays())
        for rules, position in (("12-25\n13-25", 6), ("12-25 # \u00df\n12-25 SA", 16), ("12-25 2009..1999", 6), ("\udc80", 0)):
            with self.assertRaises(ValueError) as refused:
                Workdays.from_rules(rules)
            self.assertEqual(str(refused.exception), f"invalid rule of a holiday at {position}")
        self.assertRaisesRegex(ValueError, "too many holidays", Workdays.from_rules, "12-25", Date.MIN, Date.MAX)
        self.assertRaisesRegex(ValueError, "too many holidays", Workdays.from_rules, "12-25\n" * 1025)
        self.assertRaises(TypeError, Workdays.from_rules, b"12-25")
        self.assertRaises(TypeError, Workdays.from_rules, "12-25", "2024-01-01")

    def test_weekdays(self):
        self.assertEqual(Date.nth_weekday_of_month(2024, Month.November, Weekday.Thursday, 4), day(2024, 11, 28))
        fridays = [26, 23, 29, 26, 31, 28, 26, 30, 27, 25, 29, 27]
        self.assertEqual([Date.last_weekday_of_month(2024, month, Weekday.Friday).day for month in range(1, 13)], fridays)
        self.assertEqual(day(2024, 3, 1).on_or_after(Weekday.Monday), day(2024, 3, 4))
        self.assertEqual(day(2024, 3, 1).on_or_before(Weekday.Monday), day(2024, 2, 26))
        self.assertIsNone(Date.MAX.on_or_after(Weekday.Saturday))
        for arguments, name in (((2024, 11, Weekday.Thursday, 5), "weekday"), ((10**6, 11, Weekday.Thursday, 1), "year"), ((2024, 13, Weekday.Monday, 1), "month")):
            with self.assertRaises(ComponentRange) as refused:
                Date.nth_weekday_of_month(*arguments)
            self.assertEqual(refused.exception.name, name)
        self.assertRaises(OverflowError, Date.nth_weekday_of_month, 2024, 11, Weekday.Monday, 256)
        self.assertRaises(TypeError, Date.nth_weekday_of_month, 2024, 11, 1, 1)

    def test_day_counts(self):
        self.assertEqual(day(2003, 11, 1).day_count(day(2004, 5, 1), DayCount.ActualActual), (61 * 366 + 121 * 365, 133590))
        self.assertEqual(day(2003, 11, 1).day_count(day(2004, 5, 1), DayCount.Actual360), (182, 360))
        self.assertEqual(day(2024, 1, 15).day_count(day(2024, 3, 31), DayCount.Thirty360), (76, 360))
        self.assertEqual(day(2024, 1, 15).day_count(day(2024, 3, 31), DayCount.ThirtyE360), (75, 360))
        self.assertRaises(TypeError, day(2024, 1, 1).day_count, day(2024, 1, 1), 1)


class WorkingDays(unittest.TestCase):
    def test_rows(self):
        work = Workdays(holidays=HOLIDAYS)
        self.assertEqual(work.workdays_between(day(2024, 1, 1), day(2025, 1, 1)), 252)
        self.assertEqual(work.workdays_between(day(2025, 1, 1), day(2024, 1, 1)), -252)
        self.assertEqual(Workdays().workdays_between(day(2024, 1, 1), day(2025, 1, 1)), 262)
        self.assertFalse(work.is_workday(day(2024, 7, 4)))
        self.assertEqual(work.next_workday(day(2024, 8, 30)), day(2024, 9, 3))
        self.assertEqual(work.previous_workday(day(2024, 9, 3)), day(2024, 8, 30))
        self.assertEqual(work.adjust(day(2024, 8, 31), Convention.Following), day(2024, 9, 3))
        self.assertEqual(work.adjust(day(2024, 8, 31), Convention.ModifiedFollowing), day(2024, 8, 30))
        self.assertEqual(work.adjust(day(2024, 9, 1), Convention.Preceding), day(2024, 8, 30))
        self.assertEqual(work.adjust(day(2024, 9, 1), Convention.ModifiedPreceding), day(2024, 9, 3))
        self.assertIsNone(Workdays([]).next_workday(day(2024, 1, 1)))

    def test_one_at_a_time(self):
        work = Workdays(holidays=HOLIDAYS)
        start = day(2024, 1, 1)
        days = [date for date in start.iter_to(day(2024, 12, 31)) if date.weekday().number_from_monday() <= 5 and date not in HOLIDAYS]
        for index, date in enumerate(days):
            self.assertEqual(work.workdays_between(start, date), index)
            self.assertEqual(work.checked_add_workdays(start, index + 1), date)
            self.assertEqual(work.checked_add_workdays(date, -index), days[0])
        self.assertIsNone(work.checked_add_workdays(start, 2**31))

    def test_refusals(self):
        self.assertRaises(TypeError, Workdays, holidays=[1])
        self.assertRaises(TypeError, Workdays, [1])
        self.assertRaisesRegex(ValueError, "^invalid weekmask", fotsevindre._core.Workdays, 128, b"")
        for number in (-2**31, 2**31 - 1):
            self.assertRaisesRegex(ValueError, "^holidays must be", fotsevindre._core.Workdays, 31, array.array("i", [2460000, number]).tobytes())

    def test_any_number_of_holidays(self):
        """Days are counted one by one."""
        draw = random.Random(5)
        first = day(2000, 1, 1).to_julian_day()
        for length in (0, 1, 10, 80, 1023, 1024, 1025, 5000, 40000):
            span = max(2 * length, 400)
            free = draw.sample(range(first, first + span), length)
            work = Workdays(holidays=map(Date.from_julian_day, free + free[:7]))
            self.assertEqual([one.to_julian_day() for one in work.holidays], sorted(free))
            every = range(first - 700, first + span + 700)
            working_days = {number for number in every if number % 7 < 5}.difference(free)
            working = sorted(working_days)
            before = list(itertools.accumulate((number in working_days for number in every), initial=0))
            rows = [draw.randrange(first - 300, first + span + 300) for _ in range(100)]
            others, moves = [draw.choice(rows) for _ in rows], [draw.randint(-150, 150) for _ in rows]
            counted = [before[other - first + 700] - before[row - first + 700] for row, other in zip(rows, others)]
            # For 0 it is the first working day from the day on.
            moved = [working[before[row - first + 700] + (move - (row not in working_days) if move > 0 else move)] for row, move in zip(rows, moves)]
            dates = [Date.from_julian_day(row) for row in rows]
            self.assertEqual([work.is_workday(one) for one in dates], [row in working_days for row in rows])
            self.assertEqual([work.workdays_between(one, Date.from_julian_day(other)) for one, other in zip(dates, others)], counted)
            self.assertEqual([work.add_workdays(one, move).to_julian_day() for one, move in zip(dates, moves)], moved)
            self.assertEqual(list(fotsevindre.dates_add_workdays(rows, moves, work).dates), moved)
            self.assertEqual(list(fotsevindre.dates_workdays_between(rows, others, work).numbers), counted)
            self.assertEqual((pickle.loads(pickle.dumps(work)), eval(repr(work))), (work, work))

    def test_columns_of_the_far_ends(self):
        for work in (Workdays(), Workdays(holidays=day(2000, 1, 1).iter_to(day(2010, 1, 1)))):
            found = fotsevindre.dates_add_workdays([Date.MAX, Date.MIN, 2**31 - 1, 2460370], [1, -1, 0, 0], work)
            self.assertEqual((list(found.dates), list(found.statuses), found.error_count), ([-2**31] * 3 + [2460370], [1, 1, 2, 0], 3))
            found = fotsevindre.dates_workdays_between([2**31 - 1, Date.MIN, 2460370], [Date.MAX, -2**31, 2460377], work)
            self.assertEqual((list(found.numbers), list(found.statuses), found.error_count), ([-2**31] * 2 + [5], [2, 2, 0], 2))
            with self.assertRaisesRegex(ValueError, "same length"):
                fotsevindre.dates_add_workdays([Date.MAX], [1, 2], work)
            with self.assertRaisesRegex(ValueError, "same length"):
                fotsevindre.dates_workdays_between([Date.MAX], [Date.MAX] * 2, work)


TU, TH, FR, SA, SU = (Weekday[name] for name in ("Tuesday", "Thursday", "Friday", "Saturday", "Sunday"))


def numbered(number):
    return day(number // 10000, number // 100 % 100, number % 100)


class Recurrences(unittest.TestCase):
    # Examples of RFC 5545 with their first days.
    ROWS = [
        ("FREQ=DAILY;INTERVAL=10;COUNT=5", 19970902, Frequency.Daily, {"interval": 10}, [19970902, 19970912, 19970922, 19971002, 19971012]),
        ("FREQ=WEEKLY;INTERVAL=2;COUNT=4;BYDAY=TU,SU;WKST=MO", 19970805, Frequency.Weekly, {"interval": 2, "weekdays": [TU, SU]},
            [19970805, 19970810, 19970819, 19970824]),
        ("FREQ=WEEKLY;INTERVAL=2;COUNT=4;BYDAY=TU,SU;WKST=SU", 19970805, Frequency.Weekly, {"interval": 2, "weekdays": [TU, SU], "week_start": SU},
            [19970805, 19970817, 19970819, 19970831]),
        ("FREQ=MONTHLY;COUNT=6;BYDAY=-2MO", 19970922, Frequency.Monthly, {"weekdays": [(-2, Weekday.Monday)]},
            [19970922, 19971020, 19971117, 19971222, 19980119, 19980216]),
        ("FREQ=MONTHLY;BYMONTHDAY=-3", 19970928, Frequency.Monthly, {"month_days": [-3]}, [19970928, 19971029, 19971128, 19971229, 19980129, 19980226]),
        ("FREQ=MONTHLY;BYDAY=FR;BYMONTHDAY=13", 19970902, Frequency.Monthly, {"weekdays": [FR], "month_days": [13]},
            [19980213, 19980313, 19981113, 19990813, 20001013]),
        ("FREQ=YEARLY;COUNT=10;BYMONTH=6,7", 19970610, Frequency.Yearly, {"months": [6, 7]}, [19970610, 19970710, 19980610, 19980710, 19990610]),
        ("FREQ=YEARLY;BYDAY=20MO", 19970519, Frequency.Yearly, {"weekdays": [(20, Weekday.Monday)]}, [19970519, 19980518, 19990517]),
        ("FREQ=YEARLY;INTERVAL=4;BYMONTH=11;BYDAY=TU;BYMONTHDAY=2,3,4,5,6,7,8", 19961105, Frequency.Yearly,
            {"interval": 4, "months": [Month.November], "weekdays": [TU], "month_days": range(2, 9)}, [19961105, 20001107, 20041102]),
        ("FREQ=YEARLY;INTERVAL=3;COUNT=10;BYYEARDAY=1,100,200", 19970101, Frequency.Yearly, {"interval": 3, "year_days": [1, 100, 200]},
            [19970101, 19970410, 19970719, 20000101, 20000409, 20000718, 20030101, 20030410, 20030719, 20060101]),
        ("FREQ=YEARLY;BYWEEKNO=20;BYDAY=MO", 19970512, Frequency.Yearly, {"weeks": [20], "weekdays": [Weekday.Monday]}, [19970512, 19980511, 19990517]),
        ("FREQ=MONTHLY;COUNT=3;BYDAY=TU,WE,TH;BYSETPOS=3", 19970904, Frequency.Monthly,
            {"weekdays": [TU, Weekday.Wednesday, TH], "set_positions": [3]}, [19970904, 19971007, 19971106]),
        ("FREQ=MONTHLY;BYDAY=MO,TU,WE,TH,FR;BYSETPOS=-2", 19970929, Frequency.Monthly, {"weekdays": tuple(Weekday)[:5], "set_positions": [-2]},
            [19970929, 19971030, 19971127, 19971230, 19980129, 19980226, 19980330]),
    ]

    def test_examples_of_the_rfc(self):
        for text, start, frequency, parts, wanted in self.ROWS:
            rule = Rule(numbered(start), frequency, **parts)
            wanted = [numbered(number) for number in wanted]
            self.assertEqual(rule.first_days(len(wanted)), wanted, text)
            self.assertEqual([rule.next_after(one) for one in wanted[:-1]], wanted[1:], text)
            self.assertEqual([rule.previous_before(one) for one in wanted], [None, *wanted[:-1]], text)
            span = wanted[0].iter_to(wanted[-1])
            self.assertEqual([date for date in span if date in rule], wanted, text)
            by_text = Recurrence.parse(text)
            self.assertEqual(list(itertools.islice(by_text.days(rule.start), len(wanted))), wanted, text)
            after = by_text.days_from(rule.start, wanted[0] + SignedDuration.days(1))
            self.assertEqual(list(itertools.islice(after, len(wanted) - 1)), wanted[1:], text)
            self.assertEqual(by_text.rule(rule.start), rule, text)
            count = text.partition("COUNT=")[2].partition(";")[0]
            self.assertEqual((by_text.count, by_text.until), (int(count) if count else None, None), text)

    def test_texts_in_one_order(self):
        for text, written in {
            "byday=-01fr;count=3;freq=monthly": "FREQ=MONTHLY;COUNT=3;BYDAY=-1FR",
            "WKST=MO;FREQ=DAILY;INTERVAL=1": "FREQ=DAILY",
            "FREQ=MONTHLY;BYDAY=FR;BYMONTHDAY=13": "FREQ=MONTHLY;BYMONTHDAY=13;BYDAY=FR",
            "byday=tu,+02we,-1su;bymonthday=-31,+07;bymonth=06,12;until=19971231;wkst=su;interval=002;freq=yearly":
                "FREQ=YEARLY;INTERVAL=2;UNTIL=19971231;BYMONTH=6,12;BYMONTHDAY=-31,7;BYDAY=TU,2WE,-1SU;WKST=SU",
        }.items():
            recurrence = Recurrence.parse(text)
            self.assertEqual((recurrence.text, str(recurrence), repr(recurrence)), (written, written, f"Recurrence(text={written!r})"))
            self.assertEqual(f"{recurrence:>99}", written.rjust(99))
            for same in (Recurrence(written), copy.deepcopy(recurrence), pickle.loads(pickle.dumps(recurrence))):
                self.assertEqual((same, hash(same), vars(same)), (recurrence, hash(recurrence), vars(recurrence)))
        self.assertEqual((recurrence.frequency, recurrence.interval, recurrence.week_start), (Frequency.Yearly, 2, SU))
        self.assertEqual((recurrence.months, recurrence.month_days), ((Month.June, Month.December), (-31, 7)))
        self.assertEqual(recurrence.weekdays, (TU, (2, Weekday.Wednesday), (-1, SU)))
        self.assertEqual((recurrence.until, recurrence.count), (day(1997, 12, 31), None))
        counted, start = Recurrence.parse("FREQ=MONTHLY;COUNT=6;BYDAY=-2MO"), day(1997, 9, 22)
        *_, last = counted.days(start)
        self.assertEqual((last, counted.rule(start).next_after(last), last in counted.rule(start)), (day(1998, 2, 16), day(1998, 3, 23), True))
        numbered_parts = Recurrence.parse("FREQ=YEARLY;BYWEEKNO=1,-53;BYYEARDAY=1,-366;BYDAY=MO;BYSETPOS=2,-366")
        self.assertEqual((numbered_parts.weeks, numbered_parts.year_days, numbered_parts.set_positions), ((1, -53), (1, -366), (2, -366)))
        full = Recurrence.parse("FREQ=YEARLY;BYMONTH=1" + ",1" * 61)
        self.assertEqual((len(full.months), list(full.rule(Date.MAX))), (62, []))

    def test_ends(self):
        rule = Rule(numbered(19970902), Frequency.Weekly, week_start=SU, weekdays=[TU, TH], until=numbered(19971006))
        self.assertEqual([date.day for date in rule], [2, 4, 9, 11, 16, 18, 23, 25, 30, 2])
        never = Rule(day(2024, 1, 1), Frequency.Yearly, months=[2], month_days=[30])
        self.assertEqual((list(never), never.first_days(3), never.next_after(Date.MIN), never.previous_before(Date.MAX)), ([], [], None, None))
        daily = Rule(day(999999, 12, 30), Frequency.Daily)
        self.assertEqual(list(Recurrence.parse("freq=daily").days(daily.start)), [day(999999, 12, 30), Date.MAX])
        self.assertEqual(list(Recurrence.parse("freq=daily").days(Date.MAX - SignedDuration.days(63)))[-1], Date.MAX)
        self.assertEqual(list(Recurrence.parse("FREQ=DAILY;UNTIL=20231231").days(day(2024, 1, 1))), [])
        self.assertEqual(list(daily), [day(999999, 12, 30), Date.MAX])
        self.assertEqual([[date.day for date in reversed(one)] for one in (rule, never, daily)], [[2, 30, 25, 23, 18, 16, 11, 9, 4, 2], [], [31, 30]])
        self.assertNotIn(5, daily)
        self.assertRaises(TypeError, lambda: datetime.date(2024, 1, 1) in daily)

    def test_long_walks(self):
        rule = Rule(day(2000, 1, 1), Frequency.Daily, interval=3)
        days = rule.first_days(13_000)
        self.assertEqual(days, [Date.from_julian_day(2451545 + 3 * index) for index in range(13_000)])
        self.assertEqual(list(itertools.islice(rule.days_after(days[70]), 200)), days[71:271])
        ended = Rule(day(2000, 1, 1), Frequency.Daily, interval=3, until=days[128])
        self.assertEqual(list(ended), days[:129])
        # Pages end after 64, 192 and 8128 days, and after 4096 more each.
        for count in (129, 192, 193, 8128, 8129, 12_224, 12_225):
            counted = Recurrence.parse(f"FREQ=DAILY;INTERVAL=3;COUNT={count}")
            self.assertEqual(list(counted.days(days[0])), days[:count])
            self.assertEqual(list(counted.days_from(days[0], days[128])), days[128:count])
            self.assertEqual([one.date() for one in counted.readings(PlainDateTime.parse("2000-01-01T09:00"))], days[:count])
        self.assertEqual(list(itertools.islice(Recurrence.parse("FREQ=DAILY;INTERVAL=3").days_from(days[0], days[70]), 200)), days[70:270])

    def test_pages(self):
        """Days and times by pages, with cursors that were pickled or kept as numbers. The days follow each other."""
        counted, start = Recurrence.parse("FREQ=DAILY;COUNT=10000"), day(2000, 1, 1)
        days, cursor = [], counted.cursor()
        self.assertEqual(cursor, (-2147483648, 10000, 0))
        while page := counted.next_days(cursor, 999, start):
            days += page[0]
            cursor = pickle.loads(pickle.dumps(page[1]))
            if len(page[0]) < 999:
                break
        self.assertEqual(days, [Date.from_julian_day(2451545 + index) for index in range(10_000)])
        self.assertEqual((cursor, cursor.left, counted.next_days(cursor, 5, start)[0]), ((2451545 + 9999, 0, 0), 0, []))
        cursor = counted.next_days(counted.cursor(), 0, start, days[9990])[1]
        self.assertEqual((cursor, counted.next_days(RecurrenceCursor(*cursor), 4, start)[0]), ((2451545 + 9989, 10, 0), days[9990:9994]))
        timed, first, zone = Recurrence.parse("FREQ=DAILY;BYHOUR=9,17;COUNT=3"), PlainDateTime.parse("1997-09-02T09:00"), Zone.from_posix("UTC0")
        page, cursor = timed.next_readings(timed.cursor(), 2, first)
        self.assertEqual(list(map(str, page)), ["1997-09-02T09:00:00", "1997-09-02T17:00:00"])
        rest = timed.next_readings(pickle.loads(pickle.dumps(cursor)), 2, first, PlainDateTime.parse("1997-09-02T17:00:01"))
        self.assertEqual((list(map(str, rest[0])), rest[1].left), (["1997-09-03T09:00:00"], 0))
        page, cursor = timed.next_moments(timed.cursor(), 2, first, zone)
        page += timed.next_moments(cursor, 2, first, zone, page[-1])[0]
        self.assertEqual(list(map(str, page)), [f"1997-09-{one}:00:00+00:00" for one in ("02T09", "02T17", "03T09")])
        for wrong in ((1, 2), (1, 2, "3"), None, (1 << 31, 0, 0)):
            self.assertRaises((TypeError, OverflowError), counted.next_days, wrong, 1, start)
        self.assertRaises(ValueError, counted.next_days, counted.cursor(), 4097, start)

    @unittest.skipUnless(rrule, "dateutil is not installed")
    def test_sets(self):
        """Rules with other dates and exceptions, by the sets of dateutil."""
        draw, start = random.Random(5545), datetime.datetime(2023, 11, 13)
        frequencies = {Frequency.Daily: rrule.DAILY, Frequency.Weekly: rrule.WEEKLY, Frequency.Monthly: rrule.MONTHLY, Frequency.Yearly: rrule.YEARLY}
        for _ in range(500):
            frequency, interval = draw.choice(list(Frequency)[:4]), draw.choice((1, 1, 2, 3))
            months = draw.sample(range(1, 13), draw.choice((0, 9)))
            until = start + datetime.timedelta(days=draw.randrange(-1, 500))
            wanted, drawn = rrule.rruleset(), [[start + datetime.timedelta(days=draw.randrange(-60, 560)) for _ in range(draw.choice((0, 1, 9, 40)))]
                for _ in range(2)]
            wanted.rrule(rrule.rrule(frequencies[frequency], start, interval, until=until, bymonth=months or None))
            # Each day twice, and some of the rule among the exceptions.
            drawn[1] += draw.sample(list(wanted), len(list(wanted)) // 3)
            for dates, add in zip(drawn, (wanted.rdate, wanted.exdate)):
                for one in draw.sample(dates * 2, 2 * len(dates)):
                    add(one)
            dates, exceptions = ([Date.from_date(one.date()) for one in draw.sample(listed * 2, 2 * len(listed))] for listed in drawn)
            rule = Rule(
                Date.from_date(start.date()), frequency, interval, months=months, until=Date.from_date(until.date()), dates=dates,
                exceptions=iter(exceptions))
            days = [Date.from_date(one.date()) for one in wanted]
            self.assertEqual((list(rule), rule.first_days(len(days))), (days, days))
            self.assertEqual(list(rule.days_after(Date.from_date(start.date()))), [one for one in days if one > rule.start])
            for before, after in zip([None, *days], [*days, None]):
                self.assertEqual(rule.next_after(before or Date.MIN), after)
                self.assertEqual(rule.previous_before(after or Date.MAX), before)
            for one in {*dates, *exceptions}:
                self.assertEqual(one in rule, one in days)
        self.assertEqual((hash(rule), rule), (hash(copy.deepcopy(rule)), pickle.loads(pickle.dumps(rule))))

    def test_dates_of_sets(self):
        start = day(2024, 1, 1)
        ends = Rule(start, Frequency.Daily, until=start, dates=[Date.MAX, Date.MIN], exceptions=[start])
        self.assertEqual((list(ends), ends.dates, ends.exceptions), ([Date.MIN, Date.MAX], (Date.MAX, Date.MIN), (start,)))
        many = [start + SignedDuration.days(2 * count) for count in range(1025)]
        self.assertEqual(list(Rule(start, Frequency.Yearly, until=start, dates=many[:1024], exceptions=many[1:1023])), [start, many[1023]])
        for name in ("dates", "exceptions"):
            with self.assertRaisesRegex(ValueError, "^too many dates or exceptions of a rule; expected at most 1024$"):
                Rule(start, Frequency.Daily, **{name: many})
            for wrong in (start, [datetime.date(2024, 1, 1)], [2460311], [None]):
                self.assertRaises(TypeError, Rule, start, Frequency.Daily, **{name: wrong})

    def test_fields(self):
        rule = Rule(day(2024, 1, 1), Frequency.Monthly, weekdays=[FR, (-1, SA)], months=iter([1, 2]))
        same = Rule(start=day(2024, 1, 1), frequency=Frequency.Monthly, interval=1, months=(1, 2), weekdays=(FR, (-1, SA)))
        for copied in (same, copy.deepcopy(rule), pickle.loads(pickle.dumps(rule)), dataclasses.replace(rule, interval=1)):
            self.assertEqual((copied, hash(copied), list(copied.first_days(9))), (rule, hash(rule), rule.first_days(9)))
        self.assertRaises(dataclasses.FrozenInstanceError, setattr, rule, "interval", 2)

    def test_refusals(self):
        start = day(2024, 1, 1)
        with self.assertRaises(ComponentRange) as refused:
            Rule(start, Frequency.Yearly, months=[13])
        self.assertEqual(refused.exception.name, "month")
        for parts in ({"months": [300]}, {"weekdays": [(0, FR)]}):
            self.assertRaises(ValueError, Rule, start, Frequency.Yearly, **parts)
        for name, value, year in (("months", 1, 2025), ("weeks", 2, 2024), ("year_days", 9, 2024), ("month_days", 1, 2024), ("weekdays", FR, 2024),
                ("set_positions", 1, 2025)):
            self.assertEqual(Rule(start, Frequency.Yearly, **{name: [value] * 62}).next_after(start).year, year)
            for length in (63, 64, 100_000):
                with self.assertRaisesRegex(ValueError, "^too many values in a list of a rule; expected at most 62$"):
                    Rule(start, Frequency.Yearly, **{name: [value] * length})
        for parts in ({"month_days": [128]}, {"weeks": [-129]}, {"year_days": [2**15]}, {"set_positions": [-2**15 - 1]}, {"weekdays": [(-129, FR)]},
                {"interval": -1}, {"interval": 2**32}):
            self.assertRaises(OverflowError, Rule, start, Frequency.Yearly, **parts)
        for arguments in ((start, 4), (datetime.date(2024, 1, 1), Frequency.Daily), (start, Frequency.Daily, 1.0)):
            self.assertRaises(TypeError, Rule, *arguments)
        with self.assertRaisesRegex(TypeError, r"^expected a list, such as set_positions=\[-1\], not -1$"):
            Rule(start, Frequency.Yearly, set_positions=-1)
        for parts in ({"weekdays": [5]}, {"months": ["1"]}, {"until": 1}, {"week_start": 1}, {"weekdays": [(1, 5)]}):
            self.assertRaises(TypeError, Rule, start, Frequency.Yearly, **parts)
        for text, wanted in {
            "FREQ=MONTHLY;HOUR=9;BYDAY=FR": (13, ParseRuleErrorKind.Unknown, None, "unknown part at 13"),
            "FREQ=DAILY;UNTIL=20241231;COUNT=3": (26, ParseRuleErrorKind.Twice, "COUNT", "duplicate COUNT at 26"),
            "FREQ=DAILY;BYMONTHDAY=1" + ",1" * 62: (11, ParseRuleErrorKind.TooMany, "BYMONTHDAY", "too many values in BYMONTHDAY at 11"),
            "FREQ=DAILY;UNTIL=20241231T240000Z": (11, ParseRuleErrorKind.Value, "UNTIL", "invalid value of UNTIL at 11"),
            "INTERVAL=2;FREQ=\ud800": (11, ParseRuleErrorKind.Value, "FREQ", "invalid value of FREQ at 11"),
            "BYDAY=MO": (8, ParseRuleErrorKind.Missing, None, "missing FREQ at 8"),
        }.items():
            with self.assertRaises(ParseRuleError) as fault:
                Recurrence.parse(text)
            self.assertEqual((fault.exception.position, fault.exception.kind, fault.exception.part, str(fault.exception)), wanted, text)
            self.assertEqual(str(pickle.loads(pickle.dumps(fault.exception))), wanted[-1])
        daily = Recurrence.parse("FREQ=DAILY")
        self.assertEqual(pickle.loads(pickle.dumps(daily)), daily)
        for call in (lambda: Recurrence.parse(b"FREQ=DAILY"), lambda: daily.days(datetime.date(2024, 1, 1)), lambda: daily.days_from(start, 1)):
            self.assertRaises(TypeError, call)
        for parts, wanted in (
            ({}, "FREQ=YEARLY"), ({"bymonth": Month.March, "byweekday": Weekday.Tuesday}, "FREQ=YEARLY;BYMONTH=3;BYDAY=TU"),
            ({"interval": 2, "count": 4, "byweekday": (Weekday.Tuesday, (2, Weekday.Wednesday)), "wkst": Weekday.Sunday},
                "FREQ=YEARLY;INTERVAL=2;COUNT=4;BYDAY=TU,2WE;WKST=SU"),
            ({"until": day(1997, 12, 31), "bymonthday": [1, -1], "bymonth": range(1, 3)}, "FREQ=YEARLY;UNTIL=19971231;BYMONTH=1,2;BYMONTHDAY=1,-1"),
            ({"byweekno": [1, -1], "byyearday": range(365, 367), "byweekday": Weekday.Monday, "bysetpos": -1},
                "FREQ=YEARLY;BYWEEKNO=1,-1;BYYEARDAY=365,366;BYDAY=MO;BYSETPOS=-1"),
        ):
            made = Recurrence.from_parts(Frequency.Yearly, **parts)
            self.assertEqual((made.text, made), (wanted, Recurrence.parse(wanted)))
        for parts in ({"bymonth": 13}, {"count": 0}, {"count": 1, "until": start}, {"byweekday": [(0, Weekday.Monday)]}, {"bymonthday": 32},
                {"byweekno": 54}, {"byyearday": 367}, {"bysetpos": 1}, {"byweekno": 1, "byweekday": [(1, Weekday.Monday)]}):
            self.assertRaises(ParseRuleError, Recurrence.from_parts, Frequency.Yearly, **parts)
        for parts in ({"bymonth": "1"}, {"count": "1"}, {"until": 1}, {"wkst": 1}, {"byweekday": [5]}, {"byweekday": 5}):
            self.assertRaises(TypeError, Recurrence.from_parts, Frequency.Yearly, **parts)
        for call in (Rule(start, Frequency.Daily).next_after, Rule(start, Frequency.Daily).days_after):
            self.assertRaises(TypeError, call, 1)


def at(text):
    return PlainDateTime.parse(text)


class TimesOfDay(unittest.TestCase):
    def test_examples_of_the_rfc(self):
        rule, start = Recurrence.parse("FREQ=DAILY;BYHOUR=9,10,11,12,13,14,15,16;BYMINUTE=0,20,40"), at("1997-09-02T09:00:00")
        wanted = [at(f"1997-09-{date:02}T{hour:02}:{minute:02}:00") for date in range(2, 31) for hour in range(9, 17) for minute in (0, 20, 40)]
        self.assertEqual(list(itertools.islice(rule.readings(start), len(wanted))), wanted)
        new_york = Zone.from_posix("EDT4")
        self.assertEqual([one.local() for one in itertools.islice(rule.moments(start, new_york), len(wanted))], wanted)
        # The same rule at a later time, and at an instant between two of its times.
        self.assertEqual(next(rule.readings(start, at("1997-09-05T16:40:01"))), at("1997-09-06T09:00:00"))
        self.assertEqual(next(rule.readings(start, at("1997-09-05T16:40:00"))), at("1997-09-05T16:40:00"))
        self.assertEqual(next(rule.moments(start, new_york, OffsetDateTime.parse("1997-09-05T14:50:00Z"))).local(), at("1997-09-05T11:00:00"))
        self.assertEqual(next(rule.moments(start, new_york, OffsetDateTime.parse("1997-09-05T15:00:00Z"))).local(), at("1997-09-05T11:00:00"))

    @unittest.skipUnless(rrule, "dateutil is not installed")
    def test_drawn(self):
        """Rules with times of day, other readings and exceptions, by the sets of dateutil, which has rules of whole seconds."""
        draw, kept = random.Random(3851), {"byhour": 0, "byminute": 0, "bysecond": 0, "bysetpos": 0, "until": 0, "count": 0}
        frequencies = {Frequency.Daily: rrule.DAILY, Frequency.Weekly: rrule.WEEKLY, Frequency.Monthly: rrule.MONTHLY, Frequency.Yearly: rrule.YEARLY}
        for _ in range(250):
            frequency, start = draw.choice(list(frequencies)), datetime.datetime(2023, 1, 1) + datetime.timedelta(seconds=draw.randrange(40_000_000))
            parts = {name: sorted(draw.sample(range(most), draw.choice((1, 2)))) for name, most in (("byhour", 24), ("byminute", 60), ("bysecond", 60))
                if draw.random() < 0.6}
            if draw.random() < 0.3:
                parts["bymonth"] = draw.sample(range(1, 13), 8)
            if frequency is not Frequency.Weekly and draw.random() < 0.3:
                parts["bymonthday"] = draw.sample([*range(1, 32), -1, -2], 12)
            weekdays = draw.sample(list(Weekday), 3) if draw.random() < 0.4 else []
            # dateutil counts positions in the first week from the start only.
            if frequency is not Frequency.Weekly and parts and draw.random() < 0.4:
                parts["bysetpos"] = draw.sample((1, -1, 5, -3) if weekdays and frequency is not Frequency.Daily else (1, -1), 2)
            until = start + datetime.timedelta(seconds=draw.randrange(20_000_000))
            end = draw.choice(({}, {"count": draw.randrange(1, 130)}, {"until": until}))
            interval, week_start = draw.choice((1, 1, 2, 3)), draw.choice(list(Weekday))
            theirs = rrule.rrule(
                frequencies[frequency], start, interval, int(week_start), byweekday=[rrule.weekdays[one] for one in weekdays] or None, cache=True, **parts, **end)
            ours = Recurrence.from_parts(frequency, interval=interval, wkst=week_start, byweekday=weekdays, count=end.get("count"), **parts)
            ours = Recurrence.parse(f"{ours};UNTIL={until:%Y%m%dT%H%M%S}") if "until" in end else ours
            listed = list(itertools.islice(theirs, 200))
            more = [start + datetime.timedelta(seconds=draw.randrange(-10**6, 10**7)) for _ in range(draw.choice((0, 0, 3)))]
            without = draw.sample(listed, len(listed) // 5) + draw.sample(more, len(more) // 2)
            whole = rrule.rruleset()
            whole.rrule(theirs)
            for one in more:
                whole.rdate(one)
            for one in without * 2:
                whole.exdate(one)
            wanted = [PlainDateTime.from_datetime(one) for one in itertools.islice(whole, 150)]
            dates, exceptions = ([PlainDateTime.from_datetime(one) for one in ones * 2] for ones in (more, without))
            found = ours.readings(PlainDateTime.from_datetime(start), dates=iter(dates), exceptions=exceptions)
            self.assertEqual(list(itertools.islice(found, 150)), wanted, (str(start), str(ours)))
            if len(wanted) < 150:
                self.assertEqual(list(found), [])
            for since in wanted[1::40]:
                later = ours.readings(PlainDateTime.from_datetime(start), since, dates=dates, exceptions=exceptions)
                self.assertEqual(list(itertools.islice(later, 5)), [one for one in wanted if one >= since][:5] if len(wanted) < 150 else
                    (wanted[wanted.index(since):] + [None] * 5)[:5], (str(start), str(ours)))
            for name in {**parts, **end}:
                kept[name] = kept.get(name, 0) + bool(wanted)
        self.assertGreater(min(kept.values()), 40, kept)

    def test_ends(self):
        start = PlainDateTime.MIN
        self.assertEqual(list(Recurrence.parse("FREQ=DAILY;BYHOUR=0,12;COUNT=3").readings(start)), [start, start.replace(hour=12), start.replace(day=2)])
        last = PlainDateTime(Date.MAX, Time(23, 59, 59, nanosecond=999_999_999))
        self.assertEqual(list(Recurrence.parse("FREQ=DAILY").readings(last)), [last])
        self.assertEqual(list(Recurrence.parse("FREQ=DAILY;BYSECOND=60;UNTIL=20170101").readings(at("2016-12-31T00:00:00"))), [])
        # Each reading has the nanoseconds of the start, and the times that the text lacks.
        found = Recurrence.parse("FREQ=DAILY;BYHOUR=7;COUNT=2").readings(at("2024-02-28T09:30:15.25"))
        self.assertEqual(list(found), [at("2024-02-29T07:30:15.25"), at("2024-03-01T07:30:15.25")])
        for until, wanted in (("20240102", 4), ("20240102T090000", 3), ("20240102T085959", 2), ("20240102T170000Z", 4), ("20231231", 0)):
            found = Recurrence.parse(f"FREQ=DAILY;BYHOUR=9,17;UNTIL={until}").readings(at("2024-01-01T09:00:00"))
            self.assertEqual(len(list(found)), wanted, until)

    def test_errors(self):
        daily, start, many = Recurrence.parse("FREQ=DAILY;BYHOUR=1"), at("2024-01-01T00:00:00"), [at("2024-01-01T00:00:00")] * 1025
        self.assertEqual(len(list(Recurrence.parse("FREQ=DAILY;COUNT=1").readings(start, dates=many[1:], exceptions=many[1:]))), 0)
        for lists in ({"dates": many}, {"exceptions": many}):
            for call in (daily.readings, lambda one, **given: daily.moments(one, Zone.from_posix("UTC0"), **given)):
                with self.assertRaisesRegex(ValueError, "^too many dates or exceptions of a rule; expected at most 1024$"):
                    next(call(start, **lists))
        for call in (lambda: daily.readings(start.date()), lambda: daily.readings(start, start.assume_utc()), lambda: daily.readings(start, dates=[1]),
                lambda: daily.readings(start, exceptions=[start.assume_utc()]), lambda: daily.readings(start, dates=5)):
            self.assertRaises(TypeError, call)
        for parts in ({"byhour": 24}, {"byminute": 60}, {"bysecond": 61}):
            self.assertRaises(ParseRuleError, Recurrence.from_parts, Frequency.Daily, **parts)


if __name__ == "__main__":
    unittest.main()
