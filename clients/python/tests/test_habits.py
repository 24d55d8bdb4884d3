"""Tests of what users of `datetime` write: it does what they mean, or raises. No answer is wrong without a word."""

import concurrent.futures
import copy
import dataclasses
import datetime
import importlib
import itertools
import json
import operator
import pickle
import random
import sys
import unittest

import fotsevindre
from fotsevindre import errors
from fotsevindre import (
    CalendarUnit, ComponentRange, Convention, Date, DayCount, Format, Frequency, LocalKind, Month, OffsetDateTime, ParseError, Period, PlainDateTime, Policy, Recurrence, Rule, SignedDuration, Time, UtcOffset, Weekday, Workdays, Zone, ZonedDateTime, _core,
)

LEAP_DAY = Date(2024, 2, 29)
# What setup takes between the enums and their members.
ERRORS = (fotsevindre.YearFraction, fotsevindre.NamedFormat, fotsevindre.status_error, errors.format_error, errors.insufficient_format, ComponentRange, fotsevindre.ParseError, errors.COMPONENTS)


class SilentlyWrong(unittest.TestCase):
    """Each of these gave a wrong answer without an error before."""

    def test_months_and_weekdays_in_texts(self):
        year, month, day = LEAP_DAY.to_calendar_date()
        self.assertEqual((f"{year}-{month:02}-{day:02}", "%d-%02d-%02d" % (year, month, day)), ("2024-02-29",) * 2)
        self.assertEqual((f"{LEAP_DAY.year}-{LEAP_DAY.month}-{LEAP_DAY.day}", "{:>3}".format(month)), ("2024-2-29", "  2"))
        self.assertEqual((f"{LEAP_DAY.weekday()}", "%s %d" % (LEAP_DAY.weekday(), LEAP_DAY.weekday()), json.dumps([month, LEAP_DAY.weekday()])), ("Thursday", "Thursday 3", "[2, 3]"))

    def test_choices_in_texts(self):
        for choice in (Policy.Later, LocalKind.Gap, Frequency.Daily, Convention.Following, DayCount.Thirty360):
            name = f"{type(choice).__name__}.{choice.name}"
            self.assertEqual((str(choice), repr(choice), f"{choice}", f"{choice:>30}", f"{int(choice)}"), (name, name, name, name.rjust(30), str(choice.value)))

    def test_weekdays_are_numbers_of_datetime(self):
        for number in range(7):
            other = datetime.date(2024, 2, 26) + datetime.timedelta(number)
            weekday = Date.from_date(other).weekday()
            self.assertTrue(weekday == other.weekday() and weekday is Weekday(number) and (weekday in {5, 6}) == (other.weekday() in {5, 6}))
            self.assertEqual(["mon", "tue", "wed", "thu", "fri", "sat", "sun"][weekday], weekday.name[:3].lower())

    def test_what_is_in_a_rule_and_a_walk(self):
        days, rule = LEAP_DAY.iter_to(Date(2024, 3, 2)), Rule(LEAP_DAY, Frequency.Daily)
        for other in (datetime.date(2024, 2, 29), datetime.datetime(2024, 2, 29)):
            for container in (days, rule):
                with self.assertRaises(TypeError):
                    other in container
        self.assertTrue(LEAP_DAY in days and LEAP_DAY in rule and "2024-02-29" not in days and None not in rule)
        plain = PlainDateTime(LEAP_DAY, Time())
        for other in (plain, plain.assume_utc()):
            for container in (days, rule):
                with self.assertRaisesRegex(TypeError, "use its date"):
                    other in container

    def test_timedeltas(self):
        """A timedelta moves a date or a date-time as it does in `datetime`, also if it comes first."""
        draw = random.Random(71)
        for _ in range(2000):
            other = datetime.datetime(draw.randint(1, 9999), 1, 1, draw.randrange(24), 5, 59, draw.randrange(10**6))
            plain, aware = PlainDateTime.from_datetime(other), other.replace(tzinfo=datetime.timezone(datetime.timedelta(minutes=draw.randint(-1439, 1439))))
            delta = datetime.timedelta(draw.randint(-9998 * 365, 9998 * 365), draw.randint(0, 86399), draw.choice([0, 1, 999999, draw.randrange(10**6)]))
            self.assertEqual(plain + delta, plain + SignedDuration.from_timedelta(delta))
            try:
                later = other + delta
            except OverflowError:
                continue
            self.assertEqual(((plain + delta).to_datetime(), (delta + plain).to_datetime(), (plain - -delta).to_datetime()), (later,) * 3)
            moved = OffsetDateTime.from_datetime(aware) + delta
            self.assertEqual((moved, moved.offset, moved.to_datetime()), (delta + OffsetDateTime.from_datetime(aware), UtcOffset.from_timezone(aware.tzinfo), aware + delta))
        self.assertEqual((datetime.timedelta(1) + LEAP_DAY, LEAP_DAY - datetime.timedelta(-1)), (Date(2024, 3, 1),) * 2)
        for value in (PlainDateTime.MAX, Date.MAX, OffsetDateTime.new_utc(Date.MAX, Time())):
            self.assertRaises(OverflowError, lambda: value + datetime.timedelta(999999999))
        for value in (Time(), UtcOffset.UTC, SignedDuration.DAY):
            for move in (lambda: value + datetime.timedelta(1), lambda: datetime.timedelta(1) + value, lambda: value - datetime.timedelta(1)):
                self.assertRaises(TypeError, move)
        for value in (LEAP_DAY, PlainDateTime.MIN, OffsetDateTime.UNIX_EPOCH):
            self.assertRaises(TypeError, lambda: datetime.timedelta(1) - value)

    def test_timedeltas_of_others(self):
        """What extends timedelta is read by its own arithmetic, and a timedelta with another layout as well."""
        class Other(datetime.timedelta):
            pass

        self.assertEqual((LEAP_DAY + Other(1), PlainDateTime.MIN + Other(0, 1, 2)), (Date(2024, 3, 1), PlainDateTime.MIN + SignedDuration(seconds=1, microseconds=2)))
        usual = (datetime.date(2024, 2, 29), datetime.time(1, 2, 3, 4), datetime.datetime(2024, 2, 29, 1, 2, 3, 4), datetime.timedelta(-1, 2, 3))
        self.assertTrue(_core.has_layouts(*usual))
        wrong = (datetime.date(2024, 2, 28), datetime.time(1, 2, 3, 5), datetime.datetime(2024, 2, 29, 1, 2, 3, 5), datetime.timedelta(-1, 2, 4), b"of another size")
        for place, other in itertools.product(range(4), wrong):
            self.assertFalse(_core.has_layouts(*usual[:place], other, *usual[place + 1:]))
        types = (datetime.date, datetime.time, datetime.datetime, datetime.timedelta, datetime.tzinfo, datetime.timezone)
        setup = (Weekday, CalendarUnit, fotsevindre.RoundingMode, Convention, DayCount, *ERRORS, *Month, *Weekday)
        try:
            _core.setup(*types, False, *setup)
            self.assertEqual((LEAP_DAY + datetime.timedelta(1), PlainDateTime.MIN + datetime.timedelta(0, 1, 2)), (Date(2024, 3, 1), PlainDateTime.MIN + Other(0, 1, 2)))
        finally:
            _core.setup(*types, True, *setup)

    def test_components_of_differences(self):
        self.assertTrue((Date(2024, 3, 1) - LEAP_DAY).days == 1 and (LEAP_DAY - Date(2024, 3, 1)).days == -1)
        draw = random.Random(7)
        for _ in range(500):
            delta = datetime.timedelta(draw.randint(-10**6, 10**6), draw.randint(-10**5, 10**5), draw.randint(-10**6, 10**6))
            duration = SignedDuration.from_timedelta(delta)
            self.assertEqual((duration.days, duration.seconds, duration.microseconds), (delta.days, delta.seconds, delta.microseconds))
        self.assertEqual((SignedDuration.MIN.days, SignedDuration.MIN.seconds, SignedDuration.MIN.nanoseconds), (-106751991167301, 30591, 1))
        for name in ("weeks", "hours", "minutes", "milliseconds"):
            with self.assertRaisesRegex(AttributeError, f"use whole_{name}"):
                getattr(SignedDuration.DAY, name)

    def test_components_are_attributes(self):
        moment = OffsetDateTime(LEAP_DAY, Time(1, 2, 3, nanosecond=4005006), UtcOffset(1))
        self.assertTrue(LEAP_DAY.year == 2024 and LEAP_DAY.month == 2 and LEAP_DAY.day == 29 and LEAP_DAY.ordinal == 60 and LEAP_DAY.quarter == 1)
        self.assertTrue(moment.year == 2024 and moment.month is Month.February and moment.hour == 1 and moment.microsecond == 4005)
        self.assertTrue(moment.offset == UtcOffset(1) and moment.time().minute == 2)
        for value, name in ((LEAP_DAY, "year"), (moment, "hour"), (moment.time(), "second")):
            self.assertRaises(AttributeError, setattr, value, name, 1)

    def test_truth(self):
        self.assertFalse(SignedDuration.ZERO or LEAP_DAY - LEAP_DAY)
        self.assertTrue(SignedDuration.NANOSECOND and -SignedDuration.NANOSECOND and Time() and UtcOffset.UTC and LEAP_DAY)

    def test_comparison(self):
        for other in (None, 2460370, "2024-02-29"):
            self.assertEqual((LEAP_DAY == other, other == LEAP_DAY, LEAP_DAY != other), (False, False, True))
            with self.assertRaises(TypeError):
                LEAP_DAY < other
            with self.assertRaises(TypeError):
                other >= LEAP_DAY
        self.assertTrue(LEAP_DAY in [None, 2460370, LEAP_DAY])

    def test_no_comparison_with_datetime(self):
        """No value equals one of `datetime`, and each comparison raises, so that none is false without a word."""
        own = [LEAP_DAY, Time(), UtcOffset(), SignedDuration(), Period(), PlainDateTime(LEAP_DAY, Time()), OffsetDateTime.UNIX_EPOCH]
        others = [datetime.date(2024, 2, 29), datetime.datetime(2024, 2, 29), datetime.time(), datetime.timedelta(), datetime.timezone.utc]
        compares = [operator.eq, operator.ne, operator.lt, operator.ge, lambda one, other: one in [other], lambda one, other: [one].index(other)]
        for value, other, compare in itertools.product(own, others, compares):
            for pair in ((value, other), (other, value)):
                with self.assertRaisesRegex(TypeError, "^can't compare|not supported between"):
                    compare(*pair)
        # A set and a dict look for the hash first.
        self.assertFalse(datetime.date(2024, 2, 29) in {LEAP_DAY} or LEAP_DAY in {datetime.date(2024, 2, 29): 1})

    def test_no_date_in_a_column(self):
        self.assertEqual(list(fotsevindre.dates_weekdays([LEAP_DAY, Date(2024, 3, 3)]).weekdays), [Weekday.Thursday, Weekday.Sunday])
        found = fotsevindre.dates_weekdays([-2**31])
        self.assertEqual((list(found.weekdays), found.error_count), ([255], 1))
        with self.assertRaises(ValueError):
            Weekday(found.weekdays[0])


class Construction(unittest.TestCase):
    def test_constructors(self):
        rows = [
            (Date(2024, 2, 29), Date.from_calendar_date(2024, 2, 29)), (Date(year=2024, month=Month.February, day=29), LEAP_DAY),
            (Time(), Time.MIDNIGHT), (Time(10, 30), Time.from_hms(10, 30, 0)), (Time(1, 2, 3, nanosecond=4), Time.from_hms_nano(1, 2, 3, 4)),
            (UtcOffset(-5, 30), UtcOffset.from_hms(-5, 30, 0)), (UtcOffset(), UtcOffset.UTC), (SignedDuration(), SignedDuration.ZERO),
            (SignedDuration(days=1), SignedDuration.days(1)), (SignedDuration(weeks=1, days=-7, hours=1, nanoseconds=5), SignedDuration.new(3600, 5)),
            (PlainDateTime(LEAP_DAY, Time()), PlainDateTime.new(LEAP_DAY, Time.MIDNIGHT)),
            (OffsetDateTime(LEAP_DAY, Time(), UtcOffset(1)), OffsetDateTime.new_in_offset(LEAP_DAY, Time(), UtcOffset(1))),
        ]
        for found, wanted in rows:
            self.assertEqual((found, type(found)), (wanted, type(wanted)))
        for call in (lambda: Date(2024, 2), lambda: Date(2024, 2.0, 1), lambda: Date("2024-02-29"), lambda: SignedDuration(1), lambda: SignedDuration(years=1),
                lambda: PlainDateTime(2024, 2), lambda: Time("1"), lambda: SignedDuration(days="1"), lambda: Date(2024, 2, 29, tzinfo=None)):
            self.assertRaises(TypeError, call)
        self.assertRaises(ComponentRange, Date, 2023, 2, 29)
        self.assertRaises(OverflowError, lambda: SignedDuration(weeks=2**62))

    def test_functions_pickle(self):
        """Functions of types can be sent to other processes, such as `map(Date.parse, texts)` of a pool."""
        for function in (Date.parse, Date.from_date, Time.parse, UtcOffset.fromisoformat, PlainDateTime.parse, OffsetDateTime.parse, SignedDuration.days,
                Date.next_day, OffsetDateTime.isoformat, fotsevindre.dates_add_days, fotsevindre.is_leap_year):
            self.assertEqual(pickle.loads(pickle.dumps(function)), function)

    def test_copies(self):
        """Each value is equal to its copies and pickles of any protocol, also to those that an earlier version wrote."""
        moment = OffsetDateTime(LEAP_DAY, Time(1, 2, 3, nanosecond=4), UtcOffset(-5, 30))
        values = [LEAP_DAY, moment.time(), moment.offset, SignedDuration.MIN, moment.local(), moment, Workdays(holidays=[LEAP_DAY]), Rule(LEAP_DAY, Frequency.Daily, 2),
            Recurrence("FREQ=DAILY;COUNT=2"), Format("%d"), Zone.from_posix("CET-1"), Month.May, Weekday.Sunday, LEAP_DAY.iter_to(Date(2024, 3, 2)), Policy.Later]
        for value in values:
            pickled = [pickle.loads(pickle.dumps(value, protocol)) for protocol in range(pickle.HIGHEST_PROTOCOL + 1)]
            for same in (copy.copy(value), copy.deepcopy(value), *pickled):
                self.assertEqual((same, type(same), hash(same), repr(same)), (value, type(value), hash(value), repr(value)))
        rows = [(b"Date", b"I2024\nI2\nI29\n", LEAP_DAY), (b"UtcOffset", b"I-5\nI-30\nI0\n", moment.offset)]
        for name, arguments, value in rows:
            self.assertEqual(pickle.loads(b"cfotsevindre\n%s\n(%stR." % (name, arguments)), value)

    def test_closed_types(self):
        """No class extends a value, and no value takes other attributes: their methods can be relied on."""
        for value in (LEAP_DAY, Time(), UtcOffset(), SignedDuration(), PlainDateTime.MIN, OffsetDateTime.UNIX_EPOCH):
            self.assertRaises(TypeError, type, "Other", (type(value),), {})
            self.assertRaises(AttributeError, setattr, value, "other", 1)
            for call in (iter, len, int, float, lambda one: 1 in one, json.dumps, lambda one: sum([one, one]), lambda one: one + 1, lambda one: one < None):
                self.assertRaises(TypeError, call, value)
            self.assertRaises(ValueError, format, value, "d")
            self.assertEqual((f"{value:>50}", f"{value}", f"{value!r}"), (str(value).rjust(50), str(value), repr(value)))

    def test_today(self):
        before, found, after = datetime.date.today(), Date.today(), datetime.date.today()
        self.assertTrue(before <= found.to_date() <= after)

    def test_sizes(self):
        sizes = [sys.getsizeof(value) for value in (LEAP_DAY, Time(), UtcOffset(), SignedDuration())]
        self.assertLessEqual(max(sizes), 32)
        # A date-time keeps its year, month and day, and is still no larger than one of datetime.
        sizes = [sys.getsizeof(value) for value in (PlainDateTime.MIN, OffsetDateTime.UNIX_EPOCH)]
        self.assertLessEqual(max(sizes), min(40, sys.getsizeof(datetime.datetime.min)))

    def test_components_that_a_value_keeps(self):
        draw = random.Random(5)
        for _ in range(2000):
            other = datetime.datetime(1, 1, 1) + datetime.timedelta(draw.randrange(3652059), draw.randrange(86400))
            plain = PlainDateTime.from_datetime(other)
            for value in (plain, plain.assume_offset(UtcOffset(draw.randrange(-25, 26))), plain.date()):
                for _ in range(2):
                    self.assertEqual((value.month, value.day, value.year), (other.month, other.day, other.year))
                later = value.replace(day=1)
                self.assertEqual((later.year, later.month, later.day, value.day), (other.year, other.month, 1, other.day))
        for value in (PlainDateTime.MIN, PlainDateTime.MAX):
            self.assertEqual((value.year, value.month, value.day), value.date().to_calendar_date())

    def test_months_out_of_range(self):
        for call in (Date.MAX.add_months, Date.MAX.add_years):
            self.assertRaises(OverflowError, call, 1)
        self.assertEqual((Date(2024, 1, 31).add_months(1), LEAP_DAY.add_years(1)), (LEAP_DAY, Date(2025, 2, 28)))
        self.assertEqual((Date.MAX.checked_add_months(1), Date.MAX.saturating_add_months(1)), (None, Date.MAX))

    def test_references_are_counted(self):
        zone = Zone.from_posix("CET-1CEST,M3.5.0,M10.5.0/3")
        calls = [
            lambda: Date(2024, 2, 29), lambda: LEAP_DAY.to_iso_week_date(), lambda: LEAP_DAY.replace(day=1), lambda: str(SignedDuration.MIN),
            lambda: Workdays(holidays=[LEAP_DAY]).holidays, lambda: SignedDuration(days=1, hours=2), lambda: OffsetDateTime.UNIX_EPOCH.isoformat(),
            lambda: LEAP_DAY + datetime.timedelta(1), lambda: Rule(LEAP_DAY, Frequency.Daily).first_days(70), lambda: fotsevindre.dates_weekdays([LEAP_DAY]),
            lambda: Date.parse("2024-02-29"), lambda: Date.strptime(LEAP_DAY.strftime("%d %B %Y"), "%d %B %Y"), lambda: zone.offsets([0, 1]),
            lambda: OffsetDateTime.UNIX_EPOCH.in_zone(zone), lambda: zone.strftime(OffsetDateTime.UNIX_EPOCH, "%Z"), lambda: zone.resolve(PlainDateTime.MIN),
        ]
        singles = [Date, Time, UtcOffset, SignedDuration, PlainDateTime, OffsetDateTime, Workdays, *Month, *Weekday, LEAP_DAY]
        # From 3.12 on these are immortal: their counts mean nothing.
        singles += [None, NotImplemented] if sys.version_info < (3, 12) else []
        for call in calls:
            for _ in range(100):
                call()
            before = [sys.getrefcount(single) for single in singles]
            for _ in range(1000):
                call()
            self.assertLess(max(abs(sys.getrefcount(single) - count) for single, count in zip(singles, before)), 500)

    def test_interpreters(self):
        """Each interpreter of a process has its own module, also with a lock of its own."""
        try:
            interpreters = importlib.import_module("_interpreters" if sys.version_info >= (3, 13) else "_xxsubinterpreters")
        except ImportError:
            self.skipTest("no subinterpreters")
        script = """if True:
            import datetime, pickle, fotsevindre
            from fotsevindre import Date, Month, Rule, SignedDuration, Weekday, Workdays, Frequency, ComponentRange
            day = Date(2024, 2, 29)
            assert (str(day + SignedDuration(days=1)), day.month is Month.February, day.weekday()) == ("2024-03-01", True, Weekday.Thursday)
            assert pickle.loads(pickle.dumps([day, Workdays(holidays=[day])])) == [day, Workdays(holidays=[day])]
            assert day + datetime.timedelta(1) == datetime.timedelta(1) + day == Date(2024, 3, 1)
            assert Rule(day, Frequency.Daily).first_days(2) == [day, day.next_day()] and list(fotsevindre.dates_weekdays([day]).weekdays) == [3]
            assert list(fotsevindre.dates_add_workdays([day], 2, Workdays()).dates) == [2460374]
            try:
                Date(2023, 2, 29)
            except ComponentRange as error:
                assert error.name == "day"
            else:
                assert False
        """
        run = getattr(interpreters, "exec", None) or interpreters.run_string
        for _ in range(3):
            other = interpreters.create()
            # Python 3.13 returns the error, and earlier ones raise it.
            self.assertIsNone(run(other, script))
            interpreters.destroy(other)
            self.assertEqual((str(LEAP_DAY.month), LEAP_DAY.weekday(), LEAP_DAY + SignedDuration.DAY), ("2", Weekday.Thursday, Date(2024, 3, 1)))

    def test_threads(self):
        """The results of a thread don't depend on what others do at the same time."""
        def walk(first):
            return [str(Date.from_julian_day(number)) for number in range(first, first + 2000)]

        with concurrent.futures.ThreadPoolExecutor(4) as pool:
            self.assertEqual(list(pool.map(walk, range(2451545, 2459545, 2000))), [walk(first) for first in range(2451545, 2459545, 2000)])


class Texts(unittest.TestCase):
    def test_times(self):
        rows = [("9:05", Time(9, 5)), ("09:05:07", Time(9, 5, 7)), ("9:05:00.12", Time(9, 5, 0, nanosecond=120_000_000)), ("23:59:59.999999999", Time.MAX)]
        for text, time in rows:
            self.assertEqual((Time.parse(text), Time.fromisoformat(text), Time.parse(str(time)), Time.parse(time.isoformat())), (time,) * 4)
        rows = [("", 0, True), ("9", 1, True), ("9:0", 3, True), ("9:05:", 5, True), ("x", 0, False), ("9:05:00Z", 7, False), ("9:05x", 4, False),
            ("09:5", 4, True), ("9:5:00", 3, False), ("9:05:00.", 8, True), ("9:05:00.1 ", 9, False), ("10:30+01:00", 5, False),
            ("9:05:00.1234567891", 17, False)]
        self.errors(Time.parse, rows)
        for text, name in (("24:00", "hour"), ("23:60", "minute"), ("23:59:60", "second")):
            with self.assertRaisesRegex(ComponentRange, name):
                Time.parse(text)

    def errors(self, parse, rows):
        for text, position, is_end in rows:
            with self.assertRaises(ParseError, msg=text) as caught:
                parse(text)
            self.assertEqual((caught.exception.position, caught.exception.is_end), (position, is_end), text)
        for wrong in (None, 1, b"1"):
            self.assertRaises(TypeError, parse, wrong)

    def test_offsets(self):
        rows = [("Z", 0), ("+00:00", 0), ("-00:00:00", 0), ("+01:00", 3600), ("-05:30:00", -19800), ("-25:59:59", -93599), ("-00:00:01", -1)]
        for text, seconds in rows:
            self.assertEqual(UtcOffset.parse(text).whole_seconds(), seconds, text)
        for seconds in range(-93599, 93600, 977):
            self.assertEqual(UtcOffset.parse(str(UtcOffset.from_whole_seconds(seconds))).whole_seconds(), seconds)
        self.errors(UtcOffset.parse, [("", 0, True), ("1", 0, False), ("+1:00", 2, False), ("+01", 3, True), ("+01:0", 5, True), ("+01:00:", 7, True),
            ("+01:00:00x", 9, False), ("z ", 1, False), ("Zx", 1, False), ("+0100", 3, False)])
        for text, name in (("+26:00", "offset hour"), ("+00:60", "offset minute"), ("+00:00:60", "offset second")):
            with self.assertRaisesRegex(ComponentRange, name):
                UtcOffset.parse(text)

    def test_date_times(self):
        draw = random.Random(8)
        for _ in range(500):
            value = PlainDateTime(Date.from_julian_day(draw.randint(-363521074, 366963559)), Time.from_hms_nano(*map(draw.randrange, (24, 60, 60, 10**9))))
            moment = value.assume_offset(UtcOffset.from_whole_seconds(draw.randint(-93599, 93599)))
            for text in (str(value), value.isoformat()):
                self.assertEqual(PlainDateTime.parse(text), value, text)
            for text in (str(moment), moment.isoformat()):
                self.assertEqual((OffsetDateTime.parse(text), OffsetDateTime.parse(text).offset), (moment, moment.offset), text)
        for other in (datetime.datetime(2024, 2, 29, 1, 2, 3), datetime.datetime(2024, 2, 29, 1, 2, 3, 4)):
            self.assertEqual(PlainDateTime.from_datetime(other).isoformat(), other.isoformat())
            aware = other.replace(tzinfo=datetime.timezone(datetime.timedelta(hours=-5, minutes=-30)))
            self.assertEqual(OffsetDateTime.from_datetime(aware).isoformat(), aware.isoformat())
            self.assertEqual(OffsetDateTime.fromisoformat(aware.isoformat()).to_datetime(), aware)
        self.assertEqual(OffsetDateTime.parse("2024-W09-4t23:59:59.25z"), OffsetDateTime.new_utc(LEAP_DAY, Time(23, 59, 59, nanosecond=250_000_000)))
        self.errors(PlainDateTime.parse, [("", 0, True), ("2024-02-29", 10, True), ("2024-02-29T", 11, True), ("2024-02-2T9:05", 9, False),
            ("2024-02-29T9:05Z", 15, False), ("2024-02-29T9:0", 14, True), ("2024x02-29T9:05", 4, False), ("2023-02-29", 10, True),
            ("2023-02-29T9:5:0", 14, False), ("2024-02-29T9:05\udc80", 15, False), ("2024-02-29 9:05é", 15, False)])
        for text, name in (("2023-02-29T24:00", "day"), ("2024-02-29T24:60", "hour"), ("+1000000-01-01T0:00", "year"), ("2024-W53-1T0:00", "week")):
            with self.assertRaisesRegex(ComponentRange, name):
                PlainDateTime.parse(text)
        for text, name in (("2024-02-29T24:00+26:00", "hour"), ("2024-02-29T23:00+26:60", "offset hour"), ("2024-02-29T23:00 -00:00:60", "offset second")):
            with self.assertRaisesRegex(ComponentRange, f"^{name} "):
                OffsetDateTime.parse(text)
        self.errors(OffsetDateTime.parse, [("", 0, True), ("2024-02-29", 10, True), ("2024-02-29T9:05", 15, True), ("2024-02-29T9:05+1", 17, True),
            ("2024-02-29T9:05 ", 16, True), ("2024-02-29T9:05:00Zx", 19, False), ("2024-02-29T00:00:00Zx", 20, False), ("2024-02-29T9:05x+01:00", 15, False),
            ("2024-02-29T00:00:00.1234567891Z", 29, False)])
        self.assertEqual(OffsetDateTime.parse("2024-02-29T00:00:00.123456789Z").nanosecond, 123456789)
        with self.assertRaisesRegex(TypeError, r"^PlainDateTime\.isoformat\(\)"):
            PlainDateTime(LEAP_DAY, Time()).isoformat(" ")


    def test_texts_of_datetime(self):
        """What `datetime` prints from the minute on is the same value here."""
        draw = random.Random(92)
        for _ in range(300):
            zone = datetime.timezone(datetime.timedelta(seconds=draw.choice([1, 60]) * draw.randint(-1439, 1439)))
            other = datetime.datetime.fromtimestamp(draw.randint(-62135510400, 253402214400), zone).replace(microsecond=draw.choice([0, draw.randrange(10**6)]))
            for timespec, separator in itertools.product(("minutes", "seconds", "milliseconds", "microseconds", "auto"), "T "):
                text = other.isoformat(separator, timespec)
                local, time = other.replace(tzinfo=None).isoformat(separator, timespec), other.time().isoformat(timespec)
                self.assertEqual(OffsetDateTime.parse(text).to_datetime(), datetime.datetime.fromisoformat(text), text)
                self.assertEqual(PlainDateTime.parse(local).to_datetime(), datetime.datetime.fromisoformat(local), local)
                self.assertEqual(Time.parse(time).to_time(), datetime.time.fromisoformat(time), time)
                self.assertEqual(UtcOffset.parse(text[len(local):]).to_timezone(), zone, text)


class LikeDatetime(unittest.TestCase):
    """What values of `datetime` have by the same names is the same here."""

    def drawn(self, count):
        """Yields date-times of `datetime` at an offset or at none."""
        draw = random.Random(93)
        for _ in range(count):
            zone = draw.choice([None, datetime.timezone(datetime.timedelta(minutes=draw.randint(-1439, 1439)))])
            year = draw.choice([draw.randint(2, 9998), draw.randint(1960, 2060)])
            below = draw.choice([0, draw.randrange(10**6)])
            yield datetime.datetime(year, draw.randint(1, 12), draw.randint(1, 28), draw.randrange(24), draw.randrange(60), draw.choice([0, draw.randrange(60)]), below, zone)

    def own(self, other):
        return PlainDateTime.from_datetime(other) if other.tzinfo is None else OffsetDateTime.from_datetime(other)

    def test_methods(self):
        for other in self.drawn(2000):
            own, date = self.own(other), Date.from_date(other.date())
            self.assertEqual((own.isoformat(), str(own), own.to_datetime()), (other.isoformat(), str(other).replace(" ", "T"), other))
            for one, another in ((own, other), (date, other.date())):
                self.assertEqual((one.isoweekday(), one.isocalendar(), *one.isocalendar()), (another.isoweekday(), tuple(another.isocalendar()), *another.isocalendar()))
                self.assertEqual((one.isocalendar().year, one.isocalendar().week, one.isocalendar().weekday), tuple(another.isocalendar()))
            self.assertEqual((date.to_date(), own.time().to_time(), Time.from_time(other.time())), (other.date(), other.time(), own.time()))
            self.assertEqual((own.time().isoformat(), date.isoformat()), (other.time().isoformat(), other.date().isoformat()))
            self.assertEqual(own.replace(year=2024, day=29, minute=7).isoformat(), other.replace(year=2024, day=29, minute=7).isoformat())
            if other.tzinfo:
                self.assertEqual((own.timestamp(), own.offset.to_timezone(), UtcOffset.from_timezone(other.tzinfo)), (other.timestamp(), other.tzinfo, own.offset))
                self.assertEqual(OffsetDateTime.combine(date, own.time(), own.offset).isoformat(), other.isoformat())
            else:
                self.assertEqual(PlainDateTime.combine(date, own.time()), own)

    def test_durations(self):
        draw = random.Random(94)
        for _ in range(2000):
            other, unit = (datetime.timedelta(draw.choice([0, draw.randint(-10**8, 10**8)]), draw.randint(-10**5, 10**5), draw.randint(-10**6, 10**6)) for _ in "12")
            own, own_unit = SignedDuration.from_timedelta(other), SignedDuration.from_timedelta(unit)
            self.assertEqual((own.total_seconds(), own.to_timedelta(), bool(own)), (other.total_seconds(), other, bool(other)))
            if unit:
                self.assertEqual((own / own_unit, own // own_unit, (own % own_unit).to_timedelta()), (other / unit, other // unit, other % unit))
                self.assertEqual((own // own_unit) * own_unit.whole_nanoseconds() + (own % own_unit).whole_nanoseconds(), own.whole_nanoseconds())
        for duration in (SignedDuration.MIN, SignedDuration.MAX, SignedDuration(days=200, nanoseconds=1), -SignedDuration.NANOSECOND):
            self.assertEqual(duration.total_seconds(), duration.whole_nanoseconds() / 10**9)
            self.assertEqual((duration / duration, duration // SignedDuration.NANOSECOND, duration % SignedDuration.NANOSECOND), (1.0, duration.whole_nanoseconds(), SignedDuration.ZERO))
        for divide in (operator.truediv, operator.floordiv, operator.mod):
            self.assertRaises(ZeroDivisionError, divide, SignedDuration.DAY, SignedDuration.ZERO)

    def test_timestamps(self):
        draw = random.Random(95)
        for _ in range(2000):
            stamp = draw.choice([draw.randint(-10**10, 10**10), draw.uniform(-10**10, 10**10), draw.uniform(-1, 1), draw.randint(0, 10**7) / 4e6])
            wanted = datetime.datetime.fromtimestamp(stamp, datetime.timezone.utc)
            self.assertEqual(OffsetDateTime.fromtimestamp(stamp).to_datetime(), wanted, stamp)
            self.assertEqual(OffsetDateTime.fromtimestamp(stamp, UtcOffset(1)).isoformat(), wanted.astimezone(datetime.timezone(datetime.timedelta(hours=1))).isoformat())
            self.assertEqual(ZonedDateTime.fromtimestamp(stamp, Zone.from_posix("CET-1")), ZonedDateTime(OffsetDateTime.fromtimestamp(stamp), Zone.from_posix("CET-1")))
        for wrong, error in ((10**30, OverflowError), ("1", TypeError), (float("nan"), ValueError), (float("inf"), OverflowError), (None, TypeError)):
            self.assertRaises(error, OffsetDateTime.fromtimestamp, wrong)

    def test_now(self):
        zone = Zone.from_posix("EAST-14")
        before = datetime.datetime.now(datetime.timezone.utc)
        found = [OffsetDateTime.now(), OffsetDateTime.now(UtcOffset(-5, 30)), ZonedDateTime.now(zone)]
        found += [PlainDateTime.now(zone).assume_offset(UtcOffset(14)), PlainDateTime.now(Zone.from_posix("UTC0")).assume_utc()]
        after = datetime.datetime.now(datetime.timezone.utc)
        for value in found:
            self.assertTrue(OffsetDateTime.from_datetime(before) <= getattr(value, "to_offset_date_time", lambda: value)() <= OffsetDateTime.from_datetime(after) + SignedDuration.MICROSECOND)
        self.assertEqual([one.offset for one in found[:3]], [UtcOffset.UTC, UtcOffset(-5, 30), UtcOffset(14)])
        before, own, after = datetime.datetime.now(), PlainDateTime.now().truncate_to_microsecond().to_datetime(), datetime.datetime.now()
        self.assertTrue(before <= own <= after)
        before, own, after = PlainDateTime.now(zone).date(), Date.today(zone), PlainDateTime.now(zone).date()
        self.assertTrue(before <= own <= after)
        for wrong in (UtcOffset.UTC, "Europe/Berlin", 1):
            self.assertRaises(TypeError, PlainDateTime.now, wrong)
        self.assertRaises(TypeError, OffsetDateTime.now, None)

    def test_constructors(self):
        noon = Time(12, 30, 15, nanosecond=7)
        offset = UtcOffset(-5, 30)
        for found in (PlainDateTime(2024, 2, 29, 12, 30, 15, nanosecond=7), PlainDateTime(2024, month=2, day=29, hour=12, minute=30, second=15, nanosecond=7), PlainDateTime(time=noon, date=LEAP_DAY)):
            self.assertEqual(found, PlainDateTime(LEAP_DAY, noon))
        for found in (OffsetDateTime(2024, 2, 29, 12, 30, 15, nanosecond=7, offset=offset), OffsetDateTime(LEAP_DAY, noon, offset=offset)):
            self.assertEqual((found, found.offset), (OffsetDateTime(LEAP_DAY, noon, offset), offset))
        self.assertEqual((PlainDateTime(2024, 2, 29), OffsetDateTime(2024, 2, 29, offset=offset)), (PlainDateTime(LEAP_DAY, Time()), PlainDateTime(LEAP_DAY, Time()).assume_offset(offset)))
        self.assertEqual((PlainDateTime(-999999, 1, 1), PlainDateTime(LEAP_DAY, noon).replace(nanosecond=0, hour=None)), (PlainDateTime.MIN, PlainDateTime(2024, 2, 29, 12, 30, 15)))
        moment = OffsetDateTime(LEAP_DAY, noon, offset).replace(offset=UtcOffset.UTC, day=28)
        self.assertEqual((moment.offset, moment.local()), (UtcOffset.UTC, PlainDateTime(2024, 2, 28, 12, 30, 15, nanosecond=7)))
        for call in (lambda: Time(1, 2, 3, 4), lambda: PlainDateTime(2024, 2), lambda: PlainDateTime(2024, 2, 29, 1, 2, 3, 4), lambda: PlainDateTime(), lambda: PlainDateTime(LEAP_DAY),
                lambda: PlainDateTime(LEAP_DAY, noon, offset), lambda: PlainDateTime(LEAP_DAY, noon, hour=1), lambda: PlainDateTime(2024, 2, 29, offset=offset),
                lambda: OffsetDateTime(2024, 2, 29), lambda: OffsetDateTime(LEAP_DAY, noon), lambda: OffsetDateTime(2024, 2, 29, offset=1), lambda: PlainDateTime(2024, 2, 29, day=1),
                lambda: PlainDateTime(2024, 2, "29"), lambda: PlainDateTime(LEAP_DAY, noon).replace(offset=offset), lambda: PlainDateTime(2024, 2, 29, tzinfo=None),
                lambda: Date(2024, 2, 29, 1), lambda: Date(2024, 2, day=29, year=1), lambda: Date(2024, month=2), lambda: LEAP_DAY.replace(hour=1)):
            self.assertRaises(TypeError, call)
        for arguments, name in (((2024, 13, 1), "month"), ((2023, 2, 29), "day"), ((10**6, 1, 1), "year"), ((2024, 2, 29, 24), "hour"), ((2024, 2, 29, 0, 60), "minute"), ((2024, 2, 29, 0, 0, -1), "second")):
            with self.assertRaisesRegex(ComponentRange, f"^{name} "):
                PlainDateTime(*arguments)

    def test_months_of_date_times(self):
        local = PlainDateTime(2024, 1, 31, 12)
        moment = local.assume_offset(UtcOffset(1))
        self.assertEqual((local.add_months(1), local.add_years(1), local.checked_add_months(-2)), (PlainDateTime(2024, 2, 29, 12), PlainDateTime(2025, 1, 31, 12), PlainDateTime(2023, 11, 30, 12)))
        self.assertEqual((moment.add_months(1), moment.add_months(1).offset, PlainDateTime(2024, 2, 29).add_years(1)), (PlainDateTime(2024, 2, 29, 12).assume_offset(UtcOffset(1)), UtcOffset(1), PlainDateTime(2025, 2, 28)))
        for value in (PlainDateTime.MAX, PlainDateTime.MAX.assume_utc(), Date.MAX):
            self.assertEqual((value.checked_add_months(1), value.checked_add_years(10**30)), (None, None))
            self.assertRaises(OverflowError, value.add_months, 1)
            self.assertRaises(OverflowError, value.add_years, 1)
            self.assertRaises(TypeError, value.add_years, 1.0)

    def test_periods_back(self):
        """A period is subtracted by its parts: months first, and then days."""
        self.assertEqual((Date(2024, 3, 31) - Period(months=1), Date(2024, 3, 31) - Period(months=1, days=1), LEAP_DAY - Period(years=1)), (LEAP_DAY, Date(2024, 2, 28), Date(2023, 2, 28)))
        self.assertEqual(PlainDateTime(2024, 3, 31, 1) - Period(months=1, duration=SignedDuration(hours=2)), PlainDateTime(2024, 2, 28, 23))
        self.assertEqual((-Period(years=1, days=2, duration=SignedDuration.DAY), -Period()), (Period(years=-1, days=-2, duration=-SignedDuration.DAY), Period()))
        self.assertRaises(OverflowError, lambda: -Period(months=-2**31))
        self.assertRaises(OverflowError, lambda: Date.MIN - Period(days=1))
        self.assertRaises(ValueError, lambda: LEAP_DAY - Period(duration=SignedDuration.DAY))

    def test_repr(self):
        """The repr of a value makes it. `str` sorts like the value from the year 0 to 9999."""
        draw = random.Random(96)
        zone = Zone.from_posix("CET-1CEST,M3.5.0,M10.5.0/3")
        values = [Date.MIN, Date.MAX, Time.MAX, Time(), PlainDateTime.MIN, PlainDateTime.MAX, SignedDuration.MIN, SignedDuration.MAX, SignedDuration(), UtcOffset(), *Weekday, *Month, *Policy,
            Period(years=1, duration=SignedDuration.DAY), Workdays(holidays=[LEAP_DAY]), Rule(LEAP_DAY, Frequency.Daily, 2, until=Date.MAX), Recurrence("FREQ=DAILY"), Format("%d"), zone,
            fotsevindre.DateRange(LEAP_DAY, Date.MAX), LEAP_DAY.iter_to(Date.MAX), ComponentRange("day", True), fotsevindre.YearFraction(1, 2)]
        for _ in range(500):
            time = Time.from_hms_nano(draw.randrange(24), draw.choice([0, draw.randrange(60)]), draw.choice([0, draw.randrange(60)]), draw.choice([0, draw.randrange(10**9)]))
            offset = UtcOffset.from_whole_seconds(draw.choice([0, 3600, draw.randint(-93599, 93599)]))
            moment = OffsetDateTime(Date.from_julian_day(draw.randint(-10**8, 10**8)), time, offset)
            values += [time, offset, moment, moment.local(), moment.date(), ZonedDateTime(moment, zone), SignedDuration(seconds=draw.randint(-10**6, 10**6), nanoseconds=draw.choice([0, draw.randrange(10**9)]))]
        for value in values:
            found = eval(repr(value), {**vars(fotsevindre), "fotsevindre": fotsevindre})
            self.assertEqual((type(found), str(found)), (type(value), str(value)))
            self.assertTrue(found == value or isinstance(value, ComponentRange))
        sorted_ones = sorted(PlainDateTime(Date.from_julian_day(draw.randint(1721060, 5373484)), Time.from_hms_nano(*(draw.randrange(2) for _ in "1234"))) for _ in range(300))
        self.assertEqual(sorted(map(str, sorted_ones)), [str(one) for one in sorted_ones])

    def test_json(self):
        """`default=str` writes ISO 8601, which `parse` and `fromisoformat` read."""
        moment = OffsetDateTime(2024, 2, 29, 9, 5, nanosecond=1, offset=UtcOffset(1))
        values = [LEAP_DAY, moment.time(), moment.offset, moment, moment.local()]
        text = json.dumps(values, default=str)
        self.assertEqual(text, '["2024-02-29", "09:05:00.000000001", "+01:00", "2024-02-29T09:05:00.000000001+01:00", "2024-02-29T09:05:00.000000001"]')
        self.assertEqual([type(value).fromisoformat(one) for value, one in zip(values, json.loads(text))], values)

    def test_match_and_dataclasses(self):
        @dataclasses.dataclass(frozen=True, order=True)
        class Row:
            day: Date
            at: Time = Time(9)

        self.assertEqual((Row(LEAP_DAY) < Row(Date.MAX), dataclasses.asdict(Row(LEAP_DAY)), dataclasses.replace(Row(LEAP_DAY), at=Time())),
            (True, {"day": LEAP_DAY, "at": Time(9)}, Row(LEAP_DAY, Time())))
        match LEAP_DAY:
            case Date(year=2024, month=Month.February, day=day):
                self.assertEqual(day, 29)
            case _:
                self.fail()
        match fotsevindre.status_error(64):
            case ComponentRange(name, True):
                self.assertEqual(name, "day")
            case _:
                self.fail()

    def test_other_layouts(self):
        """Values of classes that extend those of `datetime` are read by their attributes."""
        class OtherDate(datetime.date):
            pass

        class OtherTime(datetime.time):
            pass

        class OtherDateTime(datetime.datetime):
            pass

        for other in self.drawn(300):
            extended = OtherDateTime(*other.timetuple()[:6], other.microsecond, other.tzinfo)
            self.assertEqual(self.own(extended).isoformat(), other.isoformat())
            self.assertEqual((Date.from_date(OtherDate(*other.timetuple()[:3])).to_date(), Time.from_time(OtherTime(*other.timetuple()[3:6])).isoformat()),
                (other.date(), other.time().replace(microsecond=0).isoformat()))
        types = (datetime.date, datetime.time, datetime.datetime, datetime.timedelta, datetime.tzinfo, datetime.timezone)
        setup = (Weekday, CalendarUnit, fotsevindre.RoundingMode, Convention, DayCount, *ERRORS, *Month, *Weekday)
        try:
            _core.setup(*types, False, *setup)
            self.test_methods()
            self.test_durations()
        finally:
            _core.setup(*types, True, *setup)
        for value, error in ((PlainDateTime(10000, 1, 1), OverflowError), (PlainDateTime(2024, 1, 1, nanosecond=1), ValueError), (OffsetDateTime(2024, 1, 1, offset=UtcOffset(24)), ValueError)):
            self.assertRaises(error, value.to_datetime)
        for call in (lambda: Date.from_date("2024-02-29"), lambda: Time.from_time(LEAP_DAY), lambda: PlainDateTime.from_datetime(datetime.date(2024, 2, 29)), lambda: SignedDuration.from_timedelta(1),
                lambda: UtcOffset.from_timezone(datetime.timedelta())):
            self.assertRaises(TypeError, call)
        for value in (SignedDuration.MIN, SignedDuration.MAX.truncate() if hasattr(SignedDuration.MAX, "truncate") else SignedDuration.seconds(2**62)):
            self.assertRaises((OverflowError, ValueError), value.to_timedelta)


class WorkingDays(unittest.TestCase):
    HOLIDAYS = [Date(2024, month, of_month) for month, of_month in ((12, 25), (1, 1), (7, 4), (1, 1))]

    def test_values(self):
        work = Workdays(holidays=iter(self.HOLIDAYS))
        self.assertEqual(work, Workdays(holidays=sorted(set(self.HOLIDAYS))))
        self.assertEqual((work.holidays, work.weekdays), (tuple(sorted(set(self.HOLIDAYS))), tuple(Weekday)[:5]))
        for same in (copy.copy(work), copy.deepcopy(work), pickle.loads(pickle.dumps(work)), Workdays(work.weekdays, work.holidays)):
            self.assertEqual((same, hash(same)), (work, hash(work)))
        self.assertTrue(work != Workdays() and work != Workdays(tuple(Weekday), self.HOLIDAYS) and work != 1)
        self.assertEqual(repr(Workdays([Weekday.Friday], [LEAP_DAY])), "Workdays(weekdays=[Weekday.Friday], holidays=[Date(2024, 2, 29)])")
        self.assertRaises(AttributeError, setattr, work, "other", 1)
        with self.assertRaisesRegex(TypeError, r"^expected Date, not date; convert it with Date\.from_date$"):
            Workdays(holidays=[datetime.date(2024, 1, 1)])
        self.assertRaises(OverflowError, work.add_workdays, Date.MAX, 1)

    def test_many_holidays_change_nothing_far_away(self):
        """Calls pass only holidays near their days. The answers are those of counting one by one."""
        draw = random.Random(9)
        first = LEAP_DAY.to_julian_day()
        for _ in range(20):
            weekdays = draw.sample(tuple(Weekday), draw.randint(1, 7))
            free = set(draw.sample(range(first - 700, first + 700), draw.choice([0, 50, 1000])))
            free |= set(range(first + 50, first + 50 + draw.choice([0, 100])))
            free = set(sorted(free)[:1024])
            work = Workdays(weekdays, map(Date.from_julian_day, free))
            working = [number for number in range(first - 3000, first + 3000) if number not in free and number % 7 in weekdays]
            for _ in range(40):
                number = first + draw.randint(-200, 200)
                date = Date.from_julian_day(number)
                after, before = [day for day in working if day > number], [day for day in working if day < number]
                self.assertEqual((work.is_workday(date), work.next_workday(date), work.previous_workday(date)),
                    (number in working, Date.from_julian_day(after[0]), Date.from_julian_day(before[-1])))
                n = draw.randint(1, 150)
                self.assertEqual((work.add_workdays(date, n), work.add_workdays(date, -n)), (Date.from_julian_day(after[n - 1]), Date.from_julian_day(before[-n])))
                other = Date.from_julian_day(first + draw.randint(-900, 900))
                low, high = sorted((number, other.to_julian_day()))
                between = sum(low <= day < high for day in working)
                self.assertEqual(work.workdays_between(date, other), between if low == number else -between)
                following, preceding = (date if number in working else Date.from_julian_day(near) for near in (after[0], before[-1]))
                self.assertEqual([work.adjust(date, convention) for convention in Convention], [
                    date, following, following if following.month == date.month else preceding, preceding,
                    preceding if preceding.month == date.month else following])


class Columns(unittest.TestCase):
    def test_lists_and_scalars(self):
        self.assertEqual(list(fotsevindre.dates_add_days([LEAP_DAY, 2451545], 1).dates), [2460371, 2451546])
        self.assertEqual(list(fotsevindre.dates_from_calendar_dates(2024, [1, 2, 13], 29).statuses), [0, 0, 17])
        self.assertEqual(list(fotsevindre.dates_parse(b"2024-02-29", (0, 10)).dates), [2460370])
        for wrong, words in ((["x"], "str"), ([1.5], "float"), ([[1]], "list"), ({1}, "set"), (1.5, "float")):
            with self.assertRaisesRegex(TypeError, words):
                fotsevindre.dates_add_days(wrong, 1)
        with self.assertRaisesRegex(TypeError, "a method of Date"):
            fotsevindre.dates_add_days(LEAP_DAY, 1)
        with self.assertRaises(OverflowError):
            fotsevindre.dates_from_calendar_dates([2024], 256, 1)


if __name__ == "__main__":
    unittest.main()
