"""Tests of the Python client, over the library itself. Expected values come from the calendar of the standard library of Python, from
counts one by one, and from worked rows."""

import array
import copy
import ctypes
import datetime
import doctest
import itertools
import operator
import pathlib
import pickle
import random
import re
import sys
import unittest

import fotsevindre
from fotsevindre import columns
from fotsevindre import (
    ComponentRange, Date, Month, OffsetDateTime, ParseError, PlainDateTime, SignedDuration, Time, UtcOffset, Weekday, add_to_pair, days_in_month, days_in_year,
    days_in_year_month, is_leap_year, parse_rfc3339, parse_unix, rfc3339_text, sub_from_pair, unix_duration, unix_pair, unix_text,
    weeks_in_year,
)

DAY = 86400
LEAST = SignedDuration.MIN
GREATEST = SignedDuration.MAX
# The greatest and the least numbers of the types of C, and what lies past them.
WIDE = [2**7, 2**8, 2**15, 2**16, 2**31 - 1, 2**31, 2**32 - 1, 2**32, 2**63 - 1, 2**63, 2**64 - 1, 2**64, 10**30]
WIDE += [-number for number in WIDE]
NO_NUMBERS = [None, 1.0, "1", b"1", [], object()]


def day(year, month, day_of_month):
    return Date.from_calendar_date(year, month, day_of_month)


def span(seconds, nanoseconds=0):
    return SignedDuration.new(seconds, nanoseconds)


class Unpickled:
    """What unpickles by a call."""

    def __init__(self, *parts):
        self.parts = parts

    def __reduce__(self):
        return self.parts


class Cases(unittest.TestCase):
    def refused(self, name, is_conditional, call, *arguments):
        with self.assertRaises(ComponentRange, msg=arguments) as caught:
            call(*arguments)
        self.assertEqual((caught.exception.name, caught.exception.is_conditional), (name, is_conditional), arguments)
        label = re.escape(name.replace("_", " "))
        self.assertRegex(str(caught.exception), f"^{name} was not in range$|^{label} -?[0-9]+ is out of range -?[0-9]+ to [0-9]+( [(]([A-Z][a-z]+ )?-?[0-9]+[)])?$")

    def past(self, call, *arguments):
        with self.assertRaises(OverflowError, msg=arguments):
            call(*arguments)


class Days(Cases):
    # Julian day, calendar date, ordinal, ISO week date, text.
    ROWS = [
        (0, (-4713, 11, 24), 328, (-4713, 48, 1), "-4713-11-24"),
        (-363521074, (-999999, 1, 1), 1, (-999999, 1, 1), "-999999-01-01"),
        (366963559, (999999, 12, 31), 365, (999999, 52, 5), "+999999-12-31"),
        (-1930999, (-9999, 1, 1), 1, (-9999, 1, 1), "-9999-01-01"),
        (5373484, (9999, 12, 31), 365, (9999, 52, 5), "9999-12-31"),
        (5373485, (10000, 1, 1), 1, (9999, 52, 6), "+10000-01-01"),
        (1721060, (0, 1, 1), 1, (-1, 52, 6), "0000-01-01"),
        (1720695, (-1, 1, 1), 1, (-2, 53, 5), "-0001-01-01"),
        (2451545, (2000, 1, 1), 1, (1999, 52, 6), "2000-01-01"),
        (2451546, (2000, 1, 2), 2, (1999, 52, 7), "2000-01-02"),
        (2451604, (2000, 2, 29), 60, (2000, 9, 2), "2000-02-29"),
        (2415080, (1900, 3, 1), 60, (1900, 9, 4), "1900-03-01"),
        (2459215, (2020, 12, 31), 366, (2020, 53, 4), "2020-12-31"),
        (2459216, (2021, 1, 1), 1, (2020, 53, 5), "2021-01-01"),
        (2458848, (2019, 12, 30), 364, (2020, 1, 1), "2019-12-30"),
        (2458485, (2019, 1, 1), 1, (2019, 1, 2), "2019-01-01"),
        (2458849, (2019, 12, 31), 365, (2020, 1, 2), "2019-12-31"),
        (2460370, (2024, 2, 29), 60, (2024, 9, 4), "2024-02-29"),
    ]

    def test_rows(self):
        for julian_day, calendar, ordinal, (iso_year, week, weekday), text in self.ROWS:
            with self.subTest(text):
                date = Date.from_julian_day(julian_day)
                self.assertEqual(date, Date.from_calendar_date(*calendar))
                self.assertEqual(date, Date.from_calendar_date(calendar[0], Month(calendar[1]), calendar[2]))
                self.assertEqual(date, Date.from_ordinal_date(calendar[0], ordinal))
                self.assertEqual(date, Date.from_iso_week_date(iso_year, week, Weekday(weekday - 1)))
                self.assertEqual(date.to_julian_day(), julian_day)
                self.assertEqual(date.to_calendar_date(), (calendar[0], Month(calendar[1]), calendar[2]))
                self.assertEqual((date.year, date.month, date.day), calendar)
                self.assertEqual(date.to_ordinal_date(), (calendar[0], ordinal))
                self.assertEqual(date.ordinal, ordinal)
                self.assertEqual(date.to_iso_week_date(), (iso_year, week, Weekday(weekday - 1)))
                self.assertEqual((date.iso_week, date.weekday()), (week, Weekday(weekday - 1)))
                self.assertEqual((str(date), repr(date), f"{date}"), (text, f"Date{calendar}", text))

    def test_text_under_a_width(self):
        self.assertEqual(f"{day(2019, 1, 2):>12}", "  2019-01-02")

    def test_week_counts(self):
        for date, count in [(day(2019, 1, 1), 0), (day(2020, 12, 31), 52)]:
            self.assertEqual((date.sunday_based_week, date.monday_based_week), (count, count))

    def test_refusals(self):
        make = Date.from_julian_day
        for julian_day in (-363521075, 366963560, 2**32 + 2451545, *(n for n in WIDE if abs(n) > 2**31)):
            self.refused("julian_day", False, make, julian_day)
        make = Date.from_calendar_date
        for row in [(1900, 2, 29), (2000, 2, 0), (2000, 1, 32), (2000, 1, -1), (2000, 1, 257), (2000, 1, 2**32 + 1), (2000, 4, 31)]:
            self.refused("day", True, make, *row)
        for row in [(1000000, 13, 1), (2000, 0, 1), (2000, -1, 1), (2000, 258, 1), (2**32 + 2000, 13, 40), (2000, 2**32 + 1, 1)]:
            self.refused("month", False, make, *row)
        for row in [(1000000, 1, 32), (-1000000, 1, 1), (2**32 + 2000, 1, 1), (-10**30, 12, 31)]:
            self.refused("year", False, make, *row)
        make = Date.from_ordinal_date
        for row in [(1900, 366), (2000, 367), (2000, 0), (2000, -1), (2000, 65537), (2000, 2**32 + 1)]:
            self.refused("ordinal", True, make, *row)
        for row in [(10000000, 1), (-1000000, 0), (2**32, 1)]:
            self.refused("year", False, make, *row)
        make = Date.from_iso_week_date
        for weekday in (Weekday.Saturday, Weekday.Sunday):
            self.refused("weekday", True, make, 999999, 52, weekday)
        self.assertEqual(make(999999, 52, Weekday.Friday), Date.MAX)
        for row in [(999999, 53), (2019, 53), (2020, 54), (2020, 0), (2020, -1), (2020, 257), (2020, 2**32 + 1)]:
            self.refused("week", True, make, *row, Weekday.Monday)
        for row in [(1000000, 53), (-1000000, 1), (2**32 + 2000, 9)]:
            self.refused("year", False, make, *row, Weekday.Monday)

    def test_replacement(self):
        self.refused("day", True, day(2024, 2, 29).replace_year, 2023)
        for year in (1000000, -1000000, 2**32 + 2024):
            self.refused("year", False, day(2024, 2, 29).replace_year, year)
        self.refused("day", True, day(2022, 1, 30).replace_month, Month.February)
        for month in (0, 13, -1, 2**32 + 3):
            self.refused("month", False, day(2022, 1, 30).replace_month, month)
        for number in (0, 29, 30, -1, 257, 2**32 + 1):
            self.refused("day", True, day(2022, 2, 18).replace_day, number)
        for number in (0, 366, -1, 65537, 2**32 + 1):
            self.refused("ordinal", True, day(2022, 2, 18).replace_ordinal, number)
        self.assertEqual(day(2024, 2, 29).replace_year(10000), day(10000, 2, 29))
        self.assertEqual(day(2024, 3, 1).replace_year(2023), Date.from_ordinal_date(2023, 60))
        self.assertEqual(day(2023, 3, 1).replace_year(2024), Date.from_ordinal_date(2024, 61))
        self.assertEqual(day(2022, 2, 18).replace_year(2019), day(2019, 2, 18))
        self.assertEqual(day(2022, 2, 18).replace_month(Month.March), day(2022, 3, 18))
        self.assertEqual(day(2022, 2, 18).replace_day(1), day(2022, 2, 1))
        self.assertEqual(day(2022, 2, 18).replace_ordinal(1), day(2022, 1, 1))

    def test_moves(self):
        hours = SignedDuration.hours
        new_years_eve = day(2020, 12, 31)
        rows = [
            (Date.MIN, hours(-23), Date.MIN), (Date.MIN, hours(-24), None), (Date.MAX, hours(23), Date.MAX),
            (Date.MAX, hours(24), None), (new_years_eve, hours(47), day(2021, 1, 1)), (new_years_eve, hours(-47), day(2020, 12, 30)),
            (Date.MIN, SignedDuration.days(730484633), Date.MAX), (Date.MIN, LEAST, None), (Date.MAX, GREATEST, None),
        ]
        for date, duration, moved in rows:
            self.assertEqual(date.checked_add(duration), moved)
            if duration != LEAST:
                self.assertEqual(date.checked_sub(-duration), moved)
            if moved is None:
                self.past(lambda date=date, duration=duration: date + duration)
            else:
                self.assertEqual(date + duration, moved)
                self.assertEqual(date - (-duration), moved)
        self.past(lambda: Date.MIN - SignedDuration.DAY)
        self.assertEqual(Date.MAX.saturating_add(SignedDuration.DAY), Date.MAX)
        self.assertEqual(Date.MIN.saturating_sub(SignedDuration.DAY), Date.MIN)
        self.assertEqual(Date.MIN.saturating_sub(LEAST), Date.MAX)
        self.assertEqual(Date.MAX.saturating_add(LEAST), Date.MIN)
        self.assertEqual(day(2019, 12, 31).next_day(), day(2020, 1, 1))
        self.assertEqual(day(2020, 1, 1).previous_day(), day(2019, 12, 31))
        self.assertIsNone(Date.MAX.next_day())
        self.assertIsNone(Date.MIN.previous_day())
        self.assertEqual(day(2020, 1, 1) - day(2019, 12, 31), SignedDuration.DAY)
        self.assertEqual(Date.MIN - Date.MAX, SignedDuration.days(-730484633))

    def test_occurrences(self):
        monday = Weekday.Monday
        self.assertEqual(day(2023, 6, 28).next_occurrence(monday), day(2023, 7, 3))
        self.assertEqual(day(2023, 6, 19).prev_occurrence(monday), day(2023, 6, 12))
        rows = [(day(2023, 6, 25), 5, day(2023, 7, 24)), (day(2023, 6, 26), 5, day(2023, 7, 31))]
        for date, n, found in rows:
            self.assertEqual(date.nth_next_occurrence(monday, n), found)
            self.assertEqual(date.checked_nth_next_occurrence(monday, n), found)
        rows = [(day(2023, 6, 27), 3, day(2023, 6, 12)), (day(2023, 6, 26), 3, day(2023, 6, 5))]
        for date, n, found in rows:
            self.assertEqual(date.nth_prev_occurrence(monday, n), found)
            self.assertEqual(date.checked_nth_prev_occurrence(monday, n), found)
        for weekday in Weekday:
            self.assertIsNone(Date.MAX.checked_next_occurrence(weekday))
            self.assertIsNone(Date.MIN.checked_prev_occurrence(weekday))
            self.past(Date.MAX.next_occurrence, weekday)
            self.past(Date.MIN.prev_occurrence, weekday)
            self.assertIsNone(day(2023, 6, 26).checked_nth_next_occurrence(weekday, 0))
            self.assertIsNone(day(2023, 6, 26).checked_nth_prev_occurrence(weekday, 0))
            self.past(day(2023, 6, 26).nth_next_occurrence, weekday, 0)
            self.past(day(2023, 6, 26).nth_prev_occurrence, weekday, 0)
            for n in (-1, 256, 257, 2**32 + 1, 10**30):
                for call in ("nth_next_occurrence", "nth_prev_occurrence"):
                    self.past(getattr(day(2023, 6, 26), call), weekday, n)
                    self.past(getattr(day(2023, 6, 26), "checked_" + call), weekday, n)

    def test_occurrences_one_day_at_a_time(self):
        for weekday in Weekday:
            for first in range(2460000, 2460007):
                ahead = [n for n in range(first + 1, first + 50) if n % 7 == weekday.value]
                back = [n for n in range(first - 1, first - 50, -1) if n % 7 == weekday.value]
                date = Date.from_julian_day(first)
                self.assertEqual(date.checked_next_occurrence(weekday), Date.from_julian_day(ahead[0]))
                self.assertEqual(date.checked_prev_occurrence(weekday), Date.from_julian_day(back[0]))
                for n in range(1, 8):
                    self.assertEqual(date.nth_next_occurrence(weekday, n), Date.from_julian_day(ahead[n - 1]))
                    self.assertEqual(date.nth_prev_occurrence(weekday, n), Date.from_julian_day(back[n - 1]))

    def test_walks(self):
        walk = list(day(2019, 12, 30).iter_to(day(2020, 1, 2)))
        self.assertEqual(walk, [day(2019, 12, 30), day(2019, 12, 31), day(2020, 1, 1), day(2020, 1, 2)])
        self.assertEqual(list(Date.MAX.iter_to(Date.MIN)), [])
        self.assertEqual(list(Date.MAX.iter_to(Date.MAX)), [Date.MAX])


class StandardLibrary(Cases):
    def agrees(self, other):
        date = Date.from_date(other)
        self.assertEqual(date.to_date(), other)
        self.assertEqual(date.to_julian_day(), other.toordinal() + 1721425)
        self.assertEqual(date.to_calendar_date(), (other.year, other.month, other.day))
        iso_year, week, weekday = other.isocalendar()
        self.assertEqual(date.to_iso_week_date(), (iso_year, week, Weekday(weekday - 1)))
        ordinal = other.timetuple().tm_yday
        self.assertEqual(date.to_ordinal_date(), (other.year, ordinal))
        self.assertEqual(date, Date.from_ordinal_date(other.year, ordinal))
        self.assertEqual(date, Date.from_iso_week_date(iso_year, week, date.weekday()))
        self.assertEqual(date, Date.from_julian_day(date.to_julian_day()))
        self.assertEqual(str(date), other.isoformat())

    def test_every_day_of_some_years(self):
        for year in (1, 4, 100, 400, 1582, 1600, 1900, 1999, 2000, 2004, 2019, 2020, 2021, 2024, 2026, 2400, 9998, 9999):
            first = datetime.date(year, 1, 1).toordinal()
            for number in range(first, first + (366 if year % 4 == 0 and (year % 100 or year % 400 == 0) else 365)):
                self.agrees(datetime.date.fromordinal(number))

    def test_days_over_all_years(self):
        for number in range(1, datetime.date.max.toordinal() + 1, 97):
            self.agrees(datetime.date.fromordinal(number))
        self.agrees(datetime.date.max)

    def test_week_counts(self):
        for number in range(1, datetime.date.max.toordinal() + 1, 997):
            other = datetime.date.fromordinal(number)
            date = Date.from_date(other)
            self.assertEqual(date.sunday_based_week, int(other.strftime("%U")))
            self.assertEqual(date.monday_based_week, int(other.strftime("%W")))

    def test_only_years_that_it_has(self):
        for date in (day(0, 12, 31), day(10000, 1, 1), Date.MIN, Date.MAX):
            self.past(date.to_date)
        for value in (datetime.datetime(2000, 1, 1), "2000-01-01", 2451545, None):
            with self.assertRaises(TypeError):
                Date.from_date(value)


class Times(Cases):
    def test_rows(self):
        one = Time.from_hms_nano(1, 2, 3, 4005006)
        self.assertEqual(one.as_hms(), (1, 2, 3))
        self.assertEqual(one.as_hms_milli(), (1, 2, 3, 4))
        self.assertEqual(one.as_hms_micro(), (1, 2, 3, 4005))
        self.assertEqual(one.as_hms_nano(), (1, 2, 3, 4005006))
        self.assertEqual((one.hour, one.minute, one.second), (1, 2, 3))
        self.assertEqual((one.millisecond, one.microsecond, one.nanosecond), (4, 4005, 4005006))
        self.assertEqual(one.replace_microsecond(7008), Time.from_hms_micro(1, 2, 3, 7008))
        self.assertEqual(one.replace_hour(7), Time.from_hms_nano(7, 2, 3, 4005006))
        self.assertEqual(one.replace_minute(7), Time.from_hms_nano(1, 7, 3, 4005006))
        self.assertEqual(one.replace_second(7), Time.from_hms_nano(1, 2, 7, 4005006))
        self.assertEqual(one.replace_millisecond(7), Time.from_hms_milli(1, 2, 3, 7))
        self.assertEqual(one.replace_nanosecond(7), Time.from_hms_nano(1, 2, 3, 7))
        self.assertEqual(one.truncate_to_hour(), Time.from_hms(1, 0, 0))
        self.assertEqual(one.truncate_to_minute(), Time.from_hms(1, 2, 0))
        self.assertEqual(one.truncate_to_second(), Time.from_hms(1, 2, 3))
        self.assertEqual(one.truncate_to_millisecond(), Time.from_hms_milli(1, 2, 3, 4))
        self.assertEqual(one.truncate_to_microsecond(), Time.from_hms_micro(1, 2, 3, 4005))

    def test_cut_to_each_unit(self):
        for number in [*range(0, DAY * 10**9, 86399999977), DAY * 10**9 - 1]:
            time = Time.MIDNIGHT + SignedDuration.nanoseconds(number)
            units = [("hour", 3600 * 10**9), ("minute", 60 * 10**9), ("second", 10**9), ("millisecond", 10**6), ("microsecond",
                10**3)]
            for name, unit in units:
                cut = getattr(time, "truncate_to_" + name)()
                self.assertEqual((cut - Time.MIDNIGHT).whole_nanoseconds(), number // unit * unit)
            seconds, nanosecond = divmod(number, 10**9)
            self.assertEqual(time.as_hms_nano(), (seconds // 3600, seconds // 60 % 60, seconds % 60, nanosecond))

    def test_texts(self):
        rows = [
            (Time.MIDNIGHT, "00:00:00", "0, 0"), (Time.from_hms_milli(9, 5, 0, 120), "09:05:00.120000", "9, 5, nanosecond=120000000"),
            (Time.MAX, "23:59:59.999999999", "23, 59, 59, nanosecond=999999999"), (Time.from_hms_nano(1, 2, 3, 1), "01:02:03.000000001", "1, 2, 3, nanosecond=1"),
        ]
        for time, text, parts in rows:
            self.assertEqual((str(time), repr(time), f"{time:>20}"), (text, f"Time({parts})", text.rjust(20)))

    def test_refusals(self):
        past = (-1, 2**8, 2**32, 2**32 + 1, 10**30, -10**30)
        for hour in (24, *past):
            self.refused("hour", False, Time.from_hms, hour, 60, 60)
            self.refused("hour", False, Time.MIDNIGHT.replace_hour, hour)
        for sixty in (60, *past):
            self.refused("minute", False, Time.from_hms, 23, sixty, 60)
            self.refused("minute", False, Time.MIDNIGHT.replace_minute, sixty)
            self.refused("second", False, Time.from_hms, 23, 59, sixty)
            self.refused("second", False, Time.from_hms_nano, 23, 59, sixty, 10**9)
            self.refused("second", False, Time.MIDNIGHT.replace_second, sixty)
        for unit, limit in (("millisecond", 1000), ("microsecond", 10**6), ("nanosecond", 10**9)):
            make = {"millisecond": Time.from_hms_milli, "microsecond": Time.from_hms_micro, "nanosecond": Time.from_hms_nano}[unit]
            for number in (limit, 2**32 - 1, -1, 2**32, 2**32 + 1, 10**30):
                self.refused(unit, False, make, 0, 0, 0, number)
                self.refused(unit, False, getattr(Time.MIDNIGHT, "replace_" + unit), number)
            self.assertEqual(getattr(make(0, 0, 0, limit - 1), unit), limit - 1)
        self.refused("microsecond", False, Time.from_hms_micro, 0, 0, 0, 4294968)
        self.refused("hour", False, Time.from_hms, 24, 60, 60)

    def test_moves(self):
        hours = SignedDuration.hours
        late = Time.from_hms(23, 0, 0)
        self.assertEqual(Time.from_hms_milli(23, 59, 59, 500).duration_until(Time.from_hms_milli(0, 0, 0, 200)),
            SignedDuration.milliseconds(700))
        self.assertEqual(late.duration_until(Time.from_hms(1, 0, 0)), hours(2))
        self.assertEqual(Time.from_hms(1, 0, 0).duration_since(late), hours(2))
        self.assertEqual(Time.MIDNIGHT - late, hours(-23))
        self.assertEqual(Time.MAX - Time.MIDNIGHT, SignedDuration.nanoseconds(86399999999999))
        self.assertEqual(Time.MIDNIGHT.adjusting_add(LEAST), (-1, Time.from_hms_nano(8, 29, 51, 1)))
        self.assertEqual(Time.MIDNIGHT.adjusting_sub(LEAST), (0, Time.from_hms_nano(15, 30, 8, 999999999)))
        self.assertEqual(late.adjusting_add(hours(26)), (1, Time.from_hms(1, 0, 0)))
        self.assertEqual(late + hours(26), Time.from_hms(1, 0, 0))
        self.assertEqual(Time.from_hms(1, 0, 0) - hours(26), late)
        self.assertEqual(Time.from_hms(0, 0, 1) - SignedDuration.seconds(2), Time.from_hms(23, 59, 59))
        self.assertEqual(Time.MIDNIGHT + LEAST, Time.from_hms_nano(8, 29, 51, 1))

    def test_pairs(self):
        hours = SignedDuration.hours
        late, early = (day(2020, 12, 31), Time.from_hms(23, 0, 0)), (day(2021, 1, 1), Time.from_hms(1, 0, 0))
        self.assertEqual(add_to_pair(*late, hours(2)), early)
        self.assertEqual(sub_from_pair(*early, hours(2)), late)
        self.assertIsNone(add_to_pair(Date.MAX, Time.MAX, SignedDuration.NANOSECOND))
        self.assertIsNone(add_to_pair(Date.MIN, Time.from_hms(12, 0, 0), hours(-13)))
        self.assertIsNone(sub_from_pair(Date.MIN, Time.from_hms(12, 0, 0), hours(13)))
        self.assertIsNone(sub_from_pair(Date.MIN, Time.MIDNIGHT, SignedDuration.NANOSECOND))
        self.assertIsNone(add_to_pair(Date.MAX, Time.MAX, GREATEST))

    def test_pairs_by_moments(self):
        draw = random.Random(32)
        for _ in range(3000):
            julian_day, clock = draw.randint(-363521074, 366963559), draw.randrange(DAY * 10**9)
            number = draw.randint(-2**draw.randint(1, 86), 2**draw.randint(1, 86))
            date, time = Date.from_julian_day(julian_day), Time.MIDNIGHT + SignedDuration.nanoseconds(clock)
            for call, moved in ((add_to_pair, number), (sub_from_pair, -number)):
                to_day, to_clock = divmod(julian_day * DAY * 10**9 + clock + moved, DAY * 10**9)
                found = call(date, time, SignedDuration.nanoseconds_i128(number))
                if -363521074 <= to_day <= 366963559:
                    self.assertEqual(found[0].to_julian_day(), to_day)
                    self.assertEqual((found[1] - Time.MIDNIGHT).whole_nanoseconds(), to_clock)
                else:
                    self.assertIsNone(found)


class Texts(Cases):
    # Julian day, and the texts: by the calendar, by the ordinal, by the week and by the Julian day.
    DAYS = [
        (2460370, "2024-02-29", "2024-060", "2024-W09-4", "J2460370"), (2459216, "2021-01-01", "2021-001", "2020-W53-5", "J2459216"),
        (2458484, "2018-12-31", "2018-365", "2019-W01-1", "J2458484"), (1721060, "0000-01-01", "0000-001", "-0001-W52-6", "J1721060"),
        (1721059, "-0001-12-31", "-0001-365", "-0001-W52-5", "J1721059"),
        (5373485, "+10000-01-01", "+10000-001", "9999-W52-6", "J5373485"), (-1, "-4713-11-23", "-4713-327", "-4713-W47-7", "J-1"),
        (366963559, "+999999-12-31", "+999999-365", "+999999-W52-5", "J366963559"),
        (-363521074, "-999999-01-01", "-999999-001", "-999999-W01-1", "J-363521074"),
    ]

    def unreadable(self, position, call, text):
        with self.assertRaises(ParseError, msg=text) as caught:
            call(text)
        is_end = position == len(text)
        self.assertEqual((caught.exception.position, caught.exception.is_end), (position, is_end), text)
        self.assertRegex(str(caught.exception), f" at position {position}, found {'the end' if is_end else '.'}")
        self.assertIsInstance(caught.exception, ValueError)

    def test_days(self):
        for julian_day, calendar, ordinal, week, julian in self.DAYS:
            date = Date.from_julian_day(julian_day)
            self.assertEqual((date.calendar_text(), date.ordinal_text(), date.week_text()), (calendar, ordinal, week))
            self.assertEqual((str(date), date.julian_text()), (calendar, julian))
            self.assertEqual([Date.parse(text) for text in (calendar, ordinal, week)], [date] * 3)
            self.assertEqual(Date.parse_julian_day(julian), date)

    def test_days_of_the_standard_library(self):
        for number in itertools.chain(range(1, 800), range(738000, 739000), range(datetime.date.max.toordinal() - 800,
                datetime.date.max.toordinal() + 1)):
            other = datetime.date.fromordinal(number)
            date = Date.from_date(other)
            iso_year, week, weekday = other.isocalendar()
            texts = [other.isoformat(), f"{other.year:04}-{other.timetuple().tm_yday:03}", f"{iso_year:04}-W{week:02}-{weekday}"]
            self.assertEqual([date.calendar_text(), date.ordinal_text(), date.week_text()], texts)
            self.assertEqual([Date.parse(text) for text in texts], [date] * 3)

    def test_every_day_of_four_years_at_each_end(self):
        for first in (-363521074, 366963559 - 1460):
            for number in range(first, first + 1461):
                date = Date.from_julian_day(number)
                year, month, day_of_month = date.to_calendar_date()
                sign = "-" if year < 0 else "+"
                self.assertEqual(date.calendar_text(), f"{sign}{abs(year)}-{int(month):02}-{day_of_month:02}")
                self.assertEqual(date.ordinal_text(), f"{sign}{abs(year)}-{date.ordinal:03}")
                for text in (date.calendar_text(), date.ordinal_text(), date.week_text()):
                    self.assertEqual(Date.parse(text), date)
                self.assertEqual(date.julian_text(), f"J{number}")
                self.assertEqual(Date.parse_julian_day(date.julian_text()), date)

    def test_refused_days(self):
        rows = [
            ("2024-13-01", "month", False), ("2024-00-01", "month", False), ("+1000000-13-01", "month", False),
            ("+1000000-12-01", "year", False), ("-999999999-001", "year", False), ("2023-02-29", "day", True),
            ("2024-01-00", "day", True), ("2023-366", "ordinal", True), ("2024-000", "ordinal", True), ("2021-W53-1", "week", True),
            ("2021-W00-1", "week", True), ("+999999-W52-6", "weekday", True),
        ]
        for text, name, is_conditional in rows:
            self.refused(name, is_conditional, Date.parse, text)
        for text in ("J366963560", "J-363521075", "J999999999"):
            self.refused("julian_day", False, Date.parse_julian_day, text)
        rows = [
            ("", 0), ("x024-02-29", 0), ("2024x", 4), ("2024", 4), ("20240229", 4), ("12345-01-01", 4), ("+2024-01-01", 5),
            ("+02024-01-01", 1), ("-0000-01-01", 4), ("-12345678901-001", 10), ("2024-60", 7), ("2024-02-2", 9), ("2024-02-29 ", 10),
            ("2024-w09-4", 5), ("2024-W09-0", 9), ("2024-W09-8", 9), ("2024-02-2\u0661", 9), ("2024-02-29\0", 10), ("\udc80", 0),
            ("2024-\ud800", 5), ("\0" * 50, 0),
        ]
        for text, position in rows:
            self.unreadable(position, Date.parse, text)
        for text, position in [("", 0), ("2460370", 0), ("J", 1), ("J-", 2), ("J+1", 1), ("J-0", 2), ("J02", 2), ("J24603700000", 10)]:
            self.unreadable(position, Date.parse_julian_day, text)

    # The examples of the standard come first.
    MOMENTS = [
        ("1985-04-12T23:20:50.52Z", (1985, 4, 12), (23, 20, 50, 520000000), 0),
        ("1996-12-19T16:39:57-08:00", (1996, 12, 19), (16, 39, 57, 0), -28800),
        ("1937-01-01T12:00:27.87+00:20", (1937, 1, 1), (12, 0, 27, 870000000), 1200),
        ("2024-02-29T23:59:59.25+01:00", (2024, 2, 29), (23, 59, 59, 250000000), 3600),
        ("0000-01-01T00:00:00Z", (0, 1, 1), (0, 0, 0, 0), 0),
        ("9999-12-31T23:59:59.999999999-23:59", (9999, 12, 31), (23, 59, 59, 999999999), -86340),
        ("2024-02-29T09:05:07.000000001-00:30", (2024, 2, 29), (9, 5, 7, 1), -1800),
    ]

    def moment(self, calendar, clock, offset):
        return day(*calendar), Time.from_hms_nano(*clock), UtcOffset.from_whole_seconds(offset)

    def test_moments(self):
        for text, *numbers in self.MOMENTS:
            moment = self.moment(*numbers)
            self.assertEqual((rfc3339_text(*moment), parse_rfc3339(text)), (text, moment))
        rows = [
            ("0000-01-01t00:00:00z", (0, 1, 1), (0, 0, 0, 0), 0), ("2024-02-29 00:00:00-00:00", (2024, 2, 29), (0, 0, 0, 0), 0),
            ("2024-02-29T00:00:00.9999999999999Z", (2024, 2, 29), (0, 0, 0, 999999999), 0),
            ("2024-02-29T00:00:00.0000000019Z", (2024, 2, 29), (0, 0, 0, 1), 0),
        ]
        for text, *numbers in rows:
            self.assertEqual(parse_rfc3339(text), self.moment(*numbers))
        for date in (day(10000, 1, 1), day(-1, 12, 31)):
            self.assertIsNone(rfc3339_text(date, Time.MIDNIGHT, UtcOffset.UTC))
        for seconds in (86400, -86400, 1, -1, 3601, 93599):
            self.assertIsNone(rfc3339_text(day(2024, 2, 29), Time.MIDNIGHT, UtcOffset.from_whole_seconds(seconds)))

    def test_refused_moments(self):
        rows = [
            ("1990-12-31T23:59:60Z", "second", False), ("1990-12-31T15:59:60-08:00", "second", False),
            ("2024-00-99T99:99:99Z", "month", False), ("2023-02-29T24:00:00Z", "day", True), ("2024-02-29T24:60:60Z", "hour", False),
            ("2024-02-29T23:60:60+24:00", "minute", False), ("2024-02-29T23:59:59+24:60", "offset hour", False),
            ("2024-02-29T23:59:59-23:60", "offset minute", False),
        ]
        for text, name, is_conditional in rows:
            self.refused(name, is_conditional, parse_rfc3339, text)
        rows = [
            ("", 0), ("-2024-02-29T00:00:00Z", 0), ("2024-02-29", 10), ("2024-02-29  00:00:00Z", 11), ("2024-02-29T00:00Z", 16),
            ("2024-02-29T00:00:00.Z", 20), ("2024-02-29T00:00:00.5", 21), ("2024-02-29T00:00:00Z ", 20),
            ("2024-02-29T00:00:00+0100", 22),
        ]
        for text, position in rows:
            self.unreadable(position, parse_rfc3339, text)

    def test_moments_of_the_standard_library(self):
        draw = random.Random(3339)
        epoch = datetime.datetime(1970, 1, 1, tzinfo=datetime.timezone.utc)
        for _ in range(3000):
            minutes = draw.randint(-1439, 1439)
            zone = datetime.timezone(datetime.timedelta(minutes=minutes))
            other = datetime.datetime(1, 1, 3, tzinfo=zone) + datetime.timedelta(draw.randrange(3652050), draw.randrange(DAY),
                draw.choice([0, draw.randrange(10**6)]))
            date, time = Date.from_date(other.date()), Time.from_hms_micro(other.hour, other.minute, other.second, other.microsecond)
            moment = date, time, UtcOffset.from_whole_seconds(60 * minutes)
            self.assertEqual(parse_rfc3339(other.isoformat()), moment)
            text = other.isoformat()
            if other.microsecond:
                text = re.sub(r"(\.\d*?)0+(?=[+-]\d\d:\d\d$)", r"\1", text)
            self.assertEqual(rfc3339_text(*moment), re.sub(r"\+00:00$", "Z", text))
            since = (other - epoch) // datetime.timedelta(microseconds=1)
            self.assertEqual(unix_duration(*moment), SignedDuration.microseconds(since))
            self.assertEqual(unix_pair(SignedDuration.microseconds(since), moment[2]), moment[:2])
            whole, part = divmod(abs(since), 10**6)
            text = f"@{'-' if since < 0 else ''}{whole}" + (f".{part:06}".rstrip("0") if part else "")
            self.assertEqual(unix_text(*moment), text)
            self.assertEqual(parse_unix(text), unix_pair(SignedDuration.microseconds(since), UtcOffset.UTC))

    def test_unix_times(self):
        rows = [
            ("@0", span(0)), ("@1709164800.5", span(1709164800, 500000000)), ("@-0.000000001", span(0, -1)),
            ("@-1.25", span(-1, -250000000)), ("@31494784780799.999999999", span(31494784780799, 999999999)),
            ("@-31619087596800", span(-31619087596800)),
        ]
        for text, duration in rows:
            pair = parse_unix(text)
            self.assertEqual(pair, unix_pair(duration, UtcOffset.UTC))
            self.assertEqual((unix_text(*pair, UtcOffset.UTC), unix_duration(*pair, UtcOffset.UTC)), (text, duration))
        self.assertEqual(parse_unix("@1709164800.50"), (day(2024, 2, 29), Time.from_hms_milli(0, 0, 0, 500)))
        self.assertEqual(unix_text(Date.MIN, Time.MIDNIGHT, UtcOffset.from_hms(1, 0, 0)), "@-31619087600400")
        self.assertIsNone(unix_pair(span(31494784780800), UtcOffset.UTC))
        self.assertIsNone(unix_pair(GREATEST, UtcOffset.UTC))
        self.assertIsNone(unix_pair(LEAST, UtcOffset.from_hms(-1, 0, 0)))
        for text in ("@31494784780800", "@-31619087596800.000000001", "@999999999999999999"):
            self.refused("timestamp", False, parse_unix, text)
        for text, position in [("", 0), ("@", 1), ("@+1", 1), ("@01", 2), ("@-0", 3), ("@-0.0", 5), ("@1.", 3), ("@1.1234567890", 12)]:
            self.unreadable(position, parse_unix, text)

    def test_wrong_kinds(self):
        moment = day(2024, 2, 29), Time.MIDNIGHT, UtcOffset.UTC
        for call in (Date.parse, Date.parse_julian_day, parse_rfc3339, parse_unix):
            for wrong in (None, 1, 1.0, b"2024-02-29", ["2024-02-29"], *moment):
                with self.assertRaises(TypeError):
                    call(wrong)
        for call in (rfc3339_text, unix_text, unix_duration):
            for index, wrong in itertools.product(range(3), NO_NUMBERS + [1, "Z", span(1)]):
                arguments = list(moment)
                arguments[index] = wrong
                with self.assertRaises(TypeError):
                    call(*arguments)
            with self.assertRaises(TypeError):
                call(*reversed(moment))
        for arguments in [(UtcOffset.UTC, span(1)), (1, UtcOffset.UTC), (span(1), 0), (span(1), None)]:
            with self.assertRaises(TypeError):
                unix_pair(*arguments)

    def test_copies_of_the_error(self):
        error = pickle.loads(pickle.dumps(ParseError(4, False)))
        self.assertEqual((error.position, error.is_end, str(error)), (4, False, "unexpected byte at 4"))


class Offsets(Cases):
    ROWS = [
        ((0, -30, 15), -1815, (0, -30, -15), "-00:30:15"), ((-25, 59, 59), -93599, (-25, -59, -59), "-25:59:59"),
        ((1, -2, -3), 3723, (1, 2, 3), "+01:02:03"), ((-5, 30, 0), -19800, (-5, -30, 0), "-05:30"),
        ((0, 0, 0), 0, (0, 0, 0), "+00:00"),
    ]

    def test_rows(self):
        for given, seconds, parts, text in self.ROWS:
            offset = UtcOffset.from_hms(*given)
            self.assertEqual(offset, UtcOffset.from_whole_seconds(seconds))
            self.assertEqual(offset.whole_seconds(), seconds)
            self.assertEqual(offset.as_hms(), parts)
            self.assertEqual((offset.whole_hours(), offset.minutes_past_hour(), offset.seconds_past_minute()), parts)
            self.assertEqual(offset.whole_minutes(), parts[0] * 60 + parts[1])
            self.assertEqual((offset.is_utc(), offset.is_positive(), offset.is_negative()), (seconds == 0, seconds > 0, seconds < 0))
            self.assertEqual((-offset).whole_seconds(), -seconds)
            self.assertEqual((str(offset), offset.isoformat(), f"{offset:<12}"), (text, text, text.ljust(12)))
        self.assertEqual([repr(UtcOffset(*given)) for given in ((), (1,), (-5, 30), (0, -30, 15))],
            ["UtcOffset()", "UtcOffset(1)", "UtcOffset(-5, -30)", "UtcOffset(0, -30, -15)"])
        self.assertLess(UtcOffset.from_hms(-5, 30, 0), UtcOffset.from_hms(-4, 30, 0))
        self.assertEqual(UtcOffset.UTC.whole_seconds(), 0)

    def test_refusals(self):
        past = (2**7, 2**8, -2**8, 2**32, -2**32, 2**32 + 1, 10**30, -10**30)
        for hours in (26, -26, *past):
            self.refused("offset hour", False, UtcOffset.from_hms, hours, 99, 0)
        for sixty in (60, -60, *past):
            self.refused("offset minute", False, UtcOffset.from_hms, 0, sixty, 99)
            self.refused("offset second", False, UtcOffset.from_hms, 0, 0, sixty)
        for seconds in (93600, -93600, 2**32, -2**32, 2**64, 10**30, -10**30):
            self.refused("seconds", False, UtcOffset.from_whole_seconds, seconds)


class Durations(Cases):
    def test_rows(self):
        new, nanoseconds, seconds = SignedDuration.new, SignedDuration.nanoseconds, SignedDuration.seconds
        zero, long_one = SignedDuration.ZERO, span(-3074457345618258602, -999999999)
        rows = [
            (new(1, 2000000000), span(3)), (new(-1, 1), nanoseconds(-999999999)), (zero.saturating_sub(LEAST), GREATEST),
            (nanoseconds(-1).checked_sub(seconds(-2**63)), GREATEST), (LEAST.checked_sub(nanoseconds(1)), None),
            (GREATEST.checked_add(LEAST), span(-1)), (GREATEST.checked_add(nanoseconds(1)), None),
            (GREATEST.saturating_add(nanoseconds(1)), GREATEST), (long_one.saturating_mul(-3), GREATEST),
            (long_one.checked_mul(-3), None), (LEAST.saturating_mul(-2), GREATEST), (GREATEST.saturating_mul(-2), LEAST),
            (SignedDuration.SECOND * 200, span(200)), (200 * SignedDuration.SECOND, span(200)),
            (span(-7, -500000000).checked_div(2), span(-3, -750000000)), (span(-7, -500000000) / 2, span(-3, -750000000)),
            (nanoseconds(-1).checked_div(2), zero), (seconds(1).checked_div(0), None), (seconds(-2**63).checked_div(-1), None),
            (LEAST.checked_neg(), None), (seconds(1).checked_neg(), span(-1)), (LEAST.abs(), GREATEST), (abs(LEAST), GREATEST),
            (SignedDuration.days(-3), span(-259200)), (SignedDuration.weeks(2), span(1209600)),
            (SignedDuration.hours(36), span(129600)), (SignedDuration.minutes(90), span(5400)),
            (SignedDuration.milliseconds(-1500), span(-1, -500000000)),
            (SignedDuration.microseconds(1500000), span(1, 500000000)), (SignedDuration.nanoseconds_i128(1000000001), span(1, 1)),
            (SignedDuration.try_sum([GREATEST, nanoseconds(1), nanoseconds(-1)]), None),
            (SignedDuration.try_sum([GREATEST, nanoseconds(-1), nanoseconds(1)]), GREATEST), (SignedDuration.try_sum([]), zero),
            (-span(1, 5), span(-1, -5)), (span(1) - span(0, 1), span(0, 999999999)), (span(1) + span(-2), span(-1)),
        ]
        for index, (found, expected) in enumerate(rows):
            self.assertEqual(found, expected, index)

    def test_parts(self):
        self.assertEqual(SignedDuration.days(-6).whole_weeks(), 0)
        self.assertEqual(SignedDuration.hours(-47).whole_days(), -1)
        self.assertEqual(SignedDuration.minutes(-90).whole_hours(), -1)
        self.assertEqual(SignedDuration.seconds(90).whole_minutes(), 1)
        half = SignedDuration.milliseconds(-1500)
        self.assertEqual((half.whole_seconds(), half.whole_milliseconds(), half.whole_microseconds(), half.whole_nanoseconds()),
            (-1, -1500, -1500000, -1500000000))
        self.assertEqual((half.subsec_milliseconds(), half.subsec_microseconds(), half.subsec_nanoseconds()),
            (-500, -500000, -500000000))
        self.assertEqual(SignedDuration.nanoseconds(2500).whole_microseconds(), 2)
        self.assertEqual(LEAST.whole_nanoseconds(), -9223372036854775808999999999)
        self.assertEqual(GREATEST.whole_nanoseconds(), 9223372036854775807999999999)
        self.assertEqual(LEAST.whole_milliseconds(), -9223372036854775808999)
        self.assertEqual(LEAST.unsigned_abs(), (9223372036854775808, 999999999))
        rows = [(span(0), (True, False, False)), (span(0, 1), (False, False, True)), (span(0, -1), (False, True, False))]
        for duration, signs in rows:
            self.assertEqual((duration.is_zero(), duration.is_negative(), duration.is_positive()), signs)

    def test_constants(self):
        rows = [
            ("ZERO", 0), ("NANOSECOND", 1), ("MICROSECOND", 10**3), ("MILLISECOND", 10**6), ("SECOND", 10**9), ("MINUTE", 60 * 10**9),
            ("HOUR", 3600 * 10**9), ("DAY", DAY * 10**9), ("WEEK", 7 * DAY * 10**9), ("MIN", -9223372036854775808999999999),
            ("MAX", 9223372036854775807999999999),
        ]
        for name, number in rows:
            self.assertEqual(getattr(SignedDuration, name).whole_nanoseconds(), number, name)

    def test_past_the_range(self):
        limits = [("weeks", 15250284452471), ("days", 106751991167300), ("hours", 2562047788015215), ("minutes", 153722867280912930)]
        for name, most in limits:
            make = getattr(SignedDuration, name)
            unit = {"weeks": 7 * DAY, "days": DAY, "hours": 3600, "minutes": 60}[name]
            for number in (most, -most):
                self.assertEqual(make(number), span(number * unit))
            for number in (most + 1, -most - 1, 2**63, -2**63 - 1, 2**64, 10**30):
                self.past(make, number)
        for name in ("seconds", "milliseconds", "microseconds", "nanoseconds"):
            make = getattr(SignedDuration, name)
            unit = {"seconds": 10**9, "milliseconds": 10**6, "microseconds": 10**3, "nanoseconds": 1}[name]
            for number in (2**63 - 1, -2**63):
                self.assertEqual(make(number).whole_nanoseconds(), number * unit)
            for number in (2**63, -2**63 - 1, 2**64, 2**64 + 1, 10**30):
                self.past(make, number)
        for row in [(2**63 - 1, 10**9), (-2**63, -10**9), (2**63, 0), (0, 2**31), (0, -2**31 - 1), (2**64, 0), (0, 2**32)]:
            self.past(SignedDuration.new, *row)
        for number in (2**63 * 10**9, -(2**63 + 1) * 10**9, 10**40):
            self.past(SignedDuration.nanoseconds_i128, number)
        self.past(lambda: GREATEST + SignedDuration.NANOSECOND)
        self.past(lambda: LEAST - SignedDuration.NANOSECOND)
        self.past(lambda: GREATEST * 2)
        self.past(lambda: -LEAST)
        self.past(lambda: SignedDuration.seconds(-2**63) / -1)
        for number in (2**31, -2**31 - 1, 2**32, 2**32 + 1):
            self.past(lambda number=number: SignedDuration.SECOND * number)
            self.past(lambda number=number: SignedDuration.SECOND / number)
            for call in ("checked_mul", "checked_div", "saturating_mul"):
                self.past(getattr(SignedDuration.SECOND, call), number)
        with self.assertRaises(ZeroDivisionError):
            SignedDuration.SECOND / 0

    def test_texts(self):
        rows = [
            (SignedDuration.ZERO, "PT0S"), (SignedDuration.nanoseconds(-1), "-PT0.000000001S"),
            (LEAST, "-PT2562047788015215H30M8.999999999S"), (GREATEST, "PT2562047788015215H30M7.999999999S"),
            (SignedDuration.milliseconds(-93784005), "-PT26H3M4.005S"), (SignedDuration.hours(26), "PT26H"),
        ]
        for duration, text in rows:
            self.assertEqual((str(duration), duration.isoformat(), f"{duration:>40}"), (text, text, text.rjust(40)))
            self.assertEqual((SignedDuration.parse(text), SignedDuration.fromisoformat(text)), (duration, duration))
        for text, wanted in [("PT2H30M0,5S", SignedDuration(hours=2, minutes=30, milliseconds=500)), ("PT090M", SignedDuration(minutes=90)), ("-PT0S", SignedDuration())]:
            self.assertEqual(SignedDuration.parse(text), wanted)
        for text, position, is_end in [("", 0, True), ("P1D", 1, False), ("PT", 2, True), ("pt1h", 0, False), ("PT1M1H", 5, False), ("PT1.5M", 5, False), ("+PT1S", 0, False), ("PT1S ", 4, False)]:
            with self.assertRaises(ParseError, msg=text) as caught:
                SignedDuration.parse(text)
            self.assertEqual((caught.exception.position, caught.exception.is_end), (position, is_end), text)
        for text, name in [("PT9999999999999999H", "hours"), (f"PT{2**63 // 60 + 1}M", "minutes"), (f"PT{2**63}S", "seconds")]:
            self.refused(name, False, SignedDuration.parse, text)
        draw = random.Random(98)
        for _ in range(500):
            duration = SignedDuration.new(draw.choice([0, draw.randint(-2**63 + 1, 2**63 - 2), draw.randint(-10**6, 10**6)]), draw.choice([0, draw.randint(-10**9, 10**9)]))
            self.assertEqual(SignedDuration.parse(str(duration)), duration)
        self.assertEqual([repr(duration) for duration in (SignedDuration.ZERO, SignedDuration.hours(26), SignedDuration.milliseconds(-3605000))],
            ["SignedDuration()", "SignedDuration(days=1, hours=2)", "SignedDuration(hours=-1, seconds=-5)"])

    def test_against_whole_numbers(self):
        draw = random.Random(29)
        least, greatest = LEAST.whole_nanoseconds(), GREATEST.whole_nanoseconds()

        def clamped(number):
            return min(max(number, least), greatest)

        def exact(number):
            return number if least <= number <= greatest else None

        def number_of(duration):
            return None if duration is None else duration.whole_nanoseconds()

        for _ in range(5000):
            numbers = [clamped(draw.randint(-2**draw.randint(1, 95), 2**draw.randint(1, 95))) for _ in range(2)]
            one, other = map(SignedDuration.nanoseconds_i128, numbers)
            a, b = numbers
            factor = draw.choice([0, 1, -1, 2, -2, 2**31 - 1, -2**31, draw.randint(-2**31, 2**31 - 1)])
            self.assertEqual([number_of(one), number_of(other)], numbers)
            self.assertEqual(number_of(one.checked_add(other)), exact(a + b))
            self.assertEqual(number_of(one.checked_sub(other)), exact(a - b))
            self.assertEqual(number_of(one.checked_mul(factor)), exact(a * factor))
            self.assertEqual(number_of(one.checked_neg()), exact(-a))
            self.assertEqual(number_of(one.saturating_add(other)), clamped(a + b))
            self.assertEqual(number_of(one.saturating_sub(other)), clamped(a - b))
            self.assertEqual(number_of(one.saturating_mul(factor)), clamped(a * factor))
            if factor:
                quotient = abs(a) // abs(factor) * (1 if (a < 0) == (factor < 0) else -1)
                self.assertEqual(number_of(one.checked_div(factor)), exact(quotient))
            self.assertEqual((one < other, one == other, one > other), (a < b, a == b, a > b))
            self.assertEqual((one <= other, one >= other, one != other), (a <= b, a >= b, a != b))


class Cycles(Cases):
    def test_months(self):
        self.assertEqual(Month.July.nth_next(9), Month.April)
        self.assertEqual(Month.January.nth_next(255), Month.April)
        self.assertEqual(Month.July.nth_prev(9), Month.October)
        self.assertEqual(Month.January.nth_prev(4), Month.September)
        self.assertEqual((Month.December.next(), Month.January.previous()), (Month.January, Month.December))
        self.assertEqual((Month.February.length(2000), Month.February.length(1900), Month.April.length(-1)), (29, 28, 30))
        names = "January February March April May June July August September October November December"
        self.assertEqual(" ".join(Month(number).name for number in range(1, 13)), names)
        self.assertEqual((repr(Month.May), f"{Month.May.name:>5}", Month["March"]), ("Month.May", "  May", Month.March))
        self.assertEqual((str(Month.May), f"{Month.May}", f"{Month.May:02}", "%02d" % Month.May), ("5", "5", "05", "05"))
        self.assertLess(Month.January, Month.February)
        for number in (0, 13, -1, 257, 2**32 + 1):
            self.refused("month", False, Month, number)
            self.refused("month", False, days_in_month, number, 2000)
        with self.assertRaises(KeyError):
            Month["march"]
        for month in Month:
            for n in (0, 1, 11, 12, 13, 255):
                self.assertEqual(month.nth_next(n), (month - 1 + n) % 12 + 1)
                self.assertEqual(month.nth_prev(n), (month - 1 - n) % 12 + 1)
        for n in (-1, 2**32, 10**30):
            self.past(Month.May.nth_next, n)
            self.past(Month.May.nth_prev, n)
        for year in (2**31, -2**31 - 1, 2**32 + 2000):
            self.past(Month.May.length, year)

    def test_weekdays(self):
        self.assertEqual(Weekday.Sunday.nth_next(10), Weekday.Wednesday)
        self.assertEqual(Weekday.Sunday.nth_prev(10), Weekday.Thursday)
        self.assertEqual((Weekday.Sunday.next(), Weekday.Monday.previous()), (Weekday.Monday, Weekday.Sunday))
        friday = Weekday.Friday
        self.assertEqual((friday.number_from_monday(), friday.number_from_sunday()), (5, 6))
        self.assertEqual((friday.number_days_from_monday(), friday.number_days_from_sunday()), (4, 5))
        self.assertEqual(Weekday.Sunday.number_from_sunday(), 1)
        names = "Monday Tuesday Wednesday Thursday Friday Saturday Sunday"
        self.assertEqual(" ".join(map(str, Weekday)), names)
        self.assertEqual((str(friday), repr(friday), f"{friday:<8}", f"{friday:02d}"), ("Friday", "Weekday.Friday", "Friday  ", "04"))
        self.assertTrue(all(Weekday) and all(Month) and Weekday.Monday == 0)
        for weekday in Weekday:
            for n in (0, 1, 6, 7, 8, 255):
                self.assertEqual(weekday.nth_next(n).value, (weekday.value + n) % 7)
                self.assertEqual(weekday.nth_prev(n).value, (weekday.value - n) % 7)
        for number in (7, 8, -1, 257):
            with self.assertRaises(ValueError):
                Weekday(number)
        for n in (-1, 2**32, 10**30):
            self.past(Weekday.Friday.nth_next, n)
            self.past(Weekday.Friday.nth_prev, n)

    def test_years(self):
        for year in itertools.chain(range(-1200, 2400), (-2**31, 2**31 - 1, 999999, -999999)):
            leap = year % 4 == 0 and (year % 100 != 0 or year % 400 == 0)
            self.assertEqual((is_leap_year(year), days_in_year(year)), (leap, 366 if leap else 365))
            self.assertEqual(days_in_year_month(year, Month.February), 29 if leap else 28)
        for year in range(1, 10000, 7):
            self.assertEqual(weeks_in_year(year), datetime.date(year, 12, 28).isocalendar()[1])
        for year in (2**31, -2**31 - 1, 2**32 + 2000, 10**30):
            for call in (is_leap_year, days_in_year, weeks_in_year):
                self.past(call, year)
            self.past(days_in_month, 2, year)


class Columns(Cases):
    JULIAN_DAYS = array.array("q", [
        2451545, -363521074, 366963559, -363521075, 366963560, 0, 2**63 - 1, -2**63, 2**32 + 2451545, *range(2451000, 2453000),
    ])
    DATES = array.array("i", [
        2451545, -363521074, 366963559, -363521075, 366963560, 0, 2**31 - 1, -2**31, *range(2451000, 2453000),
    ])
    CALENDAR = [
        array.array("i", [2000, 1900, 2000, 2000, 1000000, 2000, -999999, 2**31 - 1]),
        array.array("B", [2, 2, 13, 0, 1, 255, 1, 1]),
        array.array("B", [29, 29, 1, 1, 1, 1, 1, 1]),
    ]

    def row_by_row(self, found, expected):
        """Compares the columns of a call with what the call of one value answers for each row."""
        *parts, statuses, error_count = found
        weekdays = getattr(found, "weekdays", None)
        self.assertEqual({len(column) for column in (*parts, statuses)}, {len(expected)})
        self.assertEqual(error_count, sum(status != 0 for status in statuses))
        for row, status, (call, fields) in zip(zip(*parts), statuses, expected):
            error = fotsevindre.status_error(status)
            try:
                answer = call()
            except (ValueError, OverflowError) as raised:
                self.assertEqual(repr(error), repr(raised))
                self.assertEqual(row, tuple(-2**31 if column.typecode == "i" else 255 if column is weekdays else 0 for column in parts))
            else:
                self.assertIsNone(error)
                self.assertEqual(row, fields(answer))

    def test_dates_made(self):
        def made(answer):
            return (answer.to_julian_day(),)

        self.row_by_row(fotsevindre.dates_from_julian_days(self.JULIAN_DAYS),
            [(lambda n=n: Date.from_julian_day(n), made) for n in self.JULIAN_DAYS])
        self.row_by_row(fotsevindre.dates_from_calendar_dates(*self.CALENDAR),
            [(lambda row=row: Date.from_calendar_date(*row), made) for row in zip(*self.CALENDAR)])
        self.row_by_row(fotsevindre.calendar_dates_to_iso_week_dates(*self.CALENDAR), [(
            lambda row=row: Date.from_calendar_date(*row).to_iso_week_date(), lambda found: (*found[:2], found[2].value),
        ) for row in zip(*self.CALENDAR)])
        years = array.array("i", [2000, 1900, 2000, 10**6, -2**31])
        ordinals = array.array("H", [366, 366, 0, 1, 1])
        self.row_by_row(fotsevindre.dates_from_ordinal_dates(years, ordinals),
            [(lambda row=row: Date.from_ordinal_date(*row), made) for row in zip(years, ordinals)])
        years = array.array("i", [2020, 2019, 999999, 10**6, 999999])
        weeks = array.array("B", [53, 53, 52, 0, 52])
        weekdays = array.array("B", [4, 0, 5, 0, 4])
        self.row_by_row(fotsevindre.dates_from_iso_week_dates(years, weeks, weekdays),
            [(lambda row=row: Date.from_iso_week_date(*row[:2], Weekday(row[2])), made) for row in zip(years, weeks, weekdays)])
        found = fotsevindre.dates_from_iso_week_dates(years, weeks, array.array("B", [255, 7, 254, 8, 9]))
        self.assertEqual((found.error_count, {type(fotsevindre.status_error(status)) for status in found.statuses}), (5, {ValueError}))

    def date_of(self, number):
        """Returns the date of a row, or raises the error that its status names."""
        if not -363521074 <= number <= 366963559:
            raise fotsevindre.status_error(2)
        return Date.from_julian_day(number)

    def test_what_dates_have(self):
        calls = [
            (fotsevindre.dates_to_calendar_dates, Date.to_calendar_date, tuple),
            (fotsevindre.dates_to_ordinal_dates, Date.to_ordinal_date, tuple),
            (fotsevindre.dates_to_iso_week_dates, Date.to_iso_week_date, lambda found: (*found[:2], found[2].value)),
            (fotsevindre.dates_weekdays, Date.weekday, lambda found: (found.value,)),
        ]
        for over_columns, of_one, fields in calls:
            self.row_by_row(over_columns(self.DATES), [(lambda n=n: of_one(self.date_of(n)), fields) for n in self.DATES])

    def bounds_of(self, texts):
        """The texts in one buffer, and their bounds."""
        return "".join(texts).encode(), array.array("i", itertools.accumulate(map(len, texts), initial=0))

    def test_texts_read(self):
        texts = ["2024-02-29", "2024-060", "", "2024-02-30", "2024-W09-4", "2024-02-29T23:59:59.25+01:00", "0001-01-01T00:00:00Z", "24"]
        dates, moments = fotsevindre.dates_parse(*self.bounds_of(texts)), fotsevindre.moments_parse(*self.bounds_of(texts))
        for row, text in enumerate(texts):
            for column, read in ((dates, Date.parse), (moments, fotsevindre.parse_rfc3339)):
                error = fotsevindre.status_error(column.statuses[row])
                try:
                    answer = read(text)
                except fotsevindre.ParseError as raised:
                    words = "unexpected end of the text" if raised.is_end else "unexpected byte in the text"
                    self.assertTrue(str(error).startswith(words), error)
                except fotsevindre.ComponentRange as raised:
                    self.assertEqual(repr(error), repr(raised))
                else:
                    self.assertIsNone(error)
                    found = [part[row] for part in column[:-2]]
                    date, *rest = answer if isinstance(answer, tuple) else (answer,)
                    rest = rest and [(rest[0] - Time.MIDNIGHT).whole_nanoseconds(), rest[1].whole_seconds()]
                    self.assertEqual(found, [date.to_julian_day(), *rest])
        self.assertEqual((dates.error_count, moments.error_count), (5, 6))
        wrong = fotsevindre.dates_parse(b"2024-02-29", array.array("i", [0, 10, 11, 4, -1]))
        self.assertEqual((list(wrong.statuses), wrong.error_count), ([0, 30, 30, 30], 3))
        self.assertEqual(repr(fotsevindre.status_error(30)), "ValueError('invalid bounds; expected ascending positions in the texts')")
        with self.assertRaises(ValueError):
            fotsevindre.dates_parse(b"", array.array("i"))
        with self.assertRaises(TypeError):
            fotsevindre.dates_parse("2024-02-29", array.array("i", [0, 10]))
        for wrong in (b"2024-02-29", bytearray(b"2024-02-29")):
            with self.assertRaisesRegex(TypeError, "expected numbers in dates, not byte"):
                fotsevindre.dates_weekdays(wrong)

    def test_all_formats_of_iso_8601(self):
        "Python's own parser reads the same dates."
        for text, day in ("19850412", 12), ("1985W155", 12), ("1985-W15", 8), ("1985-04-12", 12):
            self.assertEqual(Date.parse_iso(text), Date(1985, 4, day))
            if sys.version_info >= (3, 11):
                self.assertEqual(datetime.date.fromisoformat(text), datetime.date(1985, 4, day))
        self.assertEqual(Time.parse_iso("T232050,5"), Time.parse("23:20:50.5"))
        self.assertEqual(Time.parse_iso("T232050,5" + "0" * 39), Time.parse("23:20:50.5"))
        self.assertEqual(str(PlainDateTime.parse_iso("19850412T1015")), "1985-04-12T10:15:00")
        self.assertEqual(str(OffsetDateTime.parse_iso("2024-02-29 22:59:59.25+00")), "2024-02-29T22:59:59.250000+00:00")
        with self.assertRaisesRegex(fotsevindre.ParseError, '^expected a digit at position 6, found "-"$'):
            Date.parse_iso("198504-12")

    def test_texts_printed(self):
        printed = fotsevindre.dates_calendar_texts(self.DATES)
        read = fotsevindre.dates_parse(printed.texts, printed.bounds)
        self.assertEqual((printed.error_count, len(printed.bounds)), (read.error_count, len(self.DATES) + 1))
        for row, number in enumerate(self.DATES):
            text = printed.texts[printed.bounds[row]:printed.bounds[row + 1]].decode()
            if printed.statuses[row] == 0:
                self.assertEqual((text, read.dates[row]), (str(Date.from_julian_day(number)), number))
            else:
                self.assertEqual((text, printed.statuses[row], read.statuses[row]), ("", 2, 31))
        read = fotsevindre.moments_parse(*self.bounds_of(["2024-02-29T23:59:59.25+01:00", "2024-02-29t00:00:00z", "24"]))
        printed = fotsevindre.moments_texts(*read[:3])
        self.assertEqual((printed.texts, list(printed.bounds), list(printed.statuses)),
            (b"2024-02-29T23:59:59.25+01:002024-02-29T00:00:00Z", [0, 28, 48, 48], [0, 0, 2]))
        with self.assertRaises(ValueError):
            fotsevindre.moments_texts(read.dates, read.times, read.offsets[:2])

    def test_durations(self):
        """Rows as for single durations, of which `datetime` has the same texts in parts."""
        read = fotsevindre.durations_parse(*self.bounds_of(["PT2H30M", "-PT90M", "P1D", "PT0,5S", "PT9223372036854775808S", "PT"]))
        self.assertEqual((list(read.seconds), list(read.nanoseconds)), ([9000, -5400, -2**63, 0, -2**63, -2**63], [0, 0, -2**31, 500_000_000, -2**31, -2**31]))
        self.assertEqual((list(read.statuses), read.error_count), ([0, 0, 8, 0, 28, 31], 3))
        printed = fotsevindre.durations_texts(read.seconds, read.nanoseconds)
        self.assertEqual((printed.texts, list(printed.bounds), printed.error_count), (b"PT2H30M-PT1H30MPT0.5S", [0, 7, 15, 15, 21, 21, 21], 3))
        self.assertEqual(fotsevindre.durations_texts([60, 3600], 0).texts, b"PT1MPT1H")
        self.assertRaises(ValueError, fotsevindre.durations_texts, read.seconds, [0])

    def test_rounded(self):
        quarter, mode = SignedDuration(minutes=15), fotsevindre.RoundingMode.HalfCeil
        # 9:07:30, which is in the middle, no time, and 23:59.
        found = fotsevindre.times_round([32_850_000_000_000, 2**64 - 1, 86_340_000_000_000], quarter, mode)
        self.assertEqual((list(found.times), list(found.statuses), found.error_count), ([33_300_000_000_000, 2**64 - 1, 0], [0, 3, 0], 1))
        days = [Date(2024, 2, 29), Date.MAX]
        found = fotsevindre.pairs_round(days, 86_340_000_000_000, quarter, mode)
        self.assertEqual((list(found.dates), list(found.times), list(found.statuses)), ([2460371, -2**31], [0, 2**64 - 1], [0, 1]))
        for unit, mode, error in ((SignedDuration(minutes=7), mode, ValueError), (15, mode, TypeError), (quarter, 3, TypeError)):
            self.assertRaises(error, fotsevindre.times_round, [0], unit, mode)

    def test_columns_chain(self):
        """What one call writes is taken by the next one as it lies, and a refused row is refused again."""
        made = fotsevindre.dates_from_calendar_dates(*self.CALENDAR)
        for call in (fotsevindre.dates_to_calendar_dates, fotsevindre.dates_to_ordinal_dates, fotsevindre.dates_to_iso_week_dates):
            found = call(made.dates)
            self.assertEqual(found.error_count, made.error_count)
            back = {3: fotsevindre.dates_from_ordinal_dates}.get(len(found) - 1, fotsevindre.dates_from_calendar_dates)
            back = fotsevindre.dates_from_iso_week_dates if hasattr(found, "weeks") else back
            self.assertEqual(back(*found[:-2]).dates, made.dates)
        for column, code in [(made.dates, "i"), *zip(fotsevindre.dates_to_calendar_dates(made.dates)[1:3], "BB")]:
            self.assertIs(columns._column(column, code, False).obj, column)

    def test_many_refusals_are_counted(self):
        found = fotsevindre.dates_from_julian_days(array.array("q", [2**40] * 100_000))
        self.assertEqual((found.error_count, set(found.statuses), set(found.dates)), (100_000, {18}, {-2**31}))

    def test_dates_moved(self):
        days = array.array("q", [0, -1, 1, 1, 1, 2**63 - 1, 1, -2**63, *range(-1000, 1000)])
        moved, statuses, error_count = fotsevindre.dates_add_days(self.DATES, days)
        for later, status, date, move in zip(moved, statuses, self.DATES, days):
            if not -363521074 <= date <= 366963559:
                self.assertIsInstance(fotsevindre.status_error(status), ValueError)
            elif not -363521074 <= date + move <= 366963559:
                self.assertIsInstance(fotsevindre.status_error(status), OverflowError)
            else:
                self.assertEqual((status, later), (0, date + move))
        self.assertEqual(error_count, sum(status != 0 for status in statuses))

    def test_schedule(self):
        """Months and working days, each row against the call of one value."""
        moves = array.array("i", [1, 0, 0, 1, 1, 2**31 - 1, 1, -2**31, *range(-1000, 1000)])
        days = [1, 5, 40, 366963556, 366963559]
        workdays = fotsevindre.Workdays(holidays=[Date.from_julian_day(number) for number in days])
        for over_columns, of_one, taken in [
            (fotsevindre.dates_add_months, Date.checked_add_months, ()),
            (fotsevindre.dates_add_workdays, workdays.checked_add_workdays, (workdays,)),
        ]:
            moved, statuses, error_count = over_columns(self.DATES, moves, *taken)
            for later, status, date, move in zip(moved, statuses, self.DATES, moves):
                error = fotsevindre.status_error(status)
                if not -363521074 <= date <= 366963559:
                    self.assertEqual((later, type(error)), (-2**31, ValueError))
                    continue
                one = of_one(Date.from_julian_day(date), move)
                self.assertEqual((later, type(error)), (-2**31, OverflowError) if one is None else (one.to_julian_day(), type(None)))
            self.assertEqual(error_count, sum(status != 0 for status in statuses))
            self.assertTrue(0 < error_count < len(moves))
        others = array.array("i", reversed(self.DATES))
        numbers, statuses, error_count = fotsevindre.dates_workdays_between(self.DATES, others, workdays)
        for number, status, date, other in zip(numbers, statuses, self.DATES, others):
            if -363521074 <= min(date, other) and max(date, other) <= 366963559:
                self.assertEqual((number, status), (workdays.workdays_between(Date.from_julian_day(date), Date.from_julian_day(other)), 0))
            else:
                self.assertEqual((number, type(fotsevindre.status_error(status))), (-2**31, ValueError))
        self.assertEqual(error_count, sum(status != 0 for status in statuses))
        for wrong in (None, 31, [1]):
            with self.assertRaises(TypeError):
                fotsevindre.dates_add_workdays(self.DATES, moves, wrong)
        with self.assertRaises(ValueError):
            fotsevindre.dates_workdays_between(self.DATES, others[1:], workdays)

    def test_buffers(self):
        whole = array.array("q", range(2451545, 2451550))
        unaligned = memoryview(bytearray(b"-" + bytes(whole)))[1:].cast("q")
        for values in (whole, memoryview(whole), memoryview(whole)[1:3], memoryview(whole).toreadonly(), (ctypes.c_int64 * 2)(0, 1),
                array.array("q"), memoryview(b"").cast("q"), unaligned):
            found = fotsevindre.dates_from_julian_days(values)
            self.assertEqual((found.error_count, list(found.dates)), (0, list(values)))
        self.assertEqual(list(whole), list(range(2451545, 2451550)))
        self.assertEqual([column.typecode for column in fotsevindre.dates_from_julian_days(whole)[:2]], ["i", "B"])
        self.assertIs(columns._column(whole, "q", False).obj, whole)

    def test_other_buffers(self):
        """Whole numbers of other bits, and in other steps, are taken where they fit."""
        for code in "bBhHiIlLqQ":
            found = fotsevindre.dates_from_julian_days(array.array(code, [1, 2, 100]))
            self.assertEqual((found.error_count, list(found.dates)), (0, [1, 2, 100]), code)
        steps = memoryview(array.array("q", [1, 2, 3, 4]))
        for view, numbers in [(steps[::2], [1, 3]), (steps[::-1], [4, 3, 2, 1])]:
            self.assertEqual(list(fotsevindre.dates_from_julian_days(view).dates), numbers)
        for values in (array.array("Q", [2**63]), array.array("Q", [1, 2**64 - 1])):
            with self.assertRaises(OverflowError):
                fotsevindre.dates_from_julian_days(values)
        for values in (array.array("q", [-1]), array.array("q", [2**8])):
            with self.assertRaises(OverflowError):
                fotsevindre.dates_from_calendar_dates(array.array("i", [2000]), values, array.array("B", [1]))

    def test_wrong_buffers(self):
        wrong = [
            ["2451545"], [1.0], [None], 2451545, Date.MAX, None, "2451545", array.array("d", [1.0]), memoryview(bytes(32)).cast("q", (2, 2)),
                memoryview(b"12").cast("c"),
        ]
        for values in wrong:
            with self.assertRaises(TypeError, msg=values):
                fotsevindre.dates_from_julian_days(values)
        years, months, days = (column[:3] for column in self.CALENDAR)
        for columns in [(years[:2], months, days), (years, months[:2], days), (years, months, days[:2]), (years[:0], months, days)]:
            with self.assertRaises(ValueError):
                fotsevindre.dates_from_calendar_dates(*columns)


class Statuses(Cases):
    def test_each_has_a_message(self):
        messages = {number: str(fotsevindre.status_error(number)) for number in range(1, 100)}
        self.assertEqual([number for number, text in messages.items() if text != f"unknown status {number}"], [*range(1, len(fotsevindre.messages.NAMES))])
        self.assertEqual(messages[14], "holidays must be in ascending order, without duplicates")
        header = (pathlib.Path(__file__).resolve().parents[3] / "include/fotsevindre.h").read_text(encoding="utf-8")
        names = dict(re.findall(r"    FOTS_(\w+) = (\d+)", header.split("enum fots_status {")[1].split("};")[0]))
        texts = [messages[int(number)] for name, number in names.items() if number != "0"]
        self.assertEqual((len(texts), len(set(texts))), (len(fotsevindre.messages.NAMES) - 1,) * 2)
        self.assertTrue(all(len(text.split()) >= 4 for text in texts), texts)


class Documentation(Cases):
    def test_the_names_for_checkers_of_types_are_all(self):
        self.assertLessEqual({*fotsevindre.calls.__all__}, {*fotsevindre.__all__})

    def test_all_that_is_public_is_documented(self):
        for name in fotsevindre.__all__:
            item = getattr(fotsevindre, name)
            self.assertTrue(item.__doc__, name)
            for member, value in vars(item).items() if isinstance(item, type) else ():
                if not member.startswith("_") and (callable(value) or isinstance(value, classmethod)):
                    self.assertTrue(value.__doc__, (name, member))


class Values(Cases):
    def values(self):
        return [day(2000, 2, 29), Time.from_hms_nano(1, 2, 3, 4), UtcOffset.from_hms(-5, 30, 0), span(-1, -5)]

    def test_order_and_hash(self):
        pairs = [
            (Date.MIN, Date.MAX), (day(2019, 12, 31), day(2020, 1, 1)), (Time.MIDNIGHT, Time.MAX), (LEAST, GREATEST),
            (span(0, -1), span(0)), (span(-1, -1), span(-1)), (UtcOffset.from_whole_seconds(-1), UtcOffset.UTC),
        ]
        for less, greater in pairs:
            self.assertTrue(less < greater and less <= greater and greater > less and greater >= less and less != greater)
            self.assertFalse(less > greater or less >= greater or less == greater)
            self.assertEqual(sorted([greater, less]), [less, greater])
        self.assertEqual(len({day(2000, 1, 1), Date.from_julian_day(2451545), Date.from_ordinal_date(2000, 1)}), 1)

    def test_kinds_are_apart(self):
        for one, other in itertools.permutations(self.values(), 2):
            self.assertNotEqual(one, other)
            with self.assertRaises(TypeError):
                one < other
        self.assertNotEqual(UtcOffset.UTC, 0)

    def test_copies(self):
        for value in self.values():
            self.assertEqual((copy.copy(value), copy.deepcopy(value), pickle.loads(pickle.dumps(value))), (value,) * 3)
        error = pickle.loads(pickle.dumps(ComponentRange("day", True)))
        self.assertEqual((error.name, error.is_conditional, str(error)), ("day", True, "day was not in range"))

    def test_values_do_not_change(self):
        for value in self.values():
            for name in ("other", "checked_add", "whole_seconds", "MAX", "__class__"):
                with self.assertRaises((AttributeError, TypeError)):
                    setattr(value, name, 1)
            with self.assertRaises(TypeError):
                type(value)("1")

    def test_values_cannot_be_forged(self):
        for value in self.values():
            kind = type(value)
            for call in (lambda: object.__new__(kind), lambda: type("Sub", (kind,), {}), lambda: setattr(value, "__class__", int)):
                with self.assertRaises(TypeError, msg=kind):
                    call()
        for make, arguments in [(Date, (2023, 2, 29)), (Time, (24, 0, 0)), (UtcOffset, (26, 0, 0))]:
            with self.assertRaises(ComponentRange):
                pickle.loads(pickle.dumps(Unpickled(make, arguments)))

    def test_wrong_kinds(self):
        date, time, offset, duration = self.values()
        number_calls = [
            (Date.from_julian_day, 1), (Date.from_calendar_date, 3), (Date.from_ordinal_date, 2), (date.replace_year, 1),
            (date.replace_month, 1), (date.replace_day, 1), (date.replace_ordinal, 1), (Time.from_hms, 3), (Time.from_hms_milli, 4),
            (Time.from_hms_micro, 4), (Time.from_hms_nano, 4), (time.replace_hour, 1), (time.replace_minute, 1),
            (time.replace_second, 1), (time.replace_millisecond, 1), (time.replace_microsecond, 1), (time.replace_nanosecond, 1),
            (UtcOffset.from_hms, 3), (UtcOffset.from_whole_seconds, 1), (SignedDuration.new, 2), (SignedDuration.weeks, 1),
            (SignedDuration.days, 1), (SignedDuration.hours, 1), (SignedDuration.minutes, 1), (SignedDuration.seconds, 1),
            (SignedDuration.milliseconds, 1), (SignedDuration.microseconds, 1), (SignedDuration.nanoseconds, 1),
            (SignedDuration.nanoseconds_i128, 1), (duration.checked_mul, 1), (duration.checked_div, 1), (duration.saturating_mul, 1),
            (Month.May.length, 1), (Month.May.nth_next, 1), (Month.May.nth_prev, 1), (Weekday.Monday.nth_next, 1),
            (Weekday.Monday.nth_prev, 1), (is_leap_year, 1), (days_in_year, 1), (weeks_in_year, 1), (days_in_month, 2),
            (days_in_year_month, 2),
        ]
        for call, count in number_calls:
            for index, wrong in itertools.product(range(count), NO_NUMBERS + self.values()):
                arguments = [1] * count
                arguments[index] = wrong
                with self.assertRaises(TypeError, msg=(call, arguments)):
                    call(*arguments)
        weekday_calls = [
            lambda wrong: Date.from_iso_week_date(2000, 9, wrong), date.next_occurrence, date.prev_occurrence,
            date.checked_next_occurrence, date.checked_prev_occurrence, lambda wrong: date.nth_next_occurrence(wrong, 1),
            lambda wrong: date.nth_prev_occurrence(wrong, 1), lambda wrong: date.checked_nth_next_occurrence(wrong, 1),
            lambda wrong: date.checked_nth_prev_occurrence(wrong, 1),
        ]
        for call, wrong in itertools.product(weekday_calls, NO_NUMBERS + self.values() + [1, Month.May]):
            with self.assertRaises(TypeError):
                call(wrong)
        for call, wrong in itertools.product(
            [lambda n: date.nth_next_occurrence(Weekday.Monday, n), lambda n: date.checked_nth_prev_occurrence(Weekday.Monday, n),
                lambda n: Date.from_iso_week_date(n, 1, Weekday.Monday), lambda n: Date.from_iso_week_date(2000, n, Weekday.Monday)],
            NO_NUMBERS + self.values()):
            with self.assertRaises(TypeError):
                call(wrong)
        value_calls = [
            (date.checked_add, duration), (date.checked_sub, duration), (date.saturating_add, duration),
            (date.saturating_sub, duration), (date.iter_to, date), (time.adjusting_add, duration), (time.adjusting_sub, duration),
            (time.duration_until, time),
            (time.duration_since, time), (duration.checked_add, duration), (duration.checked_sub, duration),
            (duration.saturating_add, duration), (duration.saturating_sub, duration),
            (lambda wrong: add_to_pair(wrong, time, duration), date), (lambda wrong: add_to_pair(date, wrong, duration), time),
            (lambda wrong: add_to_pair(date, time, wrong), duration), (lambda wrong: sub_from_pair(wrong, time, duration), date),
            (lambda wrong: sub_from_pair(date, wrong, duration), time), (lambda wrong: sub_from_pair(date, time, wrong), duration),
        ]
        for call, right in value_calls:
            call(right)
            for wrong in NO_NUMBERS + [value for value in self.values() if type(value) is not type(right)] + [1, Month.May]:
                with self.assertRaises(TypeError):
                    call(wrong)

    def test_operators_of_wrong_kinds(self):
        date, time, offset, duration = self.values()
        pairs = [
            (date, date), (date, time), (date, offset), (time, time), (time, date), (offset, offset), (offset, duration),
            (duration, date), (duration, time), (duration, 1), (date, 1), (time, 1), (offset, 1),
        ]
        for one, other in pairs:
            with self.assertRaises(TypeError):
                one + other
        for one, other in [(date, time), (date, 1), (time, date), (offset, offset), (duration, date), (duration, 1), (1, duration)]:
            with self.assertRaises(TypeError):
                one - other
        for wrong in (1.5, duration, date, "2", None):
            with self.assertRaises(TypeError):
                duration * wrong
        for wrong in (1.5, date, "2", None, datetime.timedelta(1)):
            for divide in (operator.truediv, operator.floordiv, operator.mod):
                self.assertRaises(TypeError, divide, duration, wrong)
                self.assertRaises(TypeError, divide, wrong, duration)
        for divide in (operator.floordiv, operator.mod):
            self.assertRaises(TypeError, divide, duration, 2)

    def test_wide_numbers_never_wrap(self):
        calls = [
            lambda n: Date.from_calendar_date(n, 1, 1), lambda n: Date.from_ordinal_date(n, 1),
            lambda n: day(2000, 1, 1).replace_year(n),
        ]
        for call, number in itertools.product(calls, WIDE):
            if abs(number) <= 999999:
                self.assertEqual(call(number).year, number)
            else:
                self.refused("year", False, call, number)
        for number in WIDE:
            if -363521074 <= number <= 366963559:
                self.assertEqual(Date.from_julian_day(number).to_julian_day(), number)
            else:
                self.refused("julian_day", False, Date.from_julian_day, number)


class Habits(Cases):
    """What users of `datetime` write: it works, or raises."""

    def test_comparison(self):
        values = [
            (day(2024, 2, 29), datetime.date(2024, 2, 29)), (day(2024, 2, 29), datetime.datetime(2024, 2, 29)),
            (Time.MIDNIGHT, datetime.time()), (SignedDuration.DAY, datetime.timedelta(1)), (UtcOffset.UTC, datetime.timezone.utc),
        ]
        for own, other in values:
            for one, another in ((own, other), (other, own)):
                for compare in (operator.eq, operator.ne, operator.lt, operator.le, operator.gt, operator.ge):
                    with self.assertRaises(TypeError, msg=(one, another)):
                        compare(one, another)
        friday = day(2021, 1, 1).weekday()
        self.assertTrue(friday == 4 and 4 == friday and friday != 5 and friday in (4, 5) and friday not in {5, 6})
        self.assertTrue(friday == Weekday.Friday and friday != Weekday.Monday and friday in {Weekday.Friday} and friday != "Friday")

    def test_timedelta(self):
        date = day(2024, 2, 29)
        for days in (-366, -1, 0, 1, 366):
            self.assertEqual((date + datetime.timedelta(days)).to_date(), datetime.date(2024, 2, 29) + datetime.timedelta(days))
            self.assertEqual((date - datetime.timedelta(days)).to_date(), datetime.date(2024, 2, 29) - datetime.timedelta(days))
        for delta in (datetime.timedelta(hours=-1), datetime.timedelta(days=1, microseconds=1)):
            with self.assertRaises(ValueError):
                date + delta
            with self.assertRaises(ValueError):
                date - delta
        for delta in (datetime.timedelta.min, datetime.timedelta.max, datetime.timedelta(-1, 5, 7),
            datetime.timedelta(microseconds=-1)):
            duration = SignedDuration.from_timedelta(delta)
            self.assertEqual((duration.whole_microseconds(), duration.to_timedelta()), (delta // datetime.timedelta(microseconds=1),
                delta))
        with self.assertRaises(OverflowError):
            SignedDuration.seconds(2**63 - 1).to_timedelta()
        for duration in (span(0, 1), span(0, -1), span(-5, -999)):
            with self.assertRaises(ValueError):
                duration.to_timedelta()

    def test_text_and_replacement(self):
        for date in (datetime.date(2024, 2, 29), datetime.date.min, datetime.date.max):
            self.assertEqual(Date.from_date(date).isoformat(), date.isoformat())
        for time in (datetime.time(), datetime.time(1, 2, 3), datetime.time(23, 59, 59, 999999), datetime.time(0, 0, 0, 5)):
            own = Time.from_time(time)
            self.assertEqual((own.isoformat(), own.to_time()), (time.isoformat(), time))
        self.assertEqual(Time.from_hms_nano(1, 2, 3, 4).isoformat(), "01:02:03.000000004")
        with self.assertRaises(ValueError):
            Time.from_hms_nano(1, 2, 3, 4).to_time()
        with self.assertRaises(ValueError):
            Time.from_time(datetime.time(tzinfo=datetime.timezone.utc))
        date = day(2024, 2, 29)
        self.assertEqual([date.replace(), date.replace(day=1), date.replace(year=2020), date.replace(month=Month.May, day=31)],
            [date, day(2024, 2, 1), day(2020, 2, 29), day(2024, 5, 31)])
        self.refused("day", True, lambda: date.replace(year=2023))
        time = Time.from_hms_nano(1, 2, 3, 4)
        self.assertEqual([time.replace(), time.replace(hour=5), time.replace(minute=6, second=7, nanosecond=0)],
            [time, Time.from_hms_nano(5, 2, 3, 4), Time.from_hms(1, 6, 7)])
        self.refused("hour", False, lambda: time.replace(hour=24))
        with self.assertRaises(TypeError):
            date.replace(2020)

    def test_timezones(self):
        for seconds in (0, -86399, 86399, 3600, -19800):
            timezone = datetime.timezone(datetime.timedelta(seconds=seconds))
            self.assertEqual(UtcOffset.from_timezone(timezone).whole_seconds(), seconds)
            self.assertEqual(UtcOffset.from_whole_seconds(seconds).to_timezone(), timezone)
        with self.assertRaises(ValueError):
            UtcOffset.from_whole_seconds(86400).to_timezone()
        with self.assertRaises(ValueError):
            UtcOffset.from_timezone(datetime.timezone(datetime.timedelta(microseconds=1)))

    def test_walks_are_sequences(self):
        days = day(2024, 2, 28).iter_to(day(2024, 3, 2))
        listed = [day(2024, 2, 28), day(2024, 2, 29), day(2024, 3, 1), day(2024, 3, 2)]
        self.assertEqual((len(days), list(days), list(reversed(days))), (4, listed, listed[::-1]))
        self.assertEqual((days[0], days[-1], list(days[1:3]), days.index(listed[2])), (listed[0], listed[-1], listed[1:3], 2))
        self.assertTrue(listed[1] in days and day(2024, 3, 3) not in days and 5 not in days)
        self.assertEqual((len(Date.MIN.iter_to(Date.MAX)), len(Date.MAX.iter_to(Date.MIN))), (730484634, 0))
        self.assertEqual((repr(days), repr(days[:0])), ("Date(2024, 2, 28).iter_to(Date(2024, 3, 2))", "Date.MAX.iter_to(Date.MIN)"))
        for one in (days, days[:0], days[::2], days[::-1], days[::-3], days[1:1:-1], days[1:2]):
            self.assertEqual(eval(repr(one), vars(fotsevindre)), one)
        with self.assertRaises(IndexError):
            days[4]

    def test_version(self):
        self.assertEqual(fotsevindre.__version__, (pathlib.Path(__file__).resolve().parents[3] / "VERSION").read_text().strip())


def load_tests(loader, tests, _pattern):
    tests.addTests(doctest.DocTestSuite(fotsevindre))
    pages = ["../../../README.md", "../../../docs/PYTHON.md", "../../../docs/COLUMNS.md", "../../../docs/FROM_DATETIME.md", "../../../docs/COOKBOOK.md", "../../../docs/STRINGS.md"]
    tests.addTests(doctest.DocFileSuite(*pages, encoding="utf-8"))
    return tests


if __name__ == "__main__":
    unittest.main()
