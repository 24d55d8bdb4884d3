"""Tests of the sentences of errors. Ranges come from the calendar of the standard library of Python and
from what the methods take; what a string can go on with, from the parsers."""

import calendar
import copy
import datetime
import pickle
import random
import re
import unittest

import fotsevindre
from fotsevindre import ComponentRange, Date, Format, FormatError, OffsetDateTime, ParseError, Period, PlainDateTime, SignedDuration
from fotsevindre import Time, UtcOffset, Weekday, parse_rfc3339

LEAP_DAY, NOON = Date(2024, 2, 29), PlainDateTime(2024, 2, 29, 12)
COMPONENTS = [
    (lambda: Date(2023, 2, 29), "day 29 is out of range 1 to 28 (February 2023)"),
    (lambda: Date(2024, month=13, day=1), "month 13 is out of range 1 to 12"),
    (lambda: Date(10**30, 1, 1), f"year {10**30} is out of range -999999 to 999999"),
    (lambda: Date(-1, 2, -5), "day -5 is out of range 1 to 28 (February -1)"),
    (lambda: Date.from_ordinal_date(2023, 366), "ordinal 366 is out of range 1 to 365 (2023)"),
    (lambda: Date.from_iso_week_date(2023, 53, Weekday.Monday), "week 53 is out of range 1 to 52 (2023)"),
    (lambda: Date.from_julian_day(366963560), "julian day 366963560 is out of range -363521074 to 366963559"),
    (lambda: LEAP_DAY.replace(day=30), "day 30 is out of range 1 to 29 (February 2024)"),
    (lambda: LEAP_DAY.replace(year=2023), "day 29 is out of range 1 to 28 (February 2023)"),
    (lambda: LEAP_DAY.replace_day(0), "day 0 is out of range 1 to 29 (February 2024)"),
    (lambda: Time(24), "hour 24 is out of range 0 to 23"),
    (lambda: Time.MIDNIGHT.replace_minute(60), "minute 60 is out of range 0 to 59"),
    (lambda: Time.from_hms_milli(1, 2, 3, 1000), "millisecond 1000 is out of range 0 to 999"),
    (lambda: UtcOffset(26), "offset hour 26 is out of range -25 to 25"),
    (lambda: UtcOffset(0, -60), "offset minute -60 is out of range -59 to 59"),
    (lambda: PlainDateTime(2023, 2, 29, 25), "day 29 is out of range 1 to 28 (February 2023)"),
    (lambda: NOON.replace(hour=25), "hour 25 is out of range 0 to 23"),
    (lambda: NOON.replace(year=2023), "day 29 is out of range 1 to 28 (February 2023)"),
    (lambda: OffsetDateTime(2024, 2, 30, offset=UtcOffset.UTC), "day 30 is out of range 1 to 29 (February 2024)"),
    (lambda: NOON.assume_utc().replace(second=60), "second 60 is out of range 0 to 59"),
    (lambda: fotsevindre.days_in_year_month(2024, 13), "month 13 is out of range 1 to 12"),
    # Strings.
    (lambda: Date.parse("2023-02-29"), "day 29 is out of range 1 to 28 (February 2023)"),
    (lambda: Date.fromisoformat("2023-13-29"), "month 13 is out of range 1 to 12"),
    (lambda: Date.parse("-0001-366"), "ordinal 366 is out of range 1 to 365 (-1)"),
    (lambda: Date.parse("2023-W53-1"), "week 53 is out of range 1 to 52 (2023)"),
    (lambda: Date.parse_iso("20230229"), "day 29 is out of range 1 to 28 (February 2023)"),
    (lambda: Time.parse_iso("2460"), "hour 24 is out of range 0 to 23"),
    (lambda: PlainDateTime.parse("2024-02-29T23:60"), "minute 60 is out of range 0 to 59"),
    (lambda: OffsetDateTime.parse("2024-02-29T23:00:00+26:00"), "offset hour 26 is out of range -25 to 25"),
    (lambda: parse_rfc3339("2024-02-29T23:00:00+24:00"), "offset hour 24 is out of range -23 to 23"),
    # Formats.
    (lambda: Date.strptime("30/02/2024", "%d/%m/%Y"), "day 30 is out of range 1 to 29 (February 2024)"),
    (lambda: Date.strptime("Thu, 30 February 2023", "%a, %-d %B %Y"), "day 30 is out of range 1 to 28 (February 2023)"),
    (lambda: Date.strptime("2/30/24", Format("%m/%d/%y").lenient(1970)), "day 30 is out of range 1 to 29 (February 2024)"),
    (lambda: Date.strptime("2/29/71", Format("%m/%d/%y").lenient(1970)), "day 29 is out of range 1 to 28 (February 1971)"),
    (lambda: Date.strptime("2023-W53-1", "%G-W%V-%u"), "week 53 is out of range 1 to 52 (2023)"),
    (lambda: Time.strptime("13:00 PM", "%I:%M %p"), "hour 13 is out of range 1 to 12"),
    (lambda: PlainDateTime.strptime("2024-02-29T25:00:00", "%FT%T"), "hour 25 is out of range 0 to 23"),
    (lambda: Date.strptime("2023-366x", Format.from_description("[year]-[ordinal]x")), "ordinal 366 is out of range 1 to 365 (2023)"),
    (lambda: Date.strptime("2023-W53-1", Format.from_description("[year base:iso_week]-W[week_number]-[weekday repr:monday]")),
        "week 53 is out of range 1 to 52 (2023)"),
    (lambda: OffsetDateTime.strptime("2024-02-29 23:00 -2600", "%F %R %z"), "offset hour -26 is out of range -25 to 25"),
    # Without a sentence of their own.
    (lambda: Date.strptime("2024-366x", Format.from_description("[year]-[ordinal]x")), None),
    (lambda: OffsetDateTime.from_unix_timestamp(10**15), "timestamp was not in range"),
    (lambda: Period.parse(f"P{10**20}Y"), "years was not in range"),
]
STRINGS = [
    (lambda: Date.parse("2023-02-2x"), 'expected a digit at position 9, found "x"'),
    (lambda: Date.parse("2023-02-2"), "expected a digit at position 9, found the end"),
    (lambda: Date.parse("2023-02-28T"), 'expected the end at position 10, found "T"'),
    (lambda: Date.parse("2024–02–29"), 'expected "-" at position 4, found "–"'),
    (lambda: Date.parse("2023-W52-8"), 'expected a digit from 1 to 7 at position 9, found "8"'),
    (lambda: Date.parse(""), 'expected a digit, "-" or "+" at position 0, found the end'),
    (lambda: Date.parse("2023-02-2\n"), 'expected a digit at position 9, found "\\n"'),
    (lambda: Date.parse("2023-02-2\ud800"), 'expected a digit at position 9, found "\\ud800"'),
    (lambda: OffsetDateTime.parse_iso("2024-02-29T22:59:59.1234567899Z"), 'expected "0", "-", "+", " " or "Z" at position 29, found "9"'),
    (lambda: Time.parse_iso("225959,5" + "0" * 20 + "1"), 'expected "0" or the end at position 28, found "1"'),
    (lambda: UtcOffset.parse("1:00"), 'expected "-", "+" or "Z" at position 0, found "1"'),
    (lambda: SignedDuration.parse("PT1X"), 'expected a digit, ".", ",", "H", "M" or "S" at position 3, found "X"'),
    (lambda: Date.strptime("29 xeb 2024", "%d %b %Y"), 'expected "A", "D", "F", "J", "M", "N", "O" or "S" at position 3, found "x"'),
    (lambda: Date.strptime("29 Feb 2024x", "%d %b %Y"), 'expected the end at position 11, found "x"'),
    (lambda: Time.strptime("11:00 XM", "%I:%M %p"), 'expected "A" or "P" at position 6, found "X"'),
    (lambda: Date.strptime("2-30/24", Format("%m/%d/%y").lenient(1970)), 'expected a digit or "/" at position 1, found "-"'),
    (lambda: Date.strptime("24", "%y"), '"%y" has no century: use %Y or a pivot'),
    (lambda: Date.strptime("1/1/24", Format("%-d/%-m/%y")), '"%y" has no century: use %Y or a pivot'),
    (lambda: Time.strptime("10:30", "%I:%M"), '"%I" has no half of the day: use %H or add %p'),
    (lambda: Date.strptime("10:30", "%H:%M"), "the texts of a format don't determine such a value"),
    (lambda: Format("%d %Q"), 'unknown item "%Q" in a format at 3'),
    (lambda: Format("%F %-10!%d"), 'unknown item "%-10!" in a format at 3'),
    (lambda: LEAP_DAY.strftime("%"), 'unknown item "%" in a format at 0'),
    (lambda: Format("a\ud800"), 'unknown item "\\ud800" in a format at 1'),
    (lambda: Format.from_description("[foo]"), "unknown item in a format at 0"),
    (lambda: Format("%d" * 65), "too many items in a format; expected at most 64"),
]


def error_of(call):
    try:
        call()
    except ValueError as error:
        return error


class Sentences(unittest.TestCase):
    def test_sentences(self):
        for call, sentence in COMPONENTS + STRINGS:
            error = error_of(call)
            self.assertEqual(sentence, error and str(error))
            for other in (copy.copy(error), pickle.loads(pickle.dumps(error))) if error else ():
                self.assertEqual((type(other), other.args, str(other), repr(other)), (type(error), error.args, str(error), repr(error)))

    def test_the_arguments_are_the_attributes(self):
        for call, sentence in COMPONENTS + STRINGS:
            error = error_of(call)
            if isinstance(error, ComponentRange):
                self.assertEqual((error.args, repr(error)), ((error.name, error.is_conditional), f"ComponentRange({error.name!r}, {error.is_conditional})"))
                self.assertEqual(str(ComponentRange(*error.args)), f"{error.name} was not in range")
            if isinstance(error, ParseError):
                self.assertEqual((error.args, repr(error)), ((error.position, error.is_end), f"ParseError({error.position}, {error.is_end})"))
            if isinstance(error, FormatError):
                self.assertEqual(error.args, (error.position,))

    def test_a_note_and_a_subclass_stay(self):
        class Own(ComponentRange):
            pass

        error = error_of(lambda: Date(2023, 2, 29))
        error.step = 3
        self.assertEqual((copy.copy(error).step, str(copy.copy(error)), str(Own("day", True))), (3, str(error), "day was not in range"))
        self.assertEqual(str(ComponentRange("day", True, "no", "call")), "day was not in range")


class Ranges(unittest.TestCase):
    def test_of_days(self):
        randoms = random.Random(1)
        for _ in range(300):
            year, month = randoms.randrange(1, 10000), randoms.randrange(1, 13)
            days = calendar.monthrange(year, month)[1]
            sentence = f"day {days + 1} is out of range 1 to {days} ({calendar.month_name[month]} {year})"
            for call in (lambda: Date(year, month, days + 1), lambda: Date(year, month, 1).replace_day(days + 1), lambda: PlainDateTime(year, month, day=days + 1),
                    lambda: Date.parse(f"{year:04}-{month:02}-{days + 1}"), lambda: Date.strptime(f"{days + 1}.{month}.{year:04}", "%d.%-m.%Y")):
                self.assertEqual(str(error_of(call)), sentence)
            last = datetime.date(year, 12, 31).timetuple().tm_yday
            self.assertEqual(str(error_of(lambda: Date.from_ordinal_date(year, 0))), f"ordinal 0 is out of range 1 to {last} ({year})")
            weeks = datetime.date(year, 12, 28).isocalendar()[1]
            self.assertEqual(str(error_of(lambda: Date.from_iso_week_date(year, 54, Weekday.Sunday))), f"week 54 is out of range 1 to {weeks} ({year})")

    def test_both_ends_are_in_the_range(self):
        makes = [lambda n: Date(n, 1, 1), lambda n: Date(2024, n, 1), lambda n: Date(2024, 2, n), lambda n: Date.from_ordinal_date(2024, n),
            lambda n: Date.from_iso_week_date(2020, n, Weekday.Monday), Date.from_julian_day, Time, lambda n: Time(0, n), lambda n: Time(0, 0, n),
            lambda n: Time(nanosecond=n), lambda n: Time.from_hms_micro(0, 0, 0, n), lambda n: Time.from_hms_milli(0, 0, 0, n), UtcOffset, lambda n: UtcOffset(0, n),
            lambda n: UtcOffset(0, 0, n)]
        for make in makes:
            low, high = map(int, re.search("out of range (-?[0-9]+) to (-?[0-9]+)", str(error_of(lambda: make(10**9)))).groups())
            for end, outside in ((low, low - 1), (high, high + 1)):
                make(end)
                self.assertIn(f" {outside} is out of range {low} to {high}", str(error_of(lambda: make(outside))))


class Positions(unittest.TestCase):
    def test_what_is_expected_fits(self):
        """The first character that is expected, in place of what was found, isn't wrong there."""
        randoms, tried = random.Random(2), 0
        parsers = [(Date.parse, "2024-02-29"), (Date.parse_iso, "2024-W09-4"), (Time.parse, "23:59:59.25"), (PlainDateTime.parse, "2024-02-29T23:59"),
            (OffsetDateTime.parse_iso, "20240229T225959,5+01"), (parse_rfc3339, "2024-02-29T23:59:59Z"), (Period.parse, "P1Y2M10DT2H30M"),
            (lambda text: Date.strptime(text, "%A, %-d %b %Y"), "Thursday, 29 Feb 2024"), (lambda text: Time.strptime(text, "%I:%M %p"), "11:59 PM")]
        for _ in range(2000):
            parse, text = randoms.choice(parsers)
            place = randoms.randrange(len(text) + 1)
            wrong = text[:place] + randoms.choice(["", "x", "–", "0", "Z", "/", " "]) + text[place + randoms.randrange(2):]
            error = error_of(lambda: parse(wrong))
            if not isinstance(error, ParseError):
                continue
            found = re.fullmatch('expected (.*) at position ([0-9]+), found (the end|"(.*)")', str(error))
            self.assertIsNotNone(found, str(error))
            self.assertEqual((int(found[2]), found[4]), (error.position, None if error.is_end else wrong[error.position]))
            for one in re.findall('a digit from ([0-9])|(a digit)|"(.)"', found[1]):
                better = wrong[:error.position] + (one[0] or one[2] or "1")
                again = error_of(lambda: parse(better))
                self.assertTrue(not isinstance(again, ParseError) or again.is_end, (wrong, better, str(error)))
                tried += 1
            if "the end" in found[1]:
                self.assertNotIsInstance(error_of(lambda: parse(wrong[:error.position])), ParseError)
        self.assertGreater(tried, 500)


if __name__ == "__main__":
    unittest.main()
