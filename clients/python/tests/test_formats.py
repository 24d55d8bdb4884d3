"""Tests of formats: texts as `datetime` prints them, faults, and what users of `datetime` write."""

import copy
import datetime
import pickle
import random
import re
import unittest

from fotsevindre import (
    ComponentRange, ContradictionError, Date, Format, FormatError, OffsetDateTime, ParseError, PlainDateTime, SignedDuration, Time, UtcOffset,
    dates_format, dates_parse_format,
)

LEAP_DAY = Date(2024, 2, 29)
NIGHT = OffsetDateTime(LEAP_DAY, Time(23, 59, 59, nanosecond=250_000_000), UtcOffset(5, 30))
# Of these, `datetime` prints the same text for the years from 1000 to 9999.
DATE_ITEMS = ("%Y", "%C", "%y", "%m", "%-m", "%B", "%OB", "%b", "%h", "%d", "%-d", "%e", "%j", "%G", "%V", "%U", "%W", "%A", "%a", "%u", "%w", "%F", "%D", "%%")
TIME_ITEMS = ("%H", "%-H", "%I", "%-I", "%p", "%M", "%S", "%f", "%T", "%R")


def drawn(randoms: random.Random) -> datetime.datetime:
    """Returns a date-time of the years from 1000 to 9999 at an offset of whole minutes."""
    offset = datetime.timezone(datetime.timedelta(minutes=randoms.randint(-1439, 1439)))
    start = datetime.datetime(1000, 1, 1, tzinfo=offset)
    return start + datetime.timedelta(days=randoms.randrange(3_287_182), microseconds=randoms.randrange(86_400_000_000))


class Lenient(unittest.TestCase):
    def test_variants_that_datetime_reads(self):
        randoms = random.Random(2)
        for _ in range(500):
            other = drawn(randoms).replace(tzinfo=None, microsecond=0)
            local = PlainDateTime.from_datetime(other)
            for form in ("%d/%m/%Y %H:%M:%S", "%d %B %Y, %H:%M:%S", "%b %d %Y %I:%M:%S %p"):
                text = other.strftime(form)
                # Without padding, in other letters, and with more white space, as datetime.strptime reads it.
                for variant in (text, re.sub(r"\b0(?=\d)", "", text), text.upper(), text.lower(), text.replace(" ", " \t ")):
                    self.assertEqual(datetime.datetime.strptime(variant, form), other, variant)
                    self.assertEqual(PlainDateTime.strptime(variant, Format(form).lenient()), local, variant)

    def test_pivots(self):
        for text, pivot, year in (("70", 1970, 1970), ("69", 1970, 2069), ("00", 2000, 2000), ("99", 2000, 2099), ("29", 1930, 2029)):
            self.assertEqual(Date.strptime(f"1 jan {text}", Format("%d %b %y").lenient(pivot)), Date(year, 1, 1))
        self.assertRaises(ValueError, Format("%y").lenient, 9901)
        self.assertRaises(ValueError, Format("%y").lenient, -1)
        self.assertRaises(TypeError, Format("%y").lenient, "1970")

    def test_what_is_refused(self):
        day = Format("%d-%b-%Y").lenient()
        for text in ("29-FEBR-2024", "029-FEB-2024", "29_FEB_2024", "-29-FEB-2024"):
            self.assertRaises(ParseError, Date.strptime, text, day)
        self.assertRaises(ComponentRange, Date.strptime, "30-FEB-2024", day)
        self.assertRaises(ValueError, Date.strptime, "20240229", Format("%Y%m%d").lenient())
        self.assertRaises(ValueError, UtcOffset.strptime, "+0100", Format("%z").lenient())

    def test_it_is_a_value(self):
        strict, lenient, pivot = Format("%y"), Format("%y").lenient(), Format.from_description("[year repr:last_two]").lenient(1970)
        self.assertEqual((repr(lenient), repr(pivot)), ("Format('%y').lenient()", "Format.from_description('[year repr:last_two]').lenient(1970)"))
        self.assertEqual((strict == lenient, lenient == pivot, lenient == Format("%y").lenient()), (False, False, True))
        for one in (lenient, pivot):
            for other in (copy.copy(one), pickle.loads(pickle.dumps(one))):
                self.assertEqual((other, repr(other), hash(other)), (one, repr(one), hash(one)))
        self.assertEqual(LEAP_DAY.strftime(lenient), "24")


class Printing(unittest.TestCase):
    def test_each_item_as_datetime_prints_it(self):
        randoms = random.Random(1)
        for _ in range(2000):
            other = drawn(randoms)
            moment = OffsetDateTime.from_datetime(other)
            for item in DATE_ITEMS:
                self.assertEqual(moment.date().strftime(item), other.strftime(item))
            for item in TIME_ITEMS:
                self.assertEqual(moment.time().strftime(item), other.strftime(item))
            self.assertEqual(moment.offset.strftime("%z"), other.strftime("%z"))
            whole = "%a, %d %b %Y %T.%f %z"
            self.assertEqual((moment.strftime(whole), format(moment, whole)), (other.strftime(whole),) * 2)
            local = "%Y年%m月%d日 %H時"
            self.assertEqual(moment.local().strftime(local), other.strftime(local))

    def test_texts(self):
        self.assertEqual(f"{LEAP_DAY:%A, %-d %B %Y}", "Thursday, 29 February 2024")
        self.assertEqual((f"{LEAP_DAY}", f"{LEAP_DAY:>12}", f"{SignedDuration(days=1):%>7}"), ("2024-02-29", "  2024-02-29", "%%PT24H"))
        self.assertEqual(NIGHT.strftime("%d/%b/%Y:%T%.f %:z"), "29/Feb/2024:23:59:59.25 +05:30")
        self.assertEqual((Date(-44, 3, 15).strftime("%Y"), Date(12024, 1, 1).strftime("%Y")), ("-0044", "+12024"))
        self.assertEqual(LEAP_DAY.strftime(""), "")

    def test_a_format_is_made_once(self):
        day_first, described = Format("%d/%m/%Y"), Format.from_description("[day]/[month]/[year]")
        self.assertEqual((LEAP_DAY.strftime(day_first), LEAP_DAY.strftime(described)), ("29/02/2024",) * 2)
        self.assertEqual((day_first, hash(day_first)), (described, hash(described)))
        self.assertNotEqual(day_first, Format("%d.%m.%Y"))
        self.assertEqual((repr(day_first), repr(described)), ("Format('%d/%m/%Y')", "Format.from_description('[day]/[month]/[year]')"))
        for one in (day_first, described):
            for other in (copy.copy(one), pickle.loads(pickle.dumps(one))):
                self.assertEqual((other, repr(other)), (one, repr(one)))

    def test_what_a_value_lacks(self):
        for value, text in ((LEAP_DAY, "%H"), (Time(9), "%Y"), (UtcOffset(1), "%H"), (NIGHT.local(), "%z")):
            with self.assertRaisesRegex(ValueError, "shows something that the value doesn't have"):
                value.strftime(text)


class Parsing(unittest.TestCase):
    def test_what_datetime_prints(self):
        randoms = random.Random(2)
        for _ in range(2000):
            other = drawn(randoms)
            moment = OffsetDateTime.from_datetime(other)
            for text in ("%d/%m/%Y", "%A, %-d %B %Y", "%a %e %b %C%y", "%Y-%j", "%G-W%V-%u", "%Y%m%d %U %W %w"):
                self.assertEqual(Date.strptime(other.strftime(text), text), moment.date())
            for text in ("%H:%M:%S.%f", "%I:%M:%S.%f %p"):
                self.assertEqual(Time.strptime(other.strftime(text), text), moment.time())
            self.assertEqual(UtcOffset.strptime(other.strftime("%z"), "%z"), moment.offset)
            whole = Format("%a, %d %b %Y %T.%f %z")
            self.assertEqual(OffsetDateTime.strptime(moment.strftime(whole), whole), moment)
            self.assertEqual(PlainDateTime.strptime(other.strftime("%d.%m.%Y %T.%f"), "%d.%m.%Y %T.%f"), moment.local())

    def test_rejected_texts(self):
        rows = (
            ("%F", "", ParseError(0, True)), ("%F", "2024-02-2", ParseError(9, True)), ("%F", "2024-02-29 ", ParseError(10, False)),
            ("%d %b %Y", "29 feb 2024", ParseError(3, False)), ("年%F", "年2024x", ParseError(5, False)),
            ("%F", "2023-02-29", ComponentRange("day", True)), ("%F", "2024-13-01", ComponentRange("month", False)),
            ("%a %F", "Wed 2024-02-29", ContradictionError("weekday")),
        )
        for text, wrong, error in rows:
            with self.assertRaises(type(error)) as caught:
                Date.strptime(wrong, text)
            self.assertEqual(caught.exception.args, error.args)
        for kind, text in ((Date, "%m"), (Date, "%y-%m-%d"), (Date, "%F %H"), (Time, "%M"), (UtcOffset, "%H"), (PlainDateTime, "%F"), (OffsetDateTime, "%F %T")):
            with self.assertRaisesRegex(ValueError, "don't determine such a value|no century"):
                kind.strptime("", text)
        for wrong in (None, 1, b"2024-02-29"):
            with self.assertRaises(TypeError):
                Date.strptime(wrong, "%F")


class Columns(unittest.TestCase):
    def test_rows_are_single_calls(self):
        dates = [Date(2024, 2, 29), Date(2000, 1, 1), -(2**31)]
        for format in ("%A %-d ", Format("%d/%m/%Y"), Format.from_description("[ordinal]"), ""):
            made = dates_format(dates, format)
            single = [one.strftime(format) for one in dates[:2]]
            self.assertEqual((made.texts, list(made.statuses), made.error_count), ("".join(single).encode(), [0, 0, 2], 1))
            self.assertEqual(list(made.bounds), [0, len(single[0]), len(made.texts), len(made.texts)])
        read = dates_parse_format("29/02/202430/02/2024年".encode(), [0, 10, 20, 23], "%d/%m/%Y")
        self.assertEqual((list(read.dates), list(read.statuses), read.error_count), ([2460370, -(2**31), -(2**31)], [0, 64, 8], 2))
        self.assertEqual(list(dates_format(dates, "%H").statuses), [40, 40, 2])
        self.assertEqual(list(dates_parse_format(b"", [0, 0], "%H").statuses), [41])
        for wrong in ("%", "a" * 65):
            with self.assertRaises(FormatError):
                dates_format(dates, wrong)
        for wrong in (None, b"%Y", 1):
            with self.assertRaises(TypeError):
                dates_format(dates, wrong)


class Faults(unittest.TestCase):
    def test_positions_are_those_of_characters(self):
        for text, position in (("%", 0), ("ab%", 2), ("%Y%Q", 2), ("%-", 0), ("年%q", 1), ("%c", 0), ("%日", 0)):
            sentence = f'unknown item "{text[position:]}" in a format at {position}'
            for call in (lambda: Format(text), lambda: LEAP_DAY.strftime(text), lambda: format(LEAP_DAY, text)):
                with self.assertRaises(FormatError) as caught:
                    call()
                self.assertEqual((caught.exception.position, str(caught.exception)), (position, sentence))
        with self.assertRaises(FormatError) as caught:
            Format.from_description("年[nothing]")
        self.assertEqual(caught.exception.position, 1)

    def test_hostile_texts(self):
        for text in ("a" * 65, "a" * 2**16, "%" * 2**16, "%F" * 13):
            with self.assertRaises(FormatError) as caught:
                Format(text)
            self.assertEqual((caught.exception.position, str(caught.exception)), (None, "too many items in a format; expected at most 64"))
        for text, position in (("\ud800", 0), ("%Y\ud800", 2)):
            with self.assertRaises(FormatError) as caught:
                Format(text)
            self.assertEqual(caught.exception.position, position)
        for wrong in (None, 1, b"", b"%Y", b"a" * 132, b"\xff" * 132):
            with self.assertRaises((TypeError, ValueError)):
                LEAP_DAY.strftime(wrong)
            with self.assertRaises(TypeError):
                Format(wrong)


if __name__ == "__main__":
    unittest.main()
