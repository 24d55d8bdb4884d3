"""Tests of columns of strings: lists, and with numpy and pandas arrays, series and indexes."""

import datetime
import itertools
import os
import pathlib
import random
import re
import tempfile
import unittest

import numpy
import pandas

import fotsevindre
from fotsevindre import Date, Format, OffsetDateTime, UtcOffset
from fotsevindre import dates_to_strings, instants_to_strings, strings_to_dates, strings_to_instants


class Lists(unittest.TestCase):
    def test_dates(self):
        self.assertEqual(strings_to_dates(["2024-02-29", "2024-060", "+999999-12-31", None]), [Date(2024, 2, 29)] * 2 + [Date(999999, 12, 31), None])
        self.assertEqual(strings_to_dates(("29 February 2024",), "%d %B %Y"), [Date(2024, 2, 29)])
        self.assertEqual(strings_to_dates([]), [])
        self.assertEqual(dates_to_strings([Date(2024, 2, 29), Date(-1, 1, 1)]), ["2024-02-29", "-0001-01-01"])
        self.assertEqual(dates_to_strings([None, Date(2024, 2, 29), float("nan")], "%A"), [None, "Thursday", None])

    def test_errors(self):
        rows = ["2024-02-29", None, "2023-02-29", "2024-02-3", "", "2024–02–29", float("nan")]
        with self.assertRaisesRegex(ValueError, r"^row 2: '2023-02-29': day 29 is out of range 1 to 28 \(February 2023\)$"):
            strings_to_dates(rows)
        self.assertEqual(strings_to_dates(rows, errors="missing"), [Date(2024, 2, 29)] + [None] * 6)
        dates, errors = strings_to_dates(rows, errors="column")
        self.assertEqual((dates[0], errors[:3], errors[6]), (Date(2024, 2, 29), [None, None, "day 29 is out of range 1 to 28 (February 2023)"], None))
        self.assertTrue(all(errors[3:6]))
        for wrong in ([1], [b"2024-02-29"], "2024-02-29", b"2024-02-29", 5):
            self.assertRaises(TypeError, strings_to_dates, wrong)
        self.assertRaisesRegex(ValueError, "unknown errors 'ignore'", strings_to_dates, [], errors="ignore")
        self.assertRaisesRegex(ValueError, "unknown errors 'ignore'", strings_to_instants, [], errors="ignore")

    def test_instants(self):
        rows = ["2024-02-29T23:59:59.25+01:00", None, "2024-02-29T22:59:59Z"]
        found = strings_to_instants(rows)
        self.assertEqual((found[0], found[1]), (OffsetDateTime.parse(rows[0]), None))
        self.assertEqual(instants_to_strings(found), rows)
        with self.assertRaisesRegex(ValueError, "^row 0: '2024-02-29T23:59:60Z': second 60 is out of range 0 to 59$"):
            strings_to_instants(["2024-02-29T23:59:60Z"])

    def test_all_formats_of_iso_8601(self):
        days = ["20240229", "2024060", "2024-W09", None, "2024-0229"]
        self.assertEqual(strings_to_dates(days, iso=True, errors="column"),
            ([Date(2024, 2, 29), Date(2024, 2, 29), Date(2024, 2, 26), None, None], [None] * 4 + ['expected the end at position 8, found "9"']))
        self.assertRaisesRegex(ValueError, "^row 0: '20240229': expected \"-\" at position 4, found \"0\"$", strings_to_dates, days)
        rows = ["20240229T2259", "2024060t225959,5Z", float("nan"), "2024-W09-4 22+0130"]
        found, errors = strings_to_instants(rows, iso=True, errors="column")
        self.assertEqual(found, [None, OffsetDateTime.parse("2024-02-29T22:59:59.5Z"), None, OffsetDateTime.parse("2024-02-29T22:00+01:30")])
        self.assertEqual((found[3].offset, errors), (UtcOffset(1, 30), ['expected a digit, "-", "+", " " or "Z" at position 13, found the end', None, None, None]))
        self.assertEqual(strings_to_instants(rows, iso=True, errors="missing"), found)
        self.assertRaisesRegex(ValueError, "^row 0: '20240229T2259': expected .* at position 13, found the end$", strings_to_instants, rows, iso=True)
        self.assertRaisesRegex(ValueError, "not both", strings_to_dates, days, "%F", iso=True)

    def test_lenient_formats(self):
        for form, pivot, rows in (("%m/%d/%y", 1970, ["2/29/24", None, "02/9/70", "2/29/23", "2-9-70"]), ("%d %b %Y", None, ["29 FEB 2024", None, "9  feb 1970", "29 feb 2023", "9 m 1970"])):
            lenient = Format(form).lenient(pivot)
            days, errors = strings_to_dates(rows, lenient, errors="column")
            self.assertEqual(days, [Date(2024, 2, 29), None, Date(1970, 2, 9), None, None])
            self.assertEqual([one is not None for one in errors], [False, False, False, True, True])
            self.assertRaisesRegex(ValueError, "^row 3: '29? ?.feb 2023'|^row 3: '2/29/23'", strings_to_dates, rows, lenient)
            bounds = [0, *itertools.accumulate(len(row or "") for row in rows)]
            found = fotsevindre.dates_parse_format("".join(row or "" for row in rows).encode(), bounds, lenient)
            self.assertEqual([bool(status) for status in found.statuses], [False, True, False, True, True])
            self.assertEqual((found.dates[0], found.error_count), (Date(2024, 2, 29).to_julian_day(), 3))
            wrong = fotsevindre.dates_parse_format(b"9 feb 1970", [0, 11, 0, -1, 10], lenient)
            self.assertEqual((list(wrong.statuses[:3]), wrong.error_count), ([30, 30, 30], 4))
        self.assertEqual(strings_to_dates(["20240229"], Format("%Y%m%d").lenient(), errors="missing"), [None])

    def test_rows_without_a_string(self):
        with self.assertRaisesRegex(ValueError, "^row 1: a format shows"):
            dates_to_strings([None, Date(2024, 2, 29)], "%H")
        with self.assertRaisesRegex(ValueError, "^row 1: .* has no string of RFC 3339$"):
            instants_to_strings([None, OffsetDateTime(10000, 1, 1, offset=UtcOffset())])
        for far in ("10000-01-01", "-0001-01-01"):
            with self.assertRaisesRegex(ValueError, "^row 1: "):
                instants_to_strings(numpy.array(["NaT", far], "datetime64[s]"))
        with self.assertRaisesRegex(ValueError, "^row 1: invalid date"):
            dates_to_strings(numpy.array(["NaT", 2**40], "datetime64[D]"))

    def test_rows_change_while_they_are_read(self):
        class Strange(float):
            def __ne__(self, other):
                rows[:] = None
                return True

        rows = numpy.array(["2024-02-29", Strange("nan"), "2024-02-29"], object)
        self.assertEqual([str(one) for one in strings_to_dates(rows)], ["2024-02-29", "NaT", "NaT"])


class Columns(unittest.TestCase):
    def test_numpy(self):
        wanted = numpy.array(["2024-02-29", "NaT", "2024-03-01"], "datetime64[D]")
        rows = ["2024-02-29", "2023-02-29", "2024-03-01"]
        for given in (numpy.array(rows), numpy.array(rows, "S"), numpy.array(rows, object)):
            found = strings_to_dates(given, errors="missing")
            self.assertEqual(found.dtype, "datetime64[D]")
            numpy.testing.assert_array_equal(found, wanted)
        numpy.testing.assert_array_equal(dates_to_strings(wanted), numpy.array(["2024-02-29", None, "2024-03-01"], object))
        found = strings_to_instants(numpy.array(["2024-02-29T23:59:59.25+01:00", "1969-12-31T23:59:59.999999999Z", None], object))
        self.assertEqual([str(one) for one in found], ["2024-02-29T22:59:59.250000000", "1969-12-31T23:59:59.999999999", "NaT"])
        self.assertEqual(list(instants_to_strings(found)), ["2024-02-29T22:59:59.25Z", "1969-12-31T23:59:59.999999999Z", None])
        self.assertEqual(len(strings_to_dates(numpy.array([], object))), 0)
        numpy.testing.assert_array_equal(strings_to_dates(numpy.array([*rows, "x"] * 2, object)[::4]), wanted[[0, 0]])
        self.assertEqual([str(one) for one in strings_to_dates(numpy.empty(2, object))], ["NaT", "NaT"])
        self.assertRaisesRegex(TypeError, "one dimension", strings_to_dates, numpy.array([["2024-02-29"]]))

    def test_series(self):
        for kind in (object, "string"):
            rows = pandas.Series(["2024-02-29", None, "2023-02-29"], index=["a", "b", "c"], name="due", dtype=kind)
            dates, errors = strings_to_dates(rows, errors="column")
            wanted = pandas.Series(pandas.to_datetime(["2024-02-29", None, None]), index=["a", "b", "c"], name="due")
            pandas.testing.assert_series_equal(dates, wanted)
            self.assertEqual(errors.to_dict(), {"a": None, "b": None, "c": "day 29 is out of range 1 to 28 (February 2023)"})
        index = strings_to_dates(pandas.Index(["2024-02-29", "2024-03-01"]))
        self.assertTrue(index.equals(pandas.DatetimeIndex(["2024-02-29", "2024-03-01"])))
        self.assertEqual(list(dates_to_strings(index, "%d.%m.%Y")), ["29.02.2024", "01.03.2024"])

    def test_dates_of_pandas(self):
        given = pandas.Series(pandas.to_datetime(["2024-02-29", None]), index=["a", "b"], name="due")
        wanted = pandas.Series(["2024-02-29", None], index=["a", "b"], name="due")
        objects = pandas.Series([Date(2024, 2, 29), None], index=["a", "b"], name="due")
        for one in (given, objects):
            pandas.testing.assert_series_equal(dates_to_strings(one), wanted)
        self.assertEqual(list(dates_to_strings(pandas.DatetimeIndex(given))), list(wanted))
        self.assertEqual(list(dates_to_strings(pandas.Series([2460370], dtype="Int64"))), ["2024-02-29"])
        for one in (given, pandas.DatetimeIndex(given)):
            accessor = ".dt" * hasattr(one, "dt")
            zoned = one.dt.tz_localize("UTC") if accessor else one.tz_localize("UTC")
            with self.assertRaisesRegex(ValueError, rf"without a time zone; {accessor}.tz_localize\(None\) removes it"):
                dates_to_strings(zoned)
        for wrong, words in [(pandas.Series([datetime.date(2024, 2, 29)]), "date in row 0; Date.from_date, or pandas.to_datetime for"), (pandas.Series(["2024-02-29"]), "strings_to_dates"),
                ([Date(2024, 2, 29), datetime.date(2024, 2, 29)], "date in row 1; Date.from_date"), (pandas.Series([2460370, None], dtype="Int64"), "dropna")]:
            self.assertRaisesRegex((TypeError, ValueError), words, dates_to_strings, wrong)

    def test_the_range_of_nanoseconds(self):
        rows = pandas.Series(["1677-09-21", "1677-09-22", "2262-04-11", "2262-04-12"])
        found, errors = strings_to_dates(rows, errors="column")
        self.assertEqual([str(one)[:10] for one in found], ["NaT", "1677-09-22", "2262-04-11", "NaT"])
        self.assertEqual(errors[3], "out of range of datetime64[ns]")
        with self.assertRaisesRegex(ValueError, "row 0: '9999-12-31': out of range of datetime64"):
            strings_to_dates(pandas.Series(["9999-12-31"]))
        ends = numpy.array([-2**63 + 1, -2**63 + 999_999_999, 2**63 - 1]).view("datetime64[ns]")
        self.assertEqual(list(instants_to_strings(ends)), ["1677-09-21T00:12:43.145224193Z", "1677-09-21T00:12:44.145224191Z", "2262-04-11T23:47:16.854775807Z"])
        found = strings_to_instants(pandas.Series(["1677-09-21T00:00:00Z", "2262-04-10T23:59:59.999999999Z", "9999-12-31T00:00:00Z"]), errors="missing")
        self.assertEqual([str(one) for one in found], ["NaT", "2262-04-10 23:59:59.999999999+00:00", "NaT"])
        # The range counts at UTC.
        rows = [("1677-09-22T00:00:00Z", "1677-09-22T00:00:00.000000000"), ("1677-09-22T00:00:00+00:01", "NaT"), ("1677-09-21T23:00:00-01:00", "1677-09-22T00:00:00.000000000"),
            ("2262-04-11T23:47:16.854775807Z", "2262-04-11T23:47:16.854775807"), ("2262-04-11T23:47:16.854775808Z", "NaT"), ("2262-04-10T23:59:59-23:59", "NaT"),
            ("2262-04-12T00:00:00+23:59", "2262-04-11T00:01:00.000000000"), ("9999-12-31T23:59:59-23:59", "NaT"), ("0000-01-01T00:00:00+23:59", "NaT")]
        found = strings_to_instants(numpy.array([row for row, _ in rows], object), errors="missing")
        self.assertEqual([str(one) for one in found], [wanted for _, wanted in rows])

    def test_zones(self):
        rows = pandas.Series(["2024-03-31T01:00:00Z", None, "2024-10-27T02:30:00+01:00"], name="at")
        found = strings_to_instants(rows, "Europe/Berlin")
        pandas.testing.assert_series_equal(found, pandas.to_datetime(rows, utc=True).dt.tz_convert("Europe/Berlin"))
        self.assertEqual(list(instants_to_strings(found)), ["2024-03-31T03:00:00+02:00", None, "2024-10-27T02:30:00+01:00"])
        self.assertEqual(str(strings_to_instants(rows).dtype), "datetime64[ns, UTC]")
        self.assertRaisesRegex(ValueError, "tz_localize", instants_to_strings, found.dt.tz_localize(None))

    def test_the_frame_of_the_page(self):
        page = (pathlib.Path(__file__).resolve().parents[3] / "docs/STRINGS.md").read_text(encoding="utf-8")
        section = page.split("\n## A DataFrame")[1]
        program, given, wanted = re.findall(r"```(?:python|text)\n(.*?)```", section, re.DOTALL)
        before = os.getcwd()
        with tempfile.TemporaryDirectory() as folder:
            os.chdir(folder)
            try:
                pathlib.Path("invoices.csv").write_text(given, encoding="utf-8")
                exec(program, {"pandas": pandas, **vars(fotsevindre)})
                self.assertEqual(pathlib.Path("due.csv").read_text(encoding="utf-8"), wanted)
            finally:
                os.chdir(before)

    def test_random_rows_and_back(self):
        draw = random.Random(1)
        days = [datetime.date(1700, 1, 1) + datetime.timedelta(draw.randrange(200000)) for _ in range(20000)]
        rows = pandas.Series([None if draw.random() < 0.1 else day.strftime("%d/%m/%Y") for day in days])
        found = strings_to_dates(rows, "%d/%m/%Y")
        pandas.testing.assert_series_equal(found, pandas.to_datetime(rows, format="%d/%m/%Y"))
        self.assertEqual(list(dates_to_strings(found, "%d/%m/%Y")), list(rows))
        stamps = pandas.Series([None if draw.random() < 0.1 else draw.randrange(-2**62, 2**62) for _ in range(5000)], dtype="datetime64[ns, UTC]")
        for zone in ("UTC", "Europe/Berlin"):
            moved = stamps.where(stamps.isna(), stamps.dt.floor("s")).dt.tz_convert(zone)
            moved = moved[moved.isna() | (moved > pandas.Timestamp("1900-01-01", tz="UTC"))]
            pandas.testing.assert_series_equal(strings_to_instants(instants_to_strings(moved), zone), moved)


# ---- all formats of ISO 8601, by the grammar in docs/TEXT.md and the module datetime

DATE = r"(?P<year>[+-][0-9]{4,6}(?=-)|[0-9]{4})(?P<hyphen>-?)" \
    r"(?:W(?P<week>[0-9]{2})(?:(?P=hyphen)(?P<weekday>[1-7]))?|(?P<month>[0-9]{2})(?P=hyphen)(?P<day>[0-9]{2})|(?P<ordinal>[0-9]{3}))"
FRACTION = r"(?:[.,](?P<fraction>[0-9]{1,9}|[0-9]{9}0+))?"
CLOCK = rf"[Tt ](?P<hour>[0-9]{{2}})(?:(?P<colon>:?)(?P<minute>[0-9]{{2}})(?:(?P=colon)(?P<second>[0-9]{{2}}){FRACTION})?)?"
SHIFT = r" ?(?:[Zz]|(?P<sign>[+-])(?P<hours>[0-9]{2})(?:(?P<colons>:?)(?P<minutes>[0-9]{2})(?:(?P=colons)(?P<seconds>[0-9]{2}))?)?)"
DATES, INSTANTS = re.compile(DATE), re.compile(DATE + CLOCK + SHIFT)
# The days of a cycle of 400 years, and the days before 1970-01-01.
CYCLE, BEFORE = 146097, 719163


def days_of(found):
    """Returns the days since 1970 of a match. The calendar repeats itself every 400 years."""
    cycles, year = divmod(int(found["year"]), 400)
    year, cycles = year + 2000, cycles - 5
    if found["week"]:
        day = datetime.date.fromisocalendar(year, int(found["week"]), int(found["weekday"] or 1))
    elif found["ordinal"]:
        day = datetime.date(year, 1, 1) + datetime.timedelta(int(found["ordinal"]) - 1)
        if int(found["ordinal"]) == 0 or day.year != year:
            raise ValueError
    else:
        day = datetime.date(year, int(found["month"]), int(found["day"]))
    return day.toordinal() + cycles * CYCLE - BEFORE


def read(pattern, text):
    """Returns the days since 1970 of a date, or the nanoseconds of an instant, or `None`."""
    found = pattern.fullmatch(text)
    try:
        if not found or pattern is DATES:
            return days_of(found) if found else None
        clock = datetime.time(int(found["hour"]), int(found["minute"] or 0), int(found["second"] or 0))
        hours, minutes, seconds = (int(found[one] or 0) for one in ("hours", "minutes", "seconds"))
        if hours > 25 or minutes > 59 or seconds > 59:
            return None
        shift = (hours * 60 + minutes) * 60 + seconds
        local = (days_of(found) * 24 + clock.hour) * 3600 + clock.minute * 60 + clock.second
        return (local + (shift if found["sign"] == "-" else -shift)) * 10**9 + int((found["fraction"] or "0")[:9].ljust(9, "0"))
    except ValueError:
        return None


def drawn_date(draw):
    year = draw.choice([f"{draw.randrange(1600, 2300):04}"] * 6 + [f"{draw.randrange(10000):04}", f"{draw.choice('+-')}{draw.randrange(10**6):0{draw.randint(4, 6)}}"])
    hyphen = "-" if len(year) > 4 or draw.random() < 0.5 else ""
    rest = draw.choice([f"{draw.randint(1, 12):02}{hyphen}{draw.randint(1, 28):02}", f"{draw.randint(0, 13):02}{hyphen}{draw.randint(0, 32):02}", f"{draw.randint(0, 367):03}",
        f"W{draw.randint(0, 54):02}{hyphen}{draw.randint(0, 8)}", f"W{draw.randint(1, 52):02}"])
    return year + hyphen + rest


def drawn_instant(draw):
    def clock(colon, hours):
        parts = [f"{draw.randrange(hours):02}", *(f"{draw.choice([draw.randrange(60), draw.randrange(62)]):02}" for _ in range(2))]
        return colon.join(parts[:draw.randint(1, 3)])

    time, colon = clock(draw.choice([":", ""]), 25), draw.choice([":", ""])
    if draw.random() < 0.5:
        time += draw.choice(".,") + str(draw.randrange(10**draw.randint(1, 9))).ljust(draw.choice([0, draw.randint(1, 40)]), "0")
    return drawn_date(draw) + draw.choice("TTt ") + time + draw.choice(["", "", " "]) + draw.choice(["Z", "z", "", draw.choice("+-") + clock(colon, 27)])


def broken(draw, text):
    place = draw.randrange(len(text) + 1)
    return text[:place] + draw.choice(["", draw.choice("0123456789-+:.,TWZ wx\u00e9")]) + text[place + draw.randint(0, 1):]


class AllFormats(unittest.TestCase):
    def check(self, pattern, drawn, parse, unit):
        draw = random.Random(8601)
        rows = [drawn(draw) for _ in range(50_000)]
        rows += [broken(draw, row) for row in rows]
        wanted = [read(pattern, row) for row in rows]
        self.assertTrue(all(5_000 < sum(one is not None for one in half) < 47_500 for half in (wanted[:50_000], wanted[50_000:])))
        found, errors = parse(numpy.array(rows, object), errors="column")
        is_far = [one is not None and not -2**63 < one < 2**63 for one in wanted]
        self.assertEqual(found.dtype, unit)
        self.assertEqual(found.view("int64").tolist(), [-2**63 if one is None or far else one for one, far in zip(wanted, is_far)])
        self.assertEqual([one is not None for one in errors], [one is None or far for one, far in zip(wanted, is_far)])
        return rows, wanted

    def test_dates(self):
        rows, wanted = self.check(DATES, drawn_date, lambda rows, **options: strings_to_dates(rows, iso=True, **options), "datetime64[D]")
        found = strings_to_dates(rows, iso=True, errors="missing")
        self.assertEqual([one and one.to_julian_day() - 2440588 for one in found], wanted)

    def test_instants(self):
        rows, wanted = self.check(INSTANTS, drawn_instant, lambda rows, **options: strings_to_instants(rows, iso=True, **options), "datetime64[ns]")
        found = strings_to_instants(rows, iso=True, errors="missing")
        self.assertEqual([one and one.unix_timestamp_nanos() for one in found], wanted)

    def test_pandas(self):
        rows = pandas.Series(["20240229", None, "2024-W09-4", "2024-060"], index=list("abcd"), name="due", dtype="string")
        pandas.testing.assert_series_equal(strings_to_dates(rows, iso=True), pandas.Series(pandas.to_datetime(["2024-02-29", None] + ["2024-02-29"] * 2), index=list("abcd"), name="due"))
        stamps = rows + "T23+01"
        found = strings_to_instants(stamps, "Europe/Berlin", iso=True)
        wanted = pandas.to_datetime(pandas.Series(["2024-02-29 22:00Z", None] + ["2024-02-29 22:00Z"] * 2, index=list("abcd"), name="due")).dt.tz_convert("Europe/Berlin")
        pandas.testing.assert_series_equal(found, wanted)


if __name__ == "__main__":
    unittest.main()
