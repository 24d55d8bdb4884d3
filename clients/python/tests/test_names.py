"""Tests of formats with names of languages: texts as GNU date prints them by the locales of glibc 2.36, and
as `datetime` prints them by locales that are made here, errors, and values."""

import copy
import dataclasses
import os
import pathlib
import pickle
import shutil
import subprocess
import sys
import tempfile
import unittest

from fotsevindre import (
    ComponentRange, ContradictionError, Date, Format, NamedFormat, Names, NamesError, OffsetDateTime, ParseError, PlainDateTime, SignedDuration, Time, UtcOffset,
    dates_format,
)

LEAP_DAY = Date(2024, 2, 29)
EVENING = Time(19, 30)
# A code, and what `date -d '2024-02-29 19:30'` prints: %A %a %B %b %OB %p.
ROWS = [
    ("ar", "الخميس", "خ", "فبراير", "فبر", "فبراير", "م"),
    ("de", "Donnerstag", "Do", "Februar", "Feb", "Februar", ""),
    ("en", "Thursday", "Thu", "February", "Feb", "February", "PM"),
    ("es", "jueves", "jue", "febrero", "feb", "febrero", ""),
    ("fr", "jeudi", "jeu.", "février", "févr.", "février", ""),
    ("it", "giovedì", "gio", "febbraio", "feb", "febbraio", ""),
    ("ja", "木曜日", "木", "2月", "2月", "2月", "午後"),
    ("pl", "czwartek", "czw", "lutego", "lut", "luty", ""),
    ("pt", "quinta", "qui", "fevereiro", "fev", "fevereiro", ""),
    ("ru", "Четверг", "Чт", "февраля", "фев", "Февраль", ""),
    ("tr", "Perşembe", "Prş", "Şubat", "Şub", "Şubat", "ÖS"),
    ("zh", "星期四", "四", "二月", "2月", "二月", "下午"),
]
FRENCH = Names.of("fr")
# Prints by datetime and by these classes, in a locale.
IN_LOCALE = """
import datetime, locale
from fotsevindre import Date, Format, Names
locale.setlocale(locale.LC_ALL, "")
names, form = Names.from_locale(), "%A, %-d %B %Y, %a %m %b"
named = Format(form).with_names(names)
for day in range(366):
    date = datetime.date(2024, 1, 1) + datetime.timedelta(days=day)
    assert Date.from_date(date).strftime(named) == date.strftime(form), date
    assert Date.strptime(date.strftime(form), named).to_date() == date, date
print(names == Names.of(locale.getlocale()[0][:2]), names.months_alone[1])
"""


def date_by(format, names):
    return LEAP_DAY.strftime(Format(format).with_names(names))


class Languages(unittest.TestCase):
    def test_each_language(self):
        for code, weekday, short_weekday, month, short_month, alone, period in ROWS:
            names = Names.of(code)
            found = [date_by("%F %A", names), date_by("%F %a", names), date_by("%F %B", names), date_by("%F %b", names), date_by("%F %OB", names)]
            self.assertEqual(found, [f"2024-02-29 {name}" for name in (weekday, short_weekday, month, short_month, alone)], code)
            if period:
                self.assertEqual(EVENING.strftime(Format("%I %p").with_names(names)), f"07 {period}")
        for code in ("xx", "", "fra", "FR", "f\0", "\ud800"):
            self.assertRaises(ValueError, Names.of, code)
        self.assertRaises(TypeError, Names.of, 1)

    def test_each_day_is_read(self):
        for code, *_ in ROWS:
            format = Format("%A, %-d %B %Y, %a %b").with_names(Names.of(code))
            for day in range(366):
                date = LEAP_DAY + SignedDuration(days=day)
                self.assertEqual(Date.strptime(date.strftime(format), format), date, code)

    @unittest.skipUnless(shutil.which("localedef") and os.path.isdir("/usr/share/i18n/locales"), "no localedef")
    def test_names_of_locales(self):
        with tempfile.TemporaryDirectory() as folder:
            for locale, alone in (("fr_FR", "février"), ("pl_PL", "luty"), ("ru_RU", "Февраль")):
                # localedef warns of some of them.
                subprocess.run(["localedef", "-i", locale, "-f", "UTF-8", f"{folder}/{locale}.UTF-8"], check=False, capture_output=True)
                own = {**os.environ, "LOCPATH": folder, "LC_ALL": f"{locale}.UTF-8", "PYTHONUTF8": "1"}
                found = subprocess.run([sys.executable, "-c", IN_LOCALE], env=own, cwd=folder, capture_output=True, encoding="utf-8", check=False)
                self.assertEqual((found.stdout, found.stderr), (f"True {alone}\n", ""))

    def test_the_locale_c_is_english(self):
        self.assertEqual(Names.from_locale(), dataclasses.replace(Names.of("en"), lower_periods=("am", "pm")))


class Formats(unittest.TestCase):
    def test_values(self):
        local, moment = PlainDateTime(2024, 2, 29, 19, 30), OffsetDateTime(2024, 2, 29, 19, 30, offset=UtcOffset(1))
        for value, form, text in (
            (LEAP_DAY, "%A, %-d %B %Y", "jeudi, 29 février 2024"), (local, "%-d %B %Y, %R", "29 février 2024, 19:30"),
            (moment, "%a %e %b %Y %R %z", "jeu. 29 févr. 2024 19:30 +0100"), (moment, "%s%B%:z", "1709231400février+01:00"),
        ):
            format = Format(form).with_names(FRENCH)
            self.assertEqual((value.strftime(format), type(value).strptime(text, format)), (text, value))
        japanese = Format.from_description("[period][hour repr:12 padding:none]:[minute]").with_names(Names.of("ja"))
        self.assertEqual((EVENING.strftime(japanese), Time.strptime("午後7:30", japanese)), ("午後7:30", EVENING))

    def test_errors_of_strings(self):
        format = Format("%A, %-d %B %Y").with_names(FRENCH)
        for text, kind, words in (
            ("jeudi, 29 fevrier 2024", ParseError, 'expected "é" at position 11, found "e"'),
            ("jeudi, 29 févr", ParseError, 'expected "i" at position 14, found the end'),
            ("mardi, 29 février 2024", ContradictionError, "weekday contradicts the other components"),
            ("jeudi, 30 février 2024", ComponentRange, "day was not in range"),
        ):
            with self.assertRaises(kind) as raised:
                Date.strptime(text, format)
            self.assertEqual(str(raised.exception), words)
        self.assertRaises(ValueError, Date.strptime, "02", Format("%m").with_names(FRENCH))
        self.assertRaises(ValueError, LEAP_DAY.strftime, Format("%H").with_names(FRENCH))
        self.assertRaises(ValueError, UtcOffset.strptime, "+0100", Format("%z").with_names(FRENCH))
        self.assertRaises(TypeError, Date.strptime, 1, format)
        for call in (lambda: UtcOffset(1).strftime(format), lambda: dates_format([LEAP_DAY], format), lambda: Format(format)):
            self.assertRaises(TypeError, call)

    def test_names_that_are_refused(self):
        for form, code, item, name, other, words in (
            ("%Atesi %F", "tr", 0, "Pazar", "Pazartesi", '"Pazar" of item 0 can go on to "Pazartesi"'),
            ("%F %Artesi", "tr", 6, "Cuma", "Cumartesi", '"Cuma" of item 6 can go on to "Cumartesi"'),
            ("%I:%M %p", "fr", 4, "", "", 'two names of item 4 are ""'),
            ("%-d%B %Y", "ja", 0, None, "1", 'item 0 can go on with "1"'),
        ):
            with self.assertRaises(NamesError) as raised:
                Format(form).with_names(Names.of(code))
            error = raised.exception
            self.assertEqual((error.item, error.name, error.other, str(error)), (item, name, other, words))
            self.assertEqual(str(pickle.loads(pickle.dumps(error))), words)
        self.assertRaises(ValueError, Format("%d %B %Y").lenient().with_names, FRENCH)


class Values(unittest.TestCase):
    def test_own_names(self):
        short = dataclasses.replace(FRENCH, months=[f"M{month}." for month in range(1, 13)])
        self.assertEqual((date_by("%B%d %Y", short), short.months[0]), ("M2.29 2024", "M1."))
        longest = Format("%B" * 64).with_names(dataclasses.replace(FRENCH, months=[f"{month:02}" + "x" * 125 for month in range(12)]))
        self.assertEqual(LEAP_DAY.strftime(longest), ("01" + "x" * 125) * 64)
        own = Names(FRENCH.months, FRENCH.short_months, FRENCH.weekdays, FRENCH.short_weekdays, ("AM", "PM"))
        self.assertEqual((own.months_alone, own.lower_periods, own.periods), (own.months, ("am", "pm"), ("AM", "PM")))
        for table, names in (("months", ("a",) * 11), ("weekdays", ("a",) * 8), ("periods", ("a",))):
            self.assertRaises(ValueError, dataclasses.replace, FRENCH, **{table: names})
        for name in ("\ud800", "a\0", "a" * 128):
            self.assertRaises(ValueError, Format("%F").with_names, dataclasses.replace(FRENCH, periods=(name, "b")))
        self.assertEqual(date_by("%F", dataclasses.replace(FRENCH, periods=("a" * 127, "b"))), "2024-02-29")

    def test_they_are_values(self):
        format = Format("%A, %-d %B %Y").with_names(FRENCH)
        self.assertIsInstance(format, NamedFormat)
        for one in (FRENCH, format):
            for other in (copy.copy(one), pickle.loads(pickle.dumps(one)), eval(repr(one))):
                self.assertEqual((other, repr(other), hash(other)), (one, repr(one), hash(one)))
        self.assertNotEqual(FRENCH, Names.of("de"))


if __name__ == "__main__":
    unittest.main()
