"""Compares the holidays of calendars, from Monday to Friday, with the packages python3-holidays 0.10.1,
python3-workalendar 17.0.0, libdate-holidays-de-perl 2.06 and quantlib-python 1.29 of Debian 12, and
python3-holidays 0.71 of Debian 13, if they are installed, and with published lists."""

import datetime
import subprocess
import unittest

from fotsevindre import Date, Workdays

try:
    import holidays
except ImportError:
    holidays = None
try:
    import QuantLib
except ImportError:
    QuantLib = None
try:
    import workalendar
    import workalendar.europe
    import workalendar.registry
    import workalendar.usa
except ImportError:
    workalendar = None

STATES = "bw by be bb hb hh he mv ni nw rp sl sn st sh th".split()

# Lists of publishers and of websites, and days without prices or rates: a calendar, the first and the last day of
# the list, the days from Monday to Friday that only one of the two has, and the days of the list by year. The days
# of "all-de" are holidays in all states of Germany, and those of "any-de" in at least one.
PUBLISHED = (
    # The lists of nyse.com for 2007 to 2011, as in tests of the package r-cran-timedate 4022.108-1. They lack a day of
    # mourning, 2 January 2007.
    ("nyse", "2007-01-01", "2011-12-31", "2007-01-02", """
    2007: 01-01 01-15 02-19 04-06 05-28 07-04 09-03 11-22 12-25
    2008: 01-01 01-21 02-18 03-21 05-26 07-04 09-01 11-27 12-25
    2009: 01-01 01-19 02-16 04-10 05-25 07-03 09-07 11-26 12-25
    2010: 01-01 01-18 02-15 04-02 05-31 07-05 09-06 11-25 12-24
    2011: 01-17 02-21 04-22 05-30 07-04 09-05 11-24 12-26
    """),
    # Weekdays without a close of the S&P 500, by the examples of bqplot 0.12.32.
    ("nyse", "1995-01-03", "2020-07-30", "", """
    1995: 02-20 04-14 05-29 07-04 09-04 11-23 12-25
    1996: 01-01 02-19 04-05 05-27 07-04 09-02 11-28 12-25
    1997: 01-01 02-17 03-28 05-26 07-04 09-01 11-27 12-25
    1998: 01-01 01-19 02-16 04-10 05-25 07-03 09-07 11-26 12-25
    1999: 01-01 01-18 02-15 04-02 05-31 07-05 09-06 11-25 12-24
    2000: 01-17 02-21 04-21 05-29 07-04 09-04 11-23 12-25
    2001: 01-01 01-15 02-19 04-13 05-28 07-04 09-03 09-11 09-12 09-13 09-14 11-22 12-25
    2002: 01-01 01-21 02-18 03-29 05-27 07-04 09-02 11-28 12-25
    2003: 01-01 01-20 02-17 04-18 05-26 07-04 09-01 11-27 12-25
    2004: 01-01 01-19 02-16 04-09 05-31 06-11 07-05 09-06 11-25 12-24
    2005: 01-17 02-21 03-25 05-30 07-04 09-05 11-24 12-26
    2006: 01-02 01-16 02-20 04-14 05-29 07-04 09-04 11-23 12-25
    2007: 01-01 01-02 01-15 02-19 04-06 05-28 07-04 09-03 11-22 12-25
    2008: 01-01 01-21 02-18 03-21 05-26 07-04 09-01 11-27 12-25
    2009: 01-01 01-19 02-16 04-10 05-25 07-03 09-07 11-26 12-25
    2010: 01-01 01-18 02-15 04-02 05-31 07-05 09-06 11-25 12-24
    2011: 01-17 02-21 04-22 05-30 07-04 09-05 11-24 12-26
    2012: 01-02 01-16 02-20 04-06 05-28 07-04 09-03 10-29 10-30 11-22 12-25
    2013: 01-01 01-21 02-18 03-29 05-27 07-04 09-02 11-28 12-25
    2014: 01-01 01-20 02-17 04-18 05-26 07-04 09-01 11-27 12-25
    2015: 01-01 01-19 02-16 04-03 05-25 07-03 09-07 11-26 12-25
    2016: 01-01 01-18 02-15 03-25 05-30 07-04 09-05 11-24 12-26
    2017: 01-02 01-16 02-20 04-14 05-29 07-04 09-04 11-23 12-25
    2018: 01-01 01-15 02-19 03-30 05-28 07-04 09-03 11-22 12-05 12-25
    2019: 01-01 01-21 02-18 04-19 05-27 07-04 09-02 11-28 12-25
    2020: 01-01 01-20 02-17 04-10 05-25 07-03
    """),
    # The list of gov.uk for England and Wales of 1 October 2022, as in tests of r-cran-timedate 4022.108-1.
    ("england-and-wales", "2017-01-01", "2022-12-31", "", """
    2017: 01-02 04-14 04-17 05-01 05-29 08-28 12-25 12-26
    2018: 01-01 03-30 04-02 05-07 05-28 08-27 12-25 12-26
    2019: 01-01 04-19 04-22 05-06 05-27 08-26 12-25 12-26
    2020: 01-01 04-10 04-13 05-08 05-25 08-31 12-25 12-28
    2021: 01-01 04-02 04-05 05-03 05-31 08-30 12-27 12-28
    2022: 01-03 04-15 04-18 05-02 06-02 06-03 08-29 09-19 12-26 12-27
    """),
    # Two years with jubilees, as in the same tests, and four years, as in calendars.cpp of libquantlib0-dev 1.44-4.
    ("england-and-wales", "2002-01-01", "2002-12-31", "", """
    2002: 01-01 03-29 04-01 05-06 06-03 06-04 08-26 12-25 12-26
    """),
    ("england-and-wales", "2004-01-01", "2007-12-31", "", """
    2004: 01-01 04-09 04-12 05-03 05-31 08-30 12-27 12-28
    2005: 01-03 03-25 03-28 05-02 05-30 08-29 12-26 12-27
    2006: 01-02 04-14 04-17 05-01 05-29 08-28 12-25 12-26
    2007: 01-01 04-06 04-09 05-07 05-28 08-27 12-25 12-26
    """),
    ("england-and-wales", "2012-01-01", "2012-12-31", "", """
    2012: 01-02 04-06 04-09 05-07 06-04 06-05 08-27 12-25 12-26
    """),
    # Weekdays without reference rates of the European Central Bank, by its file in r-cran-xml 3.99-0.13.
    ("target", "1999-01-04", "2006-10-06", "", """
    1999: 12-31
    2000: 04-21 04-24 05-01 12-25 12-26
    2001: 01-01 04-13 04-16 05-01 12-25 12-26 12-31
    2002: 01-01 03-29 04-01 05-01 12-25 12-26
    2003: 01-01 04-18 04-21 05-01 12-25 12-26
    2004: 01-01 04-09 04-12
    2005: 03-25 03-28 12-26
    2006: 04-14 04-17 05-01
    """),
    # Google's calendar of 2022, as in tests of python-ical 9.0.0, without the regional Inauguration Day.
    ("us-federal", "2021-01-01", "2023-12-31", "", """
    2021: 01-01 01-18 02-15 05-31 06-18 07-05 09-06 10-11 11-11 11-25 12-24 12-31
    2022: 01-17 02-21 05-30 06-20 07-04 09-05 10-10 11-11 11-24 12-26
    2023: 01-02 01-16 02-20 05-29 06-19 07-04 09-04 10-09 11-10 11-23 12-25
    """),
    # The lists of opm.gov for 1997 to 2020, as in the example us_federal_holidays.pl of libtime-moment-perl 0.44-2.
    ("us-federal", "1997-01-01", "2020-12-31", "", """
    1997: 01-01 01-20 02-17 05-26 07-04 09-01 10-13 11-11 11-27 12-25
    1998: 01-01 01-19 02-16 05-25 07-03 09-07 10-12 11-11 11-26 12-25
    1999: 01-01 01-18 02-15 05-31 07-05 09-06 10-11 11-11 11-25 12-24 12-31
    2000: 01-17 02-21 05-29 07-04 09-04 10-09 11-10 11-23 12-25
    2001: 01-01 01-15 02-19 05-28 07-04 09-03 10-08 11-12 11-22 12-25
    2002: 01-01 01-21 02-18 05-27 07-04 09-02 10-14 11-11 11-28 12-25
    2003: 01-01 01-20 02-17 05-26 07-04 09-01 10-13 11-11 11-27 12-25
    2004: 01-01 01-19 02-16 05-31 07-05 09-06 10-11 11-11 11-25 12-24 12-31
    2005: 01-17 02-21 05-30 07-04 09-05 10-10 11-11 11-24 12-26
    2006: 01-02 01-16 02-20 05-29 07-04 09-04 10-09 11-10 11-23 12-25
    2007: 01-01 01-15 02-19 05-28 07-04 09-03 10-08 11-12 11-22 12-25
    2008: 01-01 01-21 02-18 05-26 07-04 09-01 10-13 11-11 11-27 12-25
    2009: 01-01 01-19 02-16 05-25 07-03 09-07 10-12 11-11 11-26 12-25
    2010: 01-01 01-18 02-15 05-31 07-05 09-06 10-11 11-11 11-25 12-24 12-31
    2011: 01-17 02-21 05-30 07-04 09-05 10-10 11-11 11-24 12-26
    2012: 01-02 01-16 02-20 05-28 07-04 09-03 10-08 11-12 11-22 12-25
    2013: 01-01 01-21 02-18 05-27 07-04 09-02 10-14 11-11 11-28 12-25
    2014: 01-01 01-20 02-17 05-26 07-04 09-01 10-13 11-11 11-27 12-25
    2015: 01-01 01-19 02-16 05-25 07-03 09-07 10-12 11-11 11-26 12-25
    2016: 01-01 01-18 02-15 05-30 07-04 09-05 10-10 11-11 11-24 12-26
    2017: 01-02 01-16 02-20 05-29 07-04 09-04 10-09 11-10 11-23 12-25
    2018: 01-01 01-15 02-19 05-28 07-04 09-03 10-08 11-12 11-22 12-25
    2019: 01-01 01-21 02-18 05-27 07-04 09-02 10-14 11-11 11-28 12-25
    2020: 01-01 01-20 02-17 05-25 07-03 09-07 10-12 11-11 11-26 12-25
    """),
    # The data of holidata.net of 16 August 2025, as in timewarrior 1.9.1, without its holidays of single states.
    ("us-federal", "2025-01-01", "2026-12-31", "", """
    2025: 01-01 01-20 02-17 05-26 06-19 07-04 09-01 10-13 11-11 11-27 12-25
    2026: 01-01 01-19 02-16 05-25 06-19 07-03 09-07 10-12 11-11 11-26 12-25
    """),
    # The list in holidays.m of octave-financial 0.5.3, which names chronos-st.org, up to the day for which it has
    # unusual closings.
    ("nyse", "1986-01-01", "2011-02-01", "", """
    1986: 01-01 02-17 03-28 05-26 07-04 09-01 11-27 12-25
    1987: 01-01 02-16 04-17 05-25 07-03 09-07 11-26 12-25
    1988: 01-01 02-15 04-01 05-30 07-04 09-05 11-24 12-26
    1989: 01-02 02-20 03-24 05-29 07-04 09-04 11-23 12-25
    1990: 01-01 02-19 04-13 05-28 07-04 09-03 11-22 12-25
    1991: 01-01 02-18 03-29 05-27 07-04 09-02 11-28 12-25
    1992: 01-01 02-17 04-17 05-25 07-03 09-07 11-26 12-25
    1993: 01-01 02-15 04-09 05-31 07-05 09-06 11-25 12-24
    1994: 02-21 04-01 04-27 05-30 07-04 09-05 11-24 12-26
    1995: 01-02 02-20 04-14 05-29 07-04 09-04 11-23 12-25
    1996: 01-01 02-19 04-05 05-27 07-04 09-02 11-28 12-25
    1997: 01-01 02-17 03-28 05-26 07-04 09-01 11-27 12-25
    1998: 01-01 01-19 02-16 04-10 05-25 07-03 09-07 11-26 12-25
    1999: 01-01 01-18 02-15 04-02 05-31 07-05 09-06 11-25 12-24
    2000: 01-17 02-21 04-21 05-29 07-04 09-04 11-23 12-25
    2001: 01-01 01-15 02-19 04-13 05-28 07-04 09-03 09-11 09-12 09-13 09-14 11-22 12-25
    2002: 01-01 01-21 02-18 03-29 05-27 07-04 09-02 11-28 12-25
    2003: 01-01 01-20 02-17 04-18 05-26 07-04 09-01 11-27 12-25
    2004: 01-01 01-19 02-16 04-09 05-31 06-11 07-05 09-06 11-25 12-24
    2005: 01-17 02-21 03-25 05-30 07-04 09-05 11-24 12-26
    2006: 01-02 01-16 02-20 04-14 05-29 07-04 09-04 11-23 12-25
    2007: 01-01 01-02 01-15 02-19 04-06 05-28 07-04 09-03 11-22 12-25
    2008: 01-01 01-21 02-18 03-21 05-26 07-04 09-01 11-27 12-25
    2009: 01-01 01-19 02-16 04-10 05-25 07-03 09-07 11-26 12-25
    2010: 01-01 01-18 02-15 04-02 05-31 07-05 09-06 11-25 12-24
    2011: 01-17
    """),
    # The calendar of officeholidays.com of 3 March 2019, as in tests of python3-recurring-ical-events 3.9.0: the
    # holidays without a state.
    ("all-de", "2008-01-01", "2020-12-31", "", """
    2008: 01-01 03-21 03-24 05-01 05-12 10-03 12-25 12-26
    2009: 01-01 04-10 04-13 05-01 05-21 06-01 12-25
    2010: 01-01 04-02 04-05 05-13 05-24
    2011: 04-22 04-25 06-02 06-13 10-03 12-26
    2012: 04-06 04-09 05-01 05-17 05-28 10-03 12-25 12-26
    2013: 01-01 03-29 04-01 05-01 05-09 05-20 10-03 12-25 12-26
    2014: 01-01 04-18 04-21 05-01 05-29 06-09 10-03 12-25 12-26
    2015: 01-01 04-03 04-06 05-01 05-14 05-25 12-25
    2016: 01-01 03-25 03-28 05-05 05-16 10-03 12-26
    2017: 04-14 04-17 05-01 05-25 06-05 10-03 10-31 12-25 12-26
    2018: 01-01 03-30 04-02 05-01 05-10 05-21 10-03 12-25 12-26
    2019: 01-01 04-19 04-22 05-01 05-30 06-10 10-03 12-25 12-26
    2020: 01-01 04-10 04-13 05-01 05-21 06-01 12-25
    """),
    # The calendar of calendarlabs.com of 5 February 2020, as in tests of the same package, without Carnival. It lacks
    # holidays of one state: of Berlin, Children's Day of Thuringia and Repentance Day of Saxony.
    ("any-de", "2019-01-01", "2020-12-31", "2019-03-08 2019-09-20 2019-11-20 2020-05-08 2020-11-18", """
    2019: 01-01 04-19 04-22 05-01 05-30 06-10 06-20 08-15 10-03 10-31 11-01 12-25 12-26
    2020: 01-01 01-06 04-10 04-13 05-01 05-21 06-01 06-11 12-25
    """),
    # The data of holidata.net for 2020 to 2022, as in taskwarrior 2.5.3 and 2.6.2, without 24 and 31 December. They
    # lack Children's Day of Thuringia.
    ("any-de", "2020-01-01", "2022-12-31", "2021-09-20 2022-09-20", """
    2020: 01-01 01-06 04-10 04-13 05-01 05-08 05-21 06-01 06-11 11-18 12-25
    2021: 01-01 01-06 03-08 04-02 04-05 05-13 05-24 06-03 11-01 11-17
    2022: 01-06 03-08 04-15 04-18 05-26 06-06 06-16 08-15 10-03 10-31 11-01 11-16 12-26
    """),
)

# Days of the calendar of officeholidays.com that it gives to some states.
REGIONAL = {
    "2009-01-06": "bw by st",
    "2010-01-06": "bw by st",
    "2010-11-01": "bw by nw rp sl",
    "2011-01-06": "bw by st",
    "2011-11-01": "bw by nw rp sl",
    "2020-05-08": "be",
}


def ours(calendar, first, last):
    """Returns the holidays of a calendar, or of all or any states, from one year through another."""
    if calendar in ("all-de", "any-de"):
        states = [ours(f"de-{state}", first, last) for state in STATES]
        return set.intersection(*states) if calendar == "all-de" else set.union(*states)
    found = Workdays.of(calendar, Date(first, 1, 1), Date(last, 12, 31)).holidays
    return {day.to_date() for day in found if day.weekday() < 5}


def python_holidays(kind, first, last, **area):
    """Returns the days of python3-holidays."""
    # A New Year can be in the year before.
    found = kind(years=range(first - 1, last + 2), **area)
    return [day for day in found if first <= day.year <= last]


def perl(program, *arguments):
    """Returns the words that a program prints, or none without Date::Holidays::DE."""
    command = ["perl", "-MDate::Holidays::DE=holidays", "-e", program, *arguments]
    try:
        return subprocess.run(command, capture_output=True, text=True).stdout.split()
    except FileNotFoundError:
        return []


def is_version(module, version):
    return getattr(module, "__version__", "") == version


class Calendars(unittest.TestCase):
    def differ(self, calendar, years, others, days=""):
        """Checks that only these days are holidays for one of the two, but not for the other."""
        found = ours(calendar, *years) ^ {day for day in others if day.weekday() < 5}
        self.assertEqual(sorted(map(str, found)), days.split(), calendar)

    def test_published(self):
        for calendar, first, last, lacks, years in PUBLISHED:
            lines = (line.split(": ") for line in years.split("\n")[1:-1])
            published = {f"{year.strip()}-{day}" for year, days in lines for day in days.split()}
            found = {str(day) for day in ours(calendar, int(first[:4]), int(last[:4])) if first <= str(day) <= last}
            self.assertEqual(found ^ published, set(lacks.split()), calendar)

    def test_published_for_states(self):
        for day, states in REGIONAL.items():
            date = datetime.date.fromisoformat(day)
            found = {state for state in STATES if date in ours(f"de-{state}", date.year, date.year)}
            self.assertEqual(found, set(states.split()), day)

    @unittest.skipUnless(is_version(holidays, "0.10.1"), "needs python3-holidays 0.10.1")
    def test_python_holidays(self):
        of = python_holidays
        # On the last day of 2001 banks prepared the cash of the euro.
        self.differ("target", (2000, 2050), of(holidays.ECB, 2000, 2050), "2001-12-31")
        self.differ("us-federal", (1971, 2020), of(holidays.US, 1971, 2020))
        # In 2002 the spring holiday was in June.
        self.differ("england-and-wales", (1978, 2021), of(holidays.England, 1978, 2021), "2002-05-27 2002-06-04")
        # Holidays that are younger than the package.
        later = {"be": "2025-05-08", "mv": "2023-03-08 2024-03-08"}
        for state in STATES:
            self.differ(f"de-{state}", (1995, 2026), of(holidays.DE, 1995, 2026, prov=state.upper()), later.get(state, ""))

    @unittest.skipUnless(is_version(holidays, "0.71"), "needs python3-holidays 0.71")
    def test_later_python_holidays(self):
        of = python_holidays
        # On the last day of 2001 banks prepared the cash of the euro.
        self.differ("target", (2000, 2050), of(holidays.ECB, 2000, 2050), "2001-12-31")
        self.differ("us-federal", (1971, 2050), of(holidays.US, 1971, 2050))
        self.differ("nyse", (1986, 2050), of(holidays.NYSE, 1986, 2050))
        self.differ("england-and-wales", (1978, 2050), of(holidays.UnitedKingdom, 1978, 2050, subdiv="ENG"))
        for state in STATES:
            # Assumption Day is a holiday in the Catholic municipalities of Bavaria.
            kinds = ("public", "catholic") if state == "by" else ("public",)
            others = of(holidays.Germany, 1995, 2050, subdiv=state.upper(), categories=kinds)
            self.differ(f"de-{state}", (1995, 2050), others)

    @unittest.skipUnless(is_version(workalendar, "17.0.0"), "needs python3-workalendar 17.0.0")
    def test_workalendar(self):
        def of(kind, first, last):
            # A New Year can be in the year before.
            found = (day for year in range(first - 1, last + 2) for day in kind().holidays_set(year))
            return [day for day in found if first <= day.year <= last]

        europe, states = workalendar.europe, workalendar.usa
        # On the last day of 2001 banks prepared the cash of the euro.
        self.differ("target", (2000, 2050), of(europe.EuropeanCentralBank, 2000, 2050), "2001-12-31")
        # Birthday of Martin Luther King was first a holiday in 1986. The package has no Veterans Day in October.
        self.differ("us-federal", (1978, 2050), of(states.FederalReserveSystem, 1978, 2050), "1985-01-21")
        # In 1995 the holiday of early May was 8 May. The coronation of 2023 is younger than the package.
        self.differ("england-and-wales", (1978, 2050), of(europe.UnitedKingdom, 1978, 2050), "1995-05-01 1995-05-08 2023-05-08")
        # Holidays that are younger than the package, and Children's Day, which it doesn't have.
        missing = {
            "be": "2025-05-08",
            "mv": "2023-03-08 2024-03-08",
            "th": "2019-09-20 2021-09-20 2022-09-20 2023-09-20 2024-09-20",
        }
        for state in STATES:
            others = of(workalendar.registry.registry.get(f"DE-{state.upper()}"), 1995, 2026)
            self.differ(f"de-{state}", (1995, 2026), others, missing.get(state, ""))

    @unittest.skipUnless(perl("print $Date::Holidays::DE::VERSION") == ["2.06"], "needs libdate-holidays-de-perl 2.06")
    def test_perl(self):
        program = """my ($state, @add) = @ARGV;
            for (1995..2050) {
                print "@{holidays(WHERE => ['common', $state], ADD => \\@add, YEAR => $_, FORMAT => '%Y-%m-%d')}\\n";
            }"""
        for state in STATES:
            # Assumption Day isn't a holiday in all of Bavaria.
            found = perl(program, state, *["mari"] * (state == "by"))
            # The holiday of 2025 is younger than the package.
            later = "2025-05-08" if state == "be" else ""
            self.differ(f"de-{state}", (1995, 2050), map(datetime.date.fromisoformat, found), later)

    @unittest.skipUnless(QuantLib, "needs quantlib-python")
    def test_quantlib(self):
        def of(calendar, first, last):
            found = calendar.holidayList(QuantLib.Date(1, 1, first), QuantLib.Date(31, 12, last), False)
            return [datetime.date(day.year(), day.month(), day.dayOfMonth()) for day in found]

        states, kingdom = QuantLib.UnitedStates, QuantLib.UnitedKingdom
        self.differ("target", (1999, 2050), of(QuantLib.TARGET(), 1999, 2050))
        # The royal wedding of 1981.
        self.differ("england-and-wales", (1978, 2050), of(kingdom(kingdom.Settlement), 1978, 2050), "1981-07-29")
        # The state funeral of 2025 is younger than 1.29.
        self.differ("nyse", (1986, 2024), of(states(states.NYSE), 1986, 2024))
        self.differ("nyse", (2026, 2050), of(states(states.NYSE), 2026, 2050))
        # Birthday of Martin Luther King was first a holiday in 1986, and Juneteenth in 2021.
        self.differ("us-federal", (1971, 2050), of(states(states.Settlement), 1971, 2050), "1983-01-17 1984-01-16 1985-01-21 2021-06-18")


if __name__ == "__main__":
    unittest.main()
