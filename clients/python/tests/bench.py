"""Times calls from Python beside `datetime`, rows of columns beside NumPy and pandas, and recurrences
beside dateutil, in the rows of `clients/c/bench.h`. The loops of a row run in turn.

The argument is the number of rounds, and the lines of the input are the recurrences.
"""

import array
import copy
import datetime
import itertools
import pickle
import sys
import time
import timeit
import zoneinfo

try:
    import numpy
    import pandas
except ImportError:
    numpy = pandas = None
try:
    from dateutil import rrule
except ImportError:
    rrule = None

import fotsevindre
from fotsevindre import (Date, Format, OffsetDateTime, PlainDateTime, Recurrence, SignedDuration, Time, UtcOffset, Workdays, Zone,
    ZonedDateTime)

VALUES = 4096
ROUNDS = int(sys.argv[1]) if sys.argv[1:] else 9
# Of the columns of strings, which pandas needs seconds for, and of short ones.
ROWS = 1_000_000
SHORT_ROWS = 1000
# Of a recurrence.
DAYS = 200

julian_days = array.array("i", (1721426 + 891 * number for number in range(VALUES)))
moves = array.array("q", (number % 20001 - 10000 for number in range(VALUES)))
later = array.array("i", (number + 1000 for number in julian_days))
dates = [Date.from_julian_day(number) for number in julian_days]
others = [date.to_date() for date in dates]
calendar = [date.to_calendar_date() for date in dates]
texts = [str(date) for date in dates]
form = Format("%d/%m/%Y")
shown = [date.strftime(form) for date in dates]
stamps = [f"{date}T{number % 24:02}:59:59.25+01:00" for number, date in enumerate(dates)]
clocks = [stamp[11:19] for stamp in stamps]
day, delta = SignedDuration.DAY, datetime.timedelta(days=1)
many = Workdays(holidays=[Date.from_julian_day(2451545 + 9 * number) for number in range(1024)])
none = Workdays()
plain = [PlainDateTime(date, Time(1, 2, 3)) for date in dates]
others_plain = [date_time.to_datetime() for date_time in plain]
moments = [date_time.assume_offset(UtcOffset(1)) for date_time in plain]
others_aware = [moment.to_datetime() for moment in moments]
hour = datetime.timedelta(hours=25, microseconds=7)
eighty = Workdays(holidays=many.holidays[:80])
durations = [date - dates[7] for date in dates]
deltas = [date - others[7] for date in others]
seconds = range(1_700_000_000, 1_700_000_000 + VALUES * 3600, 3600)
recent = [OffsetDateTime.from_unix_timestamp(one).local() for one in seconds]
others_recent = [one.to_datetime() for one in recent]
berlin, other_berlin = Zone("Europe/Berlin"), zoneinfo.ZoneInfo("Europe/Berlin")


def failed(make):
    """Returns the errors of a call that fails for each day 32."""
    found = []
    for date in others:
        try:
            make(date.year, date.month, 32)
        except ValueError as error:
            found.append(error)
    return found


# Groups of loops: the name, here, and by `datetime`.
LOOPS = {
    "dates and date-times made, Python": [
        ("Date(2024, 2, 29)", lambda: [Date.from_calendar_date(*parts) for parts in calendar], lambda: [datetime.date(*parts) for parts in calendar]),
        ("PlainDateTime(2024, 2, 29, 1, 2, 3)", lambda: [PlainDateTime(2024, 2, 29, 1, 2, 3) for _ in dates], lambda: [datetime.datetime(2024, 2, 29, 1, 2, 3) for _ in dates]),
        ("PlainDateTime(date, time)", lambda: [PlainDateTime(date, Time.MIDNIGHT) for date in dates], lambda: [datetime.datetime.combine(date, datetime.time.min) for date in others]),
        ("an error, raised and caught", lambda: failed(Date), lambda: failed(datetime.date)),
        ("replace", lambda: [one.replace(day=1, hour=2) for one in plain], lambda: [one.replace(day=1, hour=2) for one in others_plain]),
        ("OffsetDateTime.now", lambda: [OffsetDateTime.now() for _ in dates], lambda: [datetime.datetime.now(datetime.timezone.utc) for _ in dates]),
        ("Date.today", lambda: [Date.today() for _ in dates], lambda: [datetime.date.today() for _ in dates]),
    ],
    "components, comparisons, sums, Python": [
        ("year", lambda: [date.year for date in dates], lambda: [date.year for date in others]),
        ("month", lambda: [date.month for date in dates], lambda: [date.month for date in others]),
        ("weekday", lambda: [date.weekday() for date in dates], lambda: [date.weekday() for date in others]),
        ("to_calendar_date", lambda: [date.to_calendar_date() for date in dates], lambda: [(date.year, date.month, date.day) for date in others]),
        ("PlainDateTime.year", lambda: [one.year for one in plain], lambda: [one.year for one in others_plain]),
        ("PlainDateTime.hour", lambda: [one.hour for one in plain], lambda: [one.hour for one in others_plain]),
        ("==", lambda: [date == dates[7] for date in dates], lambda: [date == others[7] for date in others]),
        ("<", lambda: [date < dates[7] for date in dates], lambda: [date < others[7] for date in others]),
        ("hash", lambda: [hash(date) for date in dates], lambda: [hash(date) for date in others]),
        ("(date - date).days", lambda: [(date - dates[7]).days for date in dates], lambda: [(date - others[7]).days for date in others]),
        ("total_seconds", lambda: [one.total_seconds() for one in durations], lambda: [one.total_seconds() for one in deltas]),
        ("date + SignedDuration", lambda: [date + day for date in dates], lambda: [date + delta for date in others]),
        ("date + timedelta", lambda: [date + delta for date in dates], lambda: [date + delta for date in others]),
        ("PlainDateTime + timedelta", lambda: [one + hour for one in plain], lambda: [one + hour for one in others_plain]),
        ("OffsetDateTime + timedelta", lambda: [one + hour for one in moments], lambda: [one + hour for one in others_aware]),
    ],
    "conversions from and to `datetime`, copies, Python": [
        ("Date.from_date", lambda: [Date.from_date(date) for date in others], lambda: [datetime.date(date.year, date.month, date.day) for date in others]),
        ("Date.to_date", lambda: [date.to_date() for date in dates], lambda: [datetime.date(date.year, date.month, date.day) for date in others]),
        ("PlainDateTime.from_datetime and to_datetime", lambda: [PlainDateTime.from_datetime(one).to_datetime() for one in others_plain], lambda: [datetime.datetime.combine(one.date(), one.time()) for one in others_plain]),
        ("a list of dates pickled and back", lambda: pickle.loads(pickle.dumps(dates)), lambda: pickle.loads(pickle.dumps(others))),
        ("a date pickled and back", lambda: [pickle.loads(pickle.dumps(date)) for date in dates], lambda: [pickle.loads(pickle.dumps(date)) for date in others]),
        ("a date-time pickled and back", lambda: [pickle.loads(pickle.dumps(one)) for one in plain], lambda: [pickle.loads(pickle.dumps(one)) for one in others_plain]),
        ("deepcopy of a date", lambda: [copy.deepcopy(date) for date in dates], lambda: [copy.deepcopy(date) for date in others]),
    ],
    "zones, Python": [
        ("Zone.resolve", lambda: [berlin.resolve(one).compatible().unix_timestamp() for one in recent], lambda: [one.replace(tzinfo=other_berlin).timestamp() for one in others_recent]),
        ("ZonedDateTime.from_local", lambda: [ZonedDateTime.from_local(one, berlin).unix_timestamp() for one in recent], lambda: [one.replace(tzinfo=other_berlin).timestamp() for one in others_recent]),
        ("in_zone", lambda: [one.in_zone(berlin) for one in moments], lambda: [one.astimezone(other_berlin) for one in others_aware]),
    ],
    "`str` and `isoformat`, Python": [
        ("str of a date", lambda: [str(date) for date in dates], lambda: [str(date) for date in others]),
        ("PlainDateTime.isoformat", lambda: [one.isoformat() for one in plain], lambda: [one.isoformat() for one in others_plain]),
        ("OffsetDateTime.isoformat", lambda: [one.isoformat() for one in moments], lambda: [one.isoformat() for one in others_aware]),
    ],
    "strings parsed, Python": [
        ("Date.parse", lambda: [Date.parse(text) for text in texts], lambda: [datetime.date.fromisoformat(text) for text in texts]),
        ("OffsetDateTime.parse", lambda: [OffsetDateTime.parse(text) for text in stamps], lambda: [datetime.datetime.fromisoformat(text) for text in stamps]),
        ("Time.parse", lambda: [Time.parse(text) for text in clocks], lambda: [datetime.time.fromisoformat(text) for text in clocks]),
    ],
    "`strftime` and `strptime`, Python": [
        ("strftime", lambda: [date.strftime("%d/%m/%Y") for date in dates], lambda: [date.strftime("%d/%m/%Y") for date in others]),
        ("strptime", lambda: [Date.strptime(text, "%d/%m/%Y") for text in shown], lambda: [datetime.datetime.strptime(text, "%d/%m/%Y") for text in shown]),
    ],
    "": [
        ("strftime and strptime by a Format", lambda: [Date.strptime(date.strftime(form), form) for date in dates], None),
        ("next_day", lambda: [date.next_day() for date in dates], None),
        ("next_workday, no holidays", lambda: [none.next_workday(date) for date in dates], None),
        ("next_workday, 1024 holidays", lambda: [many.next_workday(date) for date in dates], None),
        ("a row of dates_to_calendar_dates", lambda: fotsevindre.dates_to_calendar_dates(julian_days), None),
        ("a row of dates_add_days", lambda: fotsevindre.dates_add_days(julian_days, moves), None),
        ("a row of dates_workdays_between, 80 holidays", lambda: fotsevindre.dates_workdays_between(julian_days, later, eighty), None),
    ],
}
COLUMNS, SHORT, LARGE = [], [], []
if numpy:
    days, days_later = ((numpy.array(column, dtype="int64") - 2440588).view("datetime64[D]") for column in (julian_days, later))
    whole = numpy.array(moves)
    series = pandas.Series(pandas.date_range("1900-01-01", periods=VALUES, freq="11D"))
    calendar_of_numpy = numpy.busdaycalendar(holidays=[str(date) for date in eighty.holidays])
    spread = (numpy.arange(ROWS) % 30000 - 5000).view("datetime64[D]")
    # The loops over columns: the name, the other library, and both.
    COLUMNS = [
        ("dates_workdays_between, 80 holidays", "NumPy", lambda: fotsevindre.dates_workdays_between(days, days_later, eighty),
            lambda: numpy.busday_count(days, days_later, busdaycal=calendar_of_numpy)),
        ("dates_add_days, a number", "NumPy", lambda: fotsevindre.dates_add_days(days, 1), lambda: days + 1),
        ("dates_add_days, a column", "NumPy", lambda: fotsevindre.dates_add_days(days, whole), lambda: days + whole),
        ("dates_add_days, a series", "pandas", lambda: fotsevindre.dates_add_days(series, 1),
            lambda: series + pandas.Timedelta(days=1)),
        ("dates_add_months, a series", "pandas", lambda: fotsevindre.dates_add_months(series, 1),
            lambda: series + pandas.DateOffset(months=1)),
    ]
    short, whole_short = days[:SHORT_ROWS].copy(), whole[:SHORT_ROWS].copy()
    SHORT = [
        ("dates_add_days, 1000 dates, a number", "NumPy", lambda: fotsevindre.dates_add_days(short, 1), lambda: short + 1),
        ("dates_add_days, 1000 dates, a column", "NumPy", lambda: fotsevindre.dates_add_days(short, whole_short),
            lambda: short + whole_short),
    ]
    many_days, iso = pandas.Series(spread.astype("datetime64[ns]")), pandas.Series(numpy.datetime_as_string(spread).astype(object))
    basic = iso.str.replace("-", "", regex=False)
    local, instants = iso.str[8:] + "." + iso.str[5:7] + "." + iso.str[:4], iso + "T12:34:56Z"
    LARGE = [
        ("dates_add_days, a million dates", "NumPy", lambda: fotsevindre.dates_add_days(spread, 1), lambda: spread + 1),
        ("dates_add_days, a series of a million", "pandas", lambda: fotsevindre.dates_add_days(many_days, 1),
            lambda: many_days + pandas.Timedelta(days=1)),
        ("strings_to_dates, ISO 8601", "pandas", lambda: fotsevindre.strings_to_dates(iso), lambda: pandas.to_datetime(iso)),
        ("strings_to_dates, iso=True", "pandas", lambda: fotsevindre.strings_to_dates(iso, iso=True), lambda: pandas.to_datetime(iso)),
        ("strings_to_dates, basic format", "pandas", lambda: fotsevindre.strings_to_dates(basic, iso=True),
            lambda: pandas.to_datetime(basic)),
        ("strings_to_dates, %d.%m.%Y", "pandas", lambda: fotsevindre.strings_to_dates(local, "%d.%m.%Y"),
            lambda: pandas.to_datetime(local, format="%d.%m.%Y")),
        ("strings_to_instants", "pandas", lambda: fotsevindre.strings_to_instants(instants),
            lambda: pandas.to_datetime(instants, utc=True)),
        ("strings_to_instants, iso=True", "pandas", lambda: fotsevindre.strings_to_instants(instants, iso=True),
            lambda: pandas.to_datetime(instants, utc=True)),
        ("dates_to_strings, %d.%m.%Y", "pandas", lambda: fotsevindre.dates_to_strings(many_days, "%d.%m.%Y"),
            lambda: many_days.dt.strftime("%d.%m.%Y")),
    ]


def show(section, group, name, loops, rounds=ROUNDS, number=3, values=VALUES):
    """Prints the row of the loops, which have names."""
    found = [[timeit.timeit(loop, timer=time.process_time, number=number) for loop in loops.values()] for _ in range(rounds)]
    least = [min(times) / number / values * 1e9 for times in zip(*found)]
    print(section, group, name, *(f"{who}={one:.2f}" for who, one in zip(loops, least)), sep="\t", flush=True)


def show_rule(text):
    """Prints the row of a recurrence."""
    def here():
        return list(itertools.islice(Recurrence.parse(text).days(Date(1997, 9, 2)), DAYS))

    def other():
        return list(itertools.islice(rrule.rrulestr(text, dtstart=datetime.datetime(1997, 9, 2)), DAYS))

    loops = {"here": here}
    if rrule and [str(day) for day in here()] == [str(day.date()) for day in other()]:
        loops["dateutil"] = other
    elif rrule:
        print(f"other days by dateutil: {text}", file=sys.stderr)
    show("python_rules", "recurrences, Python", text, loops, number=1, values=DAYS)


for group, loops in LOOPS.items():
    for name, here, other in loops:
        show("python", group, name, {"here": here, **({"datetime": other} if other else {})})
for name, peer, here, other in COLUMNS:
    show("columns", "columns of 4096 dates, Python", name, {"here": here, peer: other})
for name, peer, here, other in SHORT:
    show("columns", "columns of 1000 dates, Python", name, {"here": here, peer: other}, 20 * ROUNDS, 50, SHORT_ROWS)
for name, peer, here, other in LARGE:
    show("columns", "columns of a million rows, Python", name, {"here": here, peer: other}, min(3, ROUNDS), 1, ROWS)
for line in sys.stdin:
    show_rule(line.strip())
