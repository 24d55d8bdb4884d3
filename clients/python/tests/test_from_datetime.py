"""Tests of what users of `datetime` write, row by row: an expression, the answer of `datetime`, and the answer here.

An answer is the `repr` of the value, converted to `datetime`, or the name of the error. What differs without an error
has a line in FROM_DATETIME.md.
"""

import calendar
import copy
import datetime
import json
import pathlib
import pickle
import random
import sys
import unittest
import zoneinfo

from fotsevindre import Date, Month, OffsetDateTime, PlainDateTime, SignedDuration, Time, UtcOffset, Weekday, Zone, ZonedDateTime

PAGE = pathlib.Path(__file__).resolve().parents[3] / "docs/FROM_DATETIME.md"
SAME = None
HOUR = datetime.timezone(datetime.timedelta(hours=1))
MODULES = {"calendar": calendar, "copy": copy, "json": json, "pickle": pickle, "random": random}
BERLIN, NEW_YORK = "Europe/Berlin", "America/New_York"

ROWS = [
    ("date(2024, 2, 29)", "datetime.date(2024, 2, 29)", SAME),
    ("date(year=2024, month=2, day=29)", "datetime.date(2024, 2, 29)", SAME),
    ("date(2023, 2, 29)", "ValueError", SAME),
    ("date(0, 1, 1)", "ValueError", "Date(0, 1, 1)"),
    ("date(10000, 1, 1)", "ValueError", "Date(10000, 1, 1)"),
    ('date("2024-02-29")', "TypeError", SAME),
    ("date(2024, 2.0, 29)", "TypeError", SAME),
    ("date(2024, 2)", "TypeError", SAME),
    ("date.min", "datetime.date(1, 1, 1)", "AttributeError"),
    ("date.max", "datetime.date(9999, 12, 31)", "AttributeError"),
    ("date.resolution", "datetime.timedelta(days=1)", "AttributeError"),
    ('date.fromisoformat("2024-02-29")', "datetime.date(2024, 2, 29)", SAME),
    ('date.fromisoformat("20240229")', "datetime.date(2024, 2, 29)", "ValueError"),
    ('date.fromisoformat("2024-W09-4")', "datetime.date(2024, 2, 29)", SAME),
    ('date.fromisoformat("2024-060")', "ValueError", "datetime.date(2024, 2, 29)"),
    ('date.fromisoformat("2024-2-29")', "ValueError", SAME),
    ('date.fromisoformat("29/02/2024")', "ValueError", SAME),
    ("date.fromordinal(738945)", "datetime.date(2024, 2, 29)", "AttributeError"),
    ("date.fromisocalendar(2024, 9, 4)", "datetime.date(2024, 2, 29)", "AttributeError"),
    ("time(9, 30)", "datetime.time(9, 30)", SAME),
    ("time(9, 30, 15)", "datetime.time(9, 30, 15)", SAME),
    ("time(1, 2, 3, 4)", "datetime.time(1, 2, 3, 4)", "TypeError"),
    ("time(1, 2, 3, microsecond=4)", "datetime.time(1, 2, 3, 4)", "TypeError"),
    ("time(24)", "ValueError", SAME),
    ("time(hour=9)", "datetime.time(9, 0)", SAME),
    ("time()", "datetime.time(0, 0)", SAME),
    ("time.min", "datetime.time(0, 0)", "AttributeError"),
    ("time.max", "datetime.time(23, 59, 59, 999999)", "AttributeError"),
    ('time.fromisoformat("09:30")', "datetime.time(9, 30)", SAME),
    ('time.fromisoformat("9:30")', "ValueError", "datetime.time(9, 30)"),
    ('time.fromisoformat("09:30:15.250000")', "datetime.time(9, 30, 15, 250000)", SAME),
    ('time.fromisoformat("T09:30")', "datetime.time(9, 30)", "ValueError"),
    ('time.fromisoformat("09:30:15,25")', "datetime.time(9, 30, 15, 250000)", "ValueError"),
    ("datetime(2024, 2, 29)", "datetime.datetime(2024, 2, 29, 0, 0)", SAME),
    ("datetime(2024, 2, 29, 9, 30)", "datetime.datetime(2024, 2, 29, 9, 30)", SAME),
    ("datetime(2024, 2, 29, 9, 30, 15)", "datetime.datetime(2024, 2, 29, 9, 30, 15)", SAME),
    ("datetime(2024, 2, 29, 9, 30, 15, 250000)", "datetime.datetime(2024, 2, 29, 9, 30, 15, 250000)", "TypeError"),
    ("datetime(2024, 2)", "TypeError", SAME),
    ("datetime(2024, 2, 29, tzinfo=utc)", "datetime.datetime(2024, 2, 29, 0, 0, tzinfo=datetime.timezone.utc)", "TypeError"),
    ("datetime(2024, 2, 29, fold=1)", "datetime.datetime(2024, 2, 29, 0, 0, fold=1)", "TypeError"),
    ("datetime.combine(day, clock)", "datetime.datetime(2024, 2, 29, 9, 30)", SAME),
    ("datetime.combine(day, clock, utc)", "datetime.datetime(2024, 2, 29, 9, 30, tzinfo=datetime.timezone.utc)", "TypeError"),
    ('datetime.fromisoformat("2024-02-29T09:30:00")', "datetime.datetime(2024, 2, 29, 9, 30)", SAME),
    ('datetime.fromisoformat("2024-02-29 09:30")', "datetime.datetime(2024, 2, 29, 9, 30)", SAME),
    ('datetime.fromisoformat("2024-02-29")', "datetime.datetime(2024, 2, 29, 0, 0)", "ValueError"),
    ('datetime.fromisoformat("2024-02-29T09:30:00+01:00")', "datetime.datetime(2024, 2, 29, 9, 30, tzinfo=datetime.timezone(datetime.timedelta(seconds=3600)))", "ValueError"),
    ('datetime.fromisoformat("2024-02-29T09:30:00Z")', "datetime.datetime(2024, 2, 29, 9, 30, tzinfo=datetime.timezone.utc)", "ValueError"),
    ("datetime.min", "datetime.datetime(1, 1, 1, 0, 0)", "AttributeError"),
    ("datetime.max", "datetime.datetime(9999, 12, 31, 23, 59, 59, 999999)", "AttributeError"),
    ('Aware.fromisoformat("2024-02-29T09:30:00+01:00")', "datetime.datetime(2024, 2, 29, 9, 30, tzinfo=datetime.timezone(datetime.timedelta(seconds=3600)))", SAME),
    ('Aware.fromisoformat("2024-02-29T09:30:00Z")', "datetime.datetime(2024, 2, 29, 9, 30, tzinfo=datetime.timezone.utc)", SAME),
    ('Aware.fromisoformat("2024-02-29T09:30:00")', "datetime.datetime(2024, 2, 29, 9, 30)", "ValueError"),
    ("Aware.fromtimestamp(1709195400, utc)", "datetime.datetime(2024, 2, 29, 8, 30, tzinfo=datetime.timezone.utc)", SAME),
    ("Aware.fromtimestamp(1.5, utc)", "datetime.datetime(1970, 1, 1, 0, 0, 1, 500000, tzinfo=datetime.timezone.utc)", SAME),
    ("timedelta(1)", "datetime.timedelta(days=1)", "TypeError"),
    ("timedelta(days=1)", "datetime.timedelta(days=1)", SAME),
    ("timedelta(days=1, hours=2)", "datetime.timedelta(days=1, seconds=7200)", SAME),
    ("timedelta(hours=1.5)", "datetime.timedelta(seconds=5400)", "TypeError"),
    ("timedelta(weeks=1)", "datetime.timedelta(days=7)", SAME),
    ("timedelta(days=-1)", "datetime.timedelta(days=-1)", SAME),
    ("timedelta.max", "datetime.timedelta(days=999999999, seconds=86399, microseconds=999999)", "AttributeError"),
    ("timedelta()", "datetime.timedelta(0)", SAME),
    ("timezone(timedelta(hours=1))", "datetime.timezone(datetime.timedelta(seconds=3600))", "TypeError"),
    ("timezone.utc", "datetime.timezone.utc", "AttributeError"),
    ("day.year", "2024", SAME),
    ("day.month", "2", SAME),
    ("day.day", "29", SAME),
    ("day.weekday()", "3", SAME),
    ("day.isoweekday()", "4", SAME),
    ("day.isocalendar()", "(2024, 9, 4)", SAME),
    ("day.isocalendar()[1]", "9", SAME),
    ("day.isocalendar().week", "9", SAME),
    ("day.isoformat()", "'2024-02-29'", SAME),
    ("day.ctime()", "'Thu Feb 29 00:00:00 2024'", "AttributeError"),
    ("day.timetuple()", "(2024, 2, 29, 0, 0, 0, 3, 60, -1)", "AttributeError"),
    ("day.toordinal()", "738945", "AttributeError"),
    ("day.replace(year=2020)", "datetime.date(2020, 2, 29)", SAME),
    ("day.replace(2020)", "datetime.date(2020, 2, 29)", "TypeError"),
    ("day.replace(month=2, day=30)", "ValueError", SAME),
    ('day.strftime("%d/%m/%Y")', "'29/02/2024'", SAME),
    ('day.strftime("%A %-d %B")', "'Thursday 29 February'", SAME),
    ('day.strftime("%j %U %W")', "'060 08 09'", SAME),
    ('day.strftime("%c")', "'Thu Feb 29 00:00:00 2024'", "ValueError"),
    ('day.strftime("%H:%M")', "'00:00'", "ValueError"),
    ("clock.hour", "9", SAME),
    ("clock.minute", "30", SAME),
    ("clock.microsecond", "0", SAME),
    ("clock.isoformat()", "'09:30:00'", SAME),
    ("clock.tzinfo", "None", "AttributeError"),
    ("clock.replace(hour=1)", "datetime.time(1, 30)", SAME),
    ("clock.replace(microsecond=5)", "datetime.time(9, 30, 0, 5)", "TypeError"),
    ('clock.strftime("%H:%M:%S.%f")', "'09:30:00.000000'", SAME),
    ("noon.date()", "datetime.date(2024, 2, 29)", SAME),
    ("noon.time()", "datetime.time(12, 0)", SAME),
    ("noon.timetz()", "datetime.time(12, 0)", "AttributeError"),
    ("noon.hour", "12", SAME),
    ("noon.isoformat()", "'2024-02-29T12:00:00'", SAME),
    ('noon.isoformat(" ")', "'2024-02-29 12:00:00'", "TypeError"),
    ('noon.isoformat(timespec="minutes")', "'2024-02-29T12:00'", "TypeError"),
    ("noon.weekday()", "3", SAME),
    ("noon.replace(hour=1, minute=2)", "datetime.datetime(2024, 2, 29, 1, 2)", SAME),
    ("noon.replace(tzinfo=utc)", "datetime.datetime(2024, 2, 29, 12, 0, tzinfo=datetime.timezone.utc)", "TypeError"),
    ("noon.tzinfo", "None", "AttributeError"),
    ('noon.strftime("%Y-%m-%d %H:%M:%S")', "'2024-02-29 12:00:00'", SAME),
    ("noon.astimezone(utc)", "datetime.datetime(2024, 2, 29, 12, 0, tzinfo=datetime.timezone.utc)", "AttributeError"),
    ("aware.isoformat()", "'2024-02-29T09:30:00+01:00'", SAME),
    ("aware.timestamp()", "1709195400.0", SAME),
    ("aware.utcoffset()", "datetime.timedelta(seconds=3600)", "AttributeError"),
    ("aware.tzinfo", "datetime.timezone(datetime.timedelta(seconds=3600))", "AttributeError"),
    ("aware.tzname()", "'UTC+01:00'", "AttributeError"),
    ("aware.astimezone(utc)", "datetime.datetime(2024, 2, 29, 8, 30, tzinfo=datetime.timezone.utc)", "AttributeError"),
    ("aware.dst()", "None", "AttributeError"),
    ("aware.hour", "9", SAME),
    ("aware.date()", "datetime.date(2024, 2, 29)", SAME),
    ("aware.time()", "datetime.time(9, 30)", SAME),
    ("aware.replace(tzinfo=utc)", "datetime.datetime(2024, 2, 29, 9, 30, tzinfo=datetime.timezone.utc)", "TypeError"),
    ('aware.strftime("%z")', "'+0100'", SAME),
    ('aware.strftime("%Z")', "'UTC+01:00'", "ValueError"),
    ("delta.days", "1", SAME),
    ("delta.seconds", "7200", SAME),
    ("delta.microseconds", "0", SAME),
    ("delta.total_seconds()", "93600.0", SAME),
    ("negative.days", "-1", SAME),
    ("negative.seconds", "82800", SAME),
    ("str(day)", "'2024-02-29'", SAME),
    ("str(clock)", "'09:30:00'", SAME),
    ("str(noon)", "'2024-02-29 12:00:00'", "'2024-02-29T12:00:00'"),
    ("str(aware)", "'2024-02-29 09:30:00+01:00'", "'2024-02-29T09:30:00+01:00'"),
    ("str(delta)", "'1 day, 2:00:00'", "'PT26H'"),
    ("str(negative)", "'-1 day, 23:00:00'", "'-PT1H'"),
    ("str(utc)", "'UTC'", "'+00:00'"),
    ('f"{day}"', "'2024-02-29'", SAME),
    ('f"{day:%d.%m.%Y}"', "'29.02.2024'", SAME),
    ('f"{day:>12}"', "'>12'", "'  2024-02-29'"),
    ('f"{noon:%H:%M}"', "'12:00'", SAME),
    ('f"{day.year}-{day.month:02}-{day.day:02}"', "'2024-02-29'", SAME),
    ('f"{day.weekday()}"', "'3'", "'Thursday'"),
    ('"%s" % day.month', "'2'", SAME),
    ('"%s" % day.weekday()', "'3'", "'Thursday'"),
    ("str(day.month)", "'2'", SAME),
    ("json.dumps(day.month)", "'2'", SAME),
    ("json.dumps(day.weekday())", "'3'", SAME),
    ("json.dumps(day)", "TypeError", SAME),
    ("json.dumps(day, default=str)", '\'"2024-02-29"\'', SAME),
    ("repr(day)", "'datetime.date(2024, 2, 29)'", "'Date(2024, 2, 29)'"),
    ("day + delta", "datetime.date(2024, 3, 1)", SAME),
    ("delta + day", "datetime.date(2024, 3, 1)", "TypeError"),
    ("day - delta", "datetime.date(2024, 2, 28)", SAME),
    ("day + timedelta(hours=36)", "datetime.date(2024, 3, 1)", SAME),
    ("day + half", "datetime.date(2024, 2, 29)", SAME),
    ("day + 1", "TypeError", SAME),
    ("later - day", "datetime.timedelta(days=1)", SAME),
    ("(later - day).days", "1", SAME),
    ("(later - day) == timedelta(days=1)", "True", SAME),
    ("day - later", "datetime.timedelta(days=-1)", SAME),
    ("clock + delta", "TypeError", "datetime.time(11, 30)"),
    ("noon + timedelta(hours=13)", "datetime.datetime(2024, 3, 1, 1, 0)", SAME),
    ("noon - timedelta(hours=13)", "datetime.datetime(2024, 2, 28, 23, 0)", SAME),
    ("noon - midnight", "datetime.timedelta(seconds=43200)", SAME),
    ("aware + timedelta(hours=1)", "datetime.datetime(2024, 2, 29, 10, 30, tzinfo=datetime.timezone(datetime.timedelta(seconds=3600)))", SAME),
    ("aware - aware", "datetime.timedelta(0)", SAME),
    ("aware - noon", "TypeError", SAME),
    ("delta + delta", "datetime.timedelta(days=2, seconds=14400)", SAME),
    ("delta * 2", "datetime.timedelta(days=2, seconds=14400)", SAME),
    ("delta * 1.5", "datetime.timedelta(days=1, seconds=54000)", "TypeError"),
    ("delta / 2", "datetime.timedelta(seconds=46800)", SAME),
    ("tick / 2", "datetime.timedelta(microseconds=2)", "SignedDuration(microseconds=1, nanoseconds=500)"),
    ("delta / delta", "1.0", SAME),
    ("delta / timedelta(hours=1)", "26.0", SAME),
    ("delta // timedelta(hours=7)", "3", SAME),
    ("delta % timedelta(hours=7)", "datetime.timedelta(seconds=18000)", SAME),
    ("delta // 2", "datetime.timedelta(seconds=46800)", "TypeError"),
    ("divmod(delta, timedelta(hours=7))", "(3, datetime.timedelta(seconds=18000))", "TypeError"),
    ("-delta", "datetime.timedelta(days=-2, seconds=79200)", SAME),
    ("abs(negative)", "datetime.timedelta(seconds=3600)", SAME),
    ("sum([delta, delta], timedelta())", "datetime.timedelta(days=2, seconds=14400)", SAME),
    ("day == date(2024, 2, 29)", "True", SAME),
    ("day == noon", "False", SAME),
    ('day == "2024-02-29"', "False", SAME),
    ("day == None", "False", SAME),
    ("day != later", "True", SAME),
    ("day < later", "True", SAME),
    ("day < noon", "TypeError", SAME),
    ("noon < aware", "TypeError", SAME),
    ("noon == aware", "False", SAME),
    ("aware == same", "True", SAME),
    ("hash(aware) == hash(same)", "True", SAME),
    ("clock < time(23)", "True", SAME),
    ("delta < timedelta(days=2)", "True", SAME),
    ("max([day, later])", "datetime.date(2024, 3, 1)", SAME),
    ("sorted([later, day])[0]", "datetime.date(2024, 2, 29)", SAME),
    ("day in [date(2024, 2, 29)]", "True", SAME),
    ("day in {date(2024, 2, 29)}", "True", SAME),
    ("{day: 1}[date(2024, 2, 29)]", "1", SAME),
    ("day in range_of_days", "True", SAME),
    ("bool(time())", "True", SAME),
    ("bool(timedelta())", "False", SAME),
    ("bool(day)", "True", SAME),
    ("bool(monday.weekday())", "False", "True"),
    ("monday.weekday() == 0", "True", SAME),
    ("day.weekday() >= 5", "False", SAME),
    ("day.weekday() in (5, 6)", "False", SAME),
    ('["Mo", "Tu", "We", "Th", "Fr", "Sa", "Su"][day.weekday()]', "'Th'", SAME),
    ("day.month == 2", "True", SAME),
    ("day.month + 1", "3", SAME),
    ("day.month % 12", "2", SAME),
    ("day.year * 100 + day.month", "202402", SAME),
    ("isinstance(noon, date)", "True", "False"),
    ("isinstance(day.month, int)", "True", SAME),
    ("pickle.loads(pickle.dumps(day))", "datetime.date(2024, 2, 29)", SAME),
    ("copy.deepcopy(noon)", "datetime.datetime(2024, 2, 29, 12, 0)", SAME),
    ("day.year = 2025", "AttributeError", SAME),
    ('date.strptime("29/02/2024", "%d/%m/%Y")', "AttributeError", "datetime.date(2024, 2, 29)"),
    ('datetime.strptime("29/02/2024 09:30", "%d/%m/%Y %H:%M")', "datetime.datetime(2024, 2, 29, 9, 30)", SAME),
    ('datetime.strptime("1/2/2024 9:30", "%d/%m/%Y %H:%M")', "datetime.datetime(2024, 2, 1, 9, 30)", "ValueError"),
    ('datetime.strptime("29 feb 2024 09:30", "%d %b %Y %H:%M")', "datetime.datetime(2024, 2, 29, 9, 30)", "ValueError"),
    ('Aware.strptime("2024-02-29 09:30 +0100", "%Y-%m-%d %H:%M %z")', "datetime.datetime(2024, 2, 29, 9, 30, tzinfo=datetime.timezone(datetime.timedelta(seconds=3600)))", SAME),
    ('Aware.strptime("2024-02-29 09:30", "%Y-%m-%d %H:%M")', "datetime.datetime(2024, 2, 29, 9, 30)", "ValueError"),
    ('ZoneInfo("Europe/Berlin").key', "'Europe/Berlin'", SAME),
    ('str(ZoneInfo("Europe/Berlin"))', "'Europe/Berlin'", SAME),
    ('ZoneInfo("Europe/Berlin") is ZoneInfo("Europe/Berlin")', "True", SAME),
    ('ZoneInfo("Europe/Berln")', "LookupError", SAME),
    ('ZoneInfo("../Europe/Berlin")', "ValueError", SAME),
    ("zoned.isoformat()", "'2024-03-30T12:00:00+01:00'", SAME),
    ("zoned.hour", "12", SAME),
    ("zoned.utcoffset()", "datetime.timedelta(seconds=3600)", "AttributeError"),
    ("zoned + timedelta(days=1)", "datetime.datetime(2024, 3, 31, 12, 0, tzinfo=zoneinfo.ZoneInfo(key='Europe/Berlin'))", "datetime.datetime(2024, 3, 31, 13, 0, tzinfo=zoneinfo.ZoneInfo(key='Europe/Berlin'))"),
    ("zoned + timedelta(hours=24)", "datetime.datetime(2024, 3, 31, 12, 0, tzinfo=zoneinfo.ZoneInfo(key='Europe/Berlin'))", "datetime.datetime(2024, 3, 31, 13, 0, tzinfo=zoneinfo.ZoneInfo(key='Europe/Berlin'))"),
    ("zoned.replace(day=31)", "datetime.datetime(2024, 3, 31, 12, 0, tzinfo=zoneinfo.ZoneInfo(key='Europe/Berlin'))", SAME),
    ("zoned.replace(day=31, hour=2, minute=30)", "datetime.datetime(2024, 3, 31, 2, 30, tzinfo=zoneinfo.ZoneInfo(key='Europe/Berlin'))", "datetime.datetime(2024, 3, 31, 3, 30, tzinfo=zoneinfo.ZoneInfo(key='Europe/Berlin'))"),
    ("zoned.replace(day=31, hour=2, minute=30).timestamp()", "1711848600.0", SAME),
    ("(zoned.replace(day=31) - zoned).total_seconds()", "86400.0", "82800.0"),
    ("zoned == same_zoned", "True", SAME),
    ("zoned == in_utc", "True", SAME),
    ("in_utc in [later_zoned, zoned]", "True", SAME),
    ("zoned in {in_utc}", "True", SAME),
    ("in_utc != zoned", "False", SAME),
    ("later_zoned == in_utc", "False", SAME),
    ("zoned == noon", "False", SAME),
    ("zoned.astimezone(utc).isoformat()", "'2024-03-30T11:00:00+00:00'", "AttributeError"),
    ("zoned.timestamp()", "1711796400.0", SAME),
    ("calendar.monthrange(day.year, day.month)", "(3, 29)", SAME),
    ("random.choice([day])", "datetime.date(2024, 2, 29)", SAME),
]


def names_of_datetime():
    """Returns what the expressions name, of `datetime`."""
    return {
        "date": datetime.date, "time": datetime.time, "datetime": datetime.datetime, "Aware": datetime.datetime,
        "timedelta": datetime.timedelta, "timezone": datetime.timezone, "utc": datetime.timezone.utc, "ZoneInfo": zoneinfo.ZoneInfo,
        "day": datetime.date(2024, 2, 29), "later": datetime.date(2024, 3, 1), "monday": datetime.date(2024, 2, 26),
        "clock": datetime.time(9, 30), "noon": datetime.datetime(2024, 2, 29, 12), "midnight": datetime.datetime(2024, 2, 29),
        "aware": datetime.datetime(2024, 2, 29, 9, 30, tzinfo=HOUR), "same": datetime.datetime(2024, 2, 29, 8, 30, tzinfo=datetime.timezone.utc),
        "delta": datetime.timedelta(days=1, hours=2), "half": datetime.timedelta(hours=12), "negative": datetime.timedelta(hours=-1),
        "tick": datetime.timedelta(microseconds=3), "range_of_days": [datetime.date(2024, 2, 28), datetime.date(2024, 2, 29)],
        "zoned": datetime.datetime(2024, 3, 30, 12, tzinfo=zoneinfo.ZoneInfo(BERLIN)),
        "same_zoned": datetime.datetime(2024, 3, 30, 7, tzinfo=zoneinfo.ZoneInfo(NEW_YORK)),
        "later_zoned": datetime.datetime(2024, 3, 30, 12, 0, 1, tzinfo=zoneinfo.ZoneInfo(BERLIN)),
        "in_utc": datetime.datetime(2024, 3, 30, 11, tzinfo=datetime.timezone.utc), **MODULES}


def own_names():
    """Returns what the expressions name, of this package."""
    return {
        "date": Date, "time": Time, "datetime": PlainDateTime, "Aware": OffsetDateTime, "timedelta": SignedDuration, "timezone": UtcOffset,
        "utc": UtcOffset.UTC, "ZoneInfo": Zone, "day": Date(2024, 2, 29), "later": Date(2024, 3, 1), "monday": Date(2024, 2, 26),
        "clock": Time(9, 30), "noon": PlainDateTime(2024, 2, 29, 12), "midnight": PlainDateTime(2024, 2, 29),
        "aware": OffsetDateTime(2024, 2, 29, 9, 30, offset=UtcOffset(1)), "same": OffsetDateTime(2024, 2, 29, 8, 30, offset=UtcOffset.UTC),
        "delta": SignedDuration(days=1, hours=2), "half": SignedDuration(hours=12), "negative": SignedDuration(hours=-1),
        "tick": SignedDuration(microseconds=3), "range_of_days": Date(2024, 2, 28).iter_to(Date(2024, 2, 29)),
        "zoned": ZonedDateTime.from_local(PlainDateTime(2024, 3, 30, 12), Zone(BERLIN)),
        "same_zoned": ZonedDateTime.from_local(PlainDateTime(2024, 3, 30, 7), Zone(NEW_YORK)),
        "later_zoned": ZonedDateTime.from_local(PlainDateTime(2024, 3, 30, 12, 0, 1), Zone(BERLIN)),
        "in_utc": OffsetDateTime(2024, 3, 30, 11, offset=UtcOffset.UTC), **MODULES}


def converted(value):
    """Returns the text of a value, as of `datetime`, if that has it."""
    ways = {Date: "to_date", Time: "to_time", UtcOffset: "to_timezone", SignedDuration: "to_timedelta"}
    way = ways.get(type(value), "to_datetime")
    if isinstance(value, (Month, Weekday)):
        return repr(int(value))
    if isinstance(value, tuple):
        return f"({', '.join(map(converted, value))})"
    try:
        return repr(getattr(value, way)())
    except (AttributeError, ValueError, OverflowError):
        return repr(value)


def answer(expression, names):
    """Returns the text of the value of an expression, or the name of the error that it raises."""
    try:
        if expression.startswith("day.year ="):
            exec(expression, names)
            return "done"
        return converted(eval(expression, names))
    except Exception as error:
        kinds = (ValueError, LookupError) if not isinstance(error, json.JSONDecodeError) else ()
        return next((kind.__name__ for kind in kinds if isinstance(error, kind)), type(error).__name__)


class FromDatetime(unittest.TestCase):
    def test_rows(self):
        page = PAGE.read_text(encoding="utf-8")
        for expression, of_datetime, own in ROWS:
            with self.subTest(expression):
                if sys.version_info >= (3, 11):
                    self.assertEqual(answer(expression, names_of_datetime()), of_datetime)
                found = answer(expression, own_names())
                if own is not SAME or "Error" not in of_datetime:
                    self.assertEqual(found, of_datetime if own is SAME else own)
                self.assertEqual("Error" in found, "Error" in (of_datetime if own is SAME else own))
                is_silent = own is not SAME and "Error" not in of_datetime + own
                self.assertTrue(not is_silent or f"| `{expression}` |" in page, "no line in FROM_DATETIME.md")


if __name__ == "__main__":
    unittest.main()
