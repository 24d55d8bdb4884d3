"""Tests of date-times in a zone. Expected values are from the documentation of Temporal, from the history of zones, and from the module
zoneinfo, for all files of the system."""

import calendar
import copy
import datetime
import itertools
import operator
import pickle
import random
import unittest
import zoneinfo

from fotsevindre import CalendarUnit, Date, OffsetDateTime, Period, PlainDateTime, Policy, RoundingMode, SignedDuration, Steps, Time, UtcOffset, Weekday, Zone, ZonedDateTime
from fotsevindre import zones

UTC = datetime.timezone.utc
EPOCH = datetime.datetime(1970, 1, 1, tzinfo=UTC)
SECOND = datetime.timedelta(seconds=1)
DAY = datetime.timedelta(1)
# Instants of each zone that are drawn near changes, and as many more.
DRAWN = 30
POLICIES = (Policy.Compatible, Policy.Earlier, Policy.Later)


def of(text, key, policy=Policy.Compatible):
    return ZonedDateTime.from_local(PlainDateTime.parse(text), Zone(key), policy)


class WorkedRows(unittest.TestCase):
    def test_periods(self):
        for key, start, period, compatible, earlier, later in (
            # The clocks of Berlin go forward at 2:00 on 31 March 2024, and back at 3:00 on 27 October.
            ("Europe/Berlin", "2024-03-30T12:00", Period(days=1), "03-31T12:00:00+02:00", None, None),
            ("Europe/Berlin", "2024-03-30T12:00", Period(duration=SignedDuration(hours=24)), "03-31T13:00:00+02:00", None, None),
            ("Europe/Berlin", "2024-03-30T02:30", Period(days=1), "03-31T03:30:00+02:00", "03-31T01:30:00+01:00", None),
            ("Europe/Berlin", "2024-02-29T02:30", Period(months=1, days=2), "03-31T03:30:00+02:00", "03-31T01:30:00+01:00", None),
            ("Europe/Berlin", "2024-03-30T02:30", Period(days=1, duration=SignedDuration(hours=1)), "03-31T04:30:00+02:00",
                "03-31T03:30:00+02:00", None),
            ("Europe/Berlin", "2024-04-01T02:30", Period(days=-1), "03-31T03:30:00+02:00", "03-31T01:30:00+01:00", None),
            ("Europe/Berlin", "2024-10-26T02:30", Period(days=1), "10-27T02:30:00+02:00", None, "10-27T02:30:00+01:00"),
            ("Europe/Berlin", "2024-10-20T02:30", Period(weeks=1), "10-27T02:30:00+02:00", None, "10-27T02:30:00+01:00"),
            ("Europe/Berlin", "2024-08-31T12:00", Period(months=6), "2025-02-28T12:00:00+01:00", None, None),
            # The clocks of Lord Howe go by half an hour.
            ("Australia/Lord_Howe", "2024-10-05T02:15", Period(days=1), "10-06T02:45:00+11:00", "10-06T01:45:00+10:30", None),
            ("Australia/Lord_Howe", "2024-04-06T01:45", Period(days=1), "04-07T01:45:00+11:00", None, "04-07T01:45:00+10:30"),
            # Apia skipped 30 December 2011.
            ("Pacific/Apia", "2011-12-29T12:00", Period(days=1), "2011-12-31T12:00:00+14:00", "2011-12-29T12:00:00-10:00", None),
            ("Pacific/Apia", "2011-12-29T12:00", Period(days=2), "2011-12-31T12:00:00+14:00", None, None),
            ("Pacific/Apia", "2011-12-29T12:00", Period(duration=SignedDuration(hours=24)), "2011-12-31T12:00:00+14:00", None, None),
        ):
            moment = of(start, key)
            for policy, text in zip(POLICIES, (compatible, earlier or compatible, later or compatible)):
                text = text if text.count("-") > 2 or text[4] == "-" else f"{start[:4]}-{text}"
                self.assertEqual(str(moment.add_period(period, policy)), text, (key, start, period, policy))
                self.assertEqual(moment.checked_add_period(period, policy), moment.add_period(period, policy))
            self.assertEqual(moment + period, moment.add_period(period))

    def test_periods_that_resolve_nothing(self):
        second = of("2024-10-27T02:30", "Europe/Berlin", Policy.Later)
        for period, policy in itertools.product((Period(), Period(years=0, days=0)), Policy):
            self.assertEqual(second.add_period(period, policy).offset, UtcOffset(1))
        self.assertEqual(second.add_period(Period(duration=SignedDuration(minutes=-30)), Policy.Reject).offset, UtcOffset(1))
        # A week and back lands on the first one.
        self.assertEqual(second + Period(weeks=1) + Period(weeks=-1), of("2024-10-27T02:30", "Europe/Berlin"))

    def test_rejected(self):
        for day, period in (("2024-03-30", Period(days=1)), ("2024-09-27", Period(months=1))):
            moment = of(f"{day}T02:30", "Europe/Berlin")
            for call in (moment.add_period, moment.checked_add_period):
                self.assertRaises(ValueError, call, period, Policy.Reject)
            self.assertRaises(ValueError, of, f"{moment.date() + period}T02:30", "Europe/Berlin", Policy.Reject)
        self.assertRaises(ValueError, of("2024-03-30T02:30", "Europe/Berlin").with_date, Date(2024, 3, 31), Policy.Reject)
        self.assertRaises(ValueError, of("2024-03-01T02:30", "Africa/Casablanca").with_local, PlainDateTime.parse("2024-04-14T02:30"), Policy.Reject)

    def test_components(self):
        second = of("2024-10-27T02:30", "Europe/Berlin", Policy.Later)
        for policy in Policy:
            self.assertEqual(str(second.with_time(Time(2, 45), policy)), "2024-10-27T02:45:00+01:00")
            self.assertEqual(str(second.with_date(second.date(), policy)), "2024-10-27T02:30:00+01:00")
        first = of("2024-10-27T01:30", "Europe/Berlin").with_time(Time(2, 45), Policy.Later)
        self.assertEqual(str(first), "2024-10-27T02:45:00+02:00")
        # Neither offset of the 27th is this one's.
        summer = of("2024-07-01T02:30", "Europe/Berlin")
        self.assertEqual(str(summer.with_date(Date(2024, 12, 1))), "2024-12-01T02:30:00+01:00")
        self.assertEqual(str(summer.with_local(PlainDateTime.parse("2024-03-31T02:30"), Policy.Earlier)), "2024-03-31T01:30:00+01:00")
        self.assertEqual((summer.zone, summer.year, summer.month, summer.day, summer.hour, summer.minute, summer.second, summer.nanosecond, summer.offset),
            (Zone("Europe/Berlin"), 2024, 7, 1, 2, 30, 0, 0, UtcOffset(2)))
        self.assertEqual((summer.date(), summer.time(), summer.local(), summer.weekday()),
            (Date(2024, 7, 1), Time(2, 30), PlainDateTime.parse("2024-07-01T02:30"), Weekday.Monday))

    def test_days(self):
        for key, day, start, hours in (
            ("Europe/Berlin", "2024-03-30", "03-30T00:00:00+01:00", 24), ("Europe/Berlin", "2024-03-31", "03-31T00:00:00+01:00", 23),
            ("Europe/Berlin", "2024-10-27", "10-27T00:00:00+02:00", 25), ("Australia/Lord_Howe", "2024-04-07", "04-07T00:00:00+11:00", 24.5),
            # A gap from 23:30 to 0:30, a gap from 0:00 to 1:00, and a fold from 0:00 to 23:00.
            ("America/Toronto", "1919-03-30", "03-30T00:00:00-05:00", 23.5), ("America/Toronto", "1919-03-31", "03-31T00:30:00-04:00", 23.5),
            ("America/Sao_Paulo", "2018-11-04", "11-04T01:00:00-02:00", 23), ("America/Sao_Paulo", "2019-02-16", "02-16T00:00:00-02:00", 25),
            ("Pacific/Apia", "2011-12-29", "12-29T00:00:00-10:00", 24), ("Pacific/Apia", "2011-12-30", "12-31T00:00:00+14:00", 0),
            ("Pacific/Apia", "2011-12-31", "12-31T00:00:00+14:00", 24),
        ):
            zone, date = Zone(key), Date.parse(day)
            found = zone.start_of_day(date)
            self.assertEqual((str(found), found.zone, zone.day_length(date)), (f"{day[:4]}-{start}", zone, SignedDuration(minutes=int(60 * hours))), (key, day))
            noon = of(f"{day}T12:00", key)
            if noon.date() == date:
                self.assertEqual((noon.start_of_day(), noon.day_length()), (found, zone.day_length(date)))

    def test_rounding(self):
        """The examples of the documentation of Temporal, and days of 23 and 25 hours by a count."""
        hour, half, day = SignedDuration.HOUR, SignedDuration(minutes=30), SignedDuration.DAY
        for text, key, unit, mode, wanted in (
            ("1995-12-07T03:24:30.0000035", "America/Los_Angeles", hour, RoundingMode.HalfCeil, "1995-12-07T03:00:00-08:00"),
            ("1995-12-07T03:24:30.0000035", "America/Los_Angeles", half, RoundingMode.HalfCeil, "1995-12-07T03:30:00-08:00"),
            ("1995-12-07T03:24:30.0000035", "America/Los_Angeles", half, RoundingMode.Floor, "1995-12-07T03:00:00-08:00"),
            ("2024-03-31T01:50", "Europe/Berlin", hour, RoundingMode.HalfCeil, "2024-03-31T03:00:00+02:00"),
            ("2024-03-31T12:29", "Europe/Berlin", day, RoundingMode.HalfCeil, "2024-03-31T00:00:00+01:00"),
            ("2024-03-31T12:30", "Europe/Berlin", day, RoundingMode.HalfCeil, "2024-04-01T00:00:00+02:00"),
            ("2024-10-27T11:29", "Europe/Berlin", day, RoundingMode.HalfCeil, "2024-10-27T00:00:00+02:00"),
            ("2024-10-27T11:30", "Europe/Berlin", day, RoundingMode.HalfCeil, "2024-10-28T00:00:00+01:00"),
        ):
            self.assertEqual(str(of(text, key).round(unit, mode)), wanted, (text, mode))
        noon = of("2024-03-31T12:30", "Europe/Berlin")
        self.assertEqual(noon.round(hour), of("2024-03-31T13:00", "Europe/Berlin"))
        self.assertRaises(ValueError, noon.round, SignedDuration(minutes=7))
        self.assertRaises(TypeError, noon.round, 3600)
        self.assertRaises(TypeError, noon.round, hour, 3)
        last = ZonedDateTime(OffsetDateTime(Date.MAX, Time(23, 50), UtcOffset(0)), Zone.from_posix("<+00>0"))
        self.assertRaises(OverflowError, last.round, hour)

    def test_range(self):
        east, west = Zone.from_posix("<+14>-14"), Zone.from_posix("<-10>10")
        last = ZonedDateTime.from_local(PlainDateTime.MAX, west)
        self.assertEqual((last.local(), last.checked_add(SignedDuration.NANOSECOND), last.checked_add_period(Period(days=1))), (PlainDateTime.MAX, None, None))
        for call in (lambda: last + SignedDuration.NANOSECOND, lambda: last + Period(days=1), lambda: last.in_zone(east), lambda: last - -SignedDuration.DAY,
                lambda: west.day_length(Date.MAX), lambda: ZonedDateTime(OffsetDateTime.new_utc(Date.MAX, Time.MAX), east)):
            self.assertRaises(OverflowError, call)
        self.assertEqual((last - SignedDuration.DAY).date(), Date.MAX.previous_day())
        self.assertEqual(ZonedDateTime.from_local(PlainDateTime.MIN, east).checked_sub(SignedDuration.NANOSECOND), None)
        for seconds in (2**63 - 1, 2**63, -10**30):
            for call in (ZonedDateTime.from_unix_timestamp, ZonedDateTime.from_unix_timestamp_nanos):
                self.assertRaises(OverflowError, call, seconds * 10**9, east)
        # What the clocks show is in the range, and what they show at UTC isn't.
        self.assertEqual(ZonedDateTime.from_unix_timestamp_nanos(last.unix_timestamp_nanos(), west), last)
        self.assertRaises(OverflowError, lambda: last.to_utc())


class Values(unittest.TestCase):
    def test_constructors(self):
        berlin, instant = Zone("Europe/Berlin"), 1711846800
        moment = OffsetDateTime.from_unix_timestamp(instant)
        found = ZonedDateTime(moment, berlin)
        self.assertEqual((str(found), repr(found), found.to_offset_date_time()), ("2024-03-31T03:00:00+02:00", "ZonedDateTime(OffsetDateTime(2024, 3, 31, 3, 0, offset=UtcOffset(2)), Zone('Europe/Berlin'))", moment))
        self.assertEqual((found.to_offset_date_time().offset, str(found.to_utc()), type(found.to_utc())), (UtcOffset(2), "2024-03-31T01:00:00+00:00", OffsetDateTime))
        for same in (ZonedDateTime.from_unix_timestamp(instant, berlin), ZonedDateTime.from_unix_duration(SignedDuration.seconds(instant), berlin),
                ZonedDateTime.from_unix_timestamp_nanos(instant * 10**9, berlin), of("2024-03-31T03:00", "Europe/Berlin"), copy.copy(found),
                copy.deepcopy(found), *(pickle.loads(pickle.dumps(found, protocol)) for protocol in range(6)), found.in_zone(Zone("Asia/Tokyo")).in_zone(berlin)):
            self.assertEqual((same, hash(same), str(same), same.zone), (found, hash(found), str(found), berlin))
        self.assertEqual((found.unix_timestamp(), found.unix_timestamp_nanos(), found.unix_duration()), (instant, instant * 10**9, SignedDuration.seconds(instant)))
        self.assertEqual(str(found.in_zone(Zone("America/New_York"))), "2024-03-30T21:00:00-04:00")
        self.assertEqual((f"{found:%F %T %Z}", found.strftime("%z"), f"{found:>27}"), ("2024-03-31 03:00:00 CEST", "+0200", f"  {found}"))

    def test_moves_of_the_clocks(self):
        """Rows of the gap of 2024-03-31 and the fold of 2024-10-27 in Berlin."""
        night, fold = of("2024-03-30T02:30", "Europe/Berlin"), of("2024-10-27T02:30", "Europe/Berlin", Policy.Later)
        rows = [
            (night.moved_to(Date(2024, 3, 31)), "2024-03-31T03:30:00+02:00"), (night.moved_to(Date(2024, 3, 31), Policy.Earlier), "2024-03-31T01:30:00+01:00"),
            (fold.moved_to(fold.date()), "2024-10-27T02:30:00+01:00"), (of("2024-01-31T02:30", "Europe/Berlin").nth_period(Period(months=1), 2), "2024-03-31T03:30:00+02:00"),
            (night.start_of(CalendarUnit.Month), "2024-03-01T00:00:00+01:00"), (night.end_of(CalendarUnit.Month), "2024-03-31T23:59:59.999999999+02:00"),
            (of("2024-03-31T12:00", "Europe/Berlin").start_of(CalendarUnit.Day), "2024-03-31T00:00:00+01:00"), (night.start_of(CalendarUnit.Week), "2024-03-25T00:00:00+01:00"),
            (night.end_of(CalendarUnit.Year), "2024-12-31T23:59:59.999999999+01:00"), (night.start_of(CalendarUnit.Quarter), "2024-01-01T00:00:00+01:00"),
        ]
        self.assertEqual([str(found) for found, _ in rows], [wanted for _, wanted in rows])
        noon, later = of("2024-03-30T12:00", "Europe/Berlin"), of("2024-03-31T13:00", "Europe/Berlin")
        self.assertEqual((noon.period_until(later), noon.period_until(later.in_zone(Zone("Asia/Tokyo"))), noon.period_until(noon)),
            (Period(days=1, duration=SignedDuration(hours=1)),) * 2 + (Period(),))
        self.assertEqual([str(one) for one in itertools.islice(Steps(of("2024-03-30T02:30", "Europe/Berlin"), Period(days=1)), 3)],
            ["2024-03-30T02:30:00+01:00", "2024-03-31T03:30:00+02:00", "2024-04-01T02:30:00+02:00"])
        draw, zone = random.Random(101), Zone("Europe/Berlin")
        for _ in range(300):
            one, other = (ZonedDateTime.from_unix_timestamp(draw.randint(0, 2 * 10**9), zone) for _ in "12")
            for unit, policy in itertools.product(CalendarUnit, (Policy.Compatible, Policy.Earlier, Policy.Later)):
                self.assertEqual(one.add_period(one.period_until(other, unit, policy), policy), other)
        for call in (lambda: night.moved_to(night), lambda: night.start_of(1), lambda: night.end_of("day"), lambda: night.period_until(night.local()), lambda: night.nth_period(1, 1)):
            self.assertRaises(TypeError, call)

    def test_habits_of_datetime(self):
        value, other = of("2024-02-29T09:30:15.25", "Europe/Berlin"), datetime.datetime(2024, 2, 29, 9, 30, 15, 250000, tzinfo=zoneinfo.ZoneInfo("Europe/Berlin"))
        self.assertEqual((value.isoformat(), value.timestamp(), value.isoweekday(), value.isocalendar(), value.microsecond, value.replace(hour=1).hour),
            (other.isoformat(), other.timestamp(), other.isoweekday(), tuple(other.isocalendar()), other.microsecond, 1))
        self.assertEqual((ZonedDateTime.fromtimestamp(other.timestamp(), value.zone), copy.copy(value) is value, copy.deepcopy(value) is value), (value, True, True))
        night = of("2024-02-29T02:30", "Europe/Berlin")
        self.assertEqual([str(one) for one in (night.add_months(1), night.replace(month=3, day=31, policy=Policy.Earlier), night.add_years(1), night - Period(months=1))],
            ["2024-03-29T02:30:00+01:00", "2024-03-31T01:30:00+01:00", "2025-02-28T02:30:00+01:00", "2024-01-29T02:30:00+01:00"])
        self.assertEqual(str(of("2024-02-29T02:30", "Europe/Berlin").replace(day=28).add_months(1, Policy.Later)), "2024-03-28T02:30:00+01:00")
        self.assertEqual(Zone.from_posix("CET-1"), eval(repr(Zone.from_posix("CET-1"))))
        for wrong in ({"hours": 1}, {"offset": UtcOffset(1)}, {"hour": "1"}):
            self.assertRaises(TypeError, value.replace, **wrong)

    def test_comparison(self):
        berlin, tokyo = (ZonedDateTime.from_unix_timestamp(1711846800, Zone(key)) for key in ("Europe/Berlin", "Asia/Tokyo"))
        later = berlin + SignedDuration.NANOSECOND
        self.assertEqual((berlin, hash(berlin), later - tokyo), (tokyo, hash(tokyo), SignedDuration.NANOSECOND))
        self.assertTrue(berlin <= tokyo < later and later > tokyo >= berlin and berlin != later and not berlin < tokyo and not berlin > tokyo)
        self.assertEqual(sorted([later, tokyo]), [tokyo, later])
        for moment in (berlin.to_offset_date_time(), berlin.to_utc()):
            self.assertTrue(berlin == moment and moment == tokyo and later != moment and moment != later)
            self.assertEqual(({moment: 1}[tokyo], moment in {tokyo}, later in [moment]), (1, True, False))
        self.assertFalse(berlin == 1 or berlin == "2024" or berlin == berlin.local() or berlin.local() == berlin or berlin == None)
        for compare in (operator.eq, operator.ne, operator.lt):
            self.assertRaises(TypeError, compare, berlin, berlin.to_datetime())
            self.assertRaises(TypeError, compare, berlin.to_datetime(), berlin)

    def test_what_is_refused(self):
        value, zone = of("2024-03-31T12:00", "Europe/Berlin"), Zone("Europe/Berlin")
        for call in (
            lambda: value + 1, lambda: 1 + value, lambda: value - 1, lambda: value + value, lambda: Period(days=1) + value,
            lambda: SignedDuration.DAY + value, lambda: datetime.timedelta(1) - value, lambda: value < value.to_offset_date_time(), lambda: value < 1,
            lambda: ZonedDateTime(value, zone), lambda: ZonedDateTime(value.to_offset_date_time(), "Europe/Berlin"), lambda: value.in_zone("Asia/Tokyo"),
            lambda: ZonedDateTime.from_local(value, zone), lambda: ZonedDateTime.from_local(value.local(), zone, 0), lambda: value.with_date(value),
            lambda: value.with_time(1), lambda: value.with_local(value.date()), lambda: value.add_period(1), lambda: value.add_period(Period(), 0),
            lambda: value.checked_add(datetime.timedelta(1)), lambda: value.checked_sub(1), lambda: zone.start_of_day(value), lambda: zone.day_length("2024-01-01"),
            lambda: ZonedDateTime.from_unix_timestamp(1.0, zone), lambda: ZonedDateTime.from_unix_duration(1, zone), lambda: zone.add_days([0], [1], 0),
            lambda: ZonedDateTime.from_datetime(datetime.date(2024, 1, 1)),
        ):
            self.assertRaises(TypeError, call)
        for name in ("year", "zone", "_moment"):
            self.assertRaises(AttributeError, setattr, value, name, 1)

    def test_datetimes(self):
        info = zoneinfo.ZoneInfo("Europe/Berlin")
        for text, fold in (("2024-03-31T02:30", 0), ("2024-03-31T02:30", 1), ("2024-10-27T02:30", 0), ("2024-10-27T02:30", 1), ("0001-01-02T00:00:00.000001", 0)):
            other = datetime.datetime.fromisoformat(text).replace(tzinfo=info, fold=fold)
            found = ZonedDateTime.from_datetime(other)
            back = found.to_datetime()
            self.assertEqual((found.zone, back.astimezone(UTC), back.tzinfo, found.offset.to_timezone().utcoffset(None)),
                (Zone("Europe/Berlin"), other.astimezone(UTC), info, back.utcoffset()), text)
            self.assertEqual(ZonedDateTime.from_datetime(back), found)
            for delta in (datetime.timedelta(1), datetime.timedelta(hours=1, microseconds=1)):
                self.assertEqual(((found + delta).to_datetime().astimezone(UTC), delta + found, found + delta - delta), (
                    other.astimezone(UTC) + delta, found + delta, found))
        for value in (datetime.datetime(2024, 1, 1), datetime.datetime(2024, 1, 1, tzinfo=UTC)):
            self.assertRaises(ValueError, ZonedDateTime.from_datetime, value)
        self.assertRaises(LookupError, ZonedDateTime(OffsetDateTime.UNIX_EPOCH, Zone.from_posix("CET-1")).to_datetime)
        self.assertRaises(OverflowError, (of("9999-12-31T12:00", "Europe/Berlin") + Period(days=1)).to_datetime)


def days_after(naive, days):
    return naive + days * DAY


def months_after(naive, months):
    year, month = divmod(naive.year * 12 + naive.month - 1 + months, 12)
    return naive.replace(year=year, month=month + 1, day=min(naive.day, calendar.monthrange(year, month + 1)[1]))


class AgainstZoneinfo(unittest.TestCase):
    """All files of the system, near changes above all. In a gap, fold=0 of Python is the offset before it."""

    FOLDS = {Policy.Compatible: (0, 0), Policy.Earlier: (1, 0), Policy.Later: (0, 1)}

    def instant(self, naive, info, policy):
        """Returns the instant that a reading means by a policy, and whether the clocks show it once."""
        first, second = ((naive.replace(tzinfo=info, fold=fold) - naive.replace(tzinfo=info, fold=fold).utcoffset()).replace(tzinfo=UTC) for fold in (0, 1))
        if first == second:
            return first, True
        in_gap = first.astimezone(info).replace(tzinfo=None) != naive
        return (second if self.FOLDS[policy][0 if in_gap else 1] else first), False

    def changes(self, zone, first=-2208988800, last=4102444800):
        instant = zone.next_change(first)
        while instant is not None and instant < last:
            yield instant
            instant = zone.next_change(instant)

    def check_moves(self, key, info, zone, instants, draw):
        for instant in instants:
            start = ZonedDateTime.from_unix_timestamp(instant, zone)
            naive = (EPOCH + instant * SECOND).astimezone(info).replace(tzinfo=None, fold=0)
            self.assertEqual(start.local(), PlainDateTime.from_datetime(naive))
            days, months, hours = draw.choice((1, -1, 7, draw.randrange(1, 400))), draw.choice((1, -1, 12, draw.randrange(1, 60))), draw.randrange(24)
            for policy in POLICIES:
                for move, period in ((days_after(naive, days), Period(days=days)), (months_after(naive, months), Period(months=months))):
                    wanted, is_once = self.instant(move, info, policy)
                    case = (key, instant, period, policy)
                    found = start.add_period(period, policy)
                    self.assertEqual(found.unix_timestamp(), (wanted - EPOCH) // SECOND, case)
                    self.assertEqual(found.local(), PlainDateTime.from_datetime(wanted.astimezone(info).replace(tzinfo=None)), case)
                    if is_once:
                        self.assertEqual(start.add_period(period, Policy.Reject), found, case)
                    else:
                        self.assertRaises(ValueError, start.add_period, period, Policy.Reject)
            later = start + Period(days=abs(days), duration=SignedDuration(hours=hours))
            self.assertEqual(later, start + Period(days=abs(days)) + SignedDuration(hours=hours))
            self.check_kept(key, info, start, naive + draw.randrange(-100_000, 100_000) * SECOND)

    def check_kept(self, key, info, start, naive):
        """Another local time keeps the offset if the clocks show it at that."""
        kept = naive - start.offset.to_timezone().utcoffset(None)
        shown = kept.replace(tzinfo=UTC).astimezone(info)
        for policy in POLICIES:
            wanted = shown if shown.replace(tzinfo=None, fold=0) == naive else self.instant(naive, info, policy)[0]
            found = start.with_local(PlainDateTime.from_datetime(naive), policy)
            self.assertEqual(found.unix_timestamp(), (wanted - EPOCH) // SECOND, (key, start, naive, policy))

    def check_days(self, key, info, zone, instants):
        """A day starts at its midnight by some offset, or at a change."""
        for instant in instants:
            midnight = (EPOCH + instant * SECOND).astimezone(info).replace(tzinfo=None, fold=0, hour=0, minute=0, second=0)
            for day in (midnight, midnight + DAY):
                starts = []
                for one in (day, day + DAY):
                    near = int((one.replace(tzinfo=UTC) - EPOCH).total_seconds()) - 200_000
                    candidates = {one.replace(tzinfo=UTC) - (EPOCH + at * SECOND).astimezone(info).utcoffset() for at in self.nearby(zone, near)}
                    candidates |= {EPOCH + at * SECOND for at in self.nearby(zone, near)}
                    starts.append(min(at for at in candidates if at.astimezone(info).replace(tzinfo=None) >= one))
                date = Date.from_date(day.date())
                found = zone.start_of_day(date)
                self.assertEqual(found.unix_timestamp(), (starts[0] - EPOCH) // SECOND, (key, day))
                self.assertEqual(zone.day_length(date), SignedDuration.from_timedelta(starts[1] - starts[0]), (key, day))

    def nearby(self, zone, near):
        """Returns the changes from an instant on, for some days, and a time after the last one."""
        return [near + 1, *self.changes(zone, near, near + 500_000), near + 500_000]

    def check_columns(self, zone, instants, draw):
        numbers = [draw.randrange(-500, 500) for _ in instants]
        starts = [ZonedDateTime.from_unix_timestamp(instant, zone) for instant in instants]
        for policy in POLICIES:
            for call, name in ((zone.add_days, "days"), (zone.add_months, "months")):
                wanted = [start.add_period(Period(**{name: number}), policy).unix_timestamp() for start, number in zip(starts, numbers)]
                found = call(instants, numbers, policy)
                self.assertEqual((list(found.seconds), list(found.statuses), found.error_count), (wanted, [0] * len(wanted), 0))
        self.assertEqual(list(zone.starts_of_day(instants).seconds), [start.start_of_day().unix_timestamp() for start in starts])

    def test_all_files(self):
        draw, seen = random.Random(1), set()
        for key in sorted(zoneinfo.available_timezones()):
            data = zones._file_of(key)
            if data in seen:
                continue
            seen.add(data)
            info, zone = zoneinfo.ZoneInfo(key), Zone(key)
            changes = list(self.changes(zone))
            near = [change + draw.randrange(-100_000, 100_000) for change in draw.sample(changes, min(len(changes), DRAWN))]
            drawn = near + [draw.randrange(-2208988800, 4102444800) for _ in range(DRAWN)]
            self.check_moves(key, info, zone, drawn, draw)
            self.check_days(key, info, zone, near)
            self.check_columns(zone, drawn, draw)
        self.assertGreater(len(seen), 200)


if __name__ == "__main__":
    unittest.main()
