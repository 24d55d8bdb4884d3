"""Tests of the date-times of the Python client, over the library itself. Expected values come from worked rows, from the standard
library of Python and from whole numbers of any size."""

import copy
import datetime
import itertools
import operator
import pickle
import random
import unittest

import fotsevindre
from fotsevindre import ComponentRange, Date, OffsetDateTime, PlainDateTime, RoundingMode, SignedDuration, Time, UtcOffset

SECOND = 10**9
DAY = 86400 * SECOND
FIRST_DAY = -363521074
LAST = (366963559 - FIRST_DAY + 1) * DAY - 1
EPOCH = (2440588 - FIRST_DAY) * DAY
GREATEST = SignedDuration.MAX
LEAST = SignedDuration.MIN


def plain(text, hour=0, minute=0, second=0, nanosecond=0):
    return PlainDateTime.new(Date.parse(text), Time.from_hms_nano(hour, minute, second, nanosecond))


def at(hours, *parts):
    return plain(*parts).assume_offset(UtcOffset.from_hms(hours, 0, 0))


NIGHT = at(1, "2024-02-29", 23, 59, 59, 250_000_000)


def local_of(moment):
    """The nanoseconds since the first moment of the range that the clock shows."""
    hour, minute, second, nanosecond = moment.as_hms_nano()
    return (moment.to_julian_day() - FIRST_DAY) * DAY + ((hour * 60 + minute) * 60 + second) * SECOND + nanosecond


def instant_of(moment):
    return local_of(moment) - moment.offset.whole_seconds() * SECOND


def plain_at(local):
    """The date-time of so many nanoseconds, or `None`."""
    if not 0 <= local <= LAST:
        return None
    day, rest = divmod(local, DAY)
    seconds, nanosecond = divmod(rest, SECOND)
    time = Time.from_hms_nano(seconds // 3600, seconds // 60 % 60, seconds % 60, nanosecond)
    return PlainDateTime.new(Date.from_julian_day(FIRST_DAY + day), time)


def shows(moment):
    """All that a date-time at an offset shows, which its equality does not tell."""
    return moment and (local_of(moment), moment.offset.whole_seconds())


class Cases(unittest.TestCase):
    def refused(self, name, is_conditional, call, *arguments):
        with self.assertRaises(ComponentRange, msg=arguments) as caught:
            call(*arguments)
        self.assertEqual((caught.exception.name, caught.exception.is_conditional), (name, is_conditional), arguments)

    def past(self, call, *arguments):
        with self.assertRaises(OverflowError, msg=arguments):
            call(*arguments)


class Rows(Cases):
    def test_a_leap_night(self):
        at_utc, further_east = at(0, "2024-02-29", 22, 59, 59, 250_000_000), at(2, "2024-03-01", 0, 59, 59, 250_000_000)
        self.assertEqual((NIGHT.unix_timestamp(), NIGHT.unix_timestamp_nanos()), (1709247599, 1709247599250000000))
        self.assertEqual(shows(NIGHT.to_utc()), shows(at_utc))
        self.assertEqual(shows(NIGHT.to_offset(UtcOffset.from_hms(2, 0, 0))), shows(further_east))
        self.assertEqual(shows(OffsetDateTime.from_unix_timestamp_nanos(1709247599250000000)), shows(at_utc))
        self.assertEqual(shows(OffsetDateTime.from_unix_duration(NIGHT.unix_duration())), shows(at_utc))
        self.assertEqual(shows(OffsetDateTime.from_unix_timestamp(1709247599)), shows(at_utc.truncate_to_second()))
        for one, other in itertools.permutations([NIGHT, at_utc, further_east], 2):
            self.assertTrue(one == other and one <= other and one >= other)
            self.assertFalse(one != other or one < other or one > other)
            self.assertEqual(hash(one), hash(other))
            self.assertEqual(one - other, SignedDuration.ZERO)
        self.assertLess(NIGHT, NIGHT.replace_offset(UtcOffset.UTC))
        self.assertEqual(NIGHT.replace_offset(UtcOffset.UTC) - NIGHT, SignedDuration.HOUR)
        self.assertEqual(str(NIGHT), "2024-02-29T23:59:59.250000+01:00")
        self.assertEqual(f"{NIGHT.local():>28}", "  2024-02-29T23:59:59.250000")
        self.assertEqual(NIGHT + SignedDuration.hours(2), at(1, "2024-03-01", 1, 59, 59, 250_000_000))
        self.assertEqual(NIGHT - SignedDuration.DAY, at(1, "2024-02-28", 23, 59, 59, 250_000_000))

    def test_before_the_epoch(self):
        half = at(0, "1969-12-31", 23, 59, 59, 500_000_000)
        self.assertEqual((half.unix_timestamp(), half.unix_timestamp_nanos()), (-1, -500_000_000))
        self.assertEqual(OffsetDateTime.from_unix_timestamp_nanos(-500_000_000), half)
        self.assertEqual(shows(OffsetDateTime.UNIX_EPOCH), shows(at(0, "1970-01-01")))

    def test_ends_of_the_range(self):
        first, last = PlainDateTime.MIN.assume_utc(), PlainDateTime.MAX.assume_utc()
        west, east = at(-2, "+999999-12-31", 23), PlainDateTime.MIN.assume_offset(UtcOffset.from_hms(1, 0, 0))
        for moment in (west, east):
            self.assertIsNone(moment.checked_to_utc())
            self.past(moment.to_utc)
        self.assertGreater(west, at(0, "+999999-12-31", 23, 59, 59))
        self.assertGreater(west, last)
        self.assertLess(east, first)
        self.assertEqual(west - last, SignedDuration.new(3600, 1))
        for value, end in [(first, last), (PlainDateTime.MIN, PlainDateTime.MAX)]:
            self.assertIsNone(value.checked_add(GREATEST))
            self.past(operator.add, value, GREATEST)
            self.assertEqual(value.saturating_add(GREATEST), end)
            self.assertIsNone(end.checked_sub(GREATEST))
            self.past(operator.sub, end, GREATEST)
            self.assertEqual(end.saturating_sub(GREATEST), value)
            self.past(operator.add, end, SignedDuration.NANOSECOND)
            self.assertEqual(end - value, SignedDuration.nanoseconds_i128(LAST))
        seconds = [(first.unix_timestamp(), -1), (last.unix_timestamp(), 1)]
        for timestamp, past in seconds:
            OffsetDateTime.from_unix_timestamp(timestamp)
            self.refused("timestamp", False, OffsetDateTime.from_unix_timestamp, timestamp + past)
        for number in (2**63 - 1, 2**63, -2**63, -2**63 - 1, 10**40, -10**40):
            self.refused("timestamp", False, OffsetDateTime.from_unix_timestamp, number)
            self.refused("timestamp", False, OffsetDateTime.from_unix_timestamp_nanos, number * SECOND)
        for number in (LAST - EPOCH + 1, -EPOCH - 1):
            self.refused("timestamp", False, OffsetDateTime.from_unix_timestamp_nanos, number)
        self.assertEqual(OffsetDateTime.from_unix_timestamp_nanos(LAST - EPOCH), last)
        self.assertEqual(OffsetDateTime.from_unix_timestamp_nanos(-EPOCH), first)
        self.refused("timestamp", False, OffsetDateTime.from_unix_duration, GREATEST)

    def test_parts(self):
        for value in (NIGHT, NIGHT.local()):
            self.assertEqual((value.year, value.month, value.day, value.ordinal), (2024, 2, 29, 60))
            self.assertEqual((value.iso_week, value.sunday_based_week, value.monday_based_week), (9, 8, 9))
            self.assertEqual((value.weekday().name, value.to_julian_day()), ("Thursday", 2460370))
            self.assertEqual((value.to_calendar_date(), value.to_ordinal_date()), ((2024, 2, 29), (2024, 60)))
            self.assertEqual(value.to_iso_week_date()[:2], (2024, 9))
            self.assertEqual((value.hour, value.minute, value.second), (23, 59, 59))
            self.assertEqual((value.millisecond, value.microsecond, value.nanosecond), (250, 250_000, 250_000_000))
            self.assertEqual((value.as_hms(), value.as_hms_milli()), ((23, 59, 59), (23, 59, 59, 250)))
            self.assertEqual((value.as_hms_micro(), value.as_hms_nano()), ((23, 59, 59, 250_000), (23, 59, 59, 250_000_000)))
            self.assertEqual((value.date(), value.time()), (Date.parse("2024-02-29"), Time.from_hms_milli(23, 59, 59, 250)))

    def test_replacements(self):
        rows = [
            ("replace_year", 2028, "2028-02-29T23:59:59.250000"), ("replace_month", 1, "2024-01-29T23:59:59.250000"),
            ("replace_day", 1, "2024-02-01T23:59:59.250000"), ("replace_ordinal", 1, "2024-01-01T23:59:59.250000"),
            ("replace_hour", 1, "2024-02-29T01:59:59.250000"), ("replace_minute", 1, "2024-02-29T23:01:59.250000"),
            ("replace_second", 1, "2024-02-29T23:59:01.250000"), ("replace_millisecond", 1, "2024-02-29T23:59:59.001000"),
            ("replace_microsecond", 1, "2024-02-29T23:59:59.000001"), ("replace_nanosecond", 1, "2024-02-29T23:59:59.000000001"),
            ("replace_date", Date.parse("2023-05-01"), "2023-05-01T23:59:59.250000"), ("replace_time", Time.MIDNIGHT, "2024-02-29T00:00:00"),
        ]
        for name, argument, text in rows:
            self.assertEqual(str(getattr(NIGHT.local(), name)(argument)), text)
            self.assertEqual(str(getattr(NIGHT, name)(argument)), text + "+01:00")
        truncated = [("hour", "23:00:00"), ("minute", "23:59:00"), ("second", "23:59:59"), ("millisecond", "23:59:59.250000"),
            ("microsecond", "23:59:59.250000")]
        for name, text in truncated:
            self.assertEqual(str(getattr(NIGHT.local(), "truncate_to_" + name)()), "2024-02-29T" + text)
            self.assertEqual(str(getattr(NIGHT, "truncate_to_" + name)()), f"2024-02-29T{text}+01:00")
        self.assertEqual(str(NIGHT.replace_date_time(PlainDateTime.MIN)), "-999999-01-01T00:00:00+01:00")
        self.assertEqual(str(NIGHT.replace_offset(UtcOffset.UTC)), "2024-02-29T23:59:59.250000+00:00")
        self.assertEqual(str(NIGHT.replace(year=2023, day=28, hour=1, nanosecond=0)), "2023-02-28T01:59:59+01:00")
        self.assertEqual(type(NIGHT.local().replace(month=None, minute=0)), PlainDateTime)
        self.assertRaises(TypeError, NIGHT.replace, hour="1")
        self.assertRaises(TypeError, NIGHT.replace, 2023)
        for value in (NIGHT, NIGHT.local()):
            self.refused("day", True, value.replace_year, 2023)
            self.refused("hour", False, value.replace_hour, 24)


class Drawn(Cases):
    def values(self):
        draw = random.Random(44)
        sizes = [10**5 * SECOND, 10**14 * SECOND, 2**63 * SECOND - 1]
        for _ in range(2000):
            day = draw.choice([draw.randrange(LAST // DAY + 1), draw.randrange(2), LAST // DAY - draw.randrange(2)])
            offset = UtcOffset.from_whole_seconds(draw.randint(-93599, 93599))
            size = draw.choice(sizes)
            yield plain_at(day * DAY + draw.randrange(DAY)).assume_offset(offset), draw.randint(-size, size)

    def test_moves(self):
        for moment, by in self.values():
            duration, value = SignedDuration.nanoseconds_i128(by), moment.local()
            for sign, name in ((1, "add"), (-1, "sub")):
                local = local_of(moment) + sign * by
                wanted, held = plain_at(local), plain_at(max(0, min(local, LAST)))
                self.assertEqual(getattr(value, "checked_" + name)(duration), wanted)
                self.assertEqual(getattr(value, "saturating_" + name)(duration), held)
                moved = getattr(moment, "checked_" + name)(duration)
                self.assertEqual(shows(moved), shows(wanted and wanted.assume_offset(moment.offset)))
                held = held.assume_offset(moment.offset)
                self.assertEqual(shows(getattr(moment, "saturating_" + name)(duration)), shows(held))

    def test_instants(self):
        moments = [moment for moment, _ in self.values()]
        for one, other in zip(moments, moments[1:]):
            instant, wanted = instant_of(one), instant_of(other)
            self.assertEqual((one < other, one == other, one > other), (instant < wanted, instant == wanted, instant > wanted))
            self.assertEqual(one - other, SignedDuration.nanoseconds_i128(instant - wanted))
            self.assertEqual(one.local() - other.local(), SignedDuration.nanoseconds_i128(local_of(one) - local_of(other)))
            self.assertEqual(one.local() < other.local(), local_of(one) < local_of(other))
            there = one.checked_to_offset(other.offset)
            shown = plain_at(instant + other.offset.whole_seconds() * SECOND)
            self.assertEqual(shows(there), shows(shown and shown.assume_offset(other.offset)))
            if there is not None:
                self.assertTrue(there == one and hash(there) == hash(one))
                self.assertEqual(shows(there.to_offset(one.offset)), shows(one))

    def test_unix_times(self):
        for moment, by in self.values():
            since = instant_of(moment) - EPOCH
            self.assertEqual((moment.unix_timestamp(), moment.unix_timestamp_nanos()), (since // SECOND, since))
            wanted = plain_at(EPOCH + by)
            if wanted is None:
                self.refused("timestamp", False, OffsetDateTime.from_unix_timestamp_nanos, by)
            else:
                self.assertEqual(shows(OffsetDateTime.from_unix_timestamp_nanos(by)), shows(wanted.assume_utc()))


class Rounding(Cases):
    """The rows are the examples of Temporal's documentation. Drawn values are compared with whole numbers."""

    def test_rows(self):
        hour, half = SignedDuration(hours=1), SignedDuration(minutes=30)
        time, local = Time.parse("19:39:09.068346205"), PlainDateTime.parse("1995-12-07T03:24:30.000003500")
        self.assertEqual([time.round(hour), time.round(half), time.round(half, RoundingMode.Ceil), time.round(half, RoundingMode.Floor)], [Time(20), Time(19, 30), Time(20), Time(19, 30)])
        self.assertEqual([local.round(hour), local.round(half), local.round(half, RoundingMode.Floor)], [PlainDateTime(1995, 12, 7, 3), PlainDateTime(1995, 12, 7, 3, 30), PlainDateTime(1995, 12, 7, 3)])
        self.assertEqual((Time(23, 30).round(hour), PlainDateTime(2024, 2, 29, 23, 30).round(hour), PlainDateTime(2024, 2, 29, 12).round(SignedDuration.DAY)), (Time(), PlainDateTime(2024, 3, 1), PlainDateTime(2024, 3, 1)))
        moment = OffsetDateTime(2024, 2, 29, 23, 30, offset=UtcOffset(5, 30)).round(hour)
        self.assertEqual((moment.local(), moment.offset), (PlainDateTime(2024, 3, 1), UtcOffset(5, 30)))
        self.assertEqual([SignedDuration(seconds=-90).round(SignedDuration.MINUTE, mode).whole_seconds() for mode in RoundingMode], [-120, -60, -60, -60, -120])

    def test_against_whole_numbers(self):
        draw, day = random.Random(99), 86400 * 10**9
        units = [unit for unit in (1, 7 * 10**9, 15 * 60 * 10**9, 3600 * 10**9, day, 86400 * 10**6, 10**3) if day % unit == 0]

        def rounded(number, unit, mode):
            low, rest = number // unit * unit, number % unit
            ways = {
                RoundingMode.Floor: False, RoundingMode.Ceil: rest > 0, RoundingMode.Trunc: rest > 0 and number < 0, RoundingMode.HalfCeil: 2 * rest >= unit,
                RoundingMode.HalfEven: 2 * rest > unit or 2 * rest == unit and low // unit % 2 == 1}
            return low + unit * ways[mode]

        for _ in range(3000):
            unit, mode = draw.choice(units), draw.choice(list(RoundingMode))
            number = draw.choice([draw.randrange(day), draw.randrange(day) // unit * unit + draw.choice([0, unit // 2])]) % day
            date, time = Date.from_julian_day(draw.randint(-10**7, 10**7)), Time() + SignedDuration.nanoseconds(number)
            found, length = rounded(number, unit, mode), SignedDuration.nanoseconds(unit)
            self.assertEqual(time.round(length, mode), Time() + SignedDuration.nanoseconds(found % day))
            self.assertEqual(PlainDateTime(date, time).round(length, mode), PlainDateTime(date, Time()) + SignedDuration.nanoseconds(found))
            unit = draw.choice([1, 7, 10**9, draw.randint(1, 10**12)])
            number = draw.choice([draw.randint(-10**15, 10**15), draw.randint(-1000, 1000) * unit + unit // 2])
            self.assertEqual(SignedDuration.nanoseconds(number).round(SignedDuration.nanoseconds(unit), mode).whole_nanoseconds(), rounded(number, unit, mode))

    def test_refusals(self):
        for value in (Time(), PlainDateTime.MIN, OffsetDateTime.UNIX_EPOCH):
            for unit in (SignedDuration(), SignedDuration(hours=-1), SignedDuration(hours=5), SignedDuration(hours=48)):
                self.assertRaises(ValueError, value.round, unit)
        self.assertRaises(ValueError, SignedDuration.DAY.round, SignedDuration())
        self.past(PlainDateTime.MAX.round, SignedDuration.HOUR)
        self.past(SignedDuration.MAX.round, SignedDuration.HOUR, RoundingMode.Ceil)
        for value in (Time(), SignedDuration(), PlainDateTime.MIN, OffsetDateTime.UNIX_EPOCH):
            for wrong in ((), (1,), (SignedDuration.HOUR, 0), (SignedDuration.HOUR, RoundingMode.Floor, 1), (datetime.timedelta(hours=1),)):
                self.assertRaises(TypeError, value.round, *wrong)


class OfTheStandardLibrary(Cases):
    def test_there_and_back(self):
        draw = random.Random(45)
        span = int((datetime.datetime.max - datetime.datetime.min) / datetime.timedelta(microseconds=1))
        for _ in range(2000):
            value = datetime.datetime.min + datetime.timedelta(microseconds=draw.randint(0, span))
            own = PlainDateTime.from_datetime(value)
            self.assertEqual(own.to_datetime(), value)
            self.assertEqual(own.as_hms_micro(), (value.hour, value.minute, value.second, value.microsecond))
            zone = datetime.timezone(datetime.timedelta(seconds=draw.randint(-86399, 86399)))
            aware = value.replace(tzinfo=zone)
            moment = OffsetDateTime.from_datetime(aware)
            self.assertEqual((moment.to_datetime(), moment.to_datetime().utcoffset()), (aware, aware.utcoffset()))
            since = (aware - datetime.datetime(1970, 1, 1, tzinfo=datetime.timezone.utc)) // datetime.timedelta(microseconds=1)
            self.assertEqual(moment.unix_timestamp_nanos(), since * 1000)

    def test_several_parts(self):
        draw = random.Random(46)
        ranges = {"year": (1900, 2100), "month": (0, 13), "day": (0, 31), "hour": (0, 24), "minute": (0, 60), "second": (0, 60)}
        refused = 0
        for _ in range(2000):
            value = datetime.datetime(2024, 2, 29, 23, 59, 59, 250_000) + datetime.timedelta(days=draw.randrange(400))
            parts = {name: draw.randint(*ranges[name]) for name in draw.sample(sorted(ranges), draw.randint(0, 3))}
            own = PlainDateTime.from_datetime(value)
            moment = own.assume_offset(NIGHT.offset)
            try:
                wanted = value.replace(**parts)
            except ValueError:
                refused += 1
                self.assertRaises(ComponentRange, own.replace, **parts)
                self.assertRaises(ComponentRange, moment.replace, **parts)
                continue
            self.assertEqual(own.replace(**parts).to_datetime(), wanted)
            self.assertEqual(shows(moment.replace(**parts)), shows(PlainDateTime.from_datetime(wanted).assume_offset(NIGHT.offset)))
        self.assertGreater(refused, 50)

    def test_what_does_not_fit(self):
        aware = datetime.datetime(2024, 2, 29, tzinfo=datetime.timezone.utc)
        parts = datetime.timezone(datetime.timedelta(seconds=1, microseconds=1))
        wrong = [
            (PlainDateTime.from_datetime, aware), (OffsetDateTime.from_datetime, aware.replace(tzinfo=None)),
            (OffsetDateTime.from_datetime, aware.replace(tzinfo=parts)),
        ]
        for call, value in wrong:
            with self.assertRaises(ValueError):
                call(value)
        for call, value in itertools.product([PlainDateTime.from_datetime, OffsetDateTime.from_datetime], [aware.date(), "2024", None]):
            with self.assertRaises(TypeError):
                call(value)
        for moment in (PlainDateTime.MIN, PlainDateTime.MAX.truncate_to_second()):
            self.past(moment.to_datetime)
            self.past(moment.assume_utc().to_datetime)
        with self.assertRaises(ValueError):
            plain("2024-02-29", 0, 0, 0, 1).to_datetime()
        with self.assertRaises(ValueError):
            at(24, "2024-02-29").to_datetime()

    def test_comparison(self):
        aware = datetime.datetime(2024, 2, 29, tzinfo=datetime.timezone.utc)
        for own, other in [(plain("2024-02-29"), aware.replace(tzinfo=None)), (at(0, "2024-02-29"), aware)]:
            for one, another in ((own, other), (other, own)):
                for compare in (operator.eq, operator.ne, operator.lt, operator.ge):
                    with self.assertRaises(TypeError):
                        compare(one, another)


class Values(Cases):
    def values(self):
        return [NIGHT, NIGHT.local()]

    def test_copies(self):
        for value in self.values():
            for same in (copy.copy(value), copy.deepcopy(value), pickle.loads(pickle.dumps(value))):
                self.assertEqual((same, str(same), type(same)), (value, str(value), type(value)))

    def test_values_do_not_change(self):
        for value in self.values():
            for name in ("other", "checked_add", "MIN", "__class__"):
                with self.assertRaises((AttributeError, TypeError)):
                    setattr(value, name, 1)
            with self.assertRaises(TypeError):
                type(value)(1)

    def test_kinds_are_apart(self):
        others = [Date.MIN, Time.MIDNIGHT, UtcOffset.UTC, SignedDuration.ZERO, 0, None]
        values = self.values()
        for value, another in zip(values, reversed(values)):
            for other in [another, *others]:
                self.assertNotEqual(value, other)
                with self.assertRaises(TypeError):
                    value < other
            for other in others[:3] + others[4:]:
                for apply in (operator.add, operator.sub):
                    with self.assertRaises(TypeError):
                        apply(value, other)
        with self.assertRaises(TypeError):
            NIGHT - NIGHT.local()

    def test_values_cannot_be_forged(self):
        for value in self.values():
            for call in (lambda: object.__new__(type(value)), lambda: type("Sub", (type(value),), {})):
                with self.assertRaises(TypeError):
                    call()

    def test_wrong_kinds(self):
        calls = [
            (PlainDateTime.new, (Date.MIN, Time.MAX)), (OffsetDateTime.new_in_offset, (Date.MIN, Time.MAX, UtcOffset.UTC)),
            (OffsetDateTime.new_utc, (Date.MIN, Time.MAX)), (OffsetDateTime.from_unix_timestamp, (0,)),
            (OffsetDateTime.from_unix_timestamp_nanos, (0,)), (OffsetDateTime.from_unix_duration, (SignedDuration.ZERO,)),
            (NIGHT.to_offset, (UtcOffset.UTC,)), (NIGHT.checked_to_offset, (UtcOffset.UTC,)), (NIGHT.replace_offset, (UtcOffset.UTC,)),
            (NIGHT.replace_date_time, (PlainDateTime.MIN,)), (NIGHT.local().assume_offset, (UtcOffset.UTC,)),
        ]
        for value, name in itertools.product(self.values(), ("checked_add", "checked_sub", "saturating_add", "saturating_sub")):
            calls.append((getattr(value, name), (SignedDuration.ZERO,)))
        for value in self.values():
            calls += [(value.replace_date, (Date.MIN,)), (value.replace_time, (Time.MAX,)), (value.replace_year, (2000,))]
        for call, right in calls:
            call(*right)
            for index, wrong in itertools.product(range(len(right)), [None, 1.0, "1", b"1", [], object(), NIGHT]):
                arguments = [*right[:index], wrong, *right[index + 1:]]
                with self.assertRaises(TypeError, msg=(call, arguments)):
                    call(*arguments)


class Documentation(Cases):
    def test_what_date_times_have_in_common_is_documented(self):
        for kind in (PlainDateTime, OffsetDateTime):
            for name, member in vars(kind).items():
                if not name.startswith("_"):
                    self.assertTrue(member.__doc__, name)


if __name__ == "__main__":
    unittest.main()
