"""Tests of the columns with arrays of numpy: days and times of numpy, whole numbers of any bits, arrays in steps, and what is refused."""

import pathlib
import re
import unittest

import numpy

import fotsevindre
from fotsevindre import Date, Frequency, Policy, Rule, Zone, columns

EPOCH = 2440588


class Numpy(unittest.TestCase):
    def test_days_of_numpy(self):
        days = numpy.array(["2024-02-29", "1969-12-31", "NaT", "-0001-12-31"], dtype="datetime64[D]")
        found = fotsevindre.dates_to_calendar_dates(days)
        self.assertEqual([row for row in zip(*found[:3])], [(2024, 2, 29), (1969, 12, 31), (-2**31, 0, 0), (-1, 12, 31)])
        self.assertEqual((found.error_count, isinstance(fotsevindre.status_error(found.statuses[2]), ValueError)), (1, True))
        far = [2**62, -2**62, 2**63 - 1, 2**40, 2**31, -2**31, 364522972, -365961663]
        past = numpy.array(far, dtype="int64").view("datetime64[D]")
        self.assertEqual(fotsevindre.dates_weekdays(past).error_count, len(far))
        self.assertTrue((past.view("int64") == far).all())
        every = numpy.arange("1600-01-01", "2400-01-01", 7, dtype="datetime64[D]")
        calendar = fotsevindre.dates_to_calendar_dates(every)
        months = every.astype("datetime64[M]")
        self.assertEqual(calendar.error_count, 0)
        self.assertTrue((calendar.years == every.astype("datetime64[Y]").astype(int) + 1970).all())
        self.assertTrue((calendar.months == months.astype(int) % 12 + 1).all())
        self.assertTrue((calendar.days == (every - months).astype(int) + 1).all())

    def test_where_days_lie(self):
        """Days of numpy are read on odd bytes, in steps, backward and in other orders of bytes, and written for no row."""
        days = numpy.array(["2024-02-29", "NaT", "1969-12-31"], dtype="datetime64[D]")
        odd = numpy.frombuffer(b"-" + days.tobytes(), dtype="datetime64[D]", count=3, offset=1)
        self.assertFalse(odd.flags.aligned)
        for same in (odd, days.astype(">M8[D]"), numpy.repeat(days, 2)[::2], days[::-1].copy()[::-1], days.astype("datetime64[s]")):
            found = fotsevindre.dates_add_days(same, numpy.frombuffer(b"-" + bytes([1, *[0] * 7] * 3), dtype="int64", offset=1))
            self.assertEqual((list(found.dates.view("int64")), found.error_count), ([19783, -2**63, 0], 1))
            weeks = fotsevindre.dates_to_iso_week_dates(same)
            self.assertEqual(([*zip(*weeks[:3])], weeks.error_count), ([(2024, 9, 3), (-2**31, 0, 255), (1970, 1, 2)], 1))
            back = fotsevindre.dates_from_iso_week_dates(*weeks[:3])
            self.assertEqual(([date - EPOCH for date in back.dates[[0, 2]]], back.error_count), ([19782, -1], 1))
        self.assertEqual(fotsevindre.dates_add_days(days[:0], 1).dates.dtype, "datetime64[D]")
        self.assertRaisesRegex(TypeError, "one dimension, not 2", fotsevindre.dates_weekdays, days.reshape(3, 1))

    def test_days_later(self):
        """Sums of numpy, and those of the library for columns of ints, are the same, also where one isn't a date."""
        draw = numpy.random.default_rng(97)
        first, last = (date.to_julian_day() - 2440588 for date in (Date.MIN, Date.MAX))
        far = [first, first - 1, first + 1, last, last + 1, last - 1, 0, -2**63, 2**63 - 1, 2**31, -2**31]
        for _ in range(200):
            rows = draw.integers(1, 40)
            days = draw.integers(first, last, rows, endpoint=True)
            moves = draw.integers(-1000, 1000, rows)
            for column in (days, moves):
                column[draw.integers(rows)] = far[draw.integers(len(far))] if draw.integers(2) else 0
            for move in (moves, moves.view("timedelta64[D]"), int(moves[0])):
                found = fotsevindre.dates_add_days(days.view("datetime64[D]"), move)
                wanted = fotsevindre.dates_add_days([day + 2440588 if first <= day <= last else -2**31 for day in days.tolist()], move if isinstance(move, int) else moves.tolist())
                self.assertEqual([None if day == -2**31 else day - 2440588 for day in wanted.dates], [None if numpy.isnat(day) else int(day.view("int64")) for day in found.dates])
                self.assertEqual((list(found.statuses), found.error_count), (list(wanted.statuses), wanted.error_count))
                self.assertEqual((found.statuses.dtype, found.dates.dtype), ("uint8", "datetime64[D]"))

    def test_durations_and_rounding(self):
        seconds = numpy.arange(-200_000, 200_000, 7919)
        texts = fotsevindre.durations_texts(seconds, numpy.zeros(len(seconds), dtype="int32"))
        read = fotsevindre.durations_parse(texts.texts, texts.bounds)
        self.assertEqual((texts.error_count, read.error_count, read.seconds.dtype, read.nanoseconds.dtype), (0, 0, "int64", "int32"))
        self.assertTrue((read.seconds == seconds).all() and not read.nanoseconds.any())
        for wrong in (seconds.astype("timedelta64[s]"), seconds.astype("datetime64[s]")):
            self.assertRaisesRegex(TypeError, "expected a column of integers", fotsevindre.durations_texts, wrong, 0)
        self.assertRaisesRegex(TypeError, "expected a column of integers", Zone.from_posix("<+01>-1").offsets, seconds.astype("timedelta64[s]"))
        minute = 60 * 10**9
        times = numpy.arange(0, 24 * 60 * minute, 13 * minute, dtype="uint64")
        unit, down = fotsevindre.SignedDuration(minutes=15), fotsevindre.RoundingMode.Floor
        found = fotsevindre.times_round(times, unit, down)
        self.assertTrue((found.times == times // (15 * minute) * (15 * minute)).all())
        days = numpy.full(len(times), "2024-02-29", dtype="datetime64[D]")
        late = fotsevindre.pairs_round(days, times, fotsevindre.SignedDuration.DAY, fotsevindre.RoundingMode.Ceil)
        self.assertEqual((late.dates.dtype, str(late.dates[0]), str(late.dates[1]), late.times.any()), ("datetime64[D]", "2024-02-29", "2024-03-01", False))

    def test_what_is_in_a_rule(self):
        day = Date(2024, 2, 29)
        for container in (day.iter_to(day), Rule(day, Frequency.Daily)):
            with self.assertRaisesRegex(TypeError, "expected Date, not datetime64"):
                numpy.datetime64("2024-02-29") in container

    def test_the_block_of_the_page(self):
        page = (pathlib.Path(__file__).resolve().parents[3] / "docs/COLUMNS.md").read_text(encoding="utf-8")
        block, said = re.search(r"```python\n(days = numpy.*?)  # (.*?)\n```", page, re.DOTALL).groups()
        names = {"numpy": numpy, "dates_add_months": fotsevindre.dates_add_months}
        exec(block, names)
        self.assertEqual((", ".join(map(str, names["moved"])), names["error_count"]), (said, 1))

    def test_days_moved(self):
        days = numpy.array(["2024-02-29", "2024-12-31"], dtype="datetime64[D]")
        moved, statuses, error_count = fotsevindre.dates_add_days(days, numpy.array([1, -366], dtype="timedelta64[D]"))
        self.assertEqual((error_count, moved.dtype, [str(date) for date in moved]), (0, "datetime64[D]", ["2024-03-01", "2023-12-31"]))
        self.assertTrue((moved == days + numpy.array([1, -366])).all())
        numbers = days.astype("int64") + EPOCH
        found = fotsevindre.dates_add_days(numbers, numpy.array([1, -366])).dates
        self.assertEqual((found.dtype, list(found)), ("int32", list(moved.astype("int64") + EPOCH)))

    def test_rejected_rows_are_no_times(self):
        days = numpy.array(["2024-02-29", "NaT", "999999-12-31"], dtype="datetime64[D]")
        for found in (fotsevindre.dates_add_days(days, 1), fotsevindre.dates_add_months(days, numpy.array([1, 1, 1])),
                fotsevindre.dates_add_workdays(days, [1, 1, 1], fotsevindre.Workdays())):
            self.assertEqual((found.dates.dtype, list(numpy.isnat(found.dates)), found.error_count), ("datetime64[D]", [False, True, True], 2))
            self.assertEqual(list(found.statuses), [0, 2, 1])

    def test_masks(self):
        days = numpy.ma.array(["2024-02-29", "2024-03-01"], dtype="datetime64[D]", mask=[False, True])
        found = fotsevindre.dates_add_days(days, numpy.array([1, 1]))
        self.assertEqual((str(found.dates[0]), found.dates.mask.tolist(), found.statuses.mask.tolist()), ("2024-03-01", [False, True], [False, True]))
        years = fotsevindre.dates_to_calendar_dates(days).years
        self.assertEqual((years.mask.tolist(), years[0]), ([False, True], 2024))
        texts = fotsevindre.dates_calendar_texts(days)
        self.assertEqual((texts.texts, list(texts.bounds), texts.statuses.mask.tolist()), (b"2024-02-292024-03-01", [0, 10, 20], [False, True]))
        self.assertTrue(fotsevindre.dates_weekdays(numpy.ma.array([2451545], mask=[True])).weekdays.mask.all())

    def test_scalars(self):
        days = numpy.array(["2024-02-29", "2024-03-01"], dtype="datetime64[D]")
        for one in (1, numpy.int64(1), numpy.array(1)):
            self.assertEqual(list(fotsevindre.dates_add_days(days, one).dates), list(days + 1))
        between = fotsevindre.dates_workdays_between(days, Date(2024, 3, 8), fotsevindre.Workdays())
        self.assertEqual(list(between.numbers), [6, 5])

    def test_schedule(self):
        """Months by numpy's months, and working days by its `busday_offset` and `busday_count`."""
        days = numpy.arange("1990-01-01", "2030-01-01", dtype="datetime64[D]")
        months = numpy.arange(len(days), dtype="int64") % 481 - 240
        moved, statuses, error_count = fotsevindre.dates_add_months(days, months)
        starts = days.astype("datetime64[M]") + months.astype("timedelta64[M]")
        lasts = (starts + 1).astype("datetime64[D]") - 1
        wanted = numpy.minimum(starts.astype("datetime64[D]") + (days - days.astype("datetime64[M]")), lasts)
        self.assertEqual((error_count, bool(statuses.any())), (0, False))
        self.assertTrue((moved == wanted).all())

        holidays = numpy.arange("1995-01-03", "2025-01-01", 30, dtype="datetime64[D]")
        workdays = fotsevindre.Workdays(holidays=[Date.from_julian_day(int(day) + EPOCH) for day in holidays.view("int64")])
        moved, statuses, error_count = fotsevindre.dates_add_workdays(days, months, workdays)
        for roll, back in (("backward", False), ("forward", True)):
            rows = months < 0 if back else months > 0
            wanted = numpy.busday_offset(days[rows], months[rows], roll=roll, holidays=holidays)
            self.assertTrue((moved[rows] == wanted).all())
        self.assertEqual(error_count, 0)
        numbers, statuses, error_count = fotsevindre.dates_workdays_between(days, days + 1000, workdays)
        self.assertTrue((numbers == numpy.busday_count(days, days + 1000, holidays=holidays)).all())
        self.assertEqual((error_count, statuses.dtype, numbers.dtype), (0, "uint8", "int32"))

    def test_columns_chain(self):
        """What one call gives is an array of numpy that the next one takes as it lies, also of a refused row."""
        years, months, days = numpy.array([2024, 2021], dtype="int32"), numpy.array([13, 1], dtype="uint8"), numpy.array([1, 1], dtype="uint8")
        for column, code in zip((years, months, days), "iBB"):
            self.assertTrue(numpy.shares_memory(numpy.asarray(columns._column(column, code, False)), column))
        made = fotsevindre.dates_from_calendar_dates(years, months, days)
        weeks = fotsevindre.dates_to_iso_week_dates(made.dates)
        self.assertEqual([column.dtype for column in weeks[:-1]], ["int32", "uint8", "uint8", "uint8"])
        self.assertEqual(([*zip(*weeks[:3])], weeks.error_count), ([(-2**31, 0, 255), (2020, 53, 4)], 1))
        at_once = fotsevindre.calendar_dates_to_iso_week_dates(years, months, days)
        self.assertTrue(all((one == other).all() for one, other in zip(weeks[:3], at_once[:3])))
        self.assertEqual((list(at_once.statuses), at_once.error_count), (list(made.statuses), 1))
        self.assertTrue(numpy.shares_memory(numpy.asarray(columns._column(made.dates, "i", True)), made.dates))

    def test_whole_numbers_of_any_bits(self):
        for bits in ("int8", "uint8", "int16", "uint16", "int32", "uint32", "int64", "uint64", ">i4", ">u8"):
            found = fotsevindre.dates_from_calendar_dates(*(numpy.array([number, number], dtype=bits) for number in (24, 2, 29)))
            self.assertEqual((found.error_count, Date.from_julian_day(found.dates[1])), (0, Date.from_calendar_date(24, 2, 29)), bits)
        fits = numpy.array([20], dtype="int32")
        for months in (numpy.array([-1]), numpy.array([2**8])):
            with self.assertRaises(OverflowError):
                fotsevindre.dates_from_calendar_dates(fits, months, fits)
        with self.assertRaises(OverflowError):
            fotsevindre.dates_from_julian_days(numpy.array([2**63], dtype="uint64"))

    def test_arrays_in_steps(self):
        table = numpy.array([[2451545, 0], [2451546, 0], [2451547, 0]])
        for view, numbers in [(table[:, 0], [2451545, 2451546, 2451547]), (table[::-2, 0], [2451547, 2451545]), (table[:0, 0], [])]:
            found = fotsevindre.dates_from_julian_days(view)
            self.assertEqual((found.error_count, found.dates.dtype, list(found.dates)), (0, "int32", numbers))
        frozen = numpy.array([2451545], dtype="int32")
        frozen.flags.writeable = False
        self.assertEqual(fotsevindre.dates_to_ordinal_dates(frozen).ordinals[0], 1)

    def test_days_later_at_the_ends(self):
        first, last = (int((date - Date(1970, 1, 1)).whole_days()) for date in (Date.MIN, Date.MAX))
        days = [first - 1, first, first + 1, -1, 0, last - 1, last, last + 1, -2**63, -2**63 + 1, 2**63 - 1]
        moves = [-2**63, -2**62, first - last - 1, first - last, -1, 0, 1, last - first, last - first + 1, 2**62, 2**63 - 1]
        for day in days:
            for move in moves:
                later = day + move
                wanted = later if first <= day <= last and first <= later <= last else -2**63
                for given in (move, numpy.array([0, move])):
                    found = fotsevindre.dates_add_days(numpy.array([0, day]).view("datetime64[D]"), given)
                    self.assertEqual((int(found.dates.view("int64")[1]), bool(found.statuses[1])), (wanted, wanted == -2**63))

    def test_days_later_in_long_columns(self):
        """Where some of many rows are no dates, all others are those of NumPy's sum."""
        rows, first, last = 1500, -365_961_662, 364_522_971
        days = numpy.arange(rows) - 700
        for row in (0, 1, 511, 512, 513, 1023, 1024, rows - 1):
            for wrong in (-2**63, first - 1, last + 1, first, last, 2**28 - 1, 2**28, -2**28, -2**28 - 1, 2**62):
                for move in (1, -1, numpy.arange(rows), numpy.where(numpy.arange(rows) == row, 2**63 - 1, 3)):
                    given = days.copy()
                    given[row] = wrong
                    found = fotsevindre.dates_add_days(given.view("datetime64[D]"), move)
                    moved = int(given[row]) + int(move if isinstance(move, int) else move[row])
                    is_date = first <= wrong <= last and first <= moved <= last
                    wanted = days + move
                    wanted[row] = moved if is_date else -2**63
                    self.assertTrue((found.dates.view("int64") == wanted).all())
                    self.assertEqual((found.statuses.nonzero()[0].tolist(), found.error_count), ([] if is_date else [row], int(not is_date)))

    def test_days_of_one_number(self):
        days = numpy.array(["2024-02-29", "NaT"], dtype="datetime64[D]")
        for one in (1, True, numpy.int64(1), numpy.uint8(1), numpy.array(1), numpy.timedelta64(1, "D"), numpy.array(1, "timedelta64[D]")):
            found = fotsevindre.dates_add_days(days, one)
            self.assertEqual((found.dates.astype(str).tolist(), found.statuses.astype(bool).tolist(), found.error_count), (["2024-03-01", "NaT"], [False, True], 1))
        days.flags.writeable = False
        self.assertEqual(fotsevindre.dates_add_days(days, 366).dates.astype(str).tolist(), ["2025-03-01", "NaT"])
        for wrong in (2**63, -2**63 - 1):
            self.assertRaises(OverflowError, fotsevindre.dates_add_days, days, wrong)
        for wrong, column in [(1.5, days), (1, numpy.array("2024-02-29", "datetime64[D]")), (1, days.reshape(2, 1))]:
            self.assertRaises(TypeError, fotsevindre.dates_add_days, column, wrong)
        for rows in (0, 1, 3):
            self.assertRaisesRegex(ValueError, "same length", fotsevindre.dates_add_days, days, numpy.arange(rows))

    def test_days_later_in_nanoseconds(self):
        day, limit = 86_400 * 10**9, 106_751
        for start, move in [(0, limit), (0, -limit), (-limit, 2 * limit), (limit, -2 * limit), (5, -7), (limit, 0)]:
            for given in (move, numpy.array([move]), numpy.array([move], "timedelta64[D]")):
                found = fotsevindre.dates_add_days(numpy.array([start * day]).view("datetime64[ns]"), given)
                self.assertEqual((str(found.dates.dtype), found.dates.view("int64").tolist(), found.error_count), ("datetime64[D]", [start + move], 0))
        for start, move in [(0, limit + 1), (limit, 1), (-limit, -1), (limit, 2 * limit), (0, 300_000)]:
            found = fotsevindre.dates_add_days(numpy.array([start * day]).view("datetime64[ns]"), move)
            self.assertEqual((str(found.dates.dtype), found.dates.view("int64").tolist()), ("datetime64[D]", [start + move]))
        found = fotsevindre.dates_add_days(numpy.array([0, -2**63, day]).view("datetime64[ns]"), 1)
        self.assertEqual((str(found.dates.dtype), found.dates.view("int64").tolist(), found.error_count), ("datetime64[D]", [1, -2**63, 2], 1))
        for wrong in (1, day - 1, -1):
            self.assertRaisesRegex(ValueError, "whole days", fotsevindre.dates_add_days, numpy.array([0, wrong]).view("datetime64[ns]"), 1)
        many = numpy.arange(20)[::2]
        self.assertEqual(fotsevindre.dates_add_days(many.view("datetime64[D]"), many).dates.view("int64").tolist(), (2 * many).tolist())
        self.assertRaisesRegex(ValueError, "same length", fotsevindre.dates_add_days, many.view("datetime64[D]"), many[1:])

    def test_what_is_refused(self):
        for wrong, words in [
            (numpy.array([1.0]), "float64"),
            (numpy.array([True]), "bool"), (numpy.array([[1]]), "one dimension"), (numpy.array(["2024"]), "integers"),
            (numpy.array([None]), "integers"),
        ]:
            with self.assertRaisesRegex(TypeError, words):
                fotsevindre.dates_to_ordinal_dates(wrong)
        days = numpy.array(["2024-02-29"], dtype="datetime64[D]")
        for wrong in (days, days.astype("timedelta64[D]")):
            with self.assertRaises(TypeError):
                fotsevindre.dates_to_ordinal_dates(days[:, None])
            with self.assertRaises(TypeError):
                fotsevindre.dates_from_ordinal_dates(wrong, wrong)
        for call in (
            lambda: fotsevindre.dates_to_ordinal_dates(numpy.array(["2024-02-29T12"], dtype="datetime64[h]")),
            lambda: fotsevindre.dates_add_days(days, numpy.array([1], dtype="timedelta64[h]")),
        ):
            self.assertRaisesRegex(ValueError, "expected whole days in a column of .*64\\[h\\]", call)

    def test_times_of_zones(self):
        zone = Zone.from_posix("CET-1CEST,M3.5.0,M10.5.0/3")
        readings = numpy.array(["2024-03-31T02:30", "2024-10-27T02:30", "2023-11-14T22:13:20", "NaT"], dtype="datetime64[s]")
        for policy, times, statuses in (
            (Policy.Compatible, ["2024-03-31T01:30", "2024-10-27T00:30", "2023-11-14T21:13:20", "NaT"], [0, 0, 0, 1]),
            (Policy.Reject, ["NaT", "NaT", "2023-11-14T21:13:20", "NaT"], [47, 48, 0, 1]),
        ):
            found = zone.instants(readings, policy)
            numpy.testing.assert_array_equal(found.seconds, numpy.array(times, dtype="datetime64[s]"))
            self.assertEqual((list(found.statuses), found.error_count), (statuses, sum(map(bool, statuses))))
        masked = zone.instants(numpy.ma.MaskedArray(readings, [1, 0, 0, 0]))
        self.assertEqual((masked.seconds.dtype, list(masked.seconds.mask)), ("datetime64[s]", [1, 0, 0, 0]))
        # Other units, and the seconds that a list has.
        instants = zone.instants(readings[:3].astype("datetime64[ns]")).seconds
        self.assertEqual(list(zone.instants(list(readings[:3].astype("int64"))).seconds), list(instants.astype("int64")))
        self.assertEqual([list(zone.offsets(times).offsets) for times in (instants, instants.astype("int64"))], [[7200, 7200, 3600]] * 2)
        for wrong, words in (
            (lambda: zone.instants(numpy.array(["2024-03-31T02:30:00.5"], dtype="datetime64[ms]")), "expected whole seconds"),
            (lambda: zone.offsets(readings), "not NaT"),
        ):
            self.assertRaisesRegex(ValueError, words, wrong)

    def test_moves_in_zones(self):
        zone = Zone.from_posix("CET-1CEST,M3.5.0,M10.5.0/3")
        times = numpy.array(["2024-03-30T01:30", "2024-10-26T00:30", "NaT", "2024-01-31T22:59"], dtype="datetime64[s]")
        for found, wanted, statuses in (
            (zone.add_days(times, 1), ["2024-03-31T01:30", "2024-10-27T00:30", "NaT", "2024-02-01T22:59"], [0, 0, 1, 0]),
            (zone.add_days(times, numpy.array([1, 1, 1, 60]), Policy.Later), ["2024-03-31T01:30", "2024-10-27T01:30", "NaT", "2024-03-31T21:59"], [0, 0, 1, 0]),
            (zone.add_days(times, 1, Policy.Reject), ["NaT", "NaT", "NaT", "2024-02-01T22:59"], [47, 48, 1, 0]),
            (zone.add_months(times, 1, Policy.Earlier), ["2024-04-30T00:30", "2024-11-26T01:30", "NaT", "2024-02-29T22:59"], [0, 0, 1, 0]),
            (zone.starts_of_day(times), ["2024-03-29T23:00", "2024-10-25T22:00", "NaT", "2024-01-30T23:00"], [0, 0, 1, 0]),
        ):
            numpy.testing.assert_array_equal(found.seconds, numpy.array(wanted, dtype="datetime64[s]"))
            self.assertEqual((found.seconds.dtype, list(found.statuses), found.error_count), ("datetime64[s]", statuses, sum(map(bool, statuses))))
        seconds = times.astype("int64")
        self.assertEqual(list(zone.add_days(list(seconds), 1).seconds), list(zone.add_days(times, 1).seconds.astype("int64")))
        masked = zone.starts_of_day(numpy.ma.MaskedArray(times, [1, 0, 0, 0]))
        self.assertEqual((masked.seconds.dtype, list(masked.seconds.mask)), ("datetime64[s]", [1, 0, 0, 0]))
        self.assertRaisesRegex(ValueError, "expected whole seconds", zone.starts_of_day, numpy.array(["2024-03-31T02:30:00.5"], dtype="datetime64[ms]"))
        whole_days = numpy.array([1] * len(times), dtype="timedelta64[D]")
        self.assertEqual(zone.add_days(times, whole_days).seconds.astype("int64").tolist(), zone.add_days(times, 1).seconds.astype("int64").tolist())
        self.assertRaisesRegex(TypeError, "column of integers", zone.add_months, times, whole_days)
        self.assertRaises(ValueError, zone.add_days, times, [1, 2])
        self.assertRaises(TypeError, zone.starts_of_day, 0)

    def test_numbers_of_numpy(self):
        date = Date.from_calendar_date(numpy.int32(2024), numpy.uint8(2), numpy.int64(29))
        self.assertEqual((date, date.replace_day(numpy.int16(1))), (Date.parse("2024-02-29"), Date.parse("2024-02-01")))
        self.assertEqual(Date.parse(numpy.str_("2024-02-29")), date)


if __name__ == "__main__":
    unittest.main()
