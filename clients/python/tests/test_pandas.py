"""Tests of the columns with series of pandas."""

import pathlib
import re
import unittest

import numpy
import pandas

import fotsevindre
from fotsevindre import Date, OffsetDateTime, PlainDateTime, SignedDuration, Time, UtcOffset, Workdays, Zone


class Pandas(unittest.TestCase):
    DAYS = pandas.Series(pandas.to_datetime(["2024-02-29", None, "2024-12-31"]), index=["a", "b", "c"])

    def test_the_first_page(self):
        page = (pathlib.Path(__file__).resolve().parents[3] / "README.md").read_text(encoding="utf-8")
        block, days = re.search(r"```python\n(invoices = .*?)  # (.*?)\n```", page, re.DOTALL).groups()
        names = {"pandas": pandas, "fotsevindre": fotsevindre}
        exec(block, names)
        self.assertEqual(", ".join(map(str, names["due"].dt.date)), days)

    def test_series_in_and_out(self):
        found = fotsevindre.dates_to_calendar_dates(self.DAYS)
        self.assertEqual((list(found.years.index), list(found.years), list(found.months), list(found.days), found.error_count),
            (["a", "b", "c"], [2024, -2**31, 2024], [2, 0, 12], [29, 0, 31], 1))
        moved = fotsevindre.dates_add_months(self.DAYS, 1)
        self.assertEqual((moved.dates.dtype, list(moved.dates.index), moved.error_count), ("datetime64[ns]", ["a", "b", "c"], 1))
        self.assertTrue(moved.dates.equals(pandas.Series(pandas.to_datetime(["2024-03-29", None, "2025-01-31"]), index=["a", "b", "c"])))

    def test_other_columns(self):
        frame = pandas.DataFrame({"year": [2024, 2023], "month": [2, 2], "day": [29, 29]}, index=[5, 6])
        made = fotsevindre.dates_from_calendar_dates(frame.year, frame.month, frame.day)
        self.assertEqual((list(made.dates), list(made.statuses), list(made.dates.index)), ([2460370, -2**31], [0, 64], [5, 6]))
        deltas = pandas.Series(pandas.to_timedelta([1, 2, 3], unit="D"), index=self.DAYS.index)
        self.assertEqual([str(day)[:10] for day in fotsevindre.dates_add_days(self.DAYS, deltas).dates], ["2024-03-01", "NaT", "2025-01-03"])
        moved = fotsevindre.dates_add_days(numpy.array(["2024-02-29", "NaT", "2024-12-31"], "datetime64[D]"), pandas.Series([1, 2, 3], index=[4, 5, 6]))
        self.assertEqual(([str(day)[:10] for day in moved.dates], list(moved.dates.index), list(moved.statuses.index)), (["2024-03-01", "NaT", "2025-01-03"], [4, 5, 6], [4, 5, 6]))
        with self.assertRaises(pandas.errors.OutOfBoundsDatetime):
            fotsevindre.dates_add_days(self.DAYS, 300 * 366)
        between = fotsevindre.dates_workdays_between(self.DAYS, Date(2025, 1, 1), Workdays())
        wanted = numpy.busday_count(self.DAYS.dropna().to_numpy().astype("datetime64[D]"), numpy.datetime64("2025-01-01"))
        self.assertEqual((list(between.numbers[["a", "c"]]), between.numbers["b"]), (list(wanted), -2**31))
        texts = fotsevindre.dates_calendar_texts(self.DAYS)
        self.assertEqual((texts.texts, list(texts.bounds), list(texts.statuses.index)), (b"2024-02-292024-12-31", [0, 10, 10, 20], ["a", "b", "c"]))
        parsed = fotsevindre.dates_parse(texts.texts, pandas.Series(texts.bounds))
        self.assertEqual((list(parsed.dates), parsed.error_count), ([2460370, -2**31, 2460676], 1))
        times = Zone.from_posix("CET-1CEST,M3.5.0,M10.5.0/3").instants(self.DAYS).seconds
        self.assertEqual(([str(time) for time in times], list(times.index)), (["2024-02-28 23:00:00", "NaT", "2024-12-30 23:00:00"], ["a", "b", "c"]))

    def test_nullable_integers(self):
        numbers = pandas.Series([2460370, 2460371], index=["a", "b"], dtype="Int64")
        self.assertEqual(fotsevindre.dates_weekdays(numbers).weekdays.to_dict(), {"a": 3, "b": 4})
        self.assertEqual(list(fotsevindre.dates_add_days(self.DAYS[["a", "c"]], pandas.Series([1, 2], dtype="Int32")).dates.dt.day), [1, 2])
        with self.assertRaisesRegex(ValueError, "without missing numbers; .fillna"):
            fotsevindre.dates_weekdays(pandas.Series([2460370, None], dtype="Int64"))
        for kind in ("Float64", "boolean"):
            with self.assertRaisesRegex(TypeError, "expected a column of integers"):
                fotsevindre.dates_weekdays(pandas.Series([1, 0], dtype=kind))

    def test_indexes(self):
        days = pandas.DatetimeIndex(self.DAYS)
        weekdays, moved = fotsevindre.dates_weekdays(days), fotsevindre.dates_add_months(days, 1)
        self.assertIsInstance(weekdays.weekdays, pandas.Index)
        self.assertEqual(list(weekdays.weekdays), [3, 255, 1])
        self.assertTrue(moved.dates.equals(pandas.DatetimeIndex(["2024-03-29", None, "2025-01-31"])))
        self.assertEqual(list(fotsevindre.dates_weekdays(pandas.Index([2460370])).weekdays), [3])

    def test_timedeltas(self):
        self.assertEqual(Date(2024, 2, 29) + pandas.Timedelta(days=1), Date(2024, 3, 1))
        self.assertEqual(SignedDuration.from_timedelta(pandas.Timedelta(nanoseconds=-1)), -SignedDuration.NANOSECOND)
        with self.assertRaises(ValueError):
            Date(2024, 2, 29) + pandas.Timedelta(days=1, nanoseconds=1)
        noon = PlainDateTime(Date(2024, 2, 29), Time(12))
        delta = pandas.Timedelta(days=1, nanoseconds=1)
        self.assertEqual((noon + delta, delta + noon, noon - delta), (noon + SignedDuration(days=1, nanoseconds=1),) * 2 + (noon - SignedDuration(days=1, nanoseconds=1),))

    def test_nanoseconds_of_times(self):
        time = pandas.Timestamp("2024-02-29 12:00:00.000001002")
        noon = PlainDateTime(Date(2024, 2, 29), Time(12, 0, 0, nanosecond=1002))
        self.assertEqual(PlainDateTime.from_datetime(time), noon)
        self.assertEqual(OffsetDateTime.from_datetime(time.tz_localize("Europe/Berlin")), noon.assume_offset(UtcOffset(1)))
        with self.assertRaisesRegex(TypeError, "use its date"):
            time in noon.date().iter_to(Date.MAX)
        self.assertRaises(TypeError, lambda: noon + pandas.NaT)

    def test_moves_in_zones(self):
        zone = Zone.from_posix("CET-1CEST,M3.5.0,M10.5.0/3")
        times = pandas.Series(pandas.to_datetime(["2024-03-30 11:00", None, "2024-10-26 22:00"]), index=["a", "b", "c"])
        for found, wanted in ((zone.add_days(times, 1), ["2024-03-31 10:00", None, "2024-10-27 23:00"]),
                (zone.starts_of_day(times), ["2024-03-29 23:00", None, "2024-10-26 22:00"])):
            self.assertTrue(found.seconds.equals(pandas.Series(pandas.to_datetime(wanted), index=["a", "b", "c"])))
            self.assertEqual((list(found.statuses), found.error_count), ([0, 1, 0], 1))

    def test_what_is_refused(self):
        noon = pandas.Series(pandas.to_datetime(["2024-02-29 12:00"]))
        for call in (lambda: fotsevindre.dates_weekdays(noon), lambda: fotsevindre.dates_add_days(self.DAYS, pandas.Series([noon[0] - self.DAYS[0]] * len(self.DAYS)))):
            self.assertRaisesRegex(ValueError, "expected whole days", call)
        for wrong in (pandas.Series([1.5]), pandas.Series(["2024-02-29"]), pandas.Series([True])):
            with self.assertRaisesRegex(TypeError, "expected a column of integers"):
                fotsevindre.dates_weekdays(wrong)
        with self.assertRaisesRegex(ValueError, "time zone"):
            fotsevindre.dates_weekdays(self.DAYS.dt.tz_localize("UTC"))


if __name__ == "__main__":
    unittest.main()
