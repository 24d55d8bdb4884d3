//! Worked rows: dates, moves, occurrences, times, offsets, durations, months and weekdays.

use Weekday::*;
use fotsevindre::error::{ConversionRange, InvalidVariant};
use fotsevindre::util::{DateAdjustment, days_in_month, days_in_year, days_in_year_month, is_leap_year, weeks_in_year};
use fotsevindre::{Date, Duration, Month, SignedDuration, Time, UtcOffset, Weekday, add_to_pair, sub_from_pair};

fn day(year: i32, month: u8, day: u8) -> Date {
    Date::from_calendar_date(year, Month::try_from(month).unwrap(), day).unwrap()
}

fn clock(hour: u8, minute: u8, second: u8, nanosecond: u32) -> Time {
    Time::from_hms_nano(hour, minute, second, nanosecond).unwrap()
}

/// Julian day, calendar date, ordinal, ISO week date, text.
type Row = (i32, (i32, u8, u8), u16, (i32, u8, Weekday), &'static str);

const DAYS: [Row; 18] = [
    (0, (-4713, 11, 24), 328, (-4713, 48, Monday), "-4713-11-24"),
    (-363_521_074, (-999_999, 1, 1), 1, (-999_999, 1, Monday), "-999999-01-01"),
    (366_963_559, (999_999, 12, 31), 365, (999_999, 52, Friday), "+999999-12-31"),
    (-1_930_999, (-9999, 1, 1), 1, (-9999, 1, Monday), "-9999-01-01"),
    (5_373_484, (9999, 12, 31), 365, (9999, 52, Friday), "9999-12-31"),
    (5_373_485, (10_000, 1, 1), 1, (9999, 52, Saturday), "+10000-01-01"),
    (1_721_060, (0, 1, 1), 1, (-1, 52, Saturday), "0000-01-01"),
    (1_720_695, (-1, 1, 1), 1, (-2, 53, Friday), "-0001-01-01"),
    (2_451_545, (2000, 1, 1), 1, (1999, 52, Saturday), "2000-01-01"),
    (2_451_546, (2000, 1, 2), 2, (1999, 52, Sunday), "2000-01-02"),
    (2_451_604, (2000, 2, 29), 60, (2000, 9, Tuesday), "2000-02-29"),
    (2_415_080, (1900, 3, 1), 60, (1900, 9, Thursday), "1900-03-01"),
    (2_459_215, (2020, 12, 31), 366, (2020, 53, Thursday), "2020-12-31"),
    (2_459_216, (2021, 1, 1), 1, (2020, 53, Friday), "2021-01-01"),
    (2_458_848, (2019, 12, 30), 364, (2020, 1, Monday), "2019-12-30"),
    (2_458_485, (2019, 1, 1), 1, (2019, 1, Tuesday), "2019-01-01"),
    (2_458_849, (2019, 12, 31), 365, (2020, 1, Tuesday), "2019-12-31"),
    (2_460_370, (2024, 2, 29), 60, (2024, 9, Thursday), "2024-02-29"),
];

#[test]
fn days() {
    for (julian_day, (year, month, day_of_month), ordinal, (iso_year, week, weekday), text) in DAYS {
        let date = Date::from_julian_day(julian_day).unwrap();
        let month = Month::try_from(month).unwrap();
        assert_eq!(date.to_string(), text);
        assert_eq!(format!("{date:?}"), text);
        assert_eq!(Date::from_calendar_date(year, month, day_of_month), Ok(date));
        assert_eq!(Date::from_ordinal_date(year, ordinal), Ok(date));
        assert_eq!(Date::from_iso_week_date(iso_year, week, weekday), Ok(date));
        assert_eq!(date.to_julian_day(), julian_day);
        assert_eq!(date.to_calendar_date(), (year, month, day_of_month));
        assert_eq!(date.to_ordinal_date(), (year, ordinal));
        assert_eq!(date.to_iso_week_date(), (iso_year, week, weekday));
        assert_eq!((date.year(), date.month(), date.day()), (year, month, day_of_month));
        assert_eq!((date.ordinal(), date.iso_week(), date.weekday()), (ordinal, week, weekday));
    }
    assert_eq!(Date::from_julian_day(-363_521_074), Ok(Date::MIN));
    assert_eq!(Date::from_julian_day(366_963_559), Ok(Date::MAX));
    assert_eq!((day(2019, 1, 1).sunday_based_week(), day(2019, 1, 1).monday_based_week()), (0, 0));
    assert_eq!((day(2020, 12, 31).sunday_based_week(), day(2020, 12, 31).monday_based_week()), (52, 52));
    assert_eq!(
        format!("{:>12}|{:<12}|{:^12}", day(2019, 1, 2), day(2019, 1, 2), day(2019, 1, 2)),
        "  2019-01-02|2019-01-02  | 2019-01-02 "
    );
}

#[test]
fn moves() {
    let new_years_eve = day(2020, 12, 31);
    let rows = [
        (Date::MIN, Duration::hours(-23), Some(Date::MIN)),
        (Date::MIN, Duration::hours(-24), None),
        (Date::MAX, Duration::hours(23), Some(Date::MAX)),
        (Date::MAX, Duration::hours(24), None),
        (Date::MIN, Duration::days(730_484_633), Some(Date::MAX)),
        (Date::MIN, Duration::days(730_484_634), None),
        (new_years_eve, Duration::hours(47), Some(day(2021, 1, 1))),
        (new_years_eve, Duration::hours(-47), Some(day(2020, 12, 30))),
    ];
    for (date, duration, to) in rows {
        assert_eq!(date.checked_add(duration), to);
        assert_eq!(date.checked_sub(-duration), to);
        if let Some(to) = to {
            assert_eq!((date + duration, date - -duration), (to, to));
            assert_eq!((date.saturating_add(duration), date.saturating_sub(-duration)), (to, to));
            let (mut later, mut earlier) = (date, date);
            later += duration;
            earlier -= -duration;
            assert_eq!((later, earlier), (to, to));
        }
    }
    assert_eq!(Date::MAX.saturating_add(Duration::DAY), Date::MAX);
    assert_eq!(Date::MIN.saturating_sub(Duration::DAY), Date::MIN);
    assert_eq!(Date::MIN.saturating_sub(Duration::MIN), Date::MAX);
    assert_eq!(Date::MAX.saturating_add(Duration::MIN), Date::MIN);
    assert_eq!(day(2019, 12, 31).next_day(), Some(day(2020, 1, 1)));
    assert_eq!(day(2020, 1, 1).previous_day(), Some(day(2019, 12, 31)));
    assert_eq!((Date::MAX.next_day(), Date::MIN.previous_day()), (None, None));
    assert_eq!(day(2020, 1, 1) - day(2019, 12, 31), Duration::DAY);
    assert_eq!(Date::MIN - Date::MAX, Duration::days(-730_484_633));
}

#[test]
fn replacements() {
    assert_eq!(day(2024, 2, 29).replace_year(10_000), Ok(day(10_000, 2, 29)));
    assert_eq!(day(2024, 3, 1).replace_year(2023), Date::from_ordinal_date(2023, 60));
    assert_eq!(day(2023, 3, 1).replace_year(2024), Date::from_ordinal_date(2024, 61));
    assert_eq!(day(2022, 2, 18).replace_year(2019), Ok(day(2019, 2, 18)));
    assert_eq!(day(2022, 2, 18).replace_month(Month::March), Ok(day(2022, 3, 18)));
    assert_eq!(day(2022, 2, 18).replace_day(1), Ok(day(2022, 2, 1)));
    assert_eq!(day(2022, 2, 18).replace_ordinal(1), Ok(day(2022, 1, 1)));
}

#[test]
fn occurrences() {
    assert_eq!(day(2023, 6, 28).next_occurrence(Monday), day(2023, 7, 3));
    assert_eq!(day(2023, 6, 19).prev_occurrence(Monday), day(2023, 6, 12));
    assert_eq!(day(2023, 6, 25).nth_next_occurrence(Monday, 5), day(2023, 7, 24));
    assert_eq!(day(2023, 6, 26).nth_next_occurrence(Monday, 5), day(2023, 7, 31));
    assert_eq!(day(2023, 6, 27).nth_prev_occurrence(Monday, 3), day(2023, 6, 12));
    assert_eq!(day(2023, 6, 26).nth_prev_occurrence(Monday, 3), day(2023, 6, 5));
    let mut weekday = Monday;
    for _ in 0..7 {
        assert_eq!(Date::MAX.checked_next_occurrence(weekday), None);
        assert_eq!(Date::MIN.checked_prev_occurrence(weekday), None);
        assert_eq!(day(2023, 6, 26).checked_nth_next_occurrence(weekday, 0), None);
        assert_eq!(day(2023, 6, 26).checked_nth_prev_occurrence(weekday, 0), None);
        for first in 2_460_000..2_460_007 {
            let date = Date::from_julian_day(first).unwrap();
            let ahead = (1..).filter_map(|n| Date::from_julian_day(first + n).ok()).filter(|date| date.weekday() == weekday);
            let back = (1..).filter_map(|n| Date::from_julian_day(first - n).ok()).filter(|date| date.weekday() == weekday);
            for (n, (next, previous)) in (1..=255).zip(ahead.zip(back)) {
                assert_eq!(date.checked_nth_next_occurrence(weekday, n), Some(next));
                assert_eq!(date.checked_nth_prev_occurrence(weekday, n), Some(previous));
            }
        }
        weekday = weekday.next();
    }
}

#[test]
fn times() {
    let one = clock(1, 2, 3, 4_005_006);
    assert_eq!(one.as_hms(), (1, 2, 3));
    assert_eq!(one.as_hms_milli(), (1, 2, 3, 4));
    assert_eq!(one.as_hms_micro(), (1, 2, 3, 4_005));
    assert_eq!(one.as_hms_nano(), (1, 2, 3, 4_005_006));
    assert_eq!((one.hour(), one.minute(), one.second()), (1, 2, 3));
    assert_eq!((one.millisecond(), one.microsecond(), one.nanosecond()), (4, 4_005, 4_005_006));
    assert_eq!(one.replace_hour(7), Ok(clock(7, 2, 3, 4_005_006)));
    assert_eq!(one.replace_minute(7), Ok(clock(1, 7, 3, 4_005_006)));
    assert_eq!(one.replace_second(7), Ok(clock(1, 2, 7, 4_005_006)));
    assert_eq!(one.replace_millisecond(7), Ok(clock(1, 2, 3, 7_000_000)));
    assert_eq!(one.replace_microsecond(7_008), Ok(clock(1, 2, 3, 7_008_000)));
    assert_eq!(one.replace_nanosecond(7), Ok(clock(1, 2, 3, 7)));
    assert_eq!(one.truncate_to_hour(), clock(1, 0, 0, 0));
    assert_eq!(one.truncate_to_minute(), clock(1, 2, 0, 0));
    assert_eq!(one.truncate_to_second(), clock(1, 2, 3, 0));
    assert_eq!(one.truncate_to_millisecond(), clock(1, 2, 3, 4_000_000));
    assert_eq!(one.truncate_to_microsecond(), clock(1, 2, 3, 4_005_000));
    assert_eq!(Time::from_hms_milli(1, 2, 3, 4), Ok(clock(1, 2, 3, 4_000_000)));
    assert_eq!(Time::from_hms_micro(1, 2, 3, 4_005), Ok(clock(1, 2, 3, 4_005_000)));
    assert_eq!(Time::from_hms(0, 0, 0), Ok(Time::MIDNIGHT));
    assert_eq!(clock(23, 59, 59, 999_999_999), Time::MAX);
}

/// Times over the whole day, cut to each unit, against their parts.
#[test]
fn truncated_times() {
    for number in (0..86_400_000_000_000).step_by(86_399_999_977).chain([86_399_999_999_999]) {
        let time = Time::MIDNIGHT + Duration::nanoseconds(number);
        let (hour, minute, second, nanosecond) = time.as_hms_nano();
        let below = (number / 1_000_000_000 % 60, number / 60_000_000_000 % 60, number / 3_600_000_000_000);
        assert_eq!((i64::from(second), i64::from(minute), i64::from(hour)), below);
        assert_eq!(i64::from(nanosecond), number % 1_000_000_000);
        assert_eq!(time.truncate_to_hour(), clock(hour, 0, 0, 0));
        assert_eq!(time.truncate_to_minute(), clock(hour, minute, 0, 0));
        assert_eq!(time.truncate_to_second(), clock(hour, minute, second, 0));
        assert_eq!(time.truncate_to_millisecond(), clock(hour, minute, second, nanosecond / 1_000_000 * 1_000_000));
        assert_eq!(time.truncate_to_microsecond(), clock(hour, minute, second, nanosecond / 1_000 * 1_000));
    }
}

#[test]
fn texts_of_times() {
    let rows = [
        (Time::MIDNIGHT, "0:00:00.0"),
        (clock(9, 5, 0, 120_000_000), "9:05:00.12"),
        (clock(1, 2, 3, 1), "1:02:03.000000001"),
        (clock(10, 20, 30, 500), "10:20:30.0000005"),
        (Time::MAX, "23:59:59.999999999"),
    ];
    for (time, text) in rows {
        assert_eq!((time.to_string(), format!("{time:?}")), (text.into(), text.into()));
        assert_eq!(format!("{time:>20}"), format!("{text:>20}"));
    }
    // Each count of decimals, and each zero at their end.
    for nanosecond in (0..1_000_000_000).step_by(999_983).chain([1, 10, 100, 1_000, 10_000, 100_000_000]) {
        let decimals = format!("{nanosecond:09}");
        let decimals = decimals.trim_end_matches('0');
        let expected = format!("4:05:06.{}", if decimals.is_empty() { "0" } else { decimals });
        assert_eq!(clock(4, 5, 6, nanosecond).to_string(), expected);
    }
}

#[test]
fn times_moved() {
    let late = clock(23, 0, 0, 0);
    assert_eq!(clock(23, 59, 59, 500_000_000).duration_until(clock(0, 0, 0, 200_000_000)), Duration::milliseconds(700));
    assert_eq!(late.duration_until(clock(1, 0, 0, 0)), Duration::hours(2));
    assert_eq!(clock(1, 0, 0, 0).duration_since(late), Duration::hours(2));
    assert_eq!(Time::MIDNIGHT - late, Duration::hours(-23));
    assert_eq!(Time::MIDNIGHT.adjusting_add(Duration::MIN), (DateAdjustment::Previous, clock(8, 29, 51, 1)));
    assert_eq!(Time::MIDNIGHT.adjusting_sub(Duration::MIN), (DateAdjustment::None, clock(15, 30, 8, 999_999_999)));
    assert_eq!(late.adjusting_add(Duration::hours(26)), (DateAdjustment::Next, clock(1, 0, 0, 0)));
    assert_eq!(late + Duration::hours(26), clock(1, 0, 0, 0));
    assert_eq!(clock(1, 0, 0, 0) - Duration::hours(26), late);
    assert_eq!(clock(0, 0, 1, 0) - Duration::seconds(2), clock(23, 59, 59, 0));
    let mut time = late;
    time += Duration::hours(2);
    assert_eq!(time, clock(1, 0, 0, 0));
    time -= Duration::hours(2);
    assert_eq!(time, late);
}

#[test]
fn pairs() {
    let (late, early) = ((day(2020, 12, 31), clock(23, 0, 0, 0)), (day(2021, 1, 1), clock(1, 0, 0, 0)));
    assert_eq!(add_to_pair(late.0, late.1, Duration::hours(2)), Some(early));
    assert_eq!(sub_from_pair(early.0, early.1, Duration::hours(2)), Some(late));
    assert_eq!(add_to_pair(Date::MAX, Time::MAX, Duration::NANOSECOND), None);
    assert_eq!(sub_from_pair(Date::MIN, Time::MIDNIGHT, Duration::NANOSECOND), None);
    assert_eq!(add_to_pair(Date::MIN, clock(12, 0, 0, 0), Duration::hours(-13)), None);
    assert_eq!(sub_from_pair(Date::MIN, clock(12, 0, 0, 0), Duration::hours(13)), None);
}

#[test]
fn offsets() {
    let rows = [
        ((0, -30, 15), -1815, (0, -30, -15), "-00:30:15"),
        ((-25, 59, 59), -93_599, (-25, -59, -59), "-25:59:59"),
        ((1, -2, -3), 3723, (1, 2, 3), "+01:02:03"),
        ((-5, 30, 0), -19_800, (-5, -30, 0), "-05:30:00"),
        ((0, 0, 0), 0, (0, 0, 0), "+00:00:00"),
    ];
    for ((hours, minutes, seconds), whole, parts, text) in rows {
        let offset = UtcOffset::from_hms(hours, minutes, seconds).unwrap();
        assert_eq!(UtcOffset::from_whole_seconds(whole), Ok(offset));
        assert_eq!((offset.whole_seconds(), offset.as_hms()), (whole, parts));
        assert_eq!((offset.whole_hours(), offset.minutes_past_hour(), offset.seconds_past_minute()), parts);
        assert_eq!(i32::from(offset.whole_minutes()), whole / 60);
        assert_eq!((offset.is_utc(), offset.is_positive(), offset.is_negative()), (whole == 0, whole > 0, whole < 0));
        assert_eq!((-offset).whole_seconds(), -whole);
        assert_eq!((offset.to_string(), format!("{offset:?}")), (text.into(), text.into()));
        assert_eq!(format!("{offset:*^13}"), format!("{text:*^13}"));
    }
    assert!(UtcOffset::from_hms(-5, 30, 0).unwrap() < UtcOffset::from_hms(-4, 30, 0).unwrap());
    assert_eq!(UtcOffset::from_whole_seconds(0), Ok(UtcOffset::UTC));
}

#[test]
fn durations() {
    let (min, max, zero) = (Duration::MIN, Duration::MAX, Duration::ZERO);
    let long_one = Duration::new(-3_074_457_345_618_258_602, -999_999_999);
    assert_eq!(Duration::new(1, 2_000_000_000), Duration::seconds(3));
    assert_eq!(Duration::new(-1, 1), Duration::nanoseconds(-999_999_999));
    assert_eq!(zero.saturating_sub(min), max);
    assert_eq!(Duration::nanoseconds(-1).checked_sub(Duration::seconds(i64::MIN)), Some(max));
    assert_eq!(min.checked_sub(Duration::NANOSECOND), None);
    assert_eq!(max.checked_add(min), Some(Duration::seconds(-1)));
    assert_eq!(max.checked_add(Duration::NANOSECOND), None);
    assert_eq!(max.saturating_add(Duration::NANOSECOND), max);
    assert_eq!((long_one.saturating_mul(-3), long_one.checked_mul(-3)), (max, None));
    assert_eq!((min.saturating_mul(-2), max.saturating_mul(-2)), (max, min));
    assert_eq!(Duration::new(-7, -500_000_000).checked_div(2), Some(Duration::new(-3, -750_000_000)));
    assert_eq!(Duration::nanoseconds(-1).checked_div(2), Some(zero));
    assert_eq!(Duration::SECOND.checked_div(0), None);
    assert_eq!(Duration::seconds(i64::MIN).checked_div(-1), None);
    assert_eq!((min.checked_neg(), Duration::SECOND.checked_neg()), (None, Some(Duration::seconds(-1))));
    assert_eq!((min.abs(), Duration::seconds(-5).abs()), (max, Duration::seconds(5)));
    assert_eq!(Duration::try_sum(&[max, Duration::NANOSECOND, Duration::nanoseconds(-1)]), None);
    assert_eq!(Duration::try_sum(&[max, Duration::nanoseconds(-1), Duration::NANOSECOND]), Some(max));
    assert_eq!(Duration::try_sum(&[]), Some(zero));
    assert_eq!([Duration::HOUR, Duration::MINUTE].iter().sum::<Duration>(), Duration::minutes(61));
    assert_eq!([Duration::HOUR, Duration::MINUTE].into_iter().sum::<Duration>(), Duration::minutes(61));
    assert_eq!(Duration::default(), zero);
    assert!(Duration::nanoseconds(-1) < zero && Duration::new(-1, -1) < Duration::seconds(-1));
}

#[test]
fn units() {
    let units = [
        (Duration::ZERO, 0),
        (Duration::NANOSECOND, 1),
        (Duration::MICROSECOND, 1_000),
        (Duration::MILLISECOND, 1_000_000),
        (Duration::SECOND, 1_000_000_000),
        (Duration::MINUTE, 60_000_000_000),
        (Duration::HOUR, 3_600_000_000_000),
        (Duration::DAY, 86_400_000_000_000),
        (Duration::WEEK, 604_800_000_000_000),
        (Duration::MIN, -9_223_372_036_854_775_808_999_999_999),
        (Duration::MAX, 9_223_372_036_854_775_807_999_999_999),
        (Duration::weeks(2), 1_209_600_000_000_000),
        (Duration::days(-3), -259_200_000_000_000),
        (Duration::hours(36), 129_600_000_000_000),
        (Duration::minutes(90), 5_400_000_000_000),
        (Duration::milliseconds(-1_500), -1_500_000_000),
        (Duration::microseconds(1_500_000), 1_500_000_000),
        (Duration::nanoseconds_i128(1_000_000_001), 1_000_000_001),
        (Duration::nanoseconds_i128(-9_223_372_036_854_775_808_999_999_999), -9_223_372_036_854_775_808_999_999_999),
    ];
    for (duration, nanoseconds) in units {
        assert_eq!(duration.whole_nanoseconds(), nanoseconds);
        assert_eq!(duration.whole_microseconds(), nanoseconds / 1_000);
        assert_eq!(duration.whole_milliseconds(), nanoseconds / 1_000_000);
        assert_eq!(i128::from(duration.whole_seconds()), nanoseconds / 1_000_000_000);
        assert_eq!(i128::from(duration.whole_minutes()), nanoseconds / 60_000_000_000);
        assert_eq!(i128::from(duration.whole_hours()), nanoseconds / 3_600_000_000_000);
        assert_eq!(i128::from(duration.whole_days()), nanoseconds / 86_400_000_000_000);
        assert_eq!(i128::from(duration.whole_weeks()), nanoseconds / 604_800_000_000_000);
        assert_eq!(i128::from(duration.subsec_nanoseconds()), nanoseconds % 1_000_000_000);
        assert_eq!(i128::from(duration.subsec_microseconds()), nanoseconds % 1_000_000_000 / 1_000);
        assert_eq!(i128::from(duration.subsec_milliseconds()), nanoseconds % 1_000_000_000 / 1_000_000);
        let signs = (duration.is_zero(), duration.is_negative(), duration.is_positive());
        assert_eq!(signs, (nanoseconds == 0, nanoseconds < 0, nanoseconds > 0));
        assert_eq!(duration.unsigned_abs().as_nanos(), nanoseconds.unsigned_abs());
    }
    assert_eq!(Duration::days(-6).whole_weeks(), 0);
}

/// The operators by each integer type, by the operand's own value.
#[test]
fn products_and_quotients() {
    assert_eq!(Duration::SECOND * 200u8, Duration::seconds(200));
    assert_eq!(200u8 * Duration::SECOND, Duration::seconds(200));
    assert_eq!(Duration::nanoseconds(-7) / 2i8, Duration::nanoseconds(-3));
    assert_eq!(Duration::SECOND * -128i8, Duration::seconds(-128));
    assert_eq!(Duration::SECOND * 65_535u16, Duration::seconds(65_535));
    assert_eq!(Duration::SECOND * -32_768i16, Duration::seconds(-32_768));
    let mut duration = Duration::seconds(-7);
    duration *= 3i16;
    assert_eq!(duration, Duration::seconds(-21));
    duration /= 2u8;
    assert_eq!(duration, Duration::milliseconds(-10_500));
    let numbers: [i128; 9] = [
        0,
        1,
        -1,
        999_999_999,
        -1_500_000_000,
        86_400_000_000_001,
        -604_800_000_000_007,
        2_147_483_647_999_999_999,
        -2_147_483_648_000_000_001,
    ];
    for number in numbers {
        let duration = Duration::nanoseconds_i128(number);
        for operand in [1u32, 2, 3, 2_147_483_647, 2_147_483_648, 2_147_483_649, 4_294_967_294, 4_294_967_295] {
            assert_eq!((duration * operand).whole_nanoseconds(), number * i128::from(operand));
            assert_eq!((duration / operand).whole_nanoseconds(), number / i128::from(operand));
        }
        for operand in [1i32, -1, 7, i32::MIN, i32::MAX] {
            assert_eq!((duration * operand).whole_nanoseconds(), number * i128::from(operand));
            assert_eq!((duration / operand).whole_nanoseconds(), number / i128::from(operand));
        }
    }
    for end in [Duration::MIN, Duration::MAX] {
        for operand in [2_147_483_648u32, 4_294_967_295] {
            assert_eq!((end / operand).whole_nanoseconds(), end.whole_nanoseconds() / i128::from(operand));
        }
    }
    // A product that has no room to spare.
    let most = Duration::MAX / u32::MAX;
    assert_eq!((most * u32::MAX).whole_nanoseconds(), most.whole_nanoseconds() * i128::from(u32::MAX));
}

#[test]
fn texts_of_durations() {
    let rows = [
        (Duration::ZERO, "0s"),
        (Duration::nanoseconds(-1), "-1ns"),
        (Duration::MIN, "-106751991167300d15h30m8s999ms999µs999ns"),
        (Duration::MAX, "106751991167300d15h30m7s999ms999µs999ns"),
        (Duration::milliseconds(-93_784_005), "-1d2h3m4s5ms"),
        (Duration::hours(26), "1d2h"),
    ];
    for (duration, text) in rows {
        assert_eq!(duration.to_string(), text);
        assert_eq!(format!("{duration:>60}"), text, "a width changes nothing");
    }
}

#[test]
fn conversions_of_durations() {
    use std::time::Duration as Std;
    assert_eq!(SignedDuration::try_from(Std::new(5, 7)), Ok(Duration::new(5, 7)));
    assert_eq!(SignedDuration::try_from(Std::from_secs(i64::MAX as u64)), Ok(Duration::seconds(i64::MAX)));
    assert_eq!(SignedDuration::try_from(Std::from_secs(i64::MAX as u64 + 1)), Err(ConversionRange));
    assert_eq!(Std::try_from(Duration::new(5, 7)), Ok(Std::new(5, 7)));
    assert_eq!(Std::try_from(Duration::ZERO), Ok(Std::ZERO));
    assert_eq!(Std::try_from(Duration::nanoseconds(-1)), Err(ConversionRange));
    assert_eq!(ConversionRange.to_string(), "Source value is out of range for the target type");
}

#[test]
fn names() {
    let months = "January February March April May June July August September October November December";
    assert_eq!(Month::iter_from(Month::January).take(12).map(|month| month.to_string()).collect::<Vec<_>>().join(" "), months);
    let weekdays = "Monday Tuesday Wednesday Thursday Friday Saturday Sunday";
    assert_eq!(Weekday::iter_from(Monday).take(7).map(|weekday| weekday.to_string()).collect::<Vec<_>>().join(" "), weekdays);
}

#[test]
fn months_and_weekdays() {
    assert_eq!((Month::July.nth_next(9), Month::January.nth_next(255)), (Month::April, Month::April));
    assert_eq!((Month::July.nth_prev(9), Month::January.nth_prev(4)), (Month::October, Month::September));
    assert_eq!((Month::December.next(), Month::January.previous()), (Month::January, Month::December));
    assert_eq!((Month::May as u8, u8::from(Month::May), Month::try_from(5)), (5, 5, Ok(Month::May)));
    assert!(Month::January < Month::February);
    assert_eq!((Sunday.nth_next(10), Sunday.nth_prev(10)), (Wednesday, Thursday));
    assert_eq!((Sunday.next(), Monday.previous()), (Monday, Sunday));
    assert_eq!((Friday.number_from_monday(), Friday.number_from_sunday()), (5, 6));
    assert_eq!((Friday.number_days_from_monday(), Friday.number_days_from_sunday(), Friday as u8), (4, 5, 4));
    assert_eq!((Sunday.number_from_sunday(), Sunday.number_days_from_sunday()), (1, 0));
    let mut month = Month::January;
    for number in 1..=12 {
        assert_eq!((u8::from(month), month.to_string().parse()), (number, Ok(month)));
        for n in [0, 1, 11, 12, 13, 255] {
            assert_eq!(u32::from(u8::from(month.nth_next(n))), (u32::from(number) - 1 + u32::from(n)) % 12 + 1);
            assert_eq!(month.nth_next(n).nth_prev(n), month);
        }
        month = month.next();
    }
    let mut weekday = Monday;
    for number in 1..=7 {
        assert_eq!((weekday.number_from_monday(), weekday.to_string().parse()), (number, Ok(weekday)));
        for n in [0, 1, 6, 7, 8, 255] {
            assert_eq!(u32::from(weekday.nth_next(n).number_from_monday()), (u32::from(number) - 1 + u32::from(n)) % 7 + 1);
            assert_eq!(weekday.nth_next(n).nth_prev(n), weekday);
        }
        weekday = weekday.next();
    }
    for text in ["march", "Mar", "", "March "] {
        assert_eq!(text.parse::<Month>(), Err(InvalidVariant));
    }
    for text in ["friday", "Fri", "", " Friday"] {
        assert_eq!(text.parse::<Weekday>(), Err(InvalidVariant));
    }
    assert_eq!(InvalidVariant.to_string(), "value was not a valid variant");
    assert_eq!(format!("{:>5}|{:<8}|", Month::May, Friday), "  May|Friday  |");
}

#[test]
fn lengths() {
    for year in (-1200..2400).chain([i32::MIN, i32::MAX, -999_999, 999_999]) {
        let leap = year % 4 == 0 && (year % 100 != 0 || year % 400 == 0);
        assert_eq!((is_leap_year(year), days_in_year(year)), (leap, if leap { 366 } else { 365 }), "{year}");
        assert_eq!(days_in_month(Month::February, year), if leap { 29 } else { 28 });
        let months = [31, if leap { 29 } else { 28 }, 31, 30, 31, 30, 31, 31, 30, 31, 30, 31];
        for (number, length) in (1..).zip(months) {
            let month = Month::try_from(number).unwrap();
            assert_eq!((month.length(year), days_in_year_month(year, month)), (length, length));
        }
    }
    for year in -999_999..=999_999 {
        let thursdays = Date::from_ordinal_date(year, 1).unwrap().weekday() == Thursday
            || Date::from_ordinal_date(year, days_in_year(year)).unwrap().weekday() == Thursday;
        assert_eq!(weeks_in_year(year), if thursdays { 53 } else { 52 }, "{year}");
    }
}

#[test]
fn version_is_that_of_the_library() {
    let (major, minor, patch) = fotsevindre::version();
    assert_eq!(format!("{major}.{minor}.{patch}"), env!("CARGO_PKG_VERSION"));
}
