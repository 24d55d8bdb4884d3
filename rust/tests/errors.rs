//! Every error, by its name and its mark, and when calls panic.

use fotsevindre::error::ComponentRange;
use fotsevindre::{Date, Duration, Month, Time, UtcOffset, Weekday};
use std::fmt::Debug;
use std::panic::{UnwindSafe, catch_unwind};

#[track_caller]
fn is_error<T: Debug + PartialEq>(result: Result<T, ComponentRange>, name: &str, is_conditional: bool) {
    let error = result.unwrap_err();
    assert_eq!((error.name(), error.is_conditional()), (name, is_conditional));
    assert_eq!(error.to_string(), format!("{name} was not in range"));
    let _: &dyn std::error::Error = &error;
}

#[track_caller]
fn panics<T>(call: impl FnOnce() -> T + UnwindSafe) {
    assert!(catch_unwind(call).is_err());
}

fn day(year: i32, month: Month, day: u8) -> Date {
    Date::from_calendar_date(year, month, day).unwrap()
}

#[test]
fn of_dates() {
    for julian_day in [-363_521_075, 366_963_560, i32::MIN, i32::MAX] {
        is_error(Date::from_julian_day(julian_day), "julian_day", false);
    }
    for year in [-1_000_000, 1_000_000, i32::MIN, i32::MAX] {
        is_error(Date::from_calendar_date(year, Month::January, 32), "year", false);
        is_error(Date::from_ordinal_date(year, 0), "year", false);
        is_error(Date::from_iso_week_date(year, 53, Weekday::Monday), "year", false);
        is_error(day(2024, Month::February, 29).replace_year(year), "year", false);
    }
    for (year, month, day) in [(1900, 2, 29), (2000, 2, 0), (2000, 2, 30), (2000, 1, 32), (2000, 4, 31), (2000, 1, 255)] {
        is_error(Date::from_calendar_date(year, Month::try_from(month).unwrap(), day), "day", true);
    }
    for (year, ordinal) in [(1900, 366), (2000, 367), (2000, 0), (2000, u16::MAX)] {
        is_error(Date::from_ordinal_date(year, ordinal), "ordinal", true);
    }
    for (year, week) in [(2019, 53), (2020, 54), (2020, 0), (2020, 255), (999_999, 53)] {
        is_error(Date::from_iso_week_date(year, week, Weekday::Monday), "week", true);
    }
    for weekday in [Weekday::Saturday, Weekday::Sunday] {
        is_error(Date::from_iso_week_date(999_999, 52, weekday), "weekday", true);
    }
    is_error(day(2024, Month::February, 29).replace_year(2023), "day", true);
    is_error(day(2022, Month::January, 30).replace_month(Month::February), "day", true);
    for number in [0, 29, 30, 255] {
        is_error(day(2022, Month::February, 18).replace_day(number), "day", true);
    }
    for number in [0, 366, u16::MAX] {
        is_error(day(2022, Month::February, 18).replace_ordinal(number), "ordinal", true);
    }
    for number in [0, 13, 255] {
        is_error(Month::try_from(number), "month", false);
    }
}

#[test]
fn of_times() {
    let midnight = Time::MIDNIGHT;
    for number in [24, 60, 255] {
        is_error(Time::from_hms(number, 60, 60), "hour", false);
        is_error(midnight.replace_hour(number), "hour", false);
    }
    for number in [60, 255] {
        is_error(Time::from_hms(23, number, 60), "minute", false);
        is_error(midnight.replace_minute(number), "minute", false);
        is_error(Time::from_hms(23, 59, number), "second", false);
        is_error(Time::from_hms_nano(23, 59, number, u32::MAX), "second", false);
        is_error(midnight.replace_second(number), "second", false);
    }
    for number in [1_000, u16::MAX] {
        is_error(Time::from_hms_milli(0, 0, 0, number), "millisecond", false);
        is_error(midnight.replace_millisecond(number), "millisecond", false);
    }
    for number in [1_000_000, 4_294_968, u32::MAX] {
        is_error(Time::from_hms_micro(0, 0, 0, number), "microsecond", false);
        is_error(midnight.replace_microsecond(number), "microsecond", false);
    }
    for number in [1_000_000_000, u32::MAX] {
        is_error(Time::from_hms_nano(0, 0, 0, number), "nanosecond", false);
        is_error(midnight.replace_nanosecond(number), "nanosecond", false);
    }
}

#[test]
fn of_offsets() {
    for number in [26, -26, i8::MIN, i8::MAX] {
        is_error(UtcOffset::from_hms(number, 99, 0), "offset hour", false);
    }
    for number in [60, -60, i8::MIN, i8::MAX] {
        is_error(UtcOffset::from_hms(0, number, 99), "offset minute", false);
        is_error(UtcOffset::from_hms(0, 0, number), "offset second", false);
    }
    for number in [93_600, -93_600, i32::MIN, i32::MAX] {
        is_error(UtcOffset::from_whole_seconds(number), "seconds", false);
    }
}

#[test]
fn panics_past_the_range() {
    panics(|| Date::MAX + Duration::DAY);
    panics(|| Date::MIN - Duration::DAY);
    panics(|| Date::MAX.next_occurrence(Weekday::Monday));
    panics(|| Date::MIN.prev_occurrence(Weekday::Monday));
    panics(|| Date::MAX.nth_next_occurrence(Weekday::Monday, 1));
    panics(|| Date::MIN.nth_prev_occurrence(Weekday::Monday, 1));
    panics(|| day(2023, Month::June, 26).nth_next_occurrence(Weekday::Monday, 0));
    panics(|| day(2023, Month::June, 26).nth_prev_occurrence(Weekday::Monday, 0));
    panics(|| Duration::MAX + Duration::NANOSECOND);
    panics(|| Duration::MIN - Duration::NANOSECOND);
    panics(|| -Duration::MIN);
    panics(|| Duration::MAX * 2i32);
    panics(|| Duration::MAX * u32::MAX);
    panics(|| Duration::SECOND / 0i32);
    panics(|| Duration::SECOND / 0u32);
    panics(|| Duration::seconds(i64::MIN) / -1i8);
    panics(|| Duration::new(i64::MAX, 1_000_000_000));
    panics(|| Duration::new(i64::MIN, -1_000_000_000));
    panics(|| Duration::nanoseconds_i128(9_223_372_036_854_775_808_000_000_000));
    panics(|| Duration::nanoseconds_i128(i128::MAX));
    panics(|| [Duration::MAX, Duration::NANOSECOND].iter().sum::<Duration>());
}

/// A constructor of durations, the maximum number that it accepts, and the seconds of its unit.
type Maker = (fn(i64) -> Duration, i64, i64);

/// The maximum number of each unit, and one more.
#[test]
fn makers_of_durations_end_where_durations_do() {
    let makers: [Maker; 4] = [
        (Duration::weeks, 15_250_284_452_471, 604_800),
        (Duration::days, 106_751_991_167_300, 86_400),
        (Duration::hours, 2_562_047_788_015_215, 3_600),
        (Duration::minutes, 153_722_867_280_912_930, 60),
    ];
    for (make, most, unit) in makers {
        assert_eq!(make(most), Duration::seconds(most * unit));
        assert_eq!(make(-most), Duration::seconds(-most * unit));
        for number in [most + 1, -most - 1, i64::MAX, i64::MIN] {
            panics(move || make(number));
        }
    }
}

#[test]
fn sentences_of_strings() {
    use fotsevindre::error::Component;
    use fotsevindre::error::sentences::{
        contradiction, format_sentence, lenient_sentence, string_sentence, unexpected, unknown_item,
    };
    use fotsevindre::format::Format;

    for (component, text, sentence) in [
        (Component::Day, "20230229", "day 29 is out of range 1 to 28 (February 2023)"),
        (Component::Hour, "24:00", "hour 24 is out of range 0 to 23"),
        (Component::OffsetHour, "2024-02-29T23:00:00+24:00", "offset hour 24 is out of range -23 to 23"),
    ] {
        assert_eq!(string_sentence(component, text.as_bytes()).unwrap().to_string(), sentence);
    }
    assert!(string_sentence(Component::Day, b"2024-02-29").is_none());
    assert!(string_sentence(Component::Day, b"29 February").is_none());
    let format = Format::new("%d/%m/%y").unwrap();
    let lenient = format.clone().lenient().with_pivot(1970);
    assert_eq!(
        lenient_sentence(Component::Day, &lenient, b"29/2/71").unwrap().to_string(),
        "day 29 is out of range 1 to 28 (February 1971)"
    );
    assert_eq!(format_sentence(Component::Month, &format, b"29/13/71").unwrap().to_string(), "month 13 is out of range 1 to 12");
    assert_eq!(format!("{:>9}|{:.5}", unexpected(b'x', 4), unexpected(0xE2, 4)), "unexpected \"x\" at position 4|unexp");
    assert_eq!(contradiction(Component::Weekday).to_string(), "weekday contradicts the other components");
    assert_eq!(unknown_item(b"%Q %d", 3).to_string(), "unknown item \"%Q\" at position 3");
}
