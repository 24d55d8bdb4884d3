//! Months, ends of periods, weekdays of a month and day counts, by rows of calendars and of the memorandum of the ISDA.

use fotsevindre::{Date, DayCount, Month, Period, SignedDuration, Weekday, YearFraction};

fn day(year: i32, month: Month, day: u8) -> Date {
    Date::from_calendar_date(year, month, day).unwrap()
}

#[test]
fn months() {
    assert_eq!(day(2023, Month::January, 31).checked_add_months(1), Some(day(2023, Month::February, 28)));
    assert_eq!(day(2024, Month::January, 31).checked_add_months(1), Some(day(2024, Month::February, 29)));
    assert_eq!(day(2023, Month::December, 15).checked_add_months(1), Some(day(2024, Month::January, 15)));
    assert_eq!(Date::MAX.checked_add_months(1), None);
    assert_eq!(Date::MAX.saturating_add_months(i32::MIN), Date::MIN);
    assert_eq!(day(2024, Month::February, 29).checked_add_years(1), Some(day(2025, Month::February, 28)));
    let born = day(1980, Month::June, 1);
    assert_eq!(born.years_until(day(2024, Month::May, 31)), 43);
    assert_eq!(born.years_until(day(2024, Month::June, 1)), 44);
    assert_eq!(day(2023, Month::January, 31).months_until(day(2022, Month::December, 30)), -1);
    let period = day(2023, Month::January, 31).period_until(day(2024, Month::March, 2));
    assert_eq!(Some(period), Period::new(1, 1, 0, 2, SignedDuration::ZERO));
}

#[test]
fn ends() {
    let leap = day(2024, Month::February, 29);
    assert_eq!((leap.first_of_month(), leap.last_of_month()), (day(2024, Month::February, 1), leap));
    assert_eq!((leap.first_of_quarter(), leap.last_of_quarter()), (day(2024, Month::January, 1), day(2024, Month::March, 31)));
    assert_eq!((leap.first_of_year(), leap.last_of_year()), (day(2024, Month::January, 1), day(2024, Month::December, 31)));
    let new_year = day(2021, Month::January, 1);
    assert_eq!(new_year.first_of_iso_week(), day(2020, Month::December, 28));
    assert_eq!(new_year.last_of_iso_week(), Some(day(2021, Month::January, 3)));
    assert_eq!(Date::MAX.last_of_iso_week(), None);
    assert_eq!((leap.quarter(), day(2024, Month::April, 1).quarter()), (1, 2));
}

#[test]
fn weekdays() {
    let thanksgiving = Date::nth_weekday_of_month(2024, Month::November, Weekday::Thursday, 4);
    assert_eq!(thanksgiving, Ok(day(2024, Month::November, 28)));
    let error_name = |year, n| Date::nth_weekday_of_month(year, Month::November, Weekday::Thursday, n).unwrap_err().name();
    assert_eq!((error_name(2024, 5), error_name(2024, 0), error_name(1_000_000, 1)), ("weekday", "weekday", "year"));
    assert_eq!(Date::last_weekday_of_month(2024, Month::May, Weekday::Friday), Ok(day(2024, Month::May, 31)));
    let friday = day(2024, Month::March, 1);
    assert_eq!(friday.on_or_after(Weekday::Monday), Some(day(2024, Month::March, 4)));
    assert_eq!(friday.on_or_before(Weekday::Monday), Some(day(2024, Month::February, 26)));
    assert_eq!(Date::MAX.on_or_after(Weekday::Saturday), None);
}

#[test]
fn day_counts() {
    let (from, to) = (day(2003, Month::November, 1), day(2004, Month::May, 1));
    for (convention, numerator, denominator) in [
        (DayCount::ActualActual, 61 * 366 + 121 * 365, 133_590),
        (DayCount::Actual360, 182, 360),
        (DayCount::Actual365Fixed, 182, 365),
        (DayCount::Thirty360, 180, 360),
        (DayCount::ThirtyE360, 180, 360),
    ] {
        assert_eq!(from.day_count(to, convention), YearFraction { numerator, denominator });
    }
}
