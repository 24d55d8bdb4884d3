//! Expressions of `chrono` beside ours: docs/FROM_CHRONO.md lists those that differ.

use chrono::{
    DateTime, Datelike, Days, Duration as ChronoDuration, DurationRound, FixedOffset, Months, NaiveDate, NaiveDateTime, NaiveTime,
    SecondsFormat, TimeZone, Timelike, Utc,
};
use fotsevindre::text::rfc3339;
use fotsevindre::{
    Date, Duration, Format, Month, OffsetDateTime, PlainDateTime, RoundingMode, RoundingUnit, Time, UtcOffset, Weekday,
};

/// An expression, and what it prints there and here.
type Row = (&'static str, String, String);

macro_rules! rows {
    ($($name:literal: $there:expr, $here:expr;)*) => {
        vec![$(($name, $there.to_string(), $here.to_string())),*]
    };
}

fn formatted(date_time: PlainDateTime, format: &str) -> String {
    date_time.format(&Format::new(format).unwrap()).unwrap().as_str().to_string()
}

/// A local date-time as `chrono` prints it without a fraction.
fn iso(date_time: PlainDateTime) -> String {
    formatted(date_time, "%F %T")
}

fn rfc3339_text(date_time: OffsetDateTime) -> String {
    rfc3339::Text::new(date_time).unwrap().to_string()
}

fn dates() -> Vec<Row> {
    let there = NaiveDate::from_ymd_opt(2024, 1, 31).unwrap();
    let here = Date::from_calendar_date(2024, Month::January, 31).unwrap();
    let leap = NaiveDate::from_ymd_opt(2024, 2, 29).unwrap();
    let leap_here: Date = "2024-02-29".parse().unwrap();
    rows! {
        "a date": there, here;
        "a date that isn't there": NaiveDate::from_ymd_opt(2023, 2, 29).is_none(), Date::from_calendar_date(2023, Month::February, 29).is_err();
        "an ordinal": there.ordinal(), here.ordinal();
        "a year and an ordinal": NaiveDate::from_yo_opt(2024, 60).unwrap(), Date::from_ordinal_date(2024, 60).unwrap();
        "an ISO week": there.iso_week().week(), here.iso_week();
        "the year of an ISO week": NaiveDate::from_ymd_opt(2024, 12, 30).unwrap().iso_week().year(),
            Date::from_calendar_date(2024, Month::December, 30).unwrap().to_iso_week_date().0;
        "a week date": NaiveDate::from_isoywd_opt(2024, 9, chrono::Weekday::Thu).unwrap(),
            Date::from_iso_week_date(2024, 9, Weekday::Thursday).unwrap();
        "a weekday": there.weekday(), here.weekday();
        "days since Monday": there.weekday().num_days_from_monday(), here.weekday().number_days_from_monday();
        "a number from Monday": there.weekday().number_from_monday(), here.weekday().number_from_monday();
        "a number from Sunday": there.weekday().number_from_sunday(), here.weekday().number_from_sunday();
        "a month later": there + Months::new(1), here.checked_add_months(1).unwrap();
        "a month earlier": there - Months::new(2), here.checked_add_months(-2).unwrap();
        "a year after 29 February": leap + Months::new(12), leap_here.checked_add_years(1).unwrap();
        "days later": there + Days::new(30), here + Duration::days(30);
        "47 hours later": there + ChronoDuration::hours(47), here + Duration::hours(47);
        "days between": (leap - there).num_days(), (leap_here - here).whole_days();
        "years between": leap.years_since(NaiveDate::from_ymd_opt(2000, 2, 29).unwrap()).unwrap(),
            Date::from_calendar_date(2000, Month::February, 29).unwrap().years_until(leap_here);
        "years from 29 February to 28 February": NaiveDate::from_ymd_opt(2025, 2, 28).unwrap().years_since(leap).unwrap(),
            leap_here.years_until(Date::from_calendar_date(2025, Month::February, 28).unwrap());
        "with a month": there.with_month(2).is_none(), here.replace_month(Month::February).is_err();
        "with a year": leap.with_year(2023).is_none(), leap_here.replace_year(2023).is_err();
        "the next day": there.succ_opt().unwrap(), here.next_day().unwrap();
        "days in order": there < leap, here < leap_here;
        "the n-th weekday of a month": NaiveDate::from_weekday_of_month_opt(2024, 2, chrono::Weekday::Thu, 5).unwrap(),
            Date::nth_weekday_of_month(2024, Month::February, Weekday::Thursday, 5).unwrap();
        "a week from Monday": there.week(chrono::Weekday::Mon).first_day(), here.first_of_iso_week();
        "a year above 9999": NaiveDate::from_ymd_opt(12024, 1, 1).unwrap(), Date::from_calendar_date(12024, Month::January, 1).unwrap();
        "a year below 0": NaiveDate::from_ymd_opt(-1, 1, 1).unwrap(), Date::from_calendar_date(-1, Month::January, 1).unwrap();
        "parsed": "2024-02-29".parse::<NaiveDate>().unwrap(), "2024-02-29".parse::<Date>().unwrap();
        "parsed without zeros": "2024-2-9".parse::<NaiveDate>().is_ok(), "2024-2-9".parse::<Date>().is_ok();
        "parsed with spaces": " 2024-02-09".parse::<NaiveDate>().is_ok(), " 2024-02-09".parse::<Date>().is_ok();
        "the month by number": there.month(), u8::from(here.month());
    }
}

fn times() -> Vec<Row> {
    let there = NaiveTime::from_hms_nano_opt(9, 5, 7, 250_000_000).unwrap();
    let here = Time::from_hms_nano(9, 5, 7, 250_000_000).unwrap();
    rows! {
        "a time": there, here;
        "past midnight": (there + ChronoDuration::hours(20)).hour(), (here + Duration::hours(20)).hour();
        "times apart": (there - NaiveTime::from_hms_opt(10, 0, 0).unwrap()).num_seconds(),
            (here - Time::from_hms(10, 0, 0).unwrap()).whole_seconds();
        "an hour by 12": there.hour12().1, here.hour() % 12;
        "nanoseconds": there.nanosecond(), here.nanosecond();
        "a leap second": "23:59:60".parse::<NaiveTime>().is_ok(), "23:59:60".parse::<Time>().is_ok();
        "24 o'clock": NaiveTime::from_hms_opt(24, 0, 0).is_none(), Time::from_hms(24, 0, 0).is_err();
        "parsed": "09:05:07.25".parse::<NaiveTime>().is_ok(), "09:05:07.25".parse::<Time>().is_ok();
        "parsed without seconds": "09:05".parse::<NaiveTime>().is_ok(), "09:05".parse::<Time>().is_ok();
        "seconds since midnight": there.num_seconds_from_midnight(), (here - Time::MIDNIGHT).whole_seconds();
    }
}

fn date_times() -> Vec<Row> {
    let offset = FixedOffset::east_opt(3600).unwrap();
    let there = offset.with_ymd_and_hms(2024, 2, 29, 23, 59, 59).unwrap();
    let here: OffsetDateTime = "2024-02-29T23:59:59+01:00".parse().unwrap();
    let local = there.naive_local();
    let local_here = here.local();
    let utc: DateTime<Utc> = there.with_timezone(&Utc);
    rows! {
        "at an offset": there, here;
        "RFC 3339": there.to_rfc3339(), rfc3339_text(here);
        "RFC 3339 at UTC": utc.to_rfc3339(), rfc3339_text(here.to_utc());
        "RFC 3339 with Z": utc.to_rfc3339_opts(SecondsFormat::AutoSi, true), rfc3339_text(here.to_utc());
        "an instant": there == utc, here == here.to_utc();
        "Unix time": there.timestamp(), here.unix_timestamp();
        "before 1970": Utc.timestamp_opt(-1, 500_000_000).unwrap().timestamp(),
            (OffsetDateTime::UNIX_EPOCH - Duration::milliseconds(500)).unix_timestamp();
        "milliseconds": there.timestamp_millis(), (here - OffsetDateTime::UNIX_EPOCH).whole_milliseconds();
        "an hour later": (there + ChronoDuration::hours(1)).naive_local(), iso((here + Duration::hours(1)).local());
        "a month later": (there + Months::new(1)).naive_local(), iso(PlainDateTime::new(here.date().checked_add_months(1).unwrap(), here.time()));
        "the difference": there.signed_duration_since(utc).num_seconds(), (here - here.to_utc()).whole_seconds();
        "with an hour": there.with_hour(1).unwrap().naive_local(), iso(here.replace_hour(1).unwrap().local());
        "rounded to an hour": local.duration_round(ChronoDuration::hours(1)).unwrap(),
            iso(local_here.round(RoundingUnit::HOUR, RoundingMode::HalfCeil).unwrap());
        "cut to an hour": local.duration_trunc(ChronoDuration::hours(1)).unwrap(), iso(local_here.truncate_to_hour());
        "parsed RFC 3339": DateTime::parse_from_rfc3339("2024-02-29T23:59:59.25Z").is_ok(), rfc3339::parse(b"2024-02-29T23:59:59.25Z").is_ok();
        "a leap second of RFC 3339": DateTime::parse_from_rfc3339("2016-12-31T23:59:60Z").is_ok(), rfc3339::parse(b"2016-12-31T23:59:60Z").is_ok();
        "ten decimals": DateTime::parse_from_rfc3339("2024-02-29T23:59:59.1234567891Z").is_ok(), rfc3339::parse(b"2024-02-29T23:59:59.1234567891Z").is_ok();
        "an offset of -00:00": DateTime::parse_from_rfc3339("2024-02-29T23:59:59-00:00").is_ok(), rfc3339::parse(b"2024-02-29T23:59:59-00:00").is_ok();
        "an offset": offset, UtcOffset::from_hms(1, 0, 0).unwrap();
        "a date-time parsed with a space": "2024-02-29 23:59:59".parse::<NaiveDateTime>().is_ok(), "2024-02-29 23:59:59".parse::<PlainDateTime>().is_ok();
        "a date-time parsed with T": "2024-02-29T23:59:59".parse::<NaiveDateTime>().is_ok(), "2024-02-29T23:59:59".parse::<PlainDateTime>().is_ok();
    }
}

fn formats() -> Vec<Row> {
    let there = NaiveDate::from_ymd_opt(2024, 2, 9).unwrap().and_hms_micro_opt(9, 5, 7, 250_000).unwrap();
    let here = PlainDateTime::new("2024-02-09".parse().unwrap(), Time::from_hms_micro(9, 5, 7, 250_000).unwrap());
    let mut rows: Vec<Row> = [
        "%Y-%m-%d",
        "%d/%m/%Y",
        "%A, %-d %B %Y",
        "%e",
        "%j",
        "%G-W%V-%u",
        "%U",
        "%W",
        "%H:%M:%S",
        "%I:%M %p",
        "%T%.f",
        "%f",
        "%C",
        "%y",
        "%k %l",
    ]
    .into_iter()
    .filter(|format| Format::new(*format).is_ok())
    .map(|format| (format, there.format(format).to_string(), formatted(here, format)))
    .collect();
    let zeros = NaiveDate::parse_from_str("9.2.2024", "%d.%m.%Y").is_ok();
    let format = Format::new("%d.%m.%Y").unwrap().for_dates().unwrap();
    rows.push(("%d.%m.%Y of 9.2.2024", zeros.to_string(), Date::parse("9.2.2024", &format).is_ok().to_string()));
    rows
}

fn durations() -> Vec<Row> {
    let there = ChronoDuration::milliseconds(-93_784_005);
    let here = Duration::milliseconds(-93_784_005);
    rows! {
        "whole hours": there.num_hours(), here.whole_hours();
        "whole days": there.num_days(), here.whole_days();
        "a string": there, here;
        "a quotient": (there / 2).num_milliseconds(), (here / 2i32).whole_milliseconds();
        "an ISO 8601 string": ChronoDuration::hours(36), Duration::hours(36).iso8601_text().as_str();
        "too long": ChronoDuration::max_value().checked_add(&ChronoDuration::nanoseconds(1_000_000)).is_none(),
            Duration::MAX.checked_add(Duration::NANOSECOND).is_none();
    }
}

/// The rows that differ.
const DIFFERENT: [&str; 18] = [
    "a weekday",
    "years from 29 February to 28 February",
    "parsed without zeros",
    "parsed with spaces",
    "a time",
    "a leap second",
    "parsed without seconds",
    "at an offset",
    "RFC 3339 at UTC",
    "a leap second of RFC 3339",
    "an offset",
    "a date-time parsed with a space",
    "%U",
    "%T%.f",
    "%f",
    "%d.%m.%Y of 9.2.2024",
    "a string",
    "an ISO 8601 string",
];

#[test]
fn the_rows_of_the_page() {
    let rows = [dates(), times(), date_times(), formats(), durations()].concat();
    let different: Vec<_> = rows.iter().filter(|(_, there, here)| there != here).map(|row| row.0).collect();
    assert_eq!(different, DIFFERENT);
    assert_eq!(rows.len(), 83);
}
