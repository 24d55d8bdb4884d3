//! Values from and to the crate `chrono`, and its expressions.

mod from_chrono;

use chrono::{DateTime, FixedOffset, NaiveDate, NaiveDateTime, NaiveTime};
use fotsevindre::{Date, Month, OffsetDateTime, PlainDateTime, SignedDuration, Time, UtcOffset, Weekday};

#[test]
fn dates_and_times() {
    let date: Date = "2024-02-29".parse().unwrap();
    let other = NaiveDate::from_ymd_opt(2024, 2, 29).unwrap();
    assert_eq!(NaiveDate::try_from(date), Ok(other));
    assert_eq!(Date::from(other), date);
    for other in [NaiveDate::MIN, NaiveDate::MAX] {
        assert_eq!(NaiveDate::try_from(Date::from(other)), Ok(other));
    }
    assert_eq!(NaiveDate::try_from(Date::MIN).unwrap_err().name(), "year");
    let time = Time::from_hms_nano(23, 59, 58, 123_456_789).unwrap();
    let other = NaiveTime::from_hms_nano_opt(23, 59, 58, 123_456_789).unwrap();
    assert_eq!((NaiveTime::from(time), Time::try_from(other)), (other, Ok(time)));
    let leap = NaiveTime::from_hms_nano_opt(23, 59, 59, 1_000_000_000).unwrap();
    assert_eq!(Time::try_from(leap).unwrap_err().name(), "nanosecond");
}

#[test]
fn months_and_weekdays() {
    let mut other = chrono::Month::January;
    for month in Month::iter_from(Month::January).take(12) {
        assert_eq!((Month::from(other), chrono::Month::from(month)), (month, other));
        other = other.succ();
    }
    let mut other = chrono::Weekday::Mon;
    for weekday in Weekday::iter_from(Weekday::Monday).take(7) {
        assert_eq!((Weekday::from(other), chrono::Weekday::from(weekday)), (weekday, other));
        other = other.succ();
    }
}

#[test]
fn date_times_and_durations() {
    let date_time: OffsetDateTime = "2024-02-29T23:59:59.25+01:00".parse().unwrap();
    let other = DateTime::<FixedOffset>::try_from(date_time).unwrap();
    assert_eq!((other.timestamp(), other.timestamp_subsec_millis(), other.offset().local_minus_utc()), (1_709_247_599, 250, 3600));
    assert_eq!(OffsetDateTime::try_from(other), Ok(date_time));
    let first = DateTime::<FixedOffset>::from_utc(NaiveDateTime::MIN, FixedOffset::west_opt(3600).unwrap());
    assert_eq!(OffsetDateTime::try_from(first).unwrap().to_utc().date(), Date::from(NaiveDate::MIN));
    assert!(DateTime::<FixedOffset>::try_from(OffsetDateTime::try_from(first).unwrap()).is_err());
    let local: PlainDateTime = "2024-02-29 23:59:59.25".parse().unwrap();
    assert_eq!(NaiveDateTime::try_from(local).unwrap().try_into(), Ok(local));
    let offset = UtcOffset::from_hms(-5, -30, 0).unwrap();
    assert_eq!(UtcOffset::from(FixedOffset::try_from(offset).unwrap()), offset);
    assert_eq!(FixedOffset::try_from(UtcOffset::from_hms(24, 0, 0).unwrap()).unwrap_err().name(), "seconds");
    for duration in [SignedDuration::milliseconds(-1500), SignedDuration::nanoseconds(-1), SignedDuration::ZERO] {
        let other = chrono::Duration::try_from(duration).unwrap();
        assert_eq!(other.num_nanoseconds().map(i128::from), Some(duration.whole_nanoseconds()));
        assert_eq!(SignedDuration::from(other), duration);
    }
    assert_eq!(chrono::Duration::try_from(SignedDuration::MAX).unwrap_err().name(), "seconds");
}
