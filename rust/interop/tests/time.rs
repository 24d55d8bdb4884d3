//! Values from and to the crate `time`. The expected values are in both crates' own texts.

use fotsevindre::{Date, Month, OffsetDateTime, PlainDateTime, SignedDuration, Time, UtcOffset, Weekday};

#[test]
fn dates_and_times() {
    let date: Date = "2024-02-29".parse().unwrap();
    let other = time::Date::from_calendar_date(2024, time::Month::February, 29).unwrap();
    assert_eq!(time::Date::try_from(date), Ok(other));
    assert_eq!(Date::from(other), date);
    for (first, last) in [(time::Date::MIN, "-9999-01-01"), (time::Date::MAX, "9999-12-31")] {
        assert_eq!(Date::from(first).to_string(), last);
        assert_eq!(time::Date::try_from(Date::from(first)), Ok(first));
    }
    assert_eq!(time::Date::try_from(Date::MAX).unwrap_err().name(), "julian_day");
    let time = Time::from_hms_nano(23, 59, 58, 123_456_789).unwrap();
    let other = time::Time::from_hms_nano(23, 59, 58, 123_456_789).unwrap();
    assert_eq!((time::Time::from(time), Time::from(other)), (other, time));
}

#[test]
fn months_and_weekdays() {
    for number in 1..=12 {
        let other = time::Month::try_from(number).unwrap();
        assert_eq!(Month::from(other), Month::try_from(number).unwrap());
        assert_eq!(time::Month::from(Month::from(other)), other);
    }
    let mut other = time::Weekday::Monday;
    for weekday in Weekday::iter_from(Weekday::Monday).take(7) {
        assert_eq!((Weekday::from(other), time::Weekday::from(weekday)), (weekday, other));
        other = other.next();
    }
}

#[test]
fn date_times_and_durations() {
    let date_time: OffsetDateTime = "2024-02-29T23:59:59.25+01:00".parse().unwrap();
    let other = time::OffsetDateTime::try_from(date_time).unwrap();
    assert_eq!((other.unix_timestamp(), other.offset().whole_seconds()), (1_709_247_599, 3600));
    assert_eq!(OffsetDateTime::from(other), date_time);
    let past: OffsetDateTime = "9999-12-31T23:59:59-01:00".parse().unwrap();
    assert!(time::OffsetDateTime::try_from(past).is_err());
    assert!(time::OffsetDateTime::try_from(past.replace_date(Date::MAX)).is_err());
    let local: PlainDateTime = "2024-02-29 23:59:59.25".parse().unwrap();
    assert_eq!(PlainDateTime::from(time::PrimitiveDateTime::try_from(local).unwrap()), local);
    let offset = UtcOffset::from_hms(-5, -30, 0).unwrap();
    assert_eq!(UtcOffset::from(time::UtcOffset::try_from(offset).unwrap()), offset);
    for duration in [SignedDuration::milliseconds(-1500), SignedDuration::MIN, SignedDuration::MAX] {
        let other = time::Duration::from(duration);
        assert_eq!(other.whole_nanoseconds(), duration.whole_nanoseconds());
        assert_eq!(SignedDuration::from(other), duration);
    }
}
