//! Date-times: worked rows, texts, and drawn values against whole numbers of 128 bits.

use fotsevindre::error::ParseError::{self, UnexpectedByte, UnexpectedEnd};
use fotsevindre::{Date, Month, OffsetDateTime, PlainDateTime, SignedDuration, Time, UtcOffset, Weekday};
use std::collections::hash_map::DefaultHasher;
use std::hash::{Hash, Hasher};
use std::panic::catch_unwind;

const SECOND: i128 = 1_000_000_000;
const DAY: i128 = 86_400 * SECOND;
const FIRST_DAY: i128 = -363_521_074;
const LAST: i128 = (366_963_559 - FIRST_DAY + 1) * DAY - 1;
const EPOCH: i128 = (2_440_588 - FIRST_DAY) * DAY;

fn moment(text: &str) -> OffsetDateTime {
    text.parse().unwrap()
}

fn plain(text: &str) -> PlainDateTime {
    text.parse().unwrap()
}

fn hours(hours: i8) -> UtcOffset {
    UtcOffset::from_hms(hours, 0, 0).unwrap()
}

/// All that a date-time at an offset shows, which its equality does not tell.
fn shows(moment: OffsetDateTime) -> (PlainDateTime, UtcOffset) {
    (moment.local(), moment.offset())
}

fn hash_of(value: impl Hash) -> u64 {
    let mut state = DefaultHasher::new();
    value.hash(&mut state);
    state.finish()
}

fn local_of(value: PlainDateTime) -> i128 {
    let (hour, minute, second, nanosecond) = value.as_hms_nano();
    let seconds = (i128::from(hour) * 60 + i128::from(minute)) * 60 + i128::from(second);
    (i128::from(value.to_julian_day()) - FIRST_DAY) * DAY + seconds * SECOND + i128::from(nanosecond)
}

fn instant_of(moment: OffsetDateTime) -> i128 {
    local_of(moment.local()) - i128::from(moment.offset().whole_seconds()) * SECOND
}

/// The date-time of so many nanoseconds since the first one, or `None` past the range.
fn plain_at(local: i128) -> Option<PlainDateTime> {
    let (day, rest) = (local.div_euclid(DAY) + FIRST_DAY, local.rem_euclid(DAY));
    let date = Date::from_julian_day(i32::try_from(day).ok()?).ok()?;
    let seconds = (rest / SECOND) as u32;
    let (hour, minute, second) = (seconds / 3600, seconds / 60 % 60, seconds % 60);
    let time = Time::from_hms_nano(hour as u8, minute as u8, second as u8, (rest % SECOND) as u32).unwrap();
    Some(PlainDateTime::new(date, time))
}

// Each operator is called.
#[allow(clippy::nonminimal_bool)]
#[test]
fn a_leap_night() {
    let night = moment("2024-02-29 23:59:59.25 +01:00:00");
    let at_utc = moment("2024-02-29 22:59:59.25 +00:00:00");
    let further_east = moment("2024-03-01 0:59:59.25 +02:00:00");
    assert_eq!((night.unix_timestamp(), night.unix_timestamp_nanos()), (1_709_247_599, 1_709_247_599_250_000_000));
    assert_eq!(shows(night.to_utc()), shows(at_utc));
    assert_eq!(shows(night.to_offset(hours(2))), shows(further_east));
    let of_nanos = OffsetDateTime::from_unix_timestamp_nanos(1_709_247_599_250_000_000).unwrap();
    assert_eq!(shows(of_nanos), shows(at_utc));
    let of_seconds = OffsetDateTime::from_unix_timestamp(1_709_247_599).unwrap();
    assert_eq!(shows(of_seconds), shows(at_utc.truncate_to_second()));
    for (one, other) in [(night, at_utc), (night, further_east), (at_utc, further_east)] {
        assert!(one == other && one <= other && one >= other && other == one);
        assert!(!(one < other) && !(one > other));
        assert_eq!(hash_of(one), hash_of(other));
        assert_eq!(one - other, SignedDuration::ZERO);
    }
    assert!(night < night.replace_offset(UtcOffset::UTC));
    assert_eq!(night.replace_offset(UtcOffset::UTC) - night, SignedDuration::HOUR);
    assert_eq!(shows(night + SignedDuration::hours(2)), shows(moment("2024-03-01 1:59:59.25 +01:00:00")));
    assert_eq!(shows(night - SignedDuration::DAY), shows(moment("2024-02-28 23:59:59.25 +01:00:00")));
    let mut moved = night.local();
    moved += SignedDuration::hours(2);
    assert_eq!(moved, plain("2024-03-01 1:59:59.25"));
    moved -= SignedDuration::hours(2);
    assert_eq!(moved, night.local());
}

#[test]
fn before_the_epoch() {
    let half = moment("1969-12-31 23:59:59.5 +00:00:00");
    assert_eq!((half.unix_timestamp(), half.unix_timestamp_nanos()), (-1, -500_000_000));
    assert_eq!(shows(OffsetDateTime::from_unix_timestamp_nanos(-500_000_000).unwrap()), shows(half));
    assert_eq!(shows(OffsetDateTime::UNIX_EPOCH), shows(moment("1970-01-01 0:00:00.0 +00:00:00")));
}

#[test]
fn ends_of_the_range() {
    let (first, last) = (PlainDateTime::MIN.assume_utc(), PlainDateTime::MAX.assume_utc());
    let west = moment("+999999-12-31 23:00:00.0 -02:00:00");
    let east = PlainDateTime::MIN.assume_offset(hours(1));
    for moment in [west, east] {
        assert_eq!(moment.checked_to_utc(), None);
        assert!(catch_unwind(|| moment.to_utc()).is_err());
    }
    assert!(west > moment("+999999-12-31 23:59:59.0 +00:00:00") && west > last && east < first);
    assert_eq!(west - last, SignedDuration::new(3600, 1));
    assert_eq!((first.checked_add(SignedDuration::MAX), PlainDateTime::MIN.checked_add(SignedDuration::MAX)), (None, None));
    assert!(
        catch_unwind(|| first + SignedDuration::MAX).is_err() && catch_unwind(|| PlainDateTime::MAX - SignedDuration::MAX).is_err()
    );
    assert_eq!(shows(first.saturating_add(SignedDuration::MAX)), shows(last));
    assert_eq!(shows(east.saturating_sub(SignedDuration::MIN)), (PlainDateTime::MAX, hours(1)));
    assert_eq!(PlainDateTime::MAX.saturating_sub(SignedDuration::MAX), PlainDateTime::MIN);
    for seconds in [i64::MIN, first.unix_timestamp() - 1, last.unix_timestamp() + 1, i64::MAX] {
        let error = OffsetDateTime::from_unix_timestamp(seconds).unwrap_err();
        assert_eq!((error.name(), error.is_conditional()), ("timestamp", false));
    }
    for nanoseconds in [i128::MIN, -EPOCH - 1, LAST - EPOCH + 1, i128::MAX] {
        assert_eq!(OffsetDateTime::from_unix_timestamp_nanos(nanoseconds).unwrap_err().name(), "timestamp");
    }
    assert_eq!(OffsetDateTime::from_unix_timestamp_nanos(-EPOCH), Ok(first));
    assert_eq!(OffsetDateTime::from_unix_timestamp_nanos(LAST - EPOCH), Ok(last));
}

/// The parts and the replacements of both types, which one macro writes.
macro_rules! parts_of {
    ($value:expr, $after:literal) => {
        let value = $value;
        assert_eq!((value.year(), value.month(), value.day(), value.ordinal()), (2024, Month::February, 29, 60));
        assert_eq!((value.iso_week(), value.sunday_based_week(), value.monday_based_week()), (9, 8, 9));
        assert_eq!((value.weekday(), value.to_julian_day()), (Weekday::Thursday, 2_460_370));
        assert_eq!((value.to_calendar_date(), value.to_ordinal_date()), ((2024, Month::February, 29), (2024, 60)));
        assert_eq!(value.to_iso_week_date(), (2024, 9, Weekday::Thursday));
        assert_eq!((value.as_hms(), value.as_hms_milli()), ((23, 59, 59), (23, 59, 59, 250)));
        assert_eq!((value.as_hms_micro(), value.as_hms_nano()), ((23, 59, 59, 250_000), (23, 59, 59, 250_000_000)));
        assert_eq!((value.hour(), value.minute(), value.second()), (23, 59, 59));
        assert_eq!((value.millisecond(), value.microsecond(), value.nanosecond()), (250, 250_000, 250_000_000));
        let texts = [
            (value.replace_date(Date::MIN), "-999999-01-01 23:59:59.25"),
            (value.replace_time(Time::MIDNIGHT), "2024-02-29 0:00:00.0"),
            (value.replace_year(2028).unwrap(), "2028-02-29 23:59:59.25"),
            (value.replace_month(Month::January).unwrap(), "2024-01-29 23:59:59.25"),
            (value.replace_day(1).unwrap(), "2024-02-01 23:59:59.25"),
            (value.replace_ordinal(1).unwrap(), "2024-01-01 23:59:59.25"),
            (value.replace_hour(1).unwrap(), "2024-02-29 1:59:59.25"),
            (value.replace_minute(1).unwrap(), "2024-02-29 23:01:59.25"),
            (value.replace_second(1).unwrap(), "2024-02-29 23:59:01.25"),
            (value.replace_millisecond(1).unwrap(), "2024-02-29 23:59:59.001"),
            (value.replace_microsecond(1).unwrap(), "2024-02-29 23:59:59.000001"),
            (value.replace_nanosecond(1).unwrap(), "2024-02-29 23:59:59.000000001"),
            (value.truncate_to_day(), "2024-02-29 0:00:00.0"),
            (value.truncate_to_hour(), "2024-02-29 23:00:00.0"),
            (value.truncate_to_minute(), "2024-02-29 23:59:00.0"),
            (value.truncate_to_second(), "2024-02-29 23:59:59.0"),
            (value.replace_nanosecond(1).unwrap().truncate_to_millisecond(), "2024-02-29 23:59:59.0"),
            (value.truncate_to_microsecond(), "2024-02-29 23:59:59.25"),
        ];
        for (value, text) in texts {
            assert_eq!(value.to_string(), format!("{text}{}", $after));
        }
        assert_eq!(value.replace_year(2023).unwrap_err().name(), "day");
        assert_eq!(value.replace_hour(24).unwrap_err().name(), "hour");
    };
}

#[test]
fn parts_and_replacements() {
    let night = moment("2024-02-29 23:59:59.25 +01:00:00");
    parts_of!(night, " +01:00:00");
    parts_of!(night.local(), "");
    assert_eq!((night.to_hms(), night.to_hms_milli()), ((23, 59, 59), (23, 59, 59, 250)));
    assert_eq!((night.to_hms_micro(), night.to_hms_nano()), ((23, 59, 59, 250_000), (23, 59, 59, 250_000_000)));
    assert_eq!(shows(night.replace_date_time(PlainDateTime::MIN)), (PlainDateTime::MIN, hours(1)));
    assert_eq!((night.date(), night.time()), (night.local().date(), night.local().time()));
}

#[test]
fn dates_with_times() {
    let day = Date::from_calendar_date(2024, Month::February, 29).unwrap();
    let made = [
        (Ok(day.midnight()), "2024-02-29 0:00:00.0"),
        (Ok(day.with_time(Time::MAX)), "2024-02-29 23:59:59.999999999"),
        (day.with_hms(23, 59, 58), "2024-02-29 23:59:58.0"),
        (day.with_hms_milli(23, 59, 59, 250), "2024-02-29 23:59:59.25"),
        (day.with_hms_micro(23, 59, 59, 1), "2024-02-29 23:59:59.000001"),
        (day.with_hms_nano(23, 59, 59, 1), "2024-02-29 23:59:59.000000001"),
    ];
    for (value, text) in made {
        assert_eq!(value, Ok(plain(text)));
    }
    let errors = [
        (day.with_hms(24, 60, 60), "hour"),
        (day.with_hms_milli(23, 59, 59, 1_000), "millisecond"),
        (day.with_hms_micro(23, 59, 59, 1_000_000), "microsecond"),
        (day.with_hms_nano(23, 59, 59, 1_000_000_000), "nanosecond"),
    ];
    for (value, name) in errors {
        assert_eq!(value.unwrap_err().name(), name);
    }
}

#[test]
fn texts() {
    let night = moment("2024-02-29T23:59:59.25+01:00");
    assert_eq!(format!("{night} {night:?}"), "2024-02-29 23:59:59.25 +01:00:00 2024-02-29 23:59:59.25 +01:00:00");
    assert_eq!(
        format!("[{:>24}] [{:-<24}]", night.local(), night.local()),
        "[  2024-02-29 23:59:59.25] [2024-02-29 23:59:59.25--]"
    );
    let longest = PlainDateTime::MIN.replace_time(Time::MAX).assume_offset(UtcOffset::from_hms(-25, -59, -59).unwrap());
    assert_eq!(longest.to_string(), "-999999-01-01 23:59:59.999999999 -25:59:59");
    for moment in [night, longest, OffsetDateTime::UNIX_EPOCH] {
        assert_eq!(shows(moment.to_string().parse().unwrap()), shows(moment));
        assert_eq!(plain(&moment.local().to_string()), moment.local());
    }
    let unexpected = [
        ("", UnexpectedEnd(0)),
        ("2024", UnexpectedEnd(4)),
        ("2024-02-29", UnexpectedEnd(10)),
        ("2024-02-29 ", UnexpectedEnd(11)),
        ("2024-02 0:00:00", UnexpectedByte(7)),
        ("2024-02-29 0:0", UnexpectedEnd(14)),
    ];
    let first = PlainDateTime::new("2024-02-29".parse().unwrap(), Time::MIDNIGHT);
    for text in ["2024-02-29 0:00", "2024-02-29T00:00:00", "2024-W09-4t0:00:00.0"] {
        assert_eq!(plain(text), first, "{text}");
        assert_eq!(shows(moment(&format!("{text}Z"))), shows(moment(&format!("{text} +00:00"))));
    }
    for (text, error) in
        unexpected.into_iter().chain([("2024-02-30 0:00:0x", UnexpectedByte(17)), ("2024-02-29 0:00:00 ", UnexpectedByte(18))])
    {
        assert_eq!(text.parse::<PlainDateTime>(), Err(error), "{text}");
    }
    let unexpected = [
        ("2024-02-29", UnexpectedEnd(10)),
        ("2024-02-29 0:00:00.0 +1", UnexpectedEnd(23)),
        ("2024-02-29T00:00:00.1234567891Z", UnexpectedByte(29)),
        ("2024-02-29  0:00:00 +01:00", UnexpectedByte(11)),
        ("2024-02-29 0:00:00.0 ", UnexpectedEnd(21)),
    ];
    for (text, error) in unexpected {
        assert_eq!(text.parse::<OffsetDateTime>(), Err(error), "{text}");
    }
    for (text, name) in [("2023-02-29 24:00:00", "day"), ("2024-02-29 24:00:00", "hour")] {
        let Err(ParseError::OutOfRange(error)) = text.parse::<PlainDateTime>() else { panic!("{text}") };
        assert_eq!(error.name(), name);
        let Err(ParseError::OutOfRange(error)) = format!("{text} +26:00").parse::<OffsetDateTime>() else { panic!("{text}") };
        assert_eq!(error.name(), name);
    }
}

fn drawn(state: &mut u64) -> u64 {
    *state ^= *state << 13;
    *state ^= *state >> 7;
    *state ^= *state << 17;
    *state
}

fn below(state: &mut u64, number: i128) -> i128 {
    let wide = (i128::from(drawn(state)) << 63) | i128::from(drawn(state) >> 1);
    wide % number
}

/// A date-time, one in four at an end of the range, and a duration in nanoseconds.
fn drawn_values(state: &mut u64) -> (OffsetDateTime, i128) {
    let local = match drawn(state) % 8 {
        0 => below(state, 2 * DAY),
        1 => LAST - below(state, 2 * DAY),
        _ => below(state, LAST + 1),
    };
    let offset = UtcOffset::from_whole_seconds((below(state, 2 * 93_599 + 1) - 93_599) as i32).unwrap();
    let size = [100_000 * SECOND, 100_000_000_000_000 * SECOND, i128::from(i64::MAX) * SECOND][(drawn(state) % 3) as usize];
    (plain_at(local).unwrap().assume_offset(offset), below(state, 2 * size) - size)
}

#[test]
fn drawn_against_whole_numbers() {
    let state = &mut 88_172_645_463_325_252;
    for _ in 0..20_000 {
        let ((one, by), (other, _)) = (drawn_values(state), drawn_values(state));
        let (duration, offset) = (SignedDuration::nanoseconds_i128(by), one.offset());
        let (local, instant, wanted) = (local_of(one.local()), instant_of(one), instant_of(other));
        assert_eq!(one.local().checked_add(duration), plain_at(local + by));
        assert_eq!(one.checked_sub(duration).map(shows), plain_at(local - by).map(|local| (local, offset)));
        assert_eq!(local_of(one.local().saturating_sub(duration)), (local - by).clamp(0, LAST));
        assert_eq!(shows(one.saturating_add(duration)), (plain_at((local + by).clamp(0, LAST)).unwrap(), offset));
        assert_eq!((one.cmp(&other), one == other), (instant.cmp(&wanted), instant == wanted));
        assert_eq!((one - other).whole_nanoseconds(), instant - wanted);
        assert_eq!((one.local() - other.local()).whole_nanoseconds(), local - local_of(other.local()));
        assert_eq!(one.local().cmp(&other.local()), local.cmp(&local_of(other.local())));
        let shown = plain_at(instant + i128::from(other.offset().whole_seconds()) * SECOND);
        let there = one.checked_to_offset(other.offset());
        assert_eq!(there.map(shows), shown.map(|local| (local, other.offset())));
        if let Some(there) = there {
            assert_eq!((there, hash_of(there), shows(there.to_offset(offset))), (one, hash_of(one), shows(one)));
        }
        assert_eq!(
            (one.unix_timestamp_nanos(), i128::from(one.unix_timestamp())),
            (instant - EPOCH, (instant - EPOCH).div_euclid(SECOND))
        );
        let made = OffsetDateTime::from_unix_timestamp_nanos(by).ok().map(shows);
        assert_eq!(made, plain_at(EPOCH + by).map(|local| (local, UtcOffset::UTC)));
        let made = OffsetDateTime::from_unix_timestamp((by / SECOND) as i64).ok().map(shows);
        assert_eq!(made, plain_at(EPOCH + by / SECOND * SECOND).map(|local| (local, UtcOffset::UTC)));
    }
}
