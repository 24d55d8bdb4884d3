//! Functions and methods that the crate `time` has with the same name.
#![cfg(has_time)]

use super::{compare, over, Drawn};

/// Defines the functions with the types of a crate.
macro_rules! module {
    ($module:ident, $krate:ident, $date_time:ident) => {
        mod $module {
            use super::{over, Drawn};
            use $krate::{$date_time as DateTime, Date, Duration, Month, OffsetDateTime, Time, UtcOffset, Weekday};

            fn date(n: &Drawn) -> Date {
                // Far enough from the ends of the crate `time`.
                Date::from_julian_day(2_000_000 + n.julian_day % 3_000_000).unwrap()
            }

            fn time(n: &Drawn) -> Time {
                Time::from_hms_nano((n.ordinal % 24) as u8, n.day, n.month, n.days.unsigned_abs() as u32 * 90_000).unwrap()
            }

            fn duration(n: &Drawn) -> Duration {
                Duration::new(n.days * 86_399, (n.days * 90_000 % 1_000_000_000) as i32)
            }

            fn offset(n: &Drawn) -> UtcOffset {
                UtcOffset::from_whole_seconds((n.days * 8) as i32).unwrap()
            }

            fn calls<'a, T: 'a, R>(
                numbers: &'a [Drawn],
                make: impl Fn(&Drawn) -> T,
                call: impl Fn(&T) -> R + 'a,
            ) -> Box<dyn Fn() + 'a> {
                let values: Vec<T> = numbers.iter().map(make).collect();
                Box::new(move || {
                    for value in &values {
                        std::hint::black_box(call(std::hint::black_box(value)));
                    }
                })
            }

            /// Returns the functions by group and name.
            pub fn all<'a>(numbers: &'a [Drawn]) -> Vec<(&'static str, &'static str, Box<dyn Fn() + 'a>)> {
                vec![
                    ("dates", "from_julian_day", over(numbers, |n| Date::from_julian_day(n.julian_day))),
                    ("dates", "from_iso_week_date", over(numbers, |n| Date::from_iso_week_date(n.year, n.day, Weekday::Friday))),
                    ("dates", "to_julian_day", calls(numbers, date, |d| d.to_julian_day())),
                    ("dates", "year", calls(numbers, date, |d| d.year())),
                    ("dates", "month", calls(numbers, date, |d| d.month())),
                    ("dates", "day", calls(numbers, date, |d| d.day())),
                    ("dates", "ordinal", calls(numbers, date, |d| d.ordinal())),
                    ("dates", "iso_week", calls(numbers, date, |d| d.iso_week())),
                    ("dates", "sunday_based_week", calls(numbers, date, |d| d.sunday_based_week())),
                    ("dates", "monday_based_week", calls(numbers, date, |d| d.monday_based_week())),
                    ("dates", "to_ordinal_date", calls(numbers, date, |d| d.to_ordinal_date())),
                    ("dates", "previous_day", calls(numbers, date, |d| d.previous_day())),
                    ("dates", "replace_year", calls(numbers, |n| (date(n), n.year + 1), |(d, n)| d.replace_year(*n))),
                    (
                        "dates",
                        "replace_month",
                        calls(numbers, |n| (date(n), Month::try_from(n.month).unwrap()), |(d, n)| d.replace_month(*n)),
                    ),
                    ("dates", "replace_day", calls(numbers, |n| (date(n), n.day), |(d, n)| d.replace_day(*n))),
                    ("dates", "date + duration", calls(numbers, |n| (date(n), duration(n)), |(d, n)| *d + *n)),
                    ("dates", "date - duration", calls(numbers, |n| (date(n), duration(n)), |(d, n)| *d - *n)),
                    ("dates", "date - date", calls(numbers, |n| (date(n), date(n)), |(a, b)| *a - *b)),
                    ("dates", "date < date", calls(numbers, |n| (date(n), date(n)), |(a, b)| a < b)),
                    ("dates", "Month::next", calls(numbers, |n| Month::try_from(n.month).unwrap(), |m| m.next())),
                    ("dates", "Weekday::next", calls(numbers, |n| date(n).weekday(), |m| m.next())),
                    ("times of day and offsets", "from_hms", over(numbers, |n| Time::from_hms(n.month, n.day, n.day))),
                    (
                        "times of day and offsets",
                        "from_hms_nano",
                        over(numbers, |n| Time::from_hms_nano(n.month, n.day, n.day, n.julian_day as u32)),
                    ),
                    ("times of day and offsets", "as_hms", calls(numbers, time, |t| t.as_hms())),
                    ("times of day and offsets", "as_hms_nano", calls(numbers, time, |t| t.as_hms_nano())),
                    ("times of day and offsets", "hour", calls(numbers, time, |t| t.hour())),
                    ("times of day and offsets", "minute", calls(numbers, time, |t| t.minute())),
                    ("times of day and offsets", "second", calls(numbers, time, |t| t.second())),
                    ("times of day and offsets", "nanosecond", calls(numbers, time, |t| t.nanosecond())),
                    ("times of day and offsets", "time + duration", calls(numbers, |n| (time(n), duration(n)), |(t, n)| *t + *n)),
                    ("times of day and offsets", "time - time", calls(numbers, |n| (time(n), time(n)), |(t, n)| *t - *n)),
                    (
                        "times of day and offsets",
                        "replace_hour",
                        calls(numbers, |n| (time(n), n.month), |(t, n)| t.replace_hour(*n)),
                    ),
                    (
                        "times of day and offsets",
                        "UtcOffset::from_hms",
                        over(numbers, |n| UtcOffset::from_hms(n.month as i8, n.day as i8, n.day as i8)),
                    ),
                    ("times of day and offsets", "UtcOffset::as_hms", calls(numbers, offset, |o| o.as_hms())),
                    ("durations", "Duration::new", over(numbers, |n| Duration::new(n.days, n.julian_day))),
                    ("durations", "Duration::days", over(numbers, |n| Duration::days(n.days))),
                    ("durations", "Duration::milliseconds", over(numbers, |n| Duration::milliseconds(n.days))),
                    ("durations", "duration + duration", calls(numbers, |n| (duration(n), duration(n)), |(a, b)| *a + *b)),
                    ("durations", "duration - duration", calls(numbers, |n| (duration(n), duration(n)), |(a, b)| *a - *b)),
                    ("durations", "checked_add", calls(numbers, |n| (duration(n), duration(n)), |(a, b)| a.checked_add(*b))),
                    ("durations", "duration * number", calls(numbers, |n| (duration(n), n.year), |(a, b)| *a * *b)),
                    ("durations", "duration / number", calls(numbers, |n| (duration(n), n.year), |(a, b)| *a / *b)),
                    ("durations", "abs", calls(numbers, duration, |a| a.abs())),
                    ("durations", "-duration", calls(numbers, duration, |a| -*a)),
                    ("durations", "whole_days", calls(numbers, duration, |a| a.whole_days())),
                    ("durations", "whole_milliseconds", calls(numbers, duration, |a| a.whole_milliseconds())),
                    (
                        "date-times",
                        "PlainDateTime + duration",
                        calls(numbers, |n| (DateTime::new(date(n), time(n)), duration(n)), |(a, b)| *a + *b),
                    ),
                    (
                        "date-times",
                        "PlainDateTime - PlainDateTime",
                        calls(numbers, |n| (DateTime::new(date(n), time(n)), DateTime::new(date(n), time(n))), |(a, b)| *a - *b),
                    ),
                    ("date-times", "PlainDateTime, hour", calls(numbers, |n| DateTime::new(date(n), time(n)), |a| a.hour())),
                    ("date-times", "PlainDateTime, date", calls(numbers, |n| DateTime::new(date(n), time(n)), |a| a.date())),
                    (
                        "date-times",
                        "assume_offset",
                        calls(numbers, |n| (DateTime::new(date(n), time(n)), offset(n)), |(a, b)| a.assume_offset(*b)),
                    ),
                    ("date-times", "from_unix_timestamp", over(numbers, |n| OffsetDateTime::from_unix_timestamp(n.days * 86_399))),
                    (
                        "date-times",
                        "unix_timestamp",
                        calls(numbers, |n| DateTime::new(date(n), time(n)).assume_offset(offset(n)), |a| a.unix_timestamp()),
                    ),
                    (
                        "date-times",
                        "to_offset",
                        calls(numbers, |n| (DateTime::new(date(n), time(n)).assume_utc(), offset(n)), |(a, b)| a.to_offset(*b)),
                    ),
                    (
                        "date-times",
                        "OffsetDateTime + duration",
                        calls(
                            numbers,
                            |n| (DateTime::new(date(n), time(n)).assume_offset(offset(n)), duration(n)),
                            |(a, b)| *a + *b,
                        ),
                    ),
                    (
                        "date-times",
                        "OffsetDateTime - OffsetDateTime",
                        calls(
                            numbers,
                            |n| {
                                let a = DateTime::new(date(n), time(n)).assume_offset(offset(n));
                                (a, a)
                            },
                            |(a, b)| *a - *b,
                        ),
                    ),
                    (
                        "date-times",
                        "OffsetDateTime, year",
                        calls(numbers, |n| DateTime::new(date(n), time(n)).assume_offset(offset(n)), |a| a.year()),
                    ),
                    (
                        "date-times",
                        "OffsetDateTime, hour",
                        calls(numbers, |n| DateTime::new(date(n), time(n)).assume_offset(offset(n)), |a| a.hour()),
                    ),
                    (
                        "date-times",
                        "OffsetDateTime, ==",
                        calls(
                            numbers,
                            |n| {
                                (
                                    DateTime::new(date(n), time(n)).assume_offset(offset(n)),
                                    DateTime::new(date(n), time(n)).assume_utc(),
                                )
                            },
                            |(a, b)| a == b,
                        ),
                    ),
                    (
                        "date-times",
                        "OffsetDateTime, <",
                        calls(
                            numbers,
                            |n| {
                                (
                                    DateTime::new(date(n), time(n)).assume_offset(offset(n)),
                                    DateTime::new(date(n), time(n)).assume_utc(),
                                )
                            },
                            |(a, b)| a < b,
                        ),
                    ),
                ]
            }
        }
    };
}
module!(ours, fotsevindre, PlainDateTime);
module!(theirs, time, PrimitiveDateTime);

/// Times each function of both crates.
pub fn compare_calls(numbers: &[Drawn]) {
    for ((group, name, ours), (_, _, theirs)) in ours::all(numbers).into_iter().zip(theirs::all(numbers)) {
        compare(group, name, vec![("here", ours), ("time", theirs)]);
    }
}
