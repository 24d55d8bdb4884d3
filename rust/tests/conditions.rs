//! What happens when the condition of a contract doesn't hold: a panic with the words of the crate
//! `time`, at the place of the caller.

use fotsevindre::{Date, Duration, OffsetDateTime, PlainDateTime, UtcOffset, Weekday};
use std::panic::{AssertUnwindSafe, catch_unwind, set_hook, take_hook};
use std::sync::{Arc, Mutex};
use std::thread::current;

const NEW: &str = "overflow constructing a duration";
const ADD: &str = "overflow when adding durations";
const SUBTRACT: &str = "overflow when subtracting durations";
const MULTIPLY: &str = "overflow when multiplying duration";
const DIVIDE: &str = "overflow when dividing duration";
const DATE_TIME: &str = "resulting value is out of range";
const NEXT: &str = "overflow calculating the next occurrence of a weekday";
const PREVIOUS: &str = "overflow calculating the previous occurrence of a weekday";

/// The words of a panic, and what panics with them.
type Row = (&'static str, fn());

const DURATIONS: &[Row] = &[
    (NEW, || ignore(Duration::new(i64::MAX, 1_000_000_000))),
    (NEW, || ignore(Duration::new(i64::MIN, -1_000_000_000))),
    (NEW, || ignore(Duration::weeks(i64::MAX))),
    (NEW, || ignore(Duration::weeks(i64::MIN))),
    (NEW, || ignore(Duration::days(i64::MAX / 86_400 + 1))),
    (NEW, || ignore(Duration::hours(i64::MIN / 3_600 - 1))),
    (NEW, || ignore(Duration::minutes(i64::MAX / 60 + 1))),
    (NEW, || ignore(Duration::nanoseconds_i128(i128::MAX))),
    (NEW, || ignore(Duration::nanoseconds_i128((i64::MIN as i128 - 1) * 1_000_000_000))),
    (ADD, || ignore(Duration::MAX + Duration::NANOSECOND)),
    (ADD, || ignore(Duration::MIN + -Duration::NANOSECOND)),
    (SUBTRACT, || ignore(Duration::MIN - Duration::NANOSECOND)),
    ("overflow when negating duration", || ignore(-Duration::MIN)),
    (MULTIPLY, || ignore(Duration::MAX * 2i8)),
    (MULTIPLY, || ignore(u32::MAX * Duration::MAX)),
    (MULTIPLY, || {
        let mut duration = Duration::MIN;
        duration *= -1i32;
    }),
    (DIVIDE, || ignore(Duration::DAY / 0u8)),
    (DIVIDE, || ignore(Duration::MIN / -1i16)),
    (DIVIDE, || {
        let mut duration = Duration::DAY;
        duration /= 0i32;
    }),
    (ADD, || {
        let mut duration = Duration::MAX;
        duration += Duration::DAY;
    }),
    (SUBTRACT, || {
        let mut duration = Duration::MIN;
        duration -= Duration::DAY;
    }),
];

const DATES: &[Row] = &[
    ("overflow adding duration to date", || ignore(Date::MAX + Duration::DAY)),
    ("overflow subtracting duration from date", || ignore(Date::MIN - Duration::DAY)),
    ("overflow adding duration to date", || {
        let mut date = Date::MAX;
        date += Duration::MAX;
    }),
    ("overflow subtracting duration from date", || {
        let mut date = Date::MAX;
        date -= Duration::MIN;
    }),
    (NEXT, || ignore(Date::MAX.next_occurrence(Weekday::Monday))),
    (NEXT, || ignore(Date::MIN.nth_next_occurrence(Weekday::Monday, 0))),
    (PREVIOUS, || ignore(Date::MIN.prev_occurrence(Weekday::Monday))),
    (PREVIOUS, || ignore(Date::MAX.nth_prev_occurrence(Weekday::Monday, 0))),
    (DATE_TIME, || ignore(PlainDateTime::MAX + Duration::NANOSECOND)),
    (DATE_TIME, || ignore(PlainDateTime::MIN - Duration::NANOSECOND)),
    (DATE_TIME, || ignore(last() + Duration::NANOSECOND)),
    (DATE_TIME, || ignore(last() - Duration::MIN)),
    (DATE_TIME, || {
        let mut moment = last();
        moment += Duration::MAX;
    }),
    ("local datetime out of valid range", || ignore(last().to_offset(UtcOffset::from_hms(1, 0, 0).unwrap()))),
    ("local datetime out of valid range", || {
        ignore(PlainDateTime::MIN.assume_offset(UtcOffset::from_hms(1, 0, 0).unwrap()).to_utc())
    }),
];

fn ignore<T>(_: T) {}

fn last() -> OffsetDateTime {
    PlainDateTime::MAX.assume_utc()
}

#[test]
fn panics_have_the_words_of_time_and_the_place_of_the_caller() {
    let place = Arc::new(Mutex::new(String::new()));
    let (written, hook, thread) = (place.clone(), take_hook(), current().id());
    set_hook(Box::new(move |panic| {
        // Other tests panic, too.
        if current().id() == thread {
            *written.lock().unwrap() = panic.location().unwrap().file().to_string();
        }
    }));
    let outcomes: Vec<_> = [DURATIONS, DATES]
        .concat()
        .into_iter()
        .map(|(words, call)| {
            let payload = catch_unwind(AssertUnwindSafe(call)).err();
            let found = payload
                .and_then(|payload| payload.downcast_ref::<&str>().map(ToString::to_string).or(payload.downcast_ref().cloned()));
            (words, found, place.lock().unwrap().clone())
        })
        .collect();
    set_hook(hook);
    for (row, (words, found, file)) in outcomes.into_iter().enumerate() {
        assert_eq!(found.as_deref(), Some(words), "row {row}");
        assert!(file.ends_with("conditions.rs"), "row {row} panics in {file}");
    }
}
