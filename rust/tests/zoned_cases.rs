//! Answers cases about date-times in a zone, one a line, for `tests/zoned`.

use fotsevindre::error::{LocalTimeError, PeriodError};
use fotsevindre::zone::start_of_day;
use fotsevindre::{CalendarUnit, Date, OffsetDateTime, Period, PlainDateTime, Policy, SignedDuration, Zone, ZonedDateTime};
use std::collections::HashMap;
use std::fmt::Write as _;
use std::hash::{BuildHasher, RandomState};
use std::io::{self, Read, Write};

const POLICIES: [Policy; 4] = [Policy::Compatible, Policy::Earlier, Policy::Later, Policy::Reject];

const UNITS: [CalendarUnit; 5] =
    [CalendarUnit::Day, CalendarUnit::Week, CalendarUnit::Month, CalendarUnit::Quarter, CalendarUnit::Year];

fn main() -> io::Result<()> {
    let mut cases = String::new();
    io::stdin().read_to_string(&mut cases)?;
    let mut zones = HashMap::new();
    let mut answers = String::new();
    for case in cases.lines() {
        let words: Vec<&str> = case.split(' ').collect();
        let zone: &'static Zone<'static> = zones.entry(words[1].to_owned()).or_insert_with(|| zone_of(words[1]));
        let numbers: Vec<i64> = words[2..].iter().map(|word| word.parse().expect("a number")).collect();
        writeln!(answers, "{}", answer(words[0], zone, &numbers)).expect("memory");
    }
    io::stdout().write_all(answers.as_bytes())
}

/// Returns the zone of a file, which is kept.
fn zone_of(path: &str) -> &'static Zone<'static> {
    let bytes = Vec::leak(std::fs::read(path).expect("a file"));
    Box::leak(Box::new(Zone::parse(bytes).expect("a zone")))
}

fn answer(kind: &str, zone: &'static Zone<'static>, numbers: &[i64]) -> String {
    match (kind, numbers) {
        ("local", &[reading, policy]) => shown(ZonedDateTime::from_local(local(reading), zone, POLICIES[policy as usize])),
        ("time", &[instant, time, policy]) => shown(at(instant, zone).with_time(local(time).time(), POLICIES[policy as usize])),
        ("date", &[instant, day, policy]) => shown(at(instant, zone).with_date(date(day), POLICIES[policy as usize])),
        ("period", &[instant, years, months, weeks, days, seconds, policy]) => {
            let period = period(years, months, weeks, days, seconds);
            shown(at(instant, zone).checked_add_period(period, POLICIES[policy as usize]))
        }
        ("start", &[day]) => shown(start_of_day(date(day), zone).ok_or(LocalTimeError::OutOfRange)),
        ("length", &[instant]) => {
            at(instant, zone).day_length().map_or("none".to_owned(), |length| length.whole_seconds().to_string())
        }
        ("order", &[first, second]) => order(at(first, zone), at(second, &Zone::parse_posix("UTC0").expect("a zone"))),
        ("plain", &[reading, years, months, weeks, days, seconds]) => {
            let later = local(reading).checked_add_period(period(years, months, weeks, days, seconds));
            later.map_or("none".to_owned(), |later| later.assume_utc().unix_timestamp_nanos().to_string())
        }
        ("day", &[day, years, months, weeks, days, seconds]) => {
            julian_day(date(day).checked_add_period(period(years, months, weeks, days, seconds)))
        }
        ("moved", &[instant, day, policy]) => shown(at(instant, zone).moved_to(date(day), POLICIES[policy as usize])),
        ("start_of", &[instant, unit]) => edge(at(instant, zone).start_of(UNITS[unit as usize])),
        ("end_of", &[instant, unit]) => edge(at(instant, zone).end_of(UNITS[unit as usize])),
        ("until", &[start, end, unit]) => parts(local(start).period_until(local(end), UNITS[unit as usize])),
        ("until_in", &[start, end, unit, policy]) => {
            let period = at(start, zone).period_until(&at(end, zone), UNITS[unit as usize], POLICIES[policy as usize]);
            parts(period.expect("a period"))
        }
        ("nth", &[instant, years, months, weeks, days, seconds, n, policy]) => {
            let period = period(years, months, weeks, days, seconds);
            shown(at(instant, zone).nth_period(period, n as i32, POLICIES[policy as usize]))
        }
        ("plain_nth", &[reading, years, months, weeks, days, seconds, n]) => {
            let later = local(reading).nth_period(period(years, months, weeks, days, seconds), n as i32);
            later.map_or("none".to_owned(), |later| later.assume_utc().unix_timestamp_nanos().to_string())
        }
        ("plain_step", &[start, years, months, weeks, days, seconds, end]) => {
            let step = local(start).step_of(period(years, months, weeks, days, seconds), local(end));
            step.map_or("none".to_owned(), |step| step.to_string())
        }
        ("until_days", &[start, end, unit]) => parts(date(start).period_until_by(date(end), UNITS[unit as usize])),
        ("step_of", &[start, years, months, weeks, days, day]) => {
            let step = date(start).step_of(period(years, months, weeks, days, 0), date(day));
            step.map_or("none".to_owned(), |step| step.to_string())
        }
        ("step", &[day, years, months, weeks, days, n]) => {
            julian_day(date(day).nth_period(period(years, months, weeks, days, 0), n as i32))
        }
        _ => panic!("an unknown case"),
    }
}

fn shown(value: Result<ZonedDateTime<'_>, LocalTimeError>) -> String {
    match value {
        Ok(value) => format!("{} {}", value.unix_timestamp_nanos(), value.offset().whole_seconds()),
        Err(error) => format!("{error:?}"),
    }
}

/// Returns the start or the end of a unit.
fn edge(value: Option<ZonedDateTime<'_>>) -> String {
    shown(value.ok_or(LocalTimeError::OutOfRange))
}

/// Returns the parts of a period, the last one in nanoseconds.
fn parts(period: Period) -> String {
    let exact = period.duration().whole_nanoseconds();
    format!("{} {} {} {} {exact}", period.years(), period.months(), period.weeks(), period.days())
}

/// Compares two instants: their order, whether they are equal and hash alike, and the duration.
fn order(first: ZonedDateTime<'_>, second: ZonedDateTime<'_>) -> String {
    let hasher = RandomState::new();
    let is_alike = hasher.hash_one(first) == hasher.hash_one(second);
    let nanoseconds = first.duration_since(&second).whole_nanoseconds();
    format!("{:?} {} {is_alike} {nanoseconds}", first.cmp(&second), first == second)
}

/// Returns the day of a result since 1970-01-01, or the error.
fn julian_day(result: Result<Date, PeriodError>) -> String {
    match result {
        Ok(date) => (date.to_julian_day() - 2_440_588).to_string(),
        Err(error) => format!("{error:?}"),
    }
}

fn date(day: i64) -> Date {
    Date::from_julian_day(day as i32 + 2_440_588).expect("a date")
}

/// Returns the local date-time some microseconds after the start of 1970.
fn local(microseconds: i64) -> PlainDateTime {
    OffsetDateTime::from_unix_timestamp_nanos(i128::from(microseconds) * 1000).expect("a date-time").local()
}

/// Returns the date-time in a zone some microseconds after the start of 1970 in UTC.
fn at<'z>(microseconds: i64, zone: &'z Zone<'z>) -> ZonedDateTime<'z> {
    ZonedDateTime::from_unix_timestamp_nanos(i128::from(microseconds) * 1000, zone).expect("a date-time")
}

fn period(years: i64, months: i64, weeks: i64, days: i64, seconds: i64) -> Period {
    let part = |number: i64| i32::try_from(number).expect("a part");
    Period::new(part(years), part(months), part(weeks), part(days), SignedDuration::seconds(seconds)).expect("one sign")
}
