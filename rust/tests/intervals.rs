//! Intervals of ISO 8601: worked rows, errors by name, repetitions, and each edit by one byte of
//! strings against a model of the grammar.

use crate::grammar::Grammar::{All, Any, Byte, Times};
use crate::grammar::{DIGIT, Grammar, Matcher, maybe, times};
use fotsevindre::error::IntervalError::{self, CountOutOfRange, EndBeforeStart, HasDuration, MissingStart, NotPositive};
use fotsevindre::error::ParseIntervalError::{self, OutOfRange, UnexpectedByte, UnexpectedEnd};
use fotsevindre::error::{DurationComponent, IntervalComponent};
use fotsevindre::interval::{DateInterval, DateTimeInterval, RepeatedDateTimes, RepeatedDates, date, plain};
use fotsevindre::text::period;
use fotsevindre::{Date, DateRange, Period, PlainDateTime, SignedDuration};

fn day(text: &str) -> Date {
    text.parse().unwrap()
}

fn time(text: &str) -> PlainDateTime {
    text.parse().unwrap()
}

#[test]
fn worked_rows() {
    // The string, the start and the end. The last two are of Wikipedia's page on ISO 8601 and of
    // Python's dateutil.
    let rows = [
        ("2024-01-01/2024-02-01", "2024-01-01", "2024-02-01"),
        ("2024-01-01/P1M", "2024-01-01", "2024-02-01"),
        ("P1M/2024-02-01", "2024-01-01", "2024-02-01"),
        ("2024-01-31/P1M", "2024-01-31", "2024-02-29"),
        ("P1M/2024-03-31", "2024-02-29", "2024-03-31"),
        ("2024-060/P2W", "2024-02-29", "2024-03-14"),
        ("2024-W09-4/2024-W10-4", "2024-02-29", "2024-03-07"),
        ("P1Y2M10D/2008-05-11", "2007-03-01", "2008-05-11"),
        ("2007-03-01/P1Y2M10D", "2007-03-01", "2008-05-11"),
        ("-0001-12-31/P1D", "-0001-12-31", "0000-01-01"),
        ("2024-01-01/PT0S", "2024-01-01", "2024-01-01"),
    ];
    for (text, start, end) in rows {
        let interval: DateInterval = text.parse().unwrap();
        let range = DateRange::new(day(start), day(end)).unwrap();
        assert_eq!(interval.range(), Ok(range), "{text}");
        assert_eq!(interval.to_string().parse(), Ok(interval), "{text}");
    }
    let rows = [
        ("2007-03-01T13:00:00/2008-05-11T15:30:00", "2007-03-01T13:00:00", "2008-05-11T15:30:00"),
        ("2007-03-01T13:00:00/P1Y2M10DT2H30M", "2007-03-01T13:00:00", "2008-05-11T15:30:00"),
        ("P1Y2M10DT2H30M/2008-05-11T15:30:00", "2007-03-01T13:00:00", "2008-05-11T15:30:00"),
        ("2024-01-31 8:00/PT90M", "2024-01-31T08:00", "2024-01-31T09:30"),
        ("2024-01-31 8:00/P1M", "2024-01-31T08:00", "2024-02-29T08:00"),
    ];
    for (text, start, end) in rows {
        let interval: DateTimeInterval = text.parse().unwrap();
        let range = interval.range().unwrap();
        assert_eq!((range.start(), range.end()), (time(start), time(end)), "{text}");
        assert!(range.contains(range.start()) && !range.contains(range.end()));
        assert_eq!(interval.to_string().parse(), Ok(interval), "{text}");
    }
}

#[test]
fn errors_by_name() {
    let error = |text: &str| text.parse::<DateInterval>().unwrap().range().unwrap_err();
    assert_eq!(error("2024-02-01/2024-01-31"), EndBeforeStart);
    assert_eq!(error("2024-02-01/PT1H"), HasDuration);
    assert_eq!(error("999999-12-31/P1D".replace("999999", "+999999").as_str()), IntervalError::OutOfRange);
    assert_eq!(DateInterval::StartAndPeriod(day("2024-01-01"), Period::from_days(-1)).range(), Err(EndBeforeStart));
    let error = |text: &str| text.parse::<DateInterval>().unwrap_err().to_string();
    assert_eq!(error("2024-13-01/P1M"), "month was not in range");
    assert_eq!(error("2024-01-01/P2147483648Y"), "years was not in range");
    assert_eq!(error("P2147483648D/2024-13-01"), "days was not in range");
    assert_eq!(error("2024-01-01/-P1M"), "unexpected byte at 12");
    assert_eq!(error("2024-01-01"), "unexpected end at 10");
    assert_eq!(error("P1M/P1M"), "unexpected byte at 4");
    assert_eq!(error("2024-01-01T00:00/P1M"), "unexpected byte at 10");
    assert_eq!(plain::parse(b"2024-01-01T25:00/P1M").unwrap_err().to_string(), "hour was not in range");
}

#[test]
fn repetitions() {
    let repeated = |text: &str| {
        let (count, interval) = date::parse_repeated(text.as_bytes()).unwrap();
        RepeatedDates::new(count, interval)
    };
    let months = repeated("R12/2024-01-31/P1M").unwrap();
    let days = ["2024-01-31", "2024-02-29", "2024-03-31", "2024-04-30"].map(|text| Some(day(text)));
    assert_eq!([0, 1, 2, 3].map(|n| months.nth(n)), days);
    assert_eq!((months.nth(11), months.nth(12), months.nth(-1)), (Some(day("2024-12-31")), None, None));
    let endless = repeated("R/2024-01-31/P1M").unwrap();
    assert_eq!((endless.count, endless.nth(12)), (None, Some(day("2025-01-31"))));
    let weeks = repeated("R3/2024-01-01/2024-01-08").unwrap();
    assert_eq!((weeks.period, weeks.nth(2), weeks.nth(3)), (Period::from_days(7), Some(day("2024-01-15")), None));
    let rows = [
        ("R0/2024-01-01/P1M", CountOutOfRange),
        ("R4294967296/2024-01-01/P1M", CountOutOfRange),
        ("R99999999999999999999999/2024-01-01/P1M", CountOutOfRange),
        ("R5/P1M/2024-12-31", MissingStart),
        ("R5/2024-01-01/PT1H", HasDuration),
        ("R5/2024-01-01/P0D", NotPositive),
        ("R5/2024-01-01/2024-01-01", NotPositive),
        ("R5/2024-01-02/2024-01-01", EndBeforeStart),
    ];
    for (text, error) in rows {
        assert_eq!(repeated(text), Err(error), "{text}");
    }
    assert_eq!(plain::parse_repeated(b"R2/2024-01-01T08:00/PT1H").unwrap().0, Some(2));
    assert_eq!(date::parse_repeated(b"12/2024-01-01/P1M"), Err(UnexpectedByte(0)));
    assert_eq!(date::parse_repeated(b"R12"), Err(UnexpectedEnd(3)));
}

#[test]
fn repeated_date_times() {
    let repeated = |text: &str| {
        let (count, interval) = plain::parse_repeated(text.as_bytes()).unwrap();
        RepeatedDateTimes::new(count, interval)
    };
    let months = repeated("R12/2024-01-31T09:00:00/P1M").unwrap();
    let days = ["2024-01-31", "2024-02-29", "2024-03-31", "2024-04-30"].map(|day| Some(time(&format!("{day}T09:00"))));
    assert_eq!([0, 1, 2, 3].map(|n| months.nth(n)), days);
    assert_eq!((months.nth(11), months.nth(12), months.nth(-1)), (Some(time("2024-12-31T09:00")), None, None));
    let shifts = repeated("R/2024-01-01T08:00/2024-01-01T09:30").unwrap();
    assert_eq!((shifts.count, shifts.nth(16)), (None, Some(time("2024-01-02T08:00"))));
    assert_eq!(shifts.period, Period::from_duration(SignedDuration::minutes(90)));
    let mixed = repeated("R3/2024-01-31T23:00/P1MT2H").unwrap();
    assert_eq!([1, 2, 3].map(|n| mixed.nth(n)), [Some(time("2024-03-01T01:00")), Some(time("2024-04-01T03:00")), None]);
    let rows = [
        ("R0/2024-01-01T08:00/P1M", CountOutOfRange),
        ("R4294967296/2024-01-01T08:00/P1M", CountOutOfRange),
        ("R5/P1M/2024-12-31T08:00", MissingStart),
        ("R5/2024-01-01T08:00/PT0S", NotPositive),
        ("R5/2024-01-01T08:00/2024-01-01T08:00", NotPositive),
        ("R5/2024-01-01T08:00/2024-01-01T07:59", EndBeforeStart),
    ];
    for (text, error) in rows {
        assert_eq!(repeated(text), Err(error), "{text}");
    }
}

// ---- a model of the grammar

fn digits(count: usize) -> Grammar {
    times(count, DIGIT)
}

fn years() -> Grammar {
    const FROM_1: Grammar = Byte(b"123456789");
    let longer = |least, most| All(vec![FROM_1, Times(least, Some(most), Box::new(DIGIT))]);
    // A negative year isn't 0.
    let zeros = |count| times(count, Byte(b"0"));
    let small = Any((0..3).map(|n| All(vec![zeros(1 + n), FROM_1, digits(2 - n)])).collect());
    Any(vec![All(vec![Byte(b"+"), longer(4, 8)]), All(vec![Byte(b"-"), Any(vec![longer(3, 8), small])]), digits(4)])
}

fn dates() -> Grammar {
    let week = All(vec![Byte(b"W"), digits(2), Byte(b"-"), Byte(b"1234567")]);
    let day = All(vec![digits(2), Byte(b"-"), digits(2)]);
    All(vec![years(), Byte(b"-"), Any(vec![week, day, digits(3)])])
}

fn date_times() -> Grammar {
    let decimals = All(vec![Byte(b"."), Times(1, Some(9), Box::new(DIGIT))]);
    let seconds = All(vec![Byte(b":"), digits(2), maybe(decimals)]);
    let hour = Times(1, Some(2), Box::new(DIGIT));
    All(vec![dates(), Byte(b"Tt "), hour, Byte(b":"), digits(2), maybe(seconds)])
}

/// Numbers with these letters, each of which may be left out, but not all.
fn parts(letters: &[&'static [u8]], last: Option<Grammar>) -> Grammar {
    let number = || Times(1, None, Box::new(DIGIT));
    let mut each: Vec<Grammar> = letters.iter().map(|letter| All(vec![number(), Byte(letter)])).collect();
    each.extend(last);
    Any((0..each.len())
        .map(|first| {
            let others = each[first + 1..].iter().map(|part| maybe(part.clone()));
            All([each[first].clone()].into_iter().chain(others).collect())
        })
        .collect())
}

fn periods() -> Grammar {
    let decimals = All(vec![Byte(b".,"), Times(1, Some(9), Box::new(DIGIT))]);
    let seconds = All(vec![Times(1, None, Box::new(DIGIT)), maybe(decimals), Byte(b"S")]);
    let time = All(vec![Byte(b"T"), parts(&[b"H", b"M"], Some(seconds))]);
    let date = parts(&[b"Y", b"M", b"W", b"D"], None);
    All(vec![Byte(b"P"), Any(vec![All(vec![date, maybe(time.clone())]), time])])
}

fn intervals(ends: Grammar) -> Grammar {
    let slash = || Byte(b"/");
    Any(vec![All(vec![ends.clone(), slash(), Any(vec![ends.clone(), periods()])]), All(vec![periods(), slash(), ends])])
}

fn repeats(ends: Grammar) -> Grammar {
    All(vec![Byte(b"R"), Times(0, None, Box::new(DIGIT)), Byte(b"/"), intervals(ends)])
}

/// Each text made of another by one byte: another byte, one more, or one less.
fn edits(text: &str) -> Vec<Vec<u8>> {
    let mut all = vec![text.as_bytes().to_vec()];
    for at in 0..=text.len() {
        for byte in b"0159+-/.,:TtPRYMWDHS Zx" {
            let mut more = text.as_bytes().to_vec();
            more.insert(at, *byte);
            all.push(more);
            if at < text.len() {
                let mut other = text.as_bytes().to_vec();
                other[at] = *byte;
                all.push(other);
            }
        }
        if at < text.len() {
            let mut less = text.as_bytes().to_vec();
            less.remove(at);
            all.push(less);
        }
    }
    all
}

/// The part of an interval, if it is there.
type Part<V> = Option<Result<V, IntervalComponent>>;

/// The answer of the parts of an interval, by the slash between them.
fn by_parts<V>(text: &[u8], end: fn(&[u8]) -> Result<V, fotsevindre::error::ParseError>) -> (Part<V>, Part<Period>, Part<V>) {
    let at = text.iter().position(|byte| *byte == b'/').unwrap();
    let end = |text: &[u8]| match end(text) {
        Err(fotsevindre::error::ParseError::OutOfRange(error)) => Err(IntervalComponent::End(error)),
        value => Ok(value.ok().unwrap()),
    };
    let span = |text: &[u8]| match period::parse(text) {
        Err(fotsevindre::error::ParseDurationError::OutOfRange(part)) => Err(IntervalComponent::Period(part)),
        value => Ok(value.unwrap()),
    };
    let (front, back) = (&text[..at], &text[at + 1..]);
    match (front[0] == b'P', back[0] == b'P') {
        (true, _) => (None, Some(span(front)), Some(end(back))),
        (_, true) => (Some(end(front)), Some(span(back)), None),
        _ => (Some(end(front)), None, Some(end(back))),
    }
}

fn expected_dates(text: &[u8]) -> Result<DateInterval, ParseIntervalError> {
    match by_parts(text, fotsevindre::text::date::parse) {
        (Some(start), Some(period), _) => start.and_then(|start| Ok(DateInterval::StartAndPeriod(start, period?))),
        (Some(start), None, Some(end)) => start.and_then(|start| Ok(DateInterval::StartAndEnd(start, end?))),
        (_, Some(period), Some(end)) => period.and_then(|period| Ok(DateInterval::PeriodAndEnd(period, end?))),
        _ => unreachable!(),
    }
    .map_err(OutOfRange)
}

fn expected_date_times(text: &[u8]) -> Result<DateTimeInterval, ParseIntervalError> {
    match by_parts(text, fotsevindre::text::plain::parse) {
        (Some(start), Some(period), _) => start.and_then(|start| Ok(DateTimeInterval::StartAndPeriod(start, period?))),
        (Some(start), None, Some(end)) => start.and_then(|start| Ok(DateTimeInterval::StartAndEnd(start, end?))),
        (_, Some(period), Some(end)) => period.and_then(|period| Ok(DateTimeInterval::PeriodAndEnd(period, end?))),
        _ => unreachable!(),
    }
    .map_err(OutOfRange)
}

fn wrong(at: usize, text: &[u8]) -> ParseIntervalError {
    if at < text.len() { UnexpectedByte(at) } else { UnexpectedEnd(at) }
}

/// Strings of the grammar, with parts in all orders.
fn strings(ends: &[&str], periods: &[&str]) -> Vec<String> {
    let mut all = Vec::new();
    for end in ends {
        all.push(format!("{end}/{}", ends[0]));
        for period in periods {
            all.push(format!("{end}/{period}"));
            all.push(format!("{period}/{end}"));
        }
    }
    all
}

const PERIODS: [&str; 8] =
    ["P1M", "P1Y2M10DT2H30M", "PT0.5S", "P2W", "P2147483648D", "PT1,123456789S", "P0Y", "P00012M3W4DT5H6M7S"];

#[test]
fn each_edit_by_one_byte_of_dates() {
    let (once, repeat) = (Matcher::new(&intervals(dates())), Matcher::new(&repeats(dates())));
    let ends = ["2024-02-29", "2024-060", "2024-W09-4", "-0001-01-01", "+10000-12-31", "2023-02-29", "0000-01-01"];
    let mut seen = 0;
    for text in strings(&ends, &PERIODS) {
        for text in edits(&text) {
            let expected = match once.stop(&text) {
                Some(at) => Err(wrong(at, &text)),
                None => expected_dates(&text),
            };
            assert_eq!(date::parse(&text), expected, "{}", String::from_utf8_lossy(&text));
            seen += 1;
        }
    }
    for text in ["R12/2024-01-31/P1M", "R/2024-060/P2W", "R007/P1M/2024-W09-4", "R1/2024-01-01/2024-02-01"] {
        for text in edits(text) {
            let expected = match repeat.stop(&text) {
                Some(at) => Err(wrong(at, &text)),
                None => {
                    let at = text.iter().position(|byte| *byte == b'/').unwrap();
                    let digits = String::from_utf8(text[1..at].to_vec()).unwrap();
                    let count = (!digits.is_empty()).then(|| digits.parse().unwrap_or(u64::MAX));
                    expected_dates(&text[at + 1..]).map(|interval| (count, interval))
                }
            };
            assert_eq!(date::parse_repeated(&text), expected, "{}", String::from_utf8_lossy(&text));
            seen += 1;
        }
    }
    assert!(seen > 60_000, "{seen}");
}

#[test]
fn each_edit_by_one_byte_of_date_times() {
    let once = Matcher::new(&intervals(date_times()));
    let ends = ["2024-02-29T23:59:59.25", "2024-060 9:05", "2024-W09-4t24:00", "-0001-01-01T00:00:00.123456789"];
    for text in strings(&ends, &PERIODS) {
        for text in edits(&text) {
            let expected = match once.stop(&text) {
                Some(at) => Err(wrong(at, &text)),
                None => expected_date_times(&text),
            };
            assert_eq!(plain::parse(&text), expected, "{}", String::from_utf8_lossy(&text));
        }
    }
}

#[test]
fn errors_of_parts() {
    assert_eq!(date::parse(b"2024-01-01/P1Y2147483648M"), Err(OutOfRange(IntervalComponent::Period(DurationComponent::Months))));
}
