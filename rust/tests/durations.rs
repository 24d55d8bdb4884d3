//! Periods and durations as ISO 8601 has them: worked rows, printing, ranges, and each edit by one
//! byte of 200 strings against a model of the grammar.

use fotsevindre::error::DurationComponent::{self, Days, Hours, Minutes, Months, Seconds, Weeks, Years};
use fotsevindre::error::ParseDurationError::{self, OutOfRange, UnexpectedByte, UnexpectedEnd};
use fotsevindre::text::{duration, period};
use fotsevindre::{Duration, Period};

/// A period of years, months, weeks, days, seconds and nanoseconds.
fn of(years: i32, months: i32, weeks: i32, days: i32, seconds: i64, nanoseconds: i32) -> Period {
    Period::new(years, months, weeks, days, Duration::new(seconds, nanoseconds)).unwrap()
}

#[test]
fn worked_rows() {
    // The string, its period, and what the period prints.
    let rows = [
        ("P1Y2M10DT2H30M", of(1, 2, 0, 10, 9_000, 0), "P1Y2M10DT2H30M"),
        ("P3Y6M4DT12H30M5S", of(3, 6, 0, 4, 45_005, 0), "P3Y6M4DT12H30M5S"),
        ("P2Y10M15DT10H20M30S", of(2, 10, 0, 15, 37_230, 0), "P2Y10M15DT10H20M30S"),
        ("P6W", of(0, 0, 6, 0, 0, 0), "P6W"),
        ("P1M", of(0, 1, 0, 0, 0, 0), "P1M"),
        ("PT1M", of(0, 0, 0, 0, 60, 0), "PT1M"),
        ("PT36H", of(0, 0, 0, 0, 129_600, 0), "PT36H"),
        ("P1DT12H", of(0, 0, 0, 1, 43_200, 0), "P1DT12H"),
        ("-P1D", of(0, 0, 0, -1, 0, 0), "-P1D"),
        ("-P1Y1M1W1DT1H1M1.001S", of(-1, -1, -1, -1, -3_661, -1_000_000), "-P1Y1M1W1DT1H1M1.001S"),
        ("P0007Y", of(7, 0, 0, 0, 0, 0), "P7Y"),
        ("PT90M", of(0, 0, 0, 0, 5_400, 0), "PT1H30M"),
        ("PT0,5S", of(0, 0, 0, 0, 0, 500_000_000), "PT0.5S"),
        ("PT0.000000001S", of(0, 0, 0, 0, 0, 1), "PT0.000000001S"),
        ("P0Y0M0W0DT0H0M0.000S", of(0, 0, 0, 0, 0, 0), "PT0S"),
        ("-PT0S", of(0, 0, 0, 0, 0, 0), "PT0S"),
        ("P14M10D", of(0, 14, 0, 10, 0, 0), "P14M10D"),
        (
            "-P2147483648Y2147483648M2147483648W2147483648DT2562047788015215H30M8.999999999S",
            of(i32::MIN, i32::MIN, i32::MIN, i32::MIN, i64::MIN, -999_999_999),
            "-P2147483648Y2147483648M2147483648W2147483648DT2562047788015215H30M8.999999999S",
        ),
    ];
    for (text, value, printed) in rows {
        assert_eq!((text.parse(), value.to_string().as_str()), (Ok(value), printed), "{text}");
        assert_eq!(printed.parse(), Ok(value));
        assert_eq!(period::Text::new(value).as_bytes(), printed.as_bytes());
    }
    assert_eq!(format!("{:>6}|{:*<6}|", Period::from_days(-1), Period::from_weeks(2)), "  -P1D|P2W***|");
}

#[test]
fn exact_durations() {
    let rows = [
        ("PT36H", Duration::new(129_600, 0), "PT36H"),
        ("-PT90M0.5S", Duration::new(-5_400, -500_000_000), "-PT1H30M0.5S"),
        ("PT000S", Duration::ZERO, "PT0S"),
        ("-PT2562047788015215H30M8.999999999S", Duration::MIN, "-PT2562047788015215H30M8.999999999S"),
        ("PT9223372036854775807.999999999S", Duration::MAX, "PT2562047788015215H30M7.999999999S"),
    ];
    for (text, value, printed) in rows {
        assert_eq!((Duration::parse_iso8601(text), value.iso8601_text().as_str()), (Ok(value), printed));
        assert_eq!(Duration::parse_iso8601(printed), Ok(value));
    }
    // A day has no exact length.
    for (text, error) in
        [("P1D", UnexpectedByte(1)), ("P1DT1H", UnexpectedByte(1)), ("P", UnexpectedEnd(1)), ("PT", UnexpectedEnd(2))]
    {
        assert_eq!(Duration::parse_iso8601(text), Err(error), "{text}");
    }
}

#[test]
fn parts_out_of_range() {
    let rows = [
        ("P2147483648Y", Years),
        ("-P2147483649Y", Years),
        ("P99999999999999999999999Y99999999999M", Years),
        ("P2147483648M", Months),
        ("P2147483648W", Weeks),
        ("P2147483648D", Days),
        ("PT2562047788015216H", Hours),
        ("PT2562047788015215H31M", Minutes),
        ("PT2562047788015215H30M8S", Seconds),
        ("-PT2562047788015215H30M9S", Seconds),
        ("PT18446744073709551617S", Seconds),
    ];
    for (text, part) in rows {
        assert_eq!(text.parse::<Period>(), Err(OutOfRange(part)), "{text}");
        let error = text.parse::<Period>().unwrap_err();
        let _: &dyn std::error::Error = &error;
        assert_eq!(error.to_string(), format!("{} was not in range", part.name()));
        if text.contains('T') {
            assert_eq!(Duration::parse_iso8601(text), Err(OutOfRange(part)), "{text}");
        }
    }
    let errors = [UnexpectedByte(3), UnexpectedEnd(2)].map(|error| error.to_string());
    assert_eq!(errors, ["unexpected byte at 3", "unexpected end at 2"]);
}

#[test]
fn wrong_strings() {
    let rows = [
        ("", UnexpectedEnd(0)),
        ("P", UnexpectedEnd(1)),
        ("P1", UnexpectedEnd(2)),
        ("P1DT", UnexpectedEnd(4)),
        ("p1D", UnexpectedByte(0)),
        ("+P1D", UnexpectedByte(0)),
        ("P-1D", UnexpectedByte(1)),
        ("P1d", UnexpectedByte(2)),
        ("P1H", UnexpectedByte(2)),
        ("P1D2Y", UnexpectedByte(3)),
        ("P1M2Y", UnexpectedByte(4)),
        ("PT1.5M", UnexpectedByte(5)),
        ("PT1.5H", UnexpectedByte(5)),
        ("P1.5D", UnexpectedByte(2)),
        ("PT1.S", UnexpectedByte(4)),
        ("PT.5S", UnexpectedByte(2)),
        ("PT0.0000000001S", UnexpectedByte(13)),
        ("PT1S2S", UnexpectedByte(4)),
        ("P1Y ", UnexpectedByte(3)),
    ];
    for (text, error) in rows {
        assert_eq!(text.parse::<Period>(), Err(error), "{text}");
    }
}

/// A grammar: bytes from a range, rules in a row, and a choice between rules.
enum Rule {
    Byte(u8, u8),
    Row(Vec<Rule>),
    Choice(Vec<Rule>),
}
use Rule::{Byte, Choice, Row};

fn byte(value: u8) -> Rule {
    Byte(value, value)
}

fn maybe(rule: Rule) -> Rule {
    Choice(vec![Row(vec![]), rule])
}

/// From one digit to `most`, which is more than a string has if any number is allowed.
fn digits(most: usize) -> Rule {
    let more = if most > 1 { maybe(digits(most - 1)) } else { Row(vec![]) };
    Row(vec![Byte(b'0', b'9'), more])
}

const ANY: usize = 90;

/// A number and its letter.
fn part(letter: u8) -> Rule {
    Row(vec![digits(ANY), byte(letter)])
}

/// The parts in their order: each may be left out, but not all.
fn some_of(mut parts: Vec<fn() -> Rule>) -> Rule {
    let mut choices = vec![];
    while !parts.is_empty() {
        let first = parts.remove(0);
        let others = parts.iter().map(|part| maybe(part()));
        choices.push(Row([first()].into_iter().chain(others).collect()));
    }
    Choice(choices)
}

fn time() -> Rule {
    let seconds = || {
        let fraction = Row(vec![Choice(vec![byte(b'.'), byte(b',')]), digits(9)]);
        Row(vec![digits(ANY), maybe(fraction), byte(b'S')])
    };
    Row(vec![byte(b'T'), some_of(vec![|| part(b'H'), || part(b'M'), seconds])])
}

fn signed(rest: Rule) -> Rule {
    Row(vec![maybe(byte(b'-')), byte(b'P'), rest])
}

fn period_rule() -> Rule {
    let date = some_of(vec![|| part(b'Y'), || part(b'M'), || part(b'W'), || part(b'D')]);
    signed(Choice(vec![time(), Row(vec![date, maybe(time())])]))
}

/// Calls `then` at each end of the rule from `at` on. Keeps in `furthest` the last position at which
/// a byte was compared: every rule can be completed, so a wrong string is right up to there.
fn walk(rule: &Rule, text: &[u8], at: usize, furthest: &mut usize, then: &mut dyn FnMut(usize, &mut usize) -> bool) -> bool {
    match rule {
        Byte(low, high) => {
            *furthest = (*furthest).max(at);
            text.get(at).is_some_and(|byte| low <= byte && byte <= high) && then(at + 1, furthest)
        }
        Row(rules) => match rules.split_first() {
            None => then(at, furthest),
            Some((first, _)) => {
                walk(first, text, at, furthest, &mut |at, furthest| walk_row(&rules[1..], text, at, furthest, then))
            }
        },
        Choice(rules) => rules.iter().any(|rule| walk(rule, text, at, furthest, then)),
    }
}

fn walk_row(rules: &[Rule], text: &[u8], at: usize, furthest: &mut usize, then: &mut dyn FnMut(usize, &mut usize) -> bool) -> bool {
    match rules.split_first() {
        None => then(at, furthest),
        Some((first, others)) => walk(first, text, at, furthest, &mut |at, furthest| walk_row(others, text, at, furthest, then)),
    }
}

/// Returns the error of a string by its grammar.
fn syntax(rule: &Rule, text: &[u8]) -> Result<(), ParseDurationError> {
    let mut furthest = 0;
    let is_whole = walk(rule, text, 0, &mut furthest, &mut |at, furthest| {
        *furthest = (*furthest).max(at);
        at == text.len()
    });
    match is_whole {
        true => Ok(()),
        false if furthest < text.len() => Err(UnexpectedByte(furthest)),
        false => Err(UnexpectedEnd(furthest)),
    }
}

/// Returns the period of a string that has the form, by its letters.
fn value(text: &[u8]) -> Result<Period, ParseDurationError> {
    let text = std::str::from_utf8(text).unwrap();
    let (sign, rest) = text.strip_prefix("-P").map_or((1, &text[1..]), |rest| (-1, rest));
    let (date, time) = rest.split_once('T').unwrap_or((rest, ""));
    let number = |text: &str, letter: char| -> i128 {
        let digits =
            text.split_once(letter).map_or("0", |(front, _)| front.rsplit(|c: char| c.is_ascii_alphabetic()).next().unwrap());
        sign * digits.parse::<i128>().unwrap_or(i128::MAX).min(1 << 80)
    };
    let fits = |value: i128, part: DurationComponent| i32::try_from(value).map_err(|_| OutOfRange(part));
    let (years, months) = (fits(number(date, 'Y'), Years)?, fits(number(date, 'M'), Months)?);
    let (weeks, days) = (fits(number(date, 'W'), Weeks)?, fits(number(date, 'D'), Days)?);
    let time = time.replace(',', ".");
    let (whole, fraction) = time.strip_suffix('S').and_then(|time| time.split_once('.')).unwrap_or((&time, ""));
    let whole = if fraction.is_empty() { time.clone() } else { format!("{whole}S") };
    let nanoseconds = sign * format!("{fraction:0<9}").parse::<i128>().unwrap();
    let hours = number(&whole, 'H') * 3_600_000_000_000;
    let minutes = hours + number(&whole, 'M') * 60_000_000_000;
    let all = minutes + number(&whole, 'S') * 1_000_000_000 + nanoseconds;
    let range = Duration::MIN.whole_nanoseconds()..=Duration::MAX.whole_nanoseconds();
    for (sum, part) in [(hours, Hours), (minutes, Minutes), (all, Seconds)] {
        range.contains(&sum).then_some(()).ok_or(OutOfRange(part))?;
    }
    Ok(Period::new(years, months, weeks, days, Duration::nanoseconds_i128(all)).unwrap())
}

/// 200 strings: each date with each time, and most of them with a sign.
fn strings() -> Vec<String> {
    let dates = ["", "1Y", "22M", "3W", "4D", "1Y2M", "1Y3W", "2M04D", "1Y2M3W4D", "2147483648D", "9M9W"];
    let times = ["", "T1H", "T2M", "T3S", "T1H2M", "T1H3S", "T02M3.5S", "T1H2M0,250S", "T0.123456789S", "T99999999999999999999M"];
    let rests = dates.iter().flat_map(|date| times.iter().map(move |time| format!("P{date}{time}"))).skip(1);
    let mut strings: Vec<String> = rests.flat_map(|rest| [format!("-{rest}"), rest]).collect();
    strings.truncate(200);
    strings
}

/// Each edit of a string by one byte: a byte removed, replaced or inserted.
fn edits(text: &[u8], each: &mut dyn FnMut(&[u8])) {
    each(text);
    for at in 0..=text.len() {
        for byte in 0..=255 {
            each(&[&text[..at], &[byte], &text[at..]].concat());
            if at < text.len() {
                each(&[&text[..at], &[byte], &text[at + 1..]].concat());
            }
        }
        if at < text.len() {
            each(&[&text[..at], &text[at + 1..]].concat());
        }
    }
}

#[test]
fn every_edit_by_one_byte() {
    let (period_rule, duration_rule) = (period_rule(), signed(time()));
    let strings = strings();
    assert_eq!(strings.len(), 200);
    for text in &strings {
        edits(text.as_bytes(), &mut |text| {
            let wanted = syntax(&period_rule, text).and_then(|()| value(text));
            assert_eq!(period::parse(text), wanted, "{:?}", String::from_utf8_lossy(text));
            let wanted = syntax(&duration_rule, text).and_then(|()| value(text).map(Period::duration));
            assert_eq!(duration::parse(text), wanted, "{:?}", String::from_utf8_lossy(text));
            if let Ok(period) = period::parse(text) {
                assert_eq!(period.to_string().parse(), Ok(period));
            }
        });
    }
}
