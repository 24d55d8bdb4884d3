//! The reader of ISO 8601: worked rows, and drawn and broken texts against a reader written from the
//! grammar.

use crate::grammar::Grammar::{All, Any, Byte, Times};
use crate::grammar::{DIGIT, Grammar, Matcher, maybe, times};
use fotsevindre::error::ParseError::{self, OutOfRange, UnexpectedByte, UnexpectedEnd};
use fotsevindre::text::iso;
use fotsevindre::{Date, Month, OffsetDateTime, PlainDateTime, Time, UtcOffset, Weekday};

#[test]
fn dates() {
    // Of ISO 8601-1 (1985-04-12) and of the strict forms.
    let rows = [
        ("19850412", "1985-04-12"),
        ("1985-04-12", "1985-04-12"),
        ("1985102", "1985-04-12"),
        ("1985-102", "1985-04-12"),
        ("1985W155", "1985-04-12"),
        ("1985-W15-5", "1985-04-12"),
        ("1985W15", "1985-04-08"),
        ("1985-W15", "1985-04-08"),
        ("+001985-04-12", "1985-04-12"),
        ("+1985-04-12", "1985-04-12"),
        ("-0001-12-31", "-0001-12-31"),
        ("-0000-01-01", "0000-01-01"),
        ("+999999-12-31", "+999999-12-31"),
    ];
    for (text, date) in rows {
        assert_eq!(Date::parse_iso(text), Ok(date.parse().unwrap()), "{text}");
    }
    let error = |text: &str| Date::parse_iso(text).unwrap_err().to_string();
    assert_eq!(error("1985-0412"), "unexpected byte at 8");
    assert_eq!(error("198504-12"), "unexpected byte at 6");
    assert_eq!(error("1985-04"), "unexpected end at 7");
    assert_eq!(error("+19850412"), "unexpected byte at 7");
    assert_eq!(error("1985-04-12T00:00"), "unexpected byte at 10");
    assert_eq!(error("19850431"), "day was not in range");
    assert_eq!(error("2023366"), "ordinal was not in range");
}

#[test]
fn times_and_date_times() {
    let rows = [
        ("23:20:50", "23:20:50"),
        ("232050", "23:20:50"),
        ("T232050,5", "23:20:50.5"),
        ("t23:20", "23:20"),
        ("2320", "23:20"),
        ("23", "23:00"),
        ("23:20:50.123456789000", "23:20:50.123456789"),
        ("23:20:50.1234567890000000000000000000000000000000", "23:20:50.123456789"),
        ("232050,1000000000000000000", "23:20:50.1"),
    ];
    for (text, time) in rows {
        assert_eq!(Time::parse_iso(text), Ok(time.parse().unwrap()), "{text}");
    }
    assert_eq!(Time::parse_iso("23:20:50.1234567890001").unwrap_err().to_string(), "unexpected byte at 21");
    assert_eq!(Time::parse_iso("23:20:50.12345678900000000000000000001").unwrap_err().to_string(), "unexpected byte at 37");
    assert_eq!(Time::parse_iso("23:20,5").unwrap_err().to_string(), "unexpected byte at 5");
    assert_eq!(Time::parse_iso("24:00").unwrap_err().to_string(), "hour was not in range");
    let rows = [
        ("19850412T232030", "1985-04-12T23:20:30"),
        ("1985-04-12 23:20:30", "1985-04-12T23:20:30"),
        ("19850412", "1985-04-12T00:00"),
        ("1985W155T23", "1985-04-12T23:00"),
    ];
    for (text, plain) in rows {
        assert_eq!(PlainDateTime::parse_iso(text), Ok(plain.parse().unwrap()), "{text}");
    }
    // Of RFC 3339, of PostgreSQL's output, and of ISO 8601-1.
    let rows = [
        ("1985-04-12T23:20:50.52Z", "1985-04-12T23:20:50.52+00:00"),
        ("1996-12-19T16:39:57-08:00", "1996-12-19T16:39:57-08:00"),
        ("2024-02-29 22:59:59.25+00", "2024-02-29T22:59:59.25+00:00"),
        ("1900-01-01 00:00:00+00:19:32", "1900-01-01T00:00:00+00:19:32"),
        ("19850412T101530+0400", "1985-04-12T10:15:30+04:00"),
        ("1985-04-12 10:15:30 -0030", "1985-04-12T10:15:30-00:30"),
        ("19850412T1015-00", "1985-04-12T10:15+00:00"),
        ("19850412t10z", "1985-04-12T10:00Z"),
    ];
    for (text, moment) in rows {
        let expected: OffsetDateTime = moment.parse().unwrap();
        let found = OffsetDateTime::parse_iso(text).unwrap();
        assert_eq!((found, found.offset()), (expected, expected.offset()), "{text}");
    }
    assert_eq!(OffsetDateTime::parse_iso("19850412T10").unwrap_err().to_string(), "unexpected end at 11");
    assert_eq!(PlainDateTime::parse_iso("19850412T10Z").unwrap_err().to_string(), "unexpected byte at 11");
}

// ---- the grammar

fn digits(count: usize) -> Grammar {
    times(count, DIGIT)
}

fn date_grammar() -> Grammar {
    const WEEKDAY: Grammar = Byte(b"1234567");
    let rest = |hyphen: &dyn Fn(Grammar) -> Grammar| {
        let week = All(vec![Byte(b"W"), digits(2), maybe(hyphen(WEEKDAY))]);
        Any(vec![week, All(vec![digits(2), hyphen(digits(2))]), digits(3)])
    };
    let extended = rest(&|part| All(vec![Byte(b"-"), part]));
    let expanded = All(vec![Byte(b"+-"), Times(4, Some(6), Box::new(DIGIT))]);
    Any(vec![All(vec![Any(vec![expanded, digits(4)]), Byte(b"-"), extended]), All(vec![digits(4), rest(&|part| part)])])
}

fn clock_grammar(has_fraction: bool) -> Grammar {
    let decimals = Any(vec![Times(1, Some(9), Box::new(DIGIT)), All(vec![digits(9), Times(1, None, Box::new(Byte(b"0")))])]);
    let fraction = All(vec![Byte(b".,"), decimals]);
    let seconds = || if has_fraction { All(vec![digits(2), maybe(fraction.clone())]) } else { digits(2) };
    let extended = All(vec![Byte(b":"), digits(2), maybe(All(vec![Byte(b":"), seconds()]))]);
    let basic = All(vec![digits(2), maybe(seconds())]);
    All(vec![digits(2), maybe(Any(vec![extended, basic]))])
}

fn offset_grammar() -> Grammar {
    let shift = All(vec![Byte(b"+-"), clock_grammar(false)]);
    All(vec![maybe(Byte(b" ")), Any(vec![Byte(b"Zz"), shift])])
}

fn time_grammar() -> Grammar {
    All(vec![maybe(Byte(b"Tt")), clock_grammar(true)])
}

fn plain_grammar() -> Grammar {
    All(vec![date_grammar(), maybe(All(vec![Byte(b"Tt "), clock_grammar(true)]))])
}

fn moment_grammar() -> Grammar {
    All(vec![date_grammar(), Byte(b"Tt "), clock_grammar(true), offset_grammar()])
}

// ---- the values of texts of the grammar

fn number(text: &[u8]) -> u32 {
    text.iter().filter(|byte| byte.is_ascii_digit()).fold(0, |number, byte| number * 10 + u32::from(byte - b'0'))
}

fn only_digits(text: &[u8]) -> Vec<u8> {
    text.iter().copied().filter(u8::is_ascii_digit).collect()
}

fn read_date(text: &[u8]) -> Result<Date, ParseError> {
    let signed = matches!(text[0], b'+' | b'-');
    let end = if signed { 1 + text[1..].iter().position(|byte| *byte == b'-').unwrap() } else { 4 };
    let magnitude = number(&text[..end]) as i32;
    let year = if text[0] == b'-' { -magnitude } else { magnitude };
    let rest = if text[end] == b'-' { &text[end + 1..] } else { &text[end..] };
    let found = only_digits(rest);
    let date = if rest[0] == b'W' {
        let weekday = if found.len() == 3 { found[2] - b'1' } else { 0 };
        Date::from_iso_week_date(year, number(&found[..2]) as u8, Weekday::Monday.nth_next(weekday))
    } else if found.len() == 3 {
        Date::from_ordinal_date(year, number(&found) as u16)
    } else {
        Month::try_from(number(&found[..2]) as u8)
            .and_then(|month| Date::from_calendar_date(year, month, number(&found[2..]) as u8))
    };
    date.map_err(OutOfRange)
}

/// The hour, the minute, the second and the nanoseconds.
fn read_clock(text: &[u8]) -> (u8, u8, u8, u32) {
    let mark = text.iter().position(|byte| matches!(byte, b'.' | b',')).unwrap_or(text.len());
    let found = only_digits(&text[..mark]);
    let part = |at: usize| found.get(at..at + 2).map_or(0, number) as u8;
    let decimals = text.get(mark + 1..).unwrap_or_default();
    let nanosecond = (0..9).fold(0, |sum, at| sum * 10 + u32::from(decimals.get(at).map_or(0, |byte| byte - b'0')));
    (part(0), part(2), part(4), nanosecond)
}

fn read_time(text: &[u8]) -> Result<Time, ParseError> {
    let (hour, minute, second, nanosecond) = read_clock(text);
    Time::from_hms_nano(hour, minute, second, nanosecond).map_err(OutOfRange)
}

fn read_plain(text: &[u8]) -> Result<PlainDateTime, ParseError> {
    let at = text.iter().position(|byte| matches!(byte, b'T' | b't' | b' ')).unwrap_or(text.len());
    let date = read_date(&text[..at])?;
    let time = if at == text.len() { Time::MIDNIGHT } else { read_time(&text[at + 1..])? };
    Ok(PlainDateTime::new(date, time))
}

fn read_moment(text: &[u8]) -> Result<OffsetDateTime, ParseError> {
    let at = text.iter().position(|byte| matches!(byte, b'T' | b't' | b' ')).unwrap();
    let clock = &text[at + 1..];
    let end = at + 1 + clock.iter().position(|byte| matches!(byte, b' ' | b'Z' | b'z' | b'+' | b'-')).unwrap();
    let local = read_plain(&text[..end])?;
    let (hours, minutes, seconds, _) = read_clock(&text[end..]);
    let sign = if text[end..].contains(&b'-') { -1 } else { 1 };
    let name = |number: u8, most: u8, text: &str| if number > most { Err(text.to_string()) } else { Ok(()) };
    // The offset's own parser names the component that is out of range.
    let range = name(hours, 25, "").and(name(minutes, 59, "")).and(name(seconds, 59, ""));
    if range.is_err() {
        let strict = format!("+{hours:02}:{minutes:02}:{seconds:02}");
        return Err(strict.parse::<UtcOffset>().unwrap_err());
    }
    let offset = UtcOffset::from_hms(sign * hours as i8, sign * minutes as i8, sign * seconds as i8).unwrap();
    Ok(local.assume_offset(offset))
}

// ---- drawn texts

struct Draw(u64);

impl Draw {
    fn below(&mut self, limit: u64) -> u64 {
        self.0 ^= self.0 << 13;
        self.0 ^= self.0 >> 7;
        self.0 ^= self.0 << 17;
        (self.0 >> 11) % limit
    }

    fn number(&mut self, width: usize, most: u64) -> String {
        format!("{:0width$}", self.below(most))
    }

    fn one<'t>(&mut self, of: &[&'t str]) -> &'t str {
        of[self.below(of.len() as u64) as usize]
    }

    fn date(&mut self) -> String {
        let year = match self.below(8) {
            0 => format!("{}{}", self.one(&["+", "-"]), self.number(4, 10_000)),
            1 => format!("{}{}", self.one(&["+", "-"]), self.number(6, 1_000_000)),
            _ => self.number(4, 10_000),
        };
        let mark = if year.len() > 4 { "-" } else { self.one(&["-", ""]) };
        let rest = match self.below(5) {
            0 => self.number(3, 370),
            1 => format!("W{}", self.number(2, 55)),
            2 => format!("W{}{mark}{}", self.number(2, 55), self.number(1, 9)),
            _ => format!("{}{mark}{}", self.number(2, 14), self.number(2, 33)),
        };
        format!("{year}{mark}{rest}")
    }

    fn clock(&mut self, hours: u64, has_fraction: bool) -> String {
        let mark = self.one(&[":", ""]);
        let mut text = self.number(2, hours);
        let parts = self.below(4);
        if parts > 0 {
            text += &format!("{mark}{}", self.number(2, 62));
        }
        if parts > 1 {
            text += &format!("{mark}{}", self.number(2, 62));
        }
        if parts > 2 && has_fraction {
            let width = 1 + self.below(40) as usize;
            let decimals = self.number(width.min(9), 10u64.pow(width.min(9) as u32));
            text += &format!("{}{decimals:0<width$}", self.one(&[".", ","]));
        }
        text
    }

    fn offset(&mut self) -> String {
        match self.below(4) {
            0 => self.one(&["Z", "z", " Z"]).to_string(),
            _ => format!("{}{}", self.one(&["+", "-", " +", " -"]), self.clock(27, false)),
        }
    }

    /// Changes no byte, one or two.
    fn broken(&mut self, text: String) -> Vec<u8> {
        let mut text = text.into_bytes();
        for _ in 0..self.below(3) {
            let at = self.below(text.len() as u64 + 1) as usize;
            let byte = b"0123456789+-.,: TtWZz/x"[self.below(23) as usize];
            match self.below(3) {
                0 => text.insert(at, byte),
                1 if at < text.len() => text[at] = byte,
                2 if at < text.len() && text.len() > 1 => drop(text.remove(at)),
                _ => {}
            }
        }
        text
    }
}

fn agree<V: PartialEq + std::fmt::Debug>(
    texts: u32,
    grammar: &Grammar,
    draw: impl Fn(&mut Draw) -> String,
    read: fn(&[u8]) -> Result<V, ParseError>,
    parse: fn(&[u8]) -> Result<V, ParseError>,
) {
    let matcher = Matcher::new(grammar);
    let mut random = Draw(88_172_645_463_325_252);
    let mut accepted = 0;
    for _ in 0..texts {
        let text = draw(&mut random);
        let text = random.broken(text);
        let expected = match matcher.stop(&text) {
            Some(at) if at < text.len() => Err(UnexpectedByte(at)),
            Some(at) => Err(UnexpectedEnd(at)),
            None => read(&text),
        };
        accepted += u32::from(expected.is_ok());
        assert_eq!(parse(&text), expected, "{}", String::from_utf8_lossy(&text));
    }
    assert!(accepted > texts / 10, "{accepted} of {texts}");
}

#[test]
fn fractions_of_a_million_digits() {
    let zeros = "0".repeat(1_000_000);
    assert_eq!(Time::parse_iso(&format!("23:20:50.25{zeros}")), Ok(Time::from_hms_milli(23, 20, 50, 250).unwrap()));
    assert_eq!(iso::time::parse(format!("232050,25{zeros}1").as_bytes()), Err(UnexpectedByte(1_000_009)));
    assert_eq!(iso::offset_date_time::parse(format!("20240229T232050,25{zeros}").as_bytes()), Err(UnexpectedEnd(1_000_018)));
}

#[test]
fn drawn_texts_agree_with_a_reader_of_the_grammar() {
    agree(300_000, &date_grammar(), Draw::date, read_date, iso::date::parse);
    agree(
        200_000,
        &time_grammar(),
        |draw| format!("{}{}", draw.one(&["", "T", "t"]), draw.clock(25, true)),
        read_time,
        iso::time::parse,
    );
    let local = |draw: &mut Draw| format!("{}{}{}", draw.date(), draw.one(&["T", "t", " "]), draw.clock(25, true));
    agree(300_000, &plain_grammar(), local, read_plain, iso::plain::parse);
    let moment = |draw: &mut Draw| format!("{}{}", local(draw), draw.offset());
    // Two of them are equal if their instants are, so the offsets are compared too.
    let read = |text: &[u8]| read_moment(text).map(|moment| (moment, moment.offset()));
    let parse = |text: &[u8]| iso::offset_date_time::parse(text).map(|moment| (moment, moment.offset()));
    agree(300_000, &moment_grammar(), moment, read, parse);
}
