//! Lenient formats: strings as glibc's `strptime` and `dateutil` 2.9 read them, and strings that
//! they reject.

use fotsevindre::{Format, PlainDateTime};

/// Returns the format with a pivot, if there is one.
fn lenient(format: &str, pivot: Option<u16>) -> fotsevindre::format::LenientFormat {
    let format = Format::new(format).unwrap().lenient();
    match pivot {
        Some(year) => format.with_pivot(year),
        None => format,
    }
}

/// Formats, strings and the dates that both programs read.
const DATES: [(&str, &str, &str); 18] = [
    ("%d %B %Y", "29 FEB 2024", "2024-02-29"),
    ("%d-%b-%Y", "29-FEB-2024", "2024-02-29"),
    ("%d %B %Y", "1 march 2024", "2024-03-01"),
    ("%d %B %Y", "01 mar 2024", "2024-03-01"),
    ("%d %B %Y", "1   March\t2024", "2024-03-01"),
    ("%d %B %Y", "1 May 2024", "2024-05-01"),
    ("%A, %d %B %Y", "thu, 29 february 2024", "2024-02-29"),
    ("%a, %d %b %Y", "THU,   29 feb 2024", "2024-02-29"),
    ("%m/%d/%Y", "1/2/2024", "2024-01-02"),
    ("%m/%d/%Y", "01/2/2024", "2024-01-02"),
    ("%-m/%-d/%Y", "01/02/2024", "2024-01-02"),
    ("%Y-%m-%d", "2024-2-9", "2024-02-09"),
    ("%b %e %Y", "feb 9 2024", "2024-02-09"),
    ("%b %e %Y", "Feb  9 2024", "2024-02-09"),
    ("%b %e %Y", "Feb \t  09 2024", "2024-02-09"),
    ("%d %b %Y", "1 JUL 2024", "2024-07-01"),
    ("%d  %b  %Y", "1 jun 2024", "2024-06-01"),
    ("%Y-%j", "2024-60", "2024-02-29"),
];

#[test]
fn dates() {
    for (format, text, date) in DATES {
        let format = lenient(format, None).for_dates().unwrap();
        assert_eq!(format.parse(text.as_bytes()).unwrap().to_string(), date, "{text}");
    }
}

/// Formats and strings that are no variants. `strptime` rejects them too, except the last four: it
/// takes spaces before a number, and no space for a space.
const REJECTED: [(&str, &str); 14] = [
    ("%d %B %Y", "29 Febr 2024"),
    ("%d %B %Y", "1 Ma 2024"),
    ("%d %B %Y", "1 Mar. 2024"),
    ("%b %d %Y", "February 9 2024 "),
    ("%Y-%m-%d", "2024-02-029"),
    ("%Y-%m-%d", "2024--02-09"),
    ("%Y-%m-%d", "2024-02-"),
    ("%Y-%m-%d", "2023-2-29"),
    ("%A, %d %B %Y", "wed, 29 february 2024"),
    ("%m/%d/%Y", "1/2/20245"),
    ("%Y-%m-%d", "2024- 2-09"),
    ("%m/%d/%Y", " 1/2/2024"),
    ("%d %B %Y", "29February 2024"),
    ("%b %d %Y", "February 9 2024"),
];

#[test]
fn rejected() {
    for (format, text) in REJECTED {
        let format = lenient(format, None).for_dates().unwrap();
        assert!(format.parse(text.as_bytes()).is_err(), "{text}");
    }
}

/// Pivots, strings and dates. 1969 is the pivot of POSIX.
const PIVOTS: [(u16, &str, &str); 10] = [
    (1969, "1/2/68", "2068-01-02"),
    (1969, "1/2/69", "1969-01-02"),
    (1969, "01/02/99", "1999-01-02"),
    (1969, "1/2/00", "2000-01-02"),
    (1970, "1/2/69", "2069-01-02"),
    (1970, "1/2/70", "1970-01-02"),
    (2000, "12/31/99", "2099-12-31"),
    (2024, "2/29/24", "2024-02-29"),
    (0, "2/28/00", "0000-02-28"),
    (9900, "12/31/99", "9999-12-31"),
];

#[test]
fn pivots() {
    for (pivot, text, date) in PIVOTS {
        let format = lenient("%m/%d/%y", Some(pivot)).for_dates().unwrap();
        assert_eq!(format.parse(text.as_bytes()).unwrap().to_string(), date, "{pivot} {text}");
    }
}

/// Formats that can't be read leniently, with their pivots.
const REFUSED: [(&str, Option<u16>); 9] = [
    ("%Y%m%d", None),
    ("%Y%j", None),
    ("%d %Bof %Y", None),
    ("%A%B %d %Y", None),
    ("%d%e/%m/%Y", None),
    ("%m/%d/%y", None),
    ("%m/%d/%y", Some(9901)),
    ("%m/%d/%Y", Some(1970)),
    ("%m/%d/%y %C", Some(1970)),
];

#[test]
fn refused() {
    for (format, pivot) in REFUSED {
        assert!(lenient(format, pivot).for_dates().is_none(), "{format}");
    }
    assert!(lenient("%d%b%Y", None).for_dates().is_some());
}

#[test]
fn times() {
    let rows = [
        ("%H:%M", "9:5", "09:05:00"),
        ("%H:%M:%S", "09:5:7", "09:05:07"),
        ("%I:%M %p", "1:05 pm", "13:05:00"),
        ("%-I:%M %p", "01:05 Pm", "13:05:00"),
        ("%H:%M:%S%.f", "9:05:07.25", "09:05:07.25"),
    ];
    for (format, text, time) in rows {
        let format = lenient(format, None).for_times().unwrap();
        let parsed = format.parse(text.as_bytes()).unwrap();
        assert_eq!(parsed, fotsevindre::Time::parse(time, &Format::new("%T%.f").unwrap().for_times().unwrap()).unwrap());
    }
    assert!(lenient("%H%M", None).for_times().is_none());
}

#[test]
fn date_times() {
    let format = lenient("%Y-%m-%d %H:%M", None).for_date_times().unwrap();
    let strict = Format::new("%F %R").unwrap().for_date_times().unwrap();
    assert_eq!(format.parse(b"2024-2-9  9:05").unwrap(), PlainDateTime::parse("2024-02-09 09:05", &strict).unwrap());
    let format = lenient("%d/%b/%Y:%H:%M:%S %z", None).for_offset_date_times().unwrap();
    let parsed = format.parse(b"9/FEB/2024:9:5:7 +0530").unwrap();
    assert_eq!(parsed.unix_timestamp(), 1_707_449_707);
    assert!(format.parse(b"9/FEB/2024:9:5:7 +530").is_err());
}
