//! Formats: texts as Python's `datetime` and GNU `date` print them, and faults.

use fotsevindre::error::{Component, FormatError, UnsupportedItem};
use fotsevindre::format::ParseError;
use fotsevindre::{Date, Format, Month, OffsetDateTime, Time, UtcOffset};

/// Returns 2024-02-29 9:05:07.25 +05:30.
fn moment() -> OffsetDateTime {
    let date = Date::from_calendar_date(2024, Month::February, 29).unwrap();
    let time = Time::from_hms_milli(9, 5, 7, 250).unwrap();
    OffsetDateTime::new_in_offset(date, time, UtcOffset::from_hms(5, 30, 0).unwrap())
}

/// The text of the moment by each item.
const ITEMS: [(&str, &str); 28] = [
    ("%Y-%m-%d", "2024-02-29"),
    ("%C%y", "2024"),
    ("%-m/%-d", "2/29"),
    ("%B", "February"),
    ("%OB", "February"),
    ("%b", "Feb"),
    ("%e", "29"),
    ("%j", "060"),
    ("%G-W%V-%u", "2024-W09-4"),
    ("%U", "08"),
    ("%W", "09"),
    ("%w", "4"),
    ("%A", "Thursday"),
    ("%a", "Thu"),
    ("%H:%M:%S", "09:05:07"),
    ("%-I:%M %p", "9:05 AM"),
    ("%f", "250000"),
    ("%3N", "250"),
    ("%N", "250000000"),
    ("%.f", ".25"),
    ("%z", "+0530"),
    ("%:z", "+05:30"),
    ("%::z", "+05:30:00"),
    ("%s", "1709177707"),
    ("%F %T", "2024-02-29 09:05:07"),
    ("%D %R", "02/29/24 09:05"),
    ("%n%t%%", "\n\t%"),
    ("%Y年%-m月", "2024年2月"),
];

#[test]
fn items() {
    for (format, text) in ITEMS {
        assert_eq!(moment().format(&Format::new(format).unwrap()).unwrap().as_str(), text, "{format}");
    }
}

#[test]
fn descriptions() {
    let rows = [
        ("[day]/[month]/[year]", "29/02/2024"),
        ("[weekday], [day padding:none] [month repr:long]", "Thursday, 29 February"),
        ("[hour repr:12]:[minute] [period]", "09:05 AM"),
        ("[subsecond digits:3] [offset_hour sign:mandatory][offset_minute]", "250 +0530"),
        ("[offset_hour]:[offset_minute padding:none]", "05:30"),
    ];
    for (format, text) in rows {
        assert_eq!(moment().format(&Format::from_description(format).unwrap()).unwrap().as_str(), text, "{format}");
    }
}

#[test]
fn values() {
    let (date, time, offset) = (Format::new("%F").unwrap(), Format::new("%R").unwrap(), Format::new("%:z").unwrap());
    let at = moment();
    assert_eq!(at.date().format(&date).unwrap().to_string(), "2024-02-29");
    assert_eq!(at.time().format(&time).unwrap().to_string(), "09:05");
    assert_eq!(at.offset().format(&offset).unwrap().to_string(), "+05:30");
    assert_eq!(at.local().format(&date).unwrap().to_string(), "2024-02-29");
    assert_eq!(format!("{:>7}{:?}", at.time().format(&time).unwrap(), at.time().format(&time).unwrap()), "  09:05\"09:05\"");
    assert_eq!(at.date().format(&time).unwrap_err(), UnsupportedItem);
    assert_eq!(at.time().format(&date).unwrap_err(), UnsupportedItem);
    assert_eq!(at.offset().format(&date).unwrap_err(), UnsupportedItem);
    assert_eq!(at.local().format(&offset).unwrap_err().to_string(), "the format shows something that the value doesn't have");
}

#[test]
fn parsed() {
    let new = |format: &str| Format::new(format).unwrap();
    let row = |format: &str, text: &str| new(format).for_dates().unwrap().parse(text.as_bytes());
    let day = moment().date();
    for (format, text) in [("%d/%m/%Y", "29/02/2024"), ("%A, %-d %B %Y", "Thursday, 29 February 2024"), ("%G-W%V-%u", "2024-W09-4")]
    {
        assert_eq!(row(format, text), Ok(day));
    }
    assert_eq!(row("%F", "2024-02-2"), Err(ParseError::UnexpectedEnd(9)));
    assert_eq!(row("%d %b %Y", "29 feb 2024"), Err(ParseError::UnexpectedByte(3)));
    assert_eq!(row("%F", "2023-02-29").unwrap_err().to_string(), "day was not in range");
    assert_eq!(row("%a %F", "Wed 2024-02-29"), Err(ParseError::Contradiction(Component::Weekday)));
    assert_eq!(row("%a %F", "Wed 2024-02-29").unwrap_err().to_string(), "weekday contradicts the other components");
    assert!(new("%m").for_dates().is_none());

    let read = new("%d/%b/%Y:%T%.f %:z").for_offset_date_times().unwrap().parse(b"29/Feb/2024:09:05:07.25 +05:30").unwrap();
    assert_eq!((read.local(), read.offset()), (moment().local(), moment().offset()));
    let local = new("%Y%m%d %T%.f").for_date_times().unwrap().parse(b"20240229 09:05:07.25");
    assert_eq!(local, Ok(moment().local()));
    assert_eq!(new("%-I:%M %p").for_times().unwrap().parse(b"9:05 PM"), Ok(Time::from_hms(21, 5, 0).unwrap()));
    assert_eq!(new("%z").for_offsets().unwrap().parse(b"-0530"), Ok(UtcOffset::from_hms(-5, -30, 0).unwrap()));
}

#[test]
fn faults() {
    for (text, position) in [("%", 0), ("ab%", 2), ("%Y%Q", 2), ("%-", 0), ("年%q", 3), ("%c", 0)] {
        assert_eq!(Format::new(text).err(), Some(FormatError::UnknownItem(position)));
    }
    assert_eq!(Format::from_description("-[year").err(), Some(FormatError::UnknownItem(1)));
    assert_eq!(FormatError::UnknownItem(1).to_string(), "unknown item at 1");
    assert!(Format::new(&"a".repeat(64)).is_ok());
    for text in ["a".repeat(65), "a".repeat(1 << 16), "%".repeat(1 << 16)] {
        assert_eq!(Format::new(&text).err(), Some(FormatError::TooLong));
    }
    assert_eq!(FormatError::TooLong.to_string(), "too many items");
}
