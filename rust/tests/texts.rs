//! Texts: worked rows, the examples of RFC 3339, errors and their positions, and days and moments
//! printed and parsed.

use fotsevindre::error::ParseError::{self, UnexpectedByte, UnexpectedEnd};
use fotsevindre::text::date::{CalendarText, OrdinalText, WeekText};
use fotsevindre::text::julian_day::JulianText;
use fotsevindre::text::{DateForm, DateOrMoment, MomentForm, date, julian_day, parse_any, rfc3339, unix};
use fotsevindre::{Date, Duration, Month, OffsetDateTime, Time, UtcOffset};

fn day(year: i32, month: u8, day: u8) -> Date {
    Date::from_calendar_date(year, Month::try_from(month).unwrap(), day).unwrap()
}

/// Julian day, and the texts: by the calendar, by the ordinal, by the week and by the Julian day.
const DAYS: [(i32, &str, &str, &str, &str); 9] = [
    (2_460_370, "2024-02-29", "2024-060", "2024-W09-4", "J2460370"),
    (2_459_216, "2021-01-01", "2021-001", "2020-W53-5", "J2459216"),
    (2_458_484, "2018-12-31", "2018-365", "2019-W01-1", "J2458484"),
    (1_721_060, "0000-01-01", "0000-001", "-0001-W52-6", "J1721060"),
    (1_721_059, "-0001-12-31", "-0001-365", "-0001-W52-5", "J1721059"),
    (5_373_485, "+10000-01-01", "+10000-001", "9999-W52-6", "J5373485"),
    (-1, "-4713-11-23", "-4713-327", "-4713-W47-7", "J-1"),
    (366_963_559, "+999999-12-31", "+999999-365", "+999999-W52-5", "J366963559"),
    (-363_521_074, "-999999-01-01", "-999999-001", "-999999-W01-1", "J-363521074"),
];

#[test]
fn days_in_text() {
    for (number, calendar, ordinal, week, julian) in DAYS {
        let date = Date::from_julian_day(number).unwrap();
        let lines = [CalendarText(date).text(), OrdinalText(date).text(), WeekText(date).text(), JulianText(date).text()];
        assert_eq!(lines.map(|line| line.as_str().to_string()), [calendar, ordinal, week, julian]);
        assert_eq!(lines[2].as_bytes(), week.as_bytes());
        assert_eq!((CalendarText(date).to_string(), OrdinalText(date).to_string()), (calendar.into(), ordinal.into()));
        assert_eq!((WeekText(date).to_string(), JulianText(date).to_string()), (week.into(), julian.into()));
        for text in [calendar, ordinal, week] {
            assert_eq!((text.parse(), date::parse(text.as_bytes())), (Ok(date), Ok(date)));
        }
        assert_eq!(julian_day::parse(julian.as_bytes()), Ok(date));
    }
    assert_eq!(format!("{:>13}|{:*<14}|", OrdinalText(Date::MIN), WeekText(Date::MIN)), "  -999999-001|-999999-W01-1*|");
    assert_eq!(format!("{:?}", WeekText(Date::MAX).text()), "\"+999999-W52-5\"");
    assert_eq!("-12345-W01-1".parse(), Ok(day(-12_345, 1, 4)));
}

/// The error prints as said, is one of std, and has the name and the mark of the component.
#[track_caller]
fn is_out_of_range<T: std::fmt::Debug>(text: &str, parsed: Result<T, ParseError>, name: &str, is_conditional: bool) {
    let error = parsed.unwrap_err();
    let _: &dyn std::error::Error = &error;
    assert_eq!(error.to_string(), format!("{name} was not in range"), "{text}");
    let ParseError::OutOfRange(component) = error else { panic!("{text}: {error}") };
    assert_eq!((component.name(), component.is_conditional()), (name, is_conditional), "{text}");
}

#[test]
fn components_out_of_range() {
    let dates = [
        ("2024-13-01", "month", false),
        ("2024-00-01", "month", false),
        ("+1000000-13-01", "month", false),
        ("+1000000-12-01", "year", false),
        ("-999999999-001", "year", false),
        ("+1000000-W01-1", "year", false),
        ("2023-02-29", "day", true),
        ("2024-01-00", "day", true),
        ("2023-366", "ordinal", true),
        ("2024-000", "ordinal", true),
        ("2021-W53-1", "week", true),
        ("2021-W00-1", "week", true),
        ("+999999-W52-6", "weekday", true),
    ];
    for (text, name, is_conditional) in dates {
        is_out_of_range(text, text.parse::<Date>(), name, is_conditional);
    }
    for text in ["J366963560", "J-363521075", "J999999999"] {
        is_out_of_range(text, julian_day::parse(text.as_bytes()), "julian_day", false);
    }
    // The leap seconds of the examples of the standard come first.
    let moments = [
        ("1990-12-31T23:59:60Z", "second", false),
        ("1990-12-31T15:59:60-08:00", "second", false),
        ("2024-00-99T99:99:99Z", "month", false),
        ("2024-13-01T00:00:00Z", "month", false),
        ("2023-02-29T24:00:00Z", "day", true),
        ("2024-02-29T24:60:60Z", "hour", false),
        ("2024-02-29T23:60:60+24:00", "minute", false),
        ("2024-02-29T23:59:59+24:60", "offset hour", false),
        ("2024-02-29T23:59:59-24:00", "offset hour", false),
        ("2024-02-29T23:59:59-23:60", "offset minute", false),
    ];
    for (text, name, is_conditional) in moments {
        is_out_of_range(text, rfc3339::parse(text.as_bytes()), name, is_conditional);
    }
    for text in ["@31494784780800", "@-31619087596800.000000001", "@999999999999999999"] {
        is_out_of_range(text, unix::parse(text.as_bytes()), "timestamp", false);
    }
}

#[test]
fn texts_of_no_form() {
    let dates = [
        ("", UnexpectedEnd(0)),
        ("x024-02-29", UnexpectedByte(0)),
        ("202-02-29", UnexpectedByte(3)),
        ("2024x", UnexpectedByte(4)),
        ("2024", UnexpectedEnd(4)),
        ("20240229", UnexpectedByte(4)),
        ("12345-01-01", UnexpectedByte(4)),
        ("+2024-01-01", UnexpectedByte(5)),
        ("+02024-01-01", UnexpectedByte(1)),
        ("-0000-01-01", UnexpectedByte(4)),
        ("-02024-01-01", UnexpectedByte(5)),
        ("-12345678901-001", UnexpectedByte(10)),
        ("2024-", UnexpectedEnd(5)),
        ("2024-60", UnexpectedEnd(7)),
        ("2024-0229", UnexpectedByte(8)),
        ("2024-02-2", UnexpectedEnd(9)),
        ("2024-02-29 ", UnexpectedByte(10)),
        ("2024-02-29T", UnexpectedByte(10)),
        ("2024-060-", UnexpectedByte(8)),
        ("2024-w09-4", UnexpectedByte(5)),
        ("2024-W09-0", UnexpectedByte(9)),
        ("2024-W09-8", UnexpectedByte(9)),
        ("2024-W09-41", UnexpectedByte(10)),
        ("2024-02-2\u{661}", UnexpectedByte(9)),
    ];
    for (text, error) in dates {
        assert_eq!(text.parse::<Date>(), Err(error), "{text}");
    }
    assert_eq!("2024x".parse::<Date>().unwrap_err().to_string(), "unexpected byte at 4");
    for (text, error) in [
        ("", UnexpectedEnd(0)),
        ("2460370", UnexpectedByte(0)),
        ("j2460370", UnexpectedByte(0)),
        ("J", UnexpectedEnd(1)),
        ("J-", UnexpectedEnd(2)),
        ("J+1", UnexpectedByte(1)),
        ("J-0", UnexpectedByte(2)),
        ("J02", UnexpectedByte(2)),
    ] {
        assert_eq!(julian_day::parse(text.as_bytes()), Err(error), "{text}");
    }
    let moments = [
        ("", UnexpectedEnd(0)),
        ("24-02-29T00:00:00Z", UnexpectedByte(2)),
        ("-2024-02-29T00:00:00Z", UnexpectedByte(0)),
        ("2024-060T00:00:00Z", UnexpectedByte(7)),
        ("2024-02-29", UnexpectedEnd(10)),
        ("2024-02-29  00:00:00Z", UnexpectedByte(11)),
        ("2024-02-29T0:00:00Z", UnexpectedByte(12)),
        ("2024-02-29T00:00Z", UnexpectedByte(16)),
        ("2024-02-29T00:00:00", UnexpectedEnd(19)),
        ("2024-02-29T00:00:00.Z", UnexpectedByte(20)),
        ("2024-02-29T00:00:00.5", UnexpectedEnd(21)),
        ("2024-02-29T00:00:00Z ", UnexpectedByte(20)),
        ("2024-02-29T00:00:00+0100", UnexpectedByte(22)),
        ("2024-02-29T00:00:00+01:00:00", UnexpectedByte(25)),
    ];
    for (text, error) in moments {
        assert_eq!(rfc3339::parse(text.as_bytes()), Err(error), "{text}");
    }
    let unix_times = [
        ("", UnexpectedEnd(0)),
        ("1709164800", UnexpectedByte(0)),
        ("@", UnexpectedEnd(1)),
        ("@+1", UnexpectedByte(1)),
        ("@01", UnexpectedByte(2)),
        ("@-0", UnexpectedEnd(3)),
        ("@-0.0", UnexpectedEnd(5)),
        ("@1.", UnexpectedEnd(3)),
        ("@1.1234567890", UnexpectedByte(12)),
        ("@1709164800 ", UnexpectedByte(11)),
        ("@1000000000000000000", UnexpectedByte(19)),
    ];
    for (text, error) in unix_times {
        assert_eq!(unix::parse(text.as_bytes()), Err(error), "{text}");
    }
}

/// What a moment has: the calendar date, the clock, and the seconds of the offset.
type Numbers = ((i32, u8, u8), (u8, u8, u8, u32), i32);

fn moment(((year, month, day_of_month), (hour, minute, second, nanosecond), offset): Numbers) -> OffsetDateTime {
    let time = Time::from_hms_nano(hour, minute, second, nanosecond).unwrap();
    OffsetDateTime::new_in_offset(day(year, month, day_of_month), time, UtcOffset::from_whole_seconds(offset).unwrap())
}

/// All that a date-time shows. Its equality compares the instants only.
fn parts(moment: OffsetDateTime) -> (Date, Time, UtcOffset) {
    (moment.date(), moment.time(), moment.offset())
}

/// Returns the date-time of a Unix time at an offset.
fn at(duration: Duration, offset: UtcOffset) -> Option<OffsetDateTime> {
    OffsetDateTime::UNIX_EPOCH.checked_to_offset(offset)?.checked_add(duration)
}

/// The examples of the standard come first.
#[test]
fn moments_in_text() {
    let printed = [
        ("1985-04-12T23:20:50.52Z", ((1985, 4, 12), (23, 20, 50, 520_000_000), 0)),
        ("1996-12-19T16:39:57-08:00", ((1996, 12, 19), (16, 39, 57, 0), -28_800)),
        ("1937-01-01T12:00:27.87+00:20", ((1937, 1, 1), (12, 0, 27, 870_000_000), 1_200)),
        ("2024-02-29T23:59:59.25+01:00", ((2024, 2, 29), (23, 59, 59, 250_000_000), 3_600)),
        ("0000-01-01T00:00:00Z", ((0, 1, 1), (0, 0, 0, 0), 0)),
        ("9999-12-31T23:59:59.999999999-23:59", ((9999, 12, 31), (23, 59, 59, 999_999_999), -86_340)),
        ("2024-02-29T09:05:07.000000001-00:30", ((2024, 2, 29), (9, 5, 7, 1), -1_800)),
    ];
    for (text, numbers) in printed {
        let line = rfc3339::Text::new(moment(numbers)).unwrap().text();
        assert_eq!((line.as_str(), line.as_bytes()), (text, text.as_bytes()));
        assert_eq!(rfc3339::parse(text.as_bytes()).map(parts), Ok(parts(moment(numbers))), "{text}");
    }
    let parsed = [
        ("0000-01-01t00:00:00z", ((0, 1, 1), (0, 0, 0, 0), 0)),
        ("2024-02-29 00:00:00-00:00", ((2024, 2, 29), (0, 0, 0, 0), 0)),
        ("2024-02-29T00:00:00.0Z", ((2024, 2, 29), (0, 0, 0, 0), 0)),
        ("2024-02-29T00:00:00.9999999999999Z", ((2024, 2, 29), (0, 0, 0, 999_999_999), 0)),
        ("2024-02-29T00:00:00.0000000019Z", ((2024, 2, 29), (0, 0, 0, 1), 0)),
    ];
    for (text, numbers) in parsed {
        assert_eq!(rfc3339::parse(text.as_bytes()).map(parts), Ok(parts(moment(numbers))), "{text}");
    }
    let midnight = moment(((2024, 2, 29), (0, 0, 0, 0), 0));
    let text = rfc3339::Text::new(midnight).unwrap();
    assert_eq!(format!("{text:>22}|{text:_<21}|{text:2}|"), "  2024-02-29T00:00:00Z|2024-02-29T00:00:00Z_|2024-02-29T00:00:00Z|");
    for date in [day(10_000, 1, 1), day(-1, 12, 31)] {
        assert!(rfc3339::Text::new(midnight.replace_date(date)).is_none());
    }
    for seconds in [86_400, -86_400, 1, -1, 3_601, 93_599] {
        assert!(rfc3339::Text::new(midnight.replace_offset(UtcOffset::from_whole_seconds(seconds).unwrap())).is_none());
    }
}

#[test]
fn unix_times() {
    let rows = [
        (((1970, 1, 1), (0, 0, 0, 0), 0), Duration::ZERO, "@0"),
        (((2024, 2, 29), (0, 0, 0, 500_000_000), 0), Duration::new(1_709_164_800, 500_000_000), "@1709164800.5"),
        (((2024, 2, 29), (1, 0, 0, 0), 3_600), Duration::seconds(1_709_164_800), "@1709164800"),
        (((2024, 2, 28), (16, 0, 0, 0), -28_800), Duration::seconds(1_709_164_800), "@1709164800"),
        (((1969, 12, 31), (23, 59, 59, 999_999_999), 0), Duration::nanoseconds(-1), "@-0.000000001"),
        (((1969, 12, 31), (23, 59, 58, 750_000_000), 0), Duration::new(-1, -250_000_000), "@-1.25"),
        (((2038, 1, 19), (3, 14, 7, 0), 0), Duration::seconds(2_147_483_647), "@2147483647"),
        (
            ((999_999, 12, 31), (23, 59, 59, 999_999_999), 0),
            Duration::new(31_494_784_780_799, 999_999_999),
            "@31494784780799.999999999",
        ),
        (((-999_999, 1, 1), (0, 0, 0, 0), 0), Duration::seconds(-31_619_087_596_800), "@-31619087596800"),
        (((-999_999, 1, 1), (0, 0, 0, 0), 3_600), Duration::seconds(-31_619_087_600_400), "@-31619087600400"),
    ];
    for (numbers, duration, text) in rows {
        let moment = moment(numbers);
        assert_eq!(moment - OffsetDateTime::UNIX_EPOCH, duration);
        assert_eq!(at(duration, moment.offset()).map(parts), Some(parts(moment)));
        let printed = unix::Text::new(moment);
        assert_eq!((printed.to_string().as_str(), printed.text().as_str()), (text, text));
        assert_eq!(unix::parse(text.as_bytes()).ok().map(parts), at(duration, UtcOffset::UTC).map(parts));
    }
    assert_eq!(unix::parse(b"@1709164800.50"), unix::parse(b"@1709164800.5"));
    assert_eq!(format!("{:>14}", unix::Text::new(OffsetDateTime::UNIX_EPOCH + Duration::DAY)), "        @86400");
    let last = Date::MAX.with_time(Time::MAX).assume_utc() - OffsetDateTime::UNIX_EPOCH;
    assert_eq!(at(last + Duration::NANOSECOND, UtcOffset::UTC), None);
    assert_eq!(at(Duration::MAX, UtcOffset::UTC), None);
}

/// Every day of four years at each end of the range, and of two at the years 0 and 9999, in all forms.
#[test]
fn days_printed_and_parsed() {
    for first in [-363_521_074, 366_963_559 - 1_460, 1_721_060 - 730, 5_373_484 - 730] {
        for number in first..=first + 1_460 {
            let date = Date::from_julian_day(number).unwrap();
            let (year, month, day) = date.to_calendar_date();
            let (iso_year, week, weekday) = date.to_iso_week_date();
            let sign = |year: i32| if year < 0 { "-" } else { &"+"[..usize::from(year > 9_999)] };
            let years = [year, iso_year].map(|year| format!("{}{:04}", sign(year), year.unsigned_abs()));
            let calendar = format!("{}-{:02}-{day:02}", years[0], month as u8);
            let ordinal = format!("{}-{:03}", years[0], date.ordinal());
            let week = format!("{}-W{week:02}-{}", years[1], weekday.number_from_monday());
            assert_eq!((date.to_string(), CalendarText(date).to_string()), (calendar.clone(), calendar.clone()));
            assert_eq!((OrdinalText(date).to_string(), WeekText(date).to_string()), (ordinal.clone(), week.clone()));
            assert_eq!([calendar.parse(), ordinal.parse(), week.parse()], [Ok(date); 3]);
            assert_eq!(JulianText(date).to_string(), format!("J{number}"));
            assert_eq!(julian_day::parse(format!("J{number}").as_bytes()), Ok(date));
        }
    }
}

/// At each offset of whole quarters of an hour, with fractions of several lengths.
#[test]
fn moments_printed_and_parsed() {
    for quarters in -95i32..96 {
        let offset = UtcOffset::from_whole_seconds(quarters * 900).unwrap();
        for nanosecond in [0, 500_000_000, 250_000_000, 120_000_001, 1, 10, 999_999_990, 123_456_789] {
            let time = Time::from_hms_nano((quarters.unsigned_abs() % 24) as u8, 59, 7, nanosecond).unwrap();
            let date = Date::from_julian_day(2_460_370 + quarters * 300).unwrap();
            let moment = OffsetDateTime::new_in_offset(date, time, offset);
            let text = rfc3339::Text::new(moment).unwrap().to_string();
            assert_eq!(rfc3339::parse(text.as_bytes()).map(parts), Ok((date, time, offset)), "{text}");
            let at_utc = unix::parse(unix::Text::new(moment).to_string().as_bytes()).unwrap();
            assert_eq!((at_utc, at_utc.offset()), (moment, UtcOffset::UTC));
        }
    }
}

/// Times and offsets: their printed texts, and other texts that parse as the same value.
#[test]
fn times_and_offsets_in_text() {
    let times = [
        ("0:00:00.0", (0, 0, 0, 0), ["00:00:00", "0:00"]),
        ("9:05:00.12", (9, 5, 0, 120_000_000), ["09:05:00.12", "9:05:00.120000000"]),
        ("23:59:59.999999999", (23, 59, 59, 999_999_999), ["23:59:59.999999999"; 2]),
        ("1:02:03.000000004", (1, 2, 3, 4), ["01:02:03.000000004"; 2]),
    ];
    for (text, (hour, minute, second, nanosecond), others) in times {
        let time = Time::from_hms_nano(hour, minute, second, nanosecond).unwrap();
        assert_eq!((time.to_string().as_str(), text.parse()), (text, Ok(time)));
        assert_eq!(others.map(|other| other.parse()), [Ok(time); 2], "{text}");
    }
    let offsets = [
        ("+00:00:00", 0, ["Z", "-00:00"]),
        ("-05:30:00", -19_800, ["-05:30"; 2]),
        ("+25:59:59", 93_599, ["+25:59:59"; 2]),
        ("-00:00:01", -1, ["-00:00:01"; 2]),
    ];
    for (text, seconds, others) in offsets {
        let offset = UtcOffset::from_whole_seconds(seconds).unwrap();
        assert_eq!((offset.to_string().as_str(), text.parse()), (text, Ok(offset)));
        assert_eq!(others.map(|other| other.parse()), [Ok(offset); 2], "{text}");
    }
    let no_times = [
        ("", UnexpectedEnd(0)),
        ("123:00:00", UnexpectedByte(2)),
        ("9:5:00", UnexpectedByte(3)),
        ("9:0", UnexpectedEnd(3)),
        ("9:05:0", UnexpectedEnd(6)),
        ("9:05:00.", UnexpectedEnd(8)),
        ("9:05:00.1234567890", UnexpectedByte(17)),
        ("9:05:00Z", UnexpectedByte(7)),
        ("-9:05:00", UnexpectedByte(0)),
        (" 9:05:00", UnexpectedByte(0)),
    ];
    for (text, error) in no_times {
        assert_eq!(text.parse::<Time>(), Err(error), "{text}");
    }
    let no_offsets = [
        ("", UnexpectedEnd(0)),
        ("05:30", UnexpectedByte(0)),
        ("+5:30", UnexpectedByte(2)),
        ("+0530", UnexpectedByte(3)),
        ("+05", UnexpectedEnd(3)),
        ("+05:3", UnexpectedEnd(5)),
        ("+05:30:", UnexpectedEnd(7)),
        ("Z ", UnexpectedByte(1)),
        ("+05:30:000", UnexpectedByte(9)),
    ];
    for (text, error) in no_offsets {
        assert_eq!(text.parse::<UtcOffset>(), Err(error), "{text}");
    }
    for (text, name) in [("24:60:60", "hour"), ("23:60:60", "minute"), ("23:59:60", "second")] {
        assert_eq!(text.parse::<Time>().unwrap_err().to_string(), format!("{name} was not in range"));
    }
    for (text, name) in
        [("+26:60:60", "offset hour"), ("-25:60:60", "offset minute"), ("+25:59:60", "offset second"), ("+99:00", "offset hour")]
    {
        assert_eq!(text.parse::<UtcOffset>().unwrap_err().to_string(), format!("{name} was not in range"));
    }
}

/// Texts of each form, and the form that is found.
#[test]
fn any_form() {
    let date = day(2024, 2, 29);
    let dates = [
        ("2024-02-29", DateForm::Calendar, date),
        ("2024-060", DateForm::Ordinal, date),
        ("2024-W09-4", DateForm::Week, date),
        ("J2460370", DateForm::JulianDay, date),
        ("+10000-01-01", DateForm::Calendar, day(10_000, 1, 1)),
        ("+10000-001", DateForm::Ordinal, day(10_000, 1, 1)),
        ("+10000-W01-1", DateForm::Week, day(10_000, 1, 3)),
        ("-0001-W52-6", DateForm::Week, day(0, 1, 1)),
    ];
    for (text, form, date) in dates {
        assert_eq!(parse_any(text.as_bytes()), Ok(DateOrMoment::Date(form, date)), "{text}");
    }
    let late = rfc3339::parse(b"2024-02-29T23:59:59.25+01:00").unwrap();
    let moments = [
        ("2024-02-29T23:59:59.25+01:00", MomentForm::Rfc3339, late),
        ("2024-02-29 23:59:59.25+01:00", MomentForm::Rfc3339, late),
        ("@1709247599.25", MomentForm::Unix, late.to_utc()),
    ];
    for (text, form, moment) in moments {
        let Ok(DateOrMoment::Moment(found, parsed)) = parse_any(text.as_bytes()) else { panic!("{text}") };
        assert_eq!((found, parts(parsed)), (form, parts(moment)), "{text}");
    }
    for (text, error) in [
        ("", UnexpectedEnd(0)),
        ("x", UnexpectedByte(0)),
        ("2024-02-2", UnexpectedEnd(9)),
        ("2024-02-29T", UnexpectedEnd(11)),
        ("J", UnexpectedEnd(1)),
        ("@", UnexpectedEnd(1)),
        ("2024-02-29x", UnexpectedByte(10)),
    ] {
        assert_eq!(parse_any(text.as_bytes()), Err(error), "{text}");
    }
    for (text, name) in
        [("2023-02-29", "day"), ("2024-13-01T00:00:00Z", "month"), ("J999999999", "julian_day"), ("@99999999999999", "timestamp")]
    {
        assert_eq!(parse_any(text.as_bytes()).unwrap_err().to_string(), format!("{name} was not in range"));
    }
}
