//! Events of calendar files, in the shapes that Google, Outlook and Apple export. Times are counted by
//! hand.

use fotsevindre::calendar::{Events, ParseEventError, ParseEventErrorKind};
use fotsevindre::recurrence::{DateOrTime, ParseSetError, ParseSetErrorKind, SetLine, unfold};
use fotsevindre::{Date, Month, PlainDateTime, Time};

const FILE: &str = "BEGIN:VCALENDAR\r\nBEGIN:VTIMEZONE\r\nTZID:Europe/Berlin\r\nBEGIN:STANDARD\r\n\
    DTSTART:19701025T030000\r\nRRULE:FREQ=YEARLY;BYMONTH=10;BYDAY=-1SU\r\nEND:STANDARD\r\nEND:VTIMEZONE\r\n\
    BEGIN:VEVENT\r\nUID:one\r\nDTSTART;TZID=\"Europe/Berlin\":20240101T090000\r\nRRULE:FREQ=DAILY;CO\r\n UNT=3\r\n\
    EXDATE;TZID=Europe/Berlin:20240102T090000\r\nATTENDEE;CN=\"a:b;c\":mailto:x\r\nSUMMARY;LANGUAGE=en:Team\r\n\
    BEGIN:VALARM\r\nSUMMARY:Alarm\r\nDTSTART:1\r\nEND:VALARM\r\nLOCATION:Here\r\nEND:VEVENT\r\n\
    BEGIN:VTODO\r\nDTSTART:20240101\r\nEND:VTODO\r\nbegin:vevent\r\ndtstart;value=date:20240131\r\n\
    rrule:freq=monthly;bymonthday=-1;count=2\r\nend:vevent\r\nEND:VCALENDAR";

/// Returns the text without its folds.
fn unfolded(text: &str) -> Vec<u8> {
    let mut bytes = vec![0; text.len()];
    let length = unfold(text.as_bytes(), &mut bytes).unwrap();
    bytes.truncate(length);
    bytes
}

fn day(month: Month, day: u8) -> Date {
    Date::from_calendar_date(2024, month, day).unwrap()
}

#[test]
fn sets() {
    for text in [FILE.to_string(), FILE.replace("\r\n", "\n"), format!("{FILE}\r\n")] {
        let text = unfolded(&text);
        let events: Vec<_> = Events::new(&text).map(Result::unwrap).collect();
        assert_eq!(events.len(), 2);
        let parts = events[0].set().unwrap();
        assert_eq!(parts.zone.as_ref().map(|zone| zone.as_bytes()), Some(&b"Europe/Berlin"[..]));
        let its = parts.readings().unwrap();
        let nine = Time::from_hms(9, 0, 0).unwrap();
        let found: Vec<PlainDateTime> = its.set().readings().collect();
        assert_eq!(found, [1, 3].map(|of_month| PlainDateTime::new(day(Month::January, of_month), nine)));
        let parts = events[1].set().unwrap();
        assert_eq!(parts.start, DateOrTime::Date(day(Month::January, 31)));
        let days: Vec<Date> = parts.days().unwrap().set().days().collect();
        assert_eq!(days, [day(Month::January, 31), day(Month::February, 29)]);
    }
}

#[test]
fn values() {
    let text = unfolded(FILE);
    let event = Events::new(&text).next().unwrap().unwrap();
    let rows: [(&[u8], Option<&[u8]>); 5] = [
        (b"uid", Some(b"one")),
        (b"SUMMARY", Some(b"Team")),
        (b"LOCATION", Some(b"Here")),
        (b"ATTENDEE", Some(b"mailto:x")),
        (b"DESCRIPTION", None),
    ];
    for (name, value) in rows {
        assert_eq!(event.value(name), value);
    }
    assert!(text[event.position..].starts_with(event.lines) && event.lines.starts_with(b"UID:one"));
    assert!(event.rest.unwrap().starts_with(b"BEGIN:VTODO"));
}

#[test]
fn errors() {
    let rows = [
        ("X:1\nBEGIN:VEVENT\nUID:1\n", 4, ParseEventErrorKind::Unclosed, "VEVENT without END at 4"),
        ("BEGIN:VEVENT", 0, ParseEventErrorKind::Unclosed, "VEVENT without END at 0"),
        ("BEGIN:VEVENT\nEND:VCALENDAR\n", 13, ParseEventErrorKind::OtherEnd, "other end of VEVENT at 13"),
        (
            "BEGIN:VEVENT\nEND:VEVENT\nBEGIN:VEVENT\nBEGIN:VALARM\nEND:VEVENT\nEND:VCALENDAR\n",
            61,
            ParseEventErrorKind::OtherEnd,
            "other end of VEVENT at 61",
        ),
    ];
    for (text, position, reason, words) in rows {
        let error = Events::new(text.as_bytes()).find_map(Result::err).unwrap();
        assert_eq!(error, ParseEventError { position, reason });
        assert_eq!(error.to_string(), words);
    }
    let event = Events::new(b"BEGIN:VEVENT\nUID:1\nRDATE:x\nEND:VEVENT").next().unwrap().unwrap();
    let reason = ParseSetErrorKind::Value(SetLine::Dates);
    assert_eq!(event.set().unwrap_err(), ParseSetError { position: 6, reason });
    let event = Events::new(b"BEGIN:VEVENT\nEND:VEVENT").next().unwrap().unwrap();
    assert_eq!(event.set().unwrap_err().to_string(), "missing DTSTART at 0");
    assert_eq!((event.lines, event.rest), (&b""[..], None));
}
