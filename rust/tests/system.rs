//! The clock, and time zones by name.

use fotsevindre::error::NamedZoneError;
use fotsevindre::{Date, Duration, OffsetDateTime, PlainDateTime, Time, UtcOffset, Zone, ZonedDateTime};
use std::fs;
use std::process::Command;
use std::time::SystemTime;

/// A file of RFC 9636 without changes, whose footer is a POSIX string.
fn file(footer: &str) -> Vec<u8> {
    let block = |version: u8| {
        let counts = [0, 0, 0, 0, 1, 4].map(u32::to_be_bytes).concat();
        [&b"TZif"[..], &[version], &[0; 15], &counts, &3600_i32.to_be_bytes(), &[0, 0], b"CET\0"].concat()
    };
    [block(b'2'), block(b'2'), format!("\n{footer}\n").into_bytes()].concat()
}

/// The only test that reads `TZDIR`, so no other thread reads the variables.
#[test]
fn zones_by_name() {
    let folder = std::env::temp_dir().join(format!("fotsevindre-zones-{}", std::process::id()));
    fs::create_dir_all(folder.join("Europe")).unwrap();
    fs::write(folder.join("Europe/Berlin"), file("CET-1CEST,M3.5.0,M10.5.0/3")).unwrap();
    fs::write(folder.join("Broken"), b"TZif").unwrap();
    fs::write(folder.join("Long"), vec![0; 65_537]).unwrap();
    // SAFETY: this binary has one test that reads the variables.
    unsafe { std::env::set_var("TZDIR", &folder) };

    let berlin = Zone::named("Europe/Berlin").unwrap();
    assert_eq!((berlin.abbreviation_at(1711846799), berlin.abbreviation_at(1711846800)), ("CET", "CEST"));
    for name in ["", "/etc/passwd", "../Europe/Berlin", "Europe/../Long", "Europe/Berlin ", "Europe\0", "1"] {
        assert!(matches!(Zone::named(name), Err(NamedZoneError::Name)), "{name:?}");
    }
    assert!(matches!(Zone::named("Missing"), Err(NamedZoneError::File(error)) if error.kind() == std::io::ErrorKind::NotFound));
    assert!(matches!(Zone::named("Europe"), Err(NamedZoneError::NotRegular)));
    assert!(matches!(Zone::named("Long"), Err(NamedZoneError::TooLong)));
    if Command::new("mkfifo").arg(folder.join("Pipe")).status().is_ok_and(|status| status.success()) {
        assert!(matches!(Zone::named("Pipe"), Err(NamedZoneError::NotRegular)));
    }
    let broken: Box<dyn std::error::Error> = Zone::named("Broken").unwrap_err().into();
    assert_eq!(
        (broken.to_string().as_str(), broken.source().unwrap().to_string().as_str()),
        ("unexpected end at 4", "unexpected end at 4")
    );

    fs::remove_dir_all(&folder).unwrap();
    assert!(std::ptr::eq(Zone::named("Europe/Berlin").unwrap(), berlin), "the zone is kept");
}

#[test]
fn now_at_offsets_and_in_zones() {
    let zone = Zone::parse_posix("<+05>-5").unwrap();
    let offset = UtcOffset::from_hms(5, 0, 0).unwrap();
    let before = OffsetDateTime::now_utc();
    let (zoned, in_zone, at_offset) = (ZonedDateTime::now(&zone), OffsetDateTime::now(&zone), OffsetDateTime::now(&offset));
    let (plain, date, time) = (PlainDateTime::now(&zone), Date::today(&offset), Time::now(&zone));
    let after = OffsetDateTime::now_utc();
    for moment in [zoned.to_offset_date_time(), in_zone, at_offset, plain.assume_offset(offset)] {
        assert!(before <= moment && moment <= after && moment.offset() == offset, "{before} {moment} {after}");
    }
    let (first, last) = (before.to_offset(offset), after.to_offset(offset));
    assert!(first.date() <= date && date <= last.date());
    assert!(first.date() < last.date() || first.time() <= time && time <= last.time());
}

#[test]
fn clock() {
    let (before, now, after) = (SystemTime::now(), OffsetDateTime::now_utc(), SystemTime::now());
    assert!(OffsetDateTime::from(before) <= now && now <= OffsetDateTime::from(after));
    for (moment, by) in
        [(OffsetDateTime::UNIX_EPOCH, 0), (OffsetDateTime::from_unix_timestamp(1_709_164_800).unwrap(), 1_709_164_800)]
    {
        assert_eq!(SystemTime::from(moment), SystemTime::UNIX_EPOCH + std::time::Duration::from_secs(by));
    }
    let early = OffsetDateTime::UNIX_EPOCH - Duration::milliseconds(1_500);
    assert_eq!(SystemTime::from(early), SystemTime::UNIX_EPOCH - std::time::Duration::from_millis(1_500));
    assert_eq!(OffsetDateTime::from(SystemTime::from(early)), early);
}
