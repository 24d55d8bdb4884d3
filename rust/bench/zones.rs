//! The offset at an instant and the instants of a local time, over random instants of Europe/Berlin.

use super::{compare, over, Draw, DRAWN};
use fotsevindre::{OffsetDateTime, Zone};

const FILE: &str = "/usr/share/zoneinfo/Europe/Berlin";

/// Some years, and the Unix times at their ends.
const PERIODS: [(&str, i64, i64); 3] = [
    ("1980 to 2036", 315_532_800, 2_114_380_800),
    ("1900 to 2037", -2_208_988_800, 2_145_916_800),
    ("2040 to 2400", 2_208_988_800, 13_601_088_000),
];

/// Times the calls, if the machine has the file of the zone.
pub fn compare_zones() {
    let Ok(bytes) = std::fs::read(FILE) else {
        eprintln!("no {FILE}");
        return;
    };
    let zone = Zone::parse(&bytes).unwrap();
    for (name, first, last) in PERIODS {
        compare_period(&zone, name, first, last);
    }
}

fn compare_period(zone: &Zone, name: &str, first: i64, last: i64) {
    let mut draw = Draw(0x9e37_79b9_7f4a_7c15);
    let instants: Vec<_> = (0..DRAWN).map(|_| first + draw.below((last - first) as u64) as i64).collect();
    let readings: Vec<_> = instants.iter().map(|instant| OffsetDateTime::from_unix_timestamp(*instant).unwrap().local()).collect();
    #[cfg(has_chrono_tz)]
    use chrono::{Offset, TimeZone};
    #[cfg(has_chrono_tz)]
    let chronos: Vec<_> = instants.iter().map(|instant| chrono::NaiveDateTime::from_timestamp_opt(*instant, 0).unwrap()).collect();
    #[allow(unused_mut)]
    let mut offsets = vec![("here", over(&instants, |instant| zone.utc_offset_at(*instant)))];
    #[allow(unused_mut)]
    let mut resolved = vec![("here", over(&readings, |reading| zone.resolve(*reading)))];
    #[cfg(has_chrono_tz)]
    {
        let offset_of = |instant: &chrono::NaiveDateTime| chrono_tz::Europe::Berlin.offset_from_utc_datetime(instant);
        let agree = |(instant, other): (&i64, &chrono::NaiveDateTime)| {
            zone.utc_offset_at(*instant).whole_seconds() == offset_of(other).fix().local_minus_utc()
        };
        if instants.iter().zip(&chronos).all(agree) {
            offsets.push(("chrono-tz", over(&chronos, offset_of)));
            resolved.push(("chrono-tz", over(&chronos, |reading| chrono_tz::Europe::Berlin.offset_from_local_datetime(reading))));
        } else {
            eprintln!("other offsets by chrono-tz: {name}");
        }
    }
    compare("zones", &format!("utc_offset_at, {name}"), offsets);
    compare("zones", &format!("resolve, {name}"), resolved);
}
