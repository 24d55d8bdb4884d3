//! Time zones: rows of GNU date, the policies, and errors.

use fotsevindre::columns::{
    RowError, row_error, zone_instants, zone_offsets, zoned_add_days, zoned_add_months, zoned_starts_of_day,
};
use fotsevindre::{Local, OffsetDateTime, Period, PlainDateTime, Policy, Zone, ZonedDateTime};
use std::panic::catch_unwind;

const CET: &str = "CET-1CEST,M3.5.0,M10.5.0/3";

fn reading(text: &str) -> PlainDateTime {
    text.parse().unwrap()
}

fn at(instant: i64) -> OffsetDateTime {
    OffsetDateTime::from_unix_timestamp(instant).unwrap()
}

#[test]
fn instants() {
    let berlin = Zone::parse_posix(CET).unwrap();
    for (instant, offset, is_daylight, abbreviation) in [(1711846799, 3600, false, "CET"), (1711846800, 7200, true, "CEST")] {
        let kind = berlin.kind_at(instant);
        assert_eq!(
            (kind.offset, kind.is_daylight, kind.abbreviation(CET.as_bytes())),
            (offset, is_daylight, abbreviation.as_bytes())
        );
        assert_eq!((berlin.utc_offset_at(instant).whole_seconds(), berlin.abbreviation_at(instant)), (offset, abbreviation));
    }
    assert_eq!(berlin.next_change(1700000000).map(|change| change.at), Some(1711846800));
    assert_eq!(berlin.previous_change(1711846800).map(|change| change.at), Some(1711846800));
    assert_eq!(Zone::parse_posix("<-03>3").unwrap().next_change(0), None);
    assert_eq!(at(1711846800).in_zone(&berlin).unwrap().to_string(), "2024-03-31 3:00:00.0 +02:00:00");
}

#[test]
fn readings() {
    let berlin = Zone::parse_posix(CET).unwrap();
    let gap = berlin.resolve(reading("2024-03-31 2:30:00"));
    assert!(
        matches!(gap, Local::Gap(gap) if gap.offset_before().whole_seconds() == 3600 && gap.offset_after().whole_seconds() == 7200)
    );
    assert_eq!(
        (gap.compatible(), gap.earlier(), gap.later(), gap.reject()),
        (Some(at(1711848600)), Some(at(1711845000)), Some(at(1711848600)), None)
    );
    let fold = berlin.resolve(reading("2024-10-27 2:30:00"));
    assert_eq!(fold, Local::Fold { earlier: at(1729989000), later: at(1729992600) });
    assert_eq!(
        (fold.compatible(), fold.earlier(), fold.later(), fold.reject()),
        (Some(at(1729989000)), Some(at(1729989000)), Some(at(1729992600)), None)
    );
    let once = berlin.resolve(reading("2024-07-01 2:30:00"));
    assert_eq!((once, once.reject()), (Local::Single(at(1719793800)), Some(at(1719793800))));
}

#[test]
fn columns() {
    let berlin = Zone::parse_posix(CET).unwrap();
    let (mut offsets, mut statuses) = ([0; 2], [9; 2]);
    assert_eq!(zone_offsets(&berlin, &[1711846799, 1711846800], &mut offsets, &mut statuses), 0);
    assert_eq!((offsets, statuses), ([3600, 7200], [0, 0]));
    let (mut seconds, mut statuses) = ([0; 3], [9; 3]);
    for (policy, wanted, errors) in [
        (Policy::Compatible, [1711848600, 1729989000, 1699996400], 0),
        (Policy::Earlier, [1711845000, 1729989000, 1699996400], 0),
        (Policy::Later, [1711848600, 1729992600, 1699996400], 0),
        (Policy::Reject, [i64::MIN, i64::MIN, 1699996400], 2),
    ] {
        assert_eq!(zone_instants(&berlin, &[1711852200, 1729996200, 1700000000], policy, &mut seconds, &mut statuses), errors);
        assert_eq!(seconds, wanted);
    }
    assert_eq!(statuses.map(row_error), [Some(RowError::SkippedTime), Some(RowError::RepeatedTime), None]);
    assert_eq!(zone_instants(&berlin, &[i64::MIN, i64::MAX, 0], Policy::Later, &mut seconds, &mut statuses), 2);
    assert_eq!((seconds, row_error(statuses[0])), ([i64::MIN, i64::MIN, -3600], Some(RowError::ResultOutOfRange)));
    assert!(catch_unwind(|| zone_offsets(&berlin, &[0], &mut [0; 2], &mut [0])).is_err());
    assert!(catch_unwind(|| zone_offsets(&berlin, &[0], &mut [0], &mut [0; 2])).is_err());
    assert!(catch_unwind(|| zone_instants(&berlin, &[0], Policy::Later, &mut [0; 2], &mut [0])).is_err());
    assert!(catch_unwind(|| zone_instants(&berlin, &[0], Policy::Later, &mut [0], &mut [0; 2])).is_err());
}

/// Each row is the result for one value, in order and in steps across changes.
#[test]
fn rows_of_columns() {
    let berlin = Zone::parse_posix(CET).unwrap();
    let first = 1_700_000_000;
    let rows: Vec<i64> = (0..9000).map(|row| first + row * 1777 + row % 5 * 31_556_952).collect();
    let (mut offsets, mut seconds, mut statuses) = (vec![0; rows.len()], vec![0; rows.len()], vec![9; rows.len()]);
    assert_eq!(zone_offsets(&berlin, &rows, &mut offsets, &mut statuses), 0);
    assert!(rows.iter().zip(&offsets).all(|(second, offset)| berlin.offset_at(*second) == *offset));
    for policy in [Policy::Compatible, Policy::Earlier, Policy::Later, Policy::Reject] {
        zone_instants(&berlin, &rows, policy, &mut seconds, &mut statuses);
        for (row, instant) in rows.iter().zip(&seconds) {
            let moment = berlin.resolve(at(*row).local()).by(policy);
            assert_eq!(moment.map_or(i64::MIN, |moment| moment.unix_timestamp()), *instant, "{row} {policy:?}");
        }
    }
    assert!(offsets.contains(&3600) && offsets.contains(&7200) && statuses.contains(&0) && !statuses.iter().all(|one| *one == 0));
}

#[test]
fn errors() {
    for (text, position, shown) in [
        ("", 0, "invalid abbreviation at 0"),
        ("CET", 3, "invalid POSIX offset at 3"),
        ("CET-1CEST,J60,J300", 10, "invalid day of a rule at 10"),
        ("CET-1CEST,M3.5.0,M10.5.0/3x", 26, "trailing bytes at 26"),
    ] {
        let error = Zone::parse_posix(text).unwrap_err();
        assert_eq!((error.position, error.to_string().as_str()), (position, shown));
    }
    assert_eq!(Zone::parse(b"TZif").unwrap_err().reason(), "unexpected end");
}

/// Each row of a column is the result of the methods.
#[test]
fn columns_of_moves() {
    let berlin = Zone::parse_posix("CET-1CEST,M3.5.0,M10.5.0/3").unwrap();
    let rows: Vec<i64> = (0..4000).map(|row| 1_711_846_800 - 200_000 + 37 * 60 * row).chain([i64::MIN, i64::MAX]).collect();
    let steps: Vec<i32> = (0..).map(|row| row % 50 - 25).take(rows.len()).collect();
    let days: Vec<i64> = steps.iter().map(|&step| step.into()).collect();
    let (mut moved, mut statuses) = (vec![0; rows.len()], vec![0; rows.len()]);
    let at = |seconds: i64| ZonedDateTime::from_unix_timestamp_nanos(i128::from(seconds) * 1_000_000_000, &berlin);
    let seconds_of = |moment: ZonedDateTime<'_>| i64::try_from(moment.unix_timestamp_nanos() / 1_000_000_000).unwrap();
    for policy in [Policy::Compatible, Policy::Earlier, Policy::Later, Policy::Reject] {
        for period in [Period::from_days as fn(i32) -> Period, Period::from_months] {
            let errors = if period(1) == Period::from_days(1) {
                zoned_add_days(&berlin, &rows, &days, policy, &mut moved, &mut statuses)
            } else {
                zoned_add_months(&berlin, &rows, &steps, policy, &mut moved, &mut statuses)
            };
            let singles =
                rows.iter().zip(&steps).map(|(&row, &step)| at(row)?.checked_add_period(period(step), policy).ok().map(seconds_of));
            let singles: Vec<Option<i64>> = singles.collect();
            assert_eq!(errors, singles.iter().filter(|single| single.is_none()).count());
            let found = moved.iter().zip(&statuses).map(|(&moved, &status)| (status == 0).then_some(moved));
            assert_eq!(found.collect::<Vec<_>>(), singles);
        }
    }
    assert_eq!(zoned_add_days(&berlin, &[0; 3], &[i64::MIN, 1 << 32, i64::MAX], Policy::Later, &mut [0; 3], &mut [0; 3]), 3);
    assert_eq!(zoned_starts_of_day(&berlin, &rows, &mut moved, &mut statuses), 2);
    for (&row, &start) in rows.iter().zip(&moved).take(4000) {
        assert_eq!(at(row).unwrap().start_of_day().map(seconds_of), Some(start));
    }
    assert!(catch_unwind(|| zoned_add_days(&berlin, &[0], &[0; 2], Policy::Later, &mut [0], &mut [0])).is_err());
    assert!(catch_unwind(|| zoned_starts_of_day(&berlin, &[0], &mut [0], &mut [0; 2])).is_err());
}
