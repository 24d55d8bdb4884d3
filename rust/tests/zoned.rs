//! Date-times in a zone: rows of the documentation of Temporal and of Python's `zoneinfo`.

use fotsevindre::error::{LocalTimeError, PeriodError};
use fotsevindre::schedule::DateTimeSteps;
use fotsevindre::zone::{ZonedSteps, start_of_day};
use fotsevindre::{
    CalendarUnit, Date, Month, OffsetDateTime, Period, PlainDateTime, Policy, SignedDuration, Time, UtcOffset, Weekday, Workdays,
    Zone, ZonedDateTime,
};

const CET: &str = "CET-1CEST,M3.5.0,M10.5.0/3";
const POLICIES: [Policy; 4] = [Policy::Compatible, Policy::Earlier, Policy::Later, Policy::Reject];

fn reading(text: &str) -> PlainDateTime {
    text.parse().unwrap()
}

fn period(years: i32, months: i32, weeks: i32, days: i32, hours: i64) -> Period {
    Period::new(years, months, weeks, days, SignedDuration::hours(hours)).unwrap()
}

fn shown(value: Result<ZonedDateTime<'_>, LocalTimeError>) -> Result<String, LocalTimeError> {
    value.map(|value| value.to_offset_date_time().to_string())
}

#[test]
fn local_date_times_by_policy() {
    let berlin = Zone::parse_posix(CET).unwrap();
    use LocalTimeError::{Repeated, Skipped};
    for (text, wanted) in [
        (
            "2024-03-31 2:30:00",
            [
                Ok("2024-03-31 3:30:00.0 +02:00:00"),
                Ok("2024-03-31 1:30:00.0 +01:00:00"),
                Ok("2024-03-31 3:30:00.0 +02:00:00"),
                Err(Skipped),
            ],
        ),
        (
            "2024-10-27 2:30:00",
            [
                Ok("2024-10-27 2:30:00.0 +02:00:00"),
                Ok("2024-10-27 2:30:00.0 +02:00:00"),
                Ok("2024-10-27 2:30:00.0 +01:00:00"),
                Err(Repeated),
            ],
        ),
    ] {
        for (policy, wanted) in POLICIES.into_iter().zip(wanted) {
            let found = ZonedDateTime::from_local(reading(text), &berlin, policy);
            assert_eq!(shown(found), wanted.map(String::from), "{text} by {policy:?}");
        }
    }
}

#[test]
fn moves_to_a_date() {
    let berlin = Zone::parse_posix(CET).unwrap();
    let workdays = Workdays::new([true, true, true, true, true, false, false], &[]).unwrap();
    let moment = ZonedDateTime::from_local(reading("2024-03-29 2:30:00"), &berlin, Policy::Compatible).unwrap();
    let friday = moment.date();
    for (date, wanted) in [
        (friday.next_occurrence(Weekday::Monday), "2024-04-01 2:30:00.0 +02:00:00"),
        (friday.prev_occurrence(Weekday::Friday), "2024-03-22 2:30:00.0 +01:00:00"),
        (workdays.checked_add_workdays(friday, 2).unwrap(), "2024-04-02 2:30:00.0 +02:00:00"),
        // The clocks skip 2:30.
        (friday.next_occurrence(Weekday::Sunday), "2024-03-31 3:30:00.0 +02:00:00"),
    ] {
        assert_eq!(shown(moment.moved_to(date, Policy::Compatible)).as_deref(), Ok(wanted), "{date}");
    }
    // Its own date resolves nothing, also in the second half of a fold.
    let later = ZonedDateTime::from_local(reading("2024-10-27 2:30:00"), &berlin, Policy::Later).unwrap();
    assert_eq!(shown(later.moved_to(later.date(), Policy::Reject)).as_deref(), Ok("2024-10-27 2:30:00.0 +01:00:00"));
    let before = ZonedDateTime::from_local(reading("2024-10-28 2:30:00"), &berlin, Policy::Later).unwrap();
    assert_eq!(shown(before.moved_to(later.date(), Policy::Compatible)).as_deref(), Ok("2024-10-27 2:30:00.0 +02:00:00"));
}

/// A quarter has three months, and ISO weeks begin on Monday; the offsets are those of `zoneinfo`.
#[test]
fn starts_and_ends_of_units() {
    let berlin = Zone::parse_posix(CET).unwrap();
    let moment = ZonedDateTime::from_local(reading("2024-03-31 12:00:00"), &berlin, Policy::Compatible).unwrap();
    let text = |value: Option<ZonedDateTime<'_>>| value.unwrap().to_string();
    for (unit, start, end) in [
        (CalendarUnit::Day, "2024-03-31 0:00:00.0 +01:00:00", "2024-03-31 23:59:59.999999999 +02:00:00"),
        (CalendarUnit::Week, "2024-03-25 0:00:00.0 +01:00:00", "2024-03-31 23:59:59.999999999 +02:00:00"),
        (CalendarUnit::Month, "2024-03-01 0:00:00.0 +01:00:00", "2024-03-31 23:59:59.999999999 +02:00:00"),
        (CalendarUnit::Quarter, "2024-01-01 0:00:00.0 +01:00:00", "2024-03-31 23:59:59.999999999 +02:00:00"),
        (CalendarUnit::Year, "2024-01-01 0:00:00.0 +01:00:00", "2024-12-31 23:59:59.999999999 +01:00:00"),
    ] {
        assert_eq!((text(moment.start_of(unit)), text(moment.end_of(unit))), (start.into(), end.into()), "{unit:?}");
    }
    let last = ZonedDateTime::from_local(PlainDateTime::new(Date::MAX, Time::MIDNIGHT), &berlin, Policy::Compatible).unwrap();
    assert_eq!(last.end_of(CalendarUnit::Day), None);
}

/// The hours of `java.time.LocalDateTime.until` of Java 17; 29 February is a month after 31 January.
#[test]
fn periods_between_local_date_times() {
    for (from, to, unit, wanted) in [
        ("2024-01-31 12:00:00", "2024-03-01 11:00:00", CalendarUnit::Month, period(0, 1, 0, 0, 23)),
        ("2024-01-31 12:00:00", "2024-03-01 11:00:00", CalendarUnit::Day, period(0, 0, 0, 29, 23)),
        ("2024-01-31 12:00:00", "2024-03-01 11:00:00", CalendarUnit::Week, period(0, 0, 4, 1, 23)),
        ("2024-03-01 11:00:00", "2024-01-31 12:00:00", CalendarUnit::Year, period(0, -1, 0, 0, -23)),
        ("2024-03-01 11:00:00", "2024-03-01 12:00:00", CalendarUnit::Year, period(0, 0, 0, 0, 1)),
        ("2023-03-01 11:00:00", "2024-03-01 11:00:00", CalendarUnit::Year, period(1, 0, 0, 0, 0)),
    ] {
        let (from, to) = (reading(from), reading(to));
        let found = from.period_until(to, unit);
        assert_eq!(from.checked_add_period(found), Some(to), "{from} to {to}");
        assert_eq!(found, wanted, "{from} to {to} by {unit:?}");
    }
}

/// `until` of Temporal, for `PlainDate` and `PlainDateTime`. The rows were written from memory of its
/// documentation, and not compared with a run.
#[test]
fn periods_of_the_documentation() {
    let (from, to) = (reading("1995-12-07 3:24:30.0000035"), reading("2019-01-31 15:30:00"));
    let rest = SignedDuration::seconds(12 * 3600 + 5 * 60 + 29) + SignedDuration::nanoseconds(999_996_500);
    for (unit, years, months, days) in [(CalendarUnit::Day, 0, 0, 8456), (CalendarUnit::Year, 23, 1, 24)] {
        assert_eq!(Some(from.period_until(to, unit)), Period::new(years, months, 0, days, rest));
    }
    assert_eq!(Some(to.period_until(from, CalendarUnit::Year)), Period::new(-23, -1, 0, -24, -rest));
    let date = |text: &str| text.parse::<Date>().unwrap();
    for (unit, wanted) in [(CalendarUnit::Day, period(0, 0, 0, 4543, 0)), (CalendarUnit::Year, period(12, 5, 0, 7, 0))] {
        assert_eq!(date("2006-08-24").period_until_by(date("2019-01-31"), unit), wanted);
    }
}

#[test]
fn periods_keep_the_clock() {
    let berlin = Zone::parse_posix(CET).unwrap();
    for (start, added, wanted) in [
        ("2024-03-15 12:00:00", period(0, 1, 0, 0, 0), "2024-04-15 12:00:00.0 +02:00:00"),
        ("2024-03-30 12:00:00", period(0, 0, 0, 1, 0), "2024-03-31 12:00:00.0 +02:00:00"),
        ("2024-03-30 12:00:00", period(0, 0, 0, 0, 24), "2024-03-31 13:00:00.0 +02:00:00"),
        // The months and the days move the date, and one reading is resolved.
        ("2024-01-31 2:30:00", period(0, 2, 0, 1, 0), "2024-04-01 2:30:00.0 +02:00:00"),
        ("2024-01-31 2:30:00", period(0, 1, 0, 31, 0), "2024-03-31 3:30:00.0 +02:00:00"),
        ("2024-01-31 2:30:00", period(0, 1, 0, 31, 1), "2024-03-31 4:30:00.0 +02:00:00"),
        ("2024-02-29 2:30:00", period(1, 0, 1, 0, 0), "2025-03-07 2:30:00.0 +01:00:00"),
        ("2024-03-31 12:00:00", period(0, -1, 0, -1, 0), "2024-02-28 12:00:00.0 +01:00:00"),
    ] {
        let moment = ZonedDateTime::from_local(reading(start), &berlin, Policy::Compatible).unwrap();
        assert_eq!(shown(moment.checked_add_period(added, Policy::Compatible)).as_deref(), Ok(wanted), "{start} and {added:?}");
    }
    // The second 2:30 of a fold stays the second one if nothing moves its reading.
    let later = ZonedDateTime::from_local(reading("2024-10-27 2:30:00"), &berlin, Policy::Later).unwrap();
    for same in [later.checked_add_period(period(0, 0, 0, 0, 0), Policy::Earlier), later.with_time(later.time(), Policy::Earlier)] {
        assert_eq!(shown(same).as_deref(), Ok("2024-10-27 2:30:00.0 +01:00:00"));
    }
    let next = later.checked_add_period(Period::from_weeks(52), Policy::Reject);
    assert_eq!(shown(next), Err(LocalTimeError::Repeated));
}

/// The clocks of Berlin go forward at 2:00 on 2024-03-31, and back at 3:00 on 2024-10-27. Offsets are
/// those of `zoneinfo`.
#[test]
fn periods_between_date_times_in_a_zone() {
    let berlin = Zone::parse_posix(CET).unwrap();
    let at = |text: &str| ZonedDateTime::from_local(reading(text), &berlin, Policy::Compatible).unwrap();
    use CalendarUnit::{Day, Month, Week, Year};
    for (from, to, unit, wanted) in [
        ("2024-03-30 12:00:00", "2024-03-31 12:00:00", Day, period(0, 0, 0, 1, 0)),
        ("2024-03-30 12:00:00", "2024-03-31 13:00:00", Day, period(0, 0, 0, 1, 1)),
        ("2024-03-30 12:00:00", "2024-03-31 11:00:00", Day, period(0, 0, 0, 0, 22)),
        ("2024-10-26 12:00:00", "2024-10-27 11:00:00", Day, period(0, 0, 0, 0, 24)),
        ("2024-01-31 12:00:00", "2024-04-01 11:00:00", Month, period(0, 2, 0, 0, 23)),
        ("2023-01-31 12:00:00", "2024-04-01 11:00:00", Year, period(1, 2, 0, 0, 23)),
        ("2024-03-17 12:00:00", "2024-04-01 12:00:00", Week, period(0, 0, 2, 1, 0)),
        ("2024-04-01 12:00:00", "2024-03-17 13:00:00", Week, period(0, 0, -2, 0, -23)),
        // The clocks skip 2:30, which means 3:30.
        ("2024-03-30 2:30:00", "2024-03-31 3:15:00", Day, SignedDuration::minutes(1425).into()),
        (
            "2024-03-30 2:30:00",
            "2024-03-31 3:45:00",
            Day,
            period(0, 0, 0, 1, 0).with_duration(SignedDuration::minutes(15)).unwrap(),
        ),
    ] {
        let (from, to) = (at(from), at(to));
        let found = from.period_until(&to, unit, Policy::Compatible).unwrap();
        assert_eq!(found, wanted, "{from} to {to} by {unit:?}");
        assert_eq!(from.checked_add_period(found, Policy::Compatible), Ok(to), "{from} to {to}");
    }
    // From the second half of a fold, less than a day.
    let later = ZonedDateTime::from_local(reading("2024-10-27 2:30:00"), &berlin, Policy::Later).unwrap();
    let end = at("2024-10-28 2:00:00");
    let found = later.period_until(&end, Day, Policy::Compatible).unwrap();
    assert_eq!((found, later.checked_add_period(found, Policy::Compatible)), (SignedDuration::minutes(1410).into(), Ok(end)));
    // What the clocks of the other zone show can be out of the range.
    let utc = Zone::parse_posix("UTC0").unwrap();
    let last = ZonedDateTime::from_offset_date_time(PlainDateTime::MAX.assume_utc(), &utc).unwrap();
    assert_eq!(later.period_until(&last, Day, Policy::Compatible), None);
}

/// A month after 31 January is 29 February, and two months after it 31 March.
#[test]
fn steps_of_date_times() {
    let berlin = Zone::parse_posix(CET).unwrap();
    let start = ZonedDateTime::from_local(reading("2024-01-31 2:30:00"), &berlin, Policy::Compatible).unwrap();
    let month = Period::from_months(1);
    let nth = |n, policy| shown(start.nth_period(month, n, policy));
    for (n, wanted) in [
        (-1, "2023-12-31 2:30:00.0 +01:00:00"),
        (0, "2024-01-31 2:30:00.0 +01:00:00"),
        (1, "2024-02-29 2:30:00.0 +01:00:00"),
        (2, "2024-03-31 3:30:00.0 +02:00:00"),
        (3, "2024-04-30 2:30:00.0 +02:00:00"),
    ] {
        assert_eq!(nth(n, Policy::Compatible).as_deref(), Ok(wanted), "{n}");
    }
    let steps: Vec<_> = ZonedSteps::new(start, month, Policy::Reject).take(4).map(shown).collect();
    let [first, second, third, fourth] = steps.try_into().unwrap();
    assert_eq!(first.as_deref(), Ok("2024-01-31 2:30:00.0 +01:00:00"));
    assert_eq!(second.as_deref(), Ok("2024-02-29 2:30:00.0 +01:00:00"));
    assert_eq!(third, Err(LocalTimeError::Skipped));
    assert_eq!(fourth.as_deref(), Ok("2024-04-30 2:30:00.0 +02:00:00"));
    let years = ZonedSteps::new(start, Period::from_years(500_000), Policy::Compatible);
    assert_eq!(years.map(|step| step.unwrap().date().year()).collect::<Vec<_>>(), [2024, 502_024]);
    assert_eq!(nth(2, Policy::Reject), Err(LocalTimeError::Skipped));
    assert_eq!(nth(i32::MAX, Policy::Compatible), Err(LocalTimeError::OutOfRange));
    // 12 hours are exact.
    let half = Period::from_duration(SignedDuration::hours(12));
    let change = ZonedDateTime::from_local(reading("2024-03-30 12:00:00"), &berlin, Policy::Compatible).unwrap();
    assert_eq!(shown(change.nth_period(half, 2, Policy::Compatible)).as_deref(), Ok("2024-03-31 13:00:00.0 +02:00:00"));
}

/// A month after 31 January is 29 February, and two months after it 31 March.
#[test]
fn steps_of_local_date_times() {
    let start = reading("2024-01-31 8:00:00");
    let month = Period::from_months(1);
    let steps: Vec<_> = DateTimeSteps::new(start, month).unwrap().take(3).collect();
    assert_eq!(steps, ["2024-01-31 8:00:00", "2024-02-29 8:00:00", "2024-03-31 8:00:00"].map(reading));
    assert_eq!(start.nth_period(month, 3), Some(reading("2024-04-30 8:00:00")));
    for (end, wanted) in [
        ("2024-01-31 7:59:59", None),
        ("2024-01-31 8:00:00", Some(0)),
        ("2024-02-29 7:59:59", Some(0)),
        ("2024-02-29 8:00:00", Some(1)),
        ("2025-01-31 8:00:00", Some(12)),
    ] {
        assert_eq!(start.step_of(month, reading(end)), wanted, "{end}");
    }
    let hours = Period::from_duration(SignedDuration::hours(8));
    assert_eq!(start.step_of(hours, reading("2024-02-01 8:00:00")), Some(3));
    for none in [Period::from_days(0), Period::from_days(-1)] {
        assert_eq!((start.step_of(none, start), DateTimeSteps::new(start, none).is_none()), (None, true));
    }
    // The last step in the range, and the last one with a number in an `i32`.
    let last = PlainDateTime::MAX;
    assert_eq!(last.nth_period(Period::from_duration(SignedDuration::NANOSECOND), 1), None);
    assert_eq!(PlainDateTime::MIN.step_of(Period::from_duration(SignedDuration::SECOND), last), Some(i32::MAX));
    assert_eq!(DateTimeSteps::new(last, month).unwrap().collect::<Vec<_>>(), [last]);
}

#[test]
fn days_in_zones() {
    let berlin = Zone::parse_posix(CET).unwrap();
    for (text, hours) in [("2024-03-31 12:00:00", 23), ("2024-10-27 12:00:00", 25), ("2024-10-28 12:00:00", 24)] {
        let moment = ZonedDateTime::from_local(reading(text), &berlin, Policy::Compatible).unwrap();
        assert_eq!(moment.day_length(), Some(SignedDuration::hours(hours)), "{text}");
        assert_eq!(moment.start_of_day().map(|start| start.time()), Some(Time::MIDNIGHT));
    }
    // Clocks that go from midnight to 1:00.
    let skipped = Zone::parse_posix("<-03>3<-02>,M9.1.0/0,M4.1.0/0").unwrap();
    let start = start_of_day(Date::from_calendar_date(2024, Month::September, 1).unwrap(), &skipped).unwrap();
    assert_eq!(start.to_offset_date_time().to_string(), "2024-09-01 1:00:00.0 -02:00:00");
    // Clocks that go from 23:30 to 0:30, as in Toronto in 1919, and clocks that show midnight twice.
    for (text, month, day, wanted) in [
        ("<-05>5<-04>,M3.5.0/23:30,M10.5.0", Month::April, 1, "2024-04-01 0:30:00.0 -04:00:00"),
        ("<-05>5<-04>,M3.2.0,M11.1.0/0:01", Month::November, 3, "2024-11-03 0:00:00.0 -04:00:00"),
    ] {
        let zone = Zone::parse_posix(text).unwrap();
        let start = start_of_day(Date::from_calendar_date(2024, month, day).unwrap(), &zone).unwrap();
        assert_eq!(start.to_string(), wanted, "{text}");
    }
}

#[test]
fn instants_compare_in_all_zones() {
    let berlin = Zone::parse_posix(CET).unwrap();
    let utc = Zone::parse_posix("UTC0").unwrap();
    let noon = ZonedDateTime::from_local(reading("2024-07-01 12:00:00"), &berlin, Policy::Reject).unwrap();
    let there = noon.in_zone(&utc).unwrap();
    assert_eq!((noon, there.local()), (there, reading("2024-07-01 10:00:00")));
    let hour = SignedDuration::HOUR;
    assert_eq!(noon.checked_add(hour).unwrap().duration_since(&there), hour);
    assert!(noon.checked_sub(hour).unwrap() < there);
    let last = ZonedDateTime::from_offset_date_time(PlainDateTime::MAX.assume_utc(), &utc).unwrap();
    assert_eq!((last.in_zone(&berlin), last.checked_add(SignedDuration::NANOSECOND)), (None, None));
    // The day after the last date has no start.
    assert_eq!(last.day_length(), None);
}

#[test]
fn examples_of_the_documentation() {
    let berlin = Zone::parse_posix(CET).unwrap();
    let later = ZonedDateTime::from_local(reading("2024-10-27 2:30:00"), &berlin, Policy::Later).unwrap();
    for policy in POLICIES {
        let moved = later.with_time(Time::from_hms(2, 45, 0).unwrap(), policy);
        assert_eq!(shown(moved).as_deref(), Ok("2024-10-27 2:45:00.0 +01:00:00"), "{policy:?}");
    }
    let before = ZonedDateTime::from_local(reading("2024-03-30 2:30:00"), &berlin, Policy::Reject).unwrap();
    let moved = before.with_date(Date::from_calendar_date(2024, Month::March, 31).unwrap(), Policy::Compatible).unwrap();
    assert_eq!(moved.to_string(), "2024-03-31 3:30:00.0 +02:00:00");
    let earlier = moved.checked_sub(SignedDuration::HOUR).unwrap();
    assert_eq!(earlier.to_string(), "2024-03-31 1:30:00.0 +01:00:00");
    assert_eq!(moved.duration_since(&earlier), SignedDuration::HOUR);
}

#[test]
fn periods_of_dates() {
    let january = Date::from_calendar_date(2024, Month::January, 31).unwrap();
    let month = Period::from_months(1);
    let steps = (0..4).map(|n| january.nth_period(month, n).unwrap().to_string()).collect::<Vec<_>>();
    assert_eq!(steps, ["2024-01-31", "2024-02-29", "2024-03-31", "2024-04-30"]);
    assert_eq!(january.checked_add_period(period(0, 1, 0, 1, 0)).unwrap().to_string(), "2024-03-01");
    assert_eq!(january.checked_add_period(period(0, 0, 0, 0, 1)), Err(PeriodError::HasDuration));
    assert_eq!(Date::MAX.checked_add_period(Period::from_days(1)), Err(PeriodError::OutOfRange));
    assert_eq!(Period::new(1, -1, 0, 0, SignedDuration::ZERO), None);
    let start = reading("2024-01-31 23:30:00");
    assert_eq!(start.checked_add_period(period(0, 1, 0, 0, 1)), Some(reading("2024-03-01 0:30:00")));
}

#[test]
fn parts_of_date_times() {
    let berlin = Zone::parse_posix(CET).unwrap();
    // The instant of the documentation: 2024-03-31 1:00 UTC.
    let change = ZonedDateTime::from_unix_timestamp_nanos(1_711_846_800_000_000_000, &berlin).unwrap();
    assert_eq!((change.date().to_string().as_str(), change.time()), ("2024-03-31", Time::from_hms(3, 0, 0).unwrap()));
    assert_eq!((change.offset(), change.zone()), (UtcOffset::from_hms(2, 0, 0).unwrap(), &berlin));
    assert_eq!(change.unix_timestamp_nanos(), 1_711_846_800_000_000_000);
    assert_eq!((change.to_string(), format!("{change:>30}")), ("2024-03-31 3:00:00.0 +02:00:00".into(), change.to_string()));
    assert_eq!(format!("{change:>32}"), format!("  {change}"));
    assert_eq!(OffsetDateTime::from(change), change.to_offset_date_time());
    // In the fold the offset stays. In the gap the policy decides.
    let winter = ZonedDateTime::from_local(reading("2024-12-01 2:30:00"), &berlin, Policy::Reject).unwrap();
    let autumn = Date::from_calendar_date(2024, Month::October, 27).unwrap();
    assert_eq!(shown(winter.with_date(autumn, Policy::Earlier)).unwrap(), "2024-10-27 2:30:00.0 +01:00:00");
    assert_eq!(shown(winter.with_local(reading("2024-03-31 2:30:00"), Policy::Reject)), Err(LocalTimeError::Skipped));
}

#[test]
fn parts_of_periods() {
    let parts = |period: Period| (period.years(), period.months(), period.weeks(), period.days(), period.duration());
    let (hour, zero) = (SignedDuration::HOUR, SignedDuration::ZERO);
    let all = Period::new(-1, -14, -2, -8, -hour).unwrap();
    assert_eq!(parts(all), (-1, -14, -2, -8, -hour));
    assert_eq!((all.whole_months(), all.whole_days()), (-26, -22));
    assert_eq!(parts(Period::from_years(3)), (3, 0, 0, 0, zero));
    assert_eq!(parts(Period::from_months(-3)), (0, -3, 0, 0, zero));
    assert_eq!(parts(Period::from_weeks(3)), (0, 0, 3, 0, zero));
    assert_eq!(parts(Period::from_days(-3)), (0, 0, 0, -3, zero));
    assert_eq!(parts(Period::from_duration(hour)), (0, 0, 0, 0, hour));
    assert_eq!(Period::from(hour), Period::from_duration(hour));
    // Parts are kept as they are given.
    assert_ne!(Period::from_years(1), Period::from_months(12));
}

#[test]
fn errors_print() {
    let printed = |error: &dyn std::error::Error| error.to_string();
    assert_eq!(printed(&LocalTimeError::Skipped), "the clocks skip the local time");
    assert_eq!(printed(&LocalTimeError::Repeated), "the clocks show the local time twice");
    assert_eq!(printed(&LocalTimeError::OutOfRange), "the local time is out of range");
    assert_eq!(printed(&PeriodError::HasDuration), "a period with a duration can't be added to a date");
    assert_eq!(printed(&PeriodError::OutOfRange), "the resulting date is out of range");
}
