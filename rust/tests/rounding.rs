//! Rounding: drawn values against whole numbers, and rows of Java's `RoundingMode` and of Temporal.

use fotsevindre::error::LocalTimeError;
use fotsevindre::zone::start_of_day;
use fotsevindre::{
    Date, Duration, OffsetDateTime, PlainDateTime, Policy, RoundingMode, RoundingUnit, Time, UtcOffset, Zone, ZonedDateTime,
};

const MODES: [RoundingMode; 5] =
    [RoundingMode::Floor, RoundingMode::Ceil, RoundingMode::Trunc, RoundingMode::HalfCeil, RoundingMode::HalfEven];

const DAY: i128 = 86_400_000_000_000;

/// How many values are drawn.
const DRAWN: usize = 1_000_000;

/// Returns the number of the multiple to which a number is rounded, by the definition: the nearest
/// one that the mode allows, and of two the one that it prefers.
fn rounded_number(number: i128, unit: i128, mode: RoundingMode) -> i128 {
    let near = number / unit;
    let is_allowed = |k: &i128| match mode {
        RoundingMode::Floor => k * unit <= number,
        RoundingMode::Ceil => number <= k * unit,
        RoundingMode::Trunc => (k * unit).abs() <= number.abs(),
        RoundingMode::HalfCeil | RoundingMode::HalfEven => true,
    };
    let rank = |k: &i128| {
        let is_preferred = if mode == RoundingMode::HalfEven { k % 2 == 0 } else { true };
        ((number - k * unit).abs(), !is_preferred, -k)
    };
    (near - 2..=near + 2).filter(is_allowed).min_by_key(rank).unwrap()
}

fn rounded(number: i128, unit: i128, mode: RoundingMode) -> i128 {
    rounded_number(number, unit, mode) * unit
}

/// A generator of numbers, xorshift of Marsaglia.
struct Draw(u64);

impl Draw {
    fn next(&mut self) -> u64 {
        self.0 ^= self.0 << 13;
        self.0 ^= self.0 >> 7;
        self.0 ^= self.0 << 17;
        self.0
    }

    /// Returns a number below a bound, which is small or a multiple of a half unit in many draws.
    fn below(&mut self, bound: i128, unit: i128) -> i128 {
        let drawn = (i128::from(self.next()) << 32 ^ i128::from(self.next())) % bound;
        match self.next() % 4 {
            0 => (drawn - drawn % unit + unit / 2).min(bound - 1),
            1 => drawn - drawn % unit,
            2 => drawn % (4 * unit).min(bound),
            _ => drawn,
        }
    }
}

/// Returns the divisors of a day in nanoseconds.
fn units() -> Vec<i128> {
    let mut units = Vec::new();
    for two in 0..=20 {
        for three in 0..=3 {
            for five in 0..=14 {
                let unit = 2_i128.pow(two) * 3_i128.pow(three) * 5_i128.pow(five);
                if DAY % unit == 0 {
                    units.push(unit);
                }
            }
        }
    }
    units
}

fn nanoseconds(nanoseconds: i128) -> Duration {
    Duration::nanoseconds_i128(nanoseconds)
}

#[test]
fn drawn_times_and_date_times() {
    let (mut draw, units) = (Draw(0x9e37_79b9_7f4a_7c15), units());
    let offset = UtcOffset::from_hms(5, 45, 0).unwrap();
    for turn in 0..DRAWN {
        let unit = units[turn % units.len()];
        let (past, mode) = (draw.below(DAY, unit), MODES[turn % MODES.len()]);
        let wanted = rounded(past, unit, mode);
        let unit = RoundingUnit::new(nanoseconds(unit)).unwrap();
        let time = Time::MIDNIGHT + nanoseconds(past);
        assert_eq!(time.round(unit, mode), Time::MIDNIGHT + nanoseconds(wanted), "{time} {unit:?} {mode:?}");
        let days = (draw.next() % 730_484_634) as i32;
        let date = Date::from_julian_day(Date::MIN.to_julian_day() + days).unwrap();
        let local = PlainDateTime::new(date, time);
        let expected = PlainDateTime::new(date, Time::MIDNIGHT).checked_add(nanoseconds(wanted));
        assert_eq!(local.round(unit, mode), expected, "{local} {unit:?} {mode:?}");
        let moment: Option<OffsetDateTime> = local.assume_offset(offset).round(unit, mode);
        assert_eq!(moment.map(|moment| (moment.local(), moment.offset())), expected.map(|local| (local, offset)));
    }
}

#[test]
fn drawn_durations() {
    let mut draw = Draw(0x2545_f491_4f6c_dd1d);
    let last = Duration::MAX.whole_nanoseconds();
    for turn in 0..DRAWN {
        let bound = 1 << (1 + draw.next() % 92);
        let unit = 1 + draw.below(bound.min(last), 10);
        let (number, mode) = (draw.below(last, unit), MODES[turn % MODES.len()]);
        let number = if draw.next() % 2 == 0 { number } else { -number };
        let wanted = rounded(number, unit, mode);
        let is_in_range = Duration::MIN.whole_nanoseconds() <= wanted && wanted <= last;
        let found = nanoseconds(number).round(nanoseconds(unit), mode);
        assert_eq!(found.map(Duration::whole_nanoseconds), is_in_range.then_some(wanted), "{number} {unit} {mode:?}");
    }
}

#[test]
fn units_divide_a_day() {
    let units = units();
    assert_eq!(units.iter().filter(|unit| RoundingUnit::new(nanoseconds(**unit)).is_some()).count(), units.len());
    for unit in 1..200_000 {
        assert_eq!(RoundingUnit::new(nanoseconds(unit)).is_some(), DAY % unit == 0, "{unit}");
    }
    for unit in [i128::MIN >> 40, -1, 0, DAY - 1, DAY + 1, 2 * DAY, DAY << 25] {
        assert_eq!(RoundingUnit::new(nanoseconds(unit)), None, "{unit}");
    }
}

#[test]
fn strings() {
    let minutes = |minutes| RoundingUnit::new(Duration::minutes(minutes)).unwrap();
    // The documentation of `Temporal.PlainTime` and `Temporal.PlainDateTime`.
    let time: Time = "19:39:09.068346205".parse().unwrap();
    let local: PlainDateTime = "1995-12-07T03:24:30.000003500".parse().unwrap();
    for (unit, mode, wanted) in [
        (RoundingUnit::HOUR, RoundingMode::HalfCeil, ["20:00:00.0", "1995-12-07 3:00:00.0"]),
        (minutes(30), RoundingMode::HalfCeil, ["19:30:00.0", "1995-12-07 3:30:00.0"]),
        (minutes(30), RoundingMode::Ceil, ["20:00:00.0", "1995-12-07 3:30:00.0"]),
        (minutes(30), RoundingMode::Floor, ["19:30:00.0", "1995-12-07 3:00:00.0"]),
    ] {
        assert_eq!([time.round(unit, mode).to_string(), local.round(unit, mode).unwrap().to_string()], wanted);
    }
    assert_eq!(PlainDateTime::MAX.round(RoundingUnit::DAY, RoundingMode::Ceil), None);
    assert_eq!(Duration::MAX.round(Duration::SECOND, RoundingMode::Ceil), None);
    assert_eq!(Duration::SECOND.round(Duration::ZERO, RoundingMode::Floor), None);
}

/// Returns a date-time in a zone, as a string, rounded.
fn rounded_in(zone: &str, moment: &str, unit: RoundingUnit, mode: RoundingMode) -> Result<String, LocalTimeError> {
    let zone = Zone::parse_posix(zone).unwrap();
    let moment: OffsetDateTime = moment.parse().unwrap();
    let value = ZonedDateTime::from_offset_date_time(moment, &zone).unwrap();
    assert_eq!(value.offset(), moment.offset());
    value.round(unit, mode).map(|value| value.to_string())
}

#[test]
fn strings_in_zones() {
    const PACIFIC: &str = "PST8PDT,M4.1.0,M10.5.0";
    const BERLIN: &str = "CET-1CEST,M3.5.0,M10.5.0/3";
    // Until 2011 the clocks of St. John's changed at 0:01.
    const ST_JOHNS: &str = "NST3:30NDT,M4.1.0/0:01,M10.5.0/0:01";
    use RoundingMode::{Ceil, Floor, HalfCeil, HalfEven};
    let (hour, day) = (RoundingUnit::HOUR, RoundingUnit::DAY);
    let half = RoundingUnit::new(Duration::minutes(30)).unwrap();
    for (zone, moment, unit, mode, wanted) in [
        // The documentation of `Temporal.ZonedDateTime`.
        (PACIFIC, "1995-12-07T03:24:30.0000035-08:00", hour, HalfCeil, "1995-12-07 3:00:00.0 -08:00:00"),
        (PACIFIC, "1995-12-07T03:24:30.0000035-08:00", half, HalfCeil, "1995-12-07 3:30:00.0 -08:00:00"),
        (PACIFIC, "1995-12-07T03:24:30.0000035-08:00", half, Floor, "1995-12-07 3:00:00.0 -08:00:00"),
        // Into a gap, within a fold, out of its first half.
        (BERLIN, "2024-03-31T01:50:00+01:00", hour, HalfCeil, "2024-03-31 3:00:00.0 +02:00:00"),
        (BERLIN, "2024-10-27T02:40:00+02:00", half, HalfCeil, "2024-10-27 2:30:00.0 +02:00:00"),
        (BERLIN, "2024-10-27T02:40:00+01:00", half, HalfCeil, "2024-10-27 2:30:00.0 +01:00:00"),
        (BERLIN, "2024-10-27T02:50:00+02:00", hour, HalfCeil, "2024-10-27 3:00:00.0 +01:00:00"),
        // Half of a day of 23 hours, and of one of 25.
        (BERLIN, "2024-03-31T12:29:59+02:00", day, HalfCeil, "2024-03-31 0:00:00.0 +01:00:00"),
        (BERLIN, "2024-03-31T12:30:00+02:00", day, HalfCeil, "2024-04-01 0:00:00.0 +02:00:00"),
        (BERLIN, "2024-03-31T12:30:00+02:00", day, HalfEven, "2024-03-31 0:00:00.0 +01:00:00"),
        (BERLIN, "2024-10-27T11:29:59+01:00", day, HalfCeil, "2024-10-27 0:00:00.0 +02:00:00"),
        (BERLIN, "2024-10-27T11:30:00+01:00", day, HalfCeil, "2024-10-28 0:00:00.0 +01:00:00"),
        (BERLIN, "2024-10-27T00:00:00+02:00", day, Ceil, "2024-10-27 0:00:00.0 +02:00:00"),
        // The second 23:30 comes after the start of the next day.
        (ST_JOHNS, "2006-10-28T23:30:00-02:30", day, Floor, "2006-10-28 0:00:00.0 -02:30:00"),
        (ST_JOHNS, "2006-10-28T23:30:00-03:30", day, Floor, "2006-10-29 0:00:00.0 -02:30:00"),
    ] {
        assert_eq!(rounded_in(zone, moment, unit, mode).as_deref(), Ok(wanted), "{moment} {mode:?}");
    }
    let last = "+999999-12-31T23:30:00+01:00";
    for unit in [hour, day] {
        assert_eq!(rounded_in(BERLIN, last, unit, Ceil), Err(LocalTimeError::OutOfRange));
    }
}

/// Returns the date-time at which a local date-time keeps the offset, or else the one by the policy.
fn kept<'z>(value: &ZonedDateTime<'z>, local: PlainDateTime) -> Result<ZonedDateTime<'z>, LocalTimeError> {
    let moment = local.assume_offset(value.offset());
    let found = ZonedDateTime::from_offset_date_time(moment, value.zone()).filter(|found| found.offset() == value.offset());
    found.map_or_else(|| ZonedDateTime::from_local(local, value.zone(), Policy::Compatible), Ok)
}

#[test]
fn drawn_in_a_zone() {
    let zone = Zone::parse_posix("CET-1CEST,M3.5.0,M10.5.0/3").unwrap();
    let (mut draw, units) = (Draw(0x1234_5678_9abc_def1), units());
    let changes: Vec<i64> =
        (2000..2030).flat_map(|year| [(year, 3), (year, 10)]).filter_map(|(year, month)| change(year, month)).collect();
    for turn in 0..DRAWN / 5 {
        let (unit, mode) = (units[turn % units.len()], MODES[turn % MODES.len()]);
        let near = i128::from(changes[turn % changes.len()]) * 1_000_000_000;
        let nanoseconds_of_unix = near + draw.below(4 * DAY, unit) - 2 * DAY;
        let value = ZonedDateTime::from_unix_timestamp_nanos(nanoseconds_of_unix, &zone).unwrap();
        let found = value.round(RoundingUnit::new(nanoseconds(unit)).unwrap(), mode).unwrap();
        let wanted = if unit == DAY {
            let (start, end) = (value.start_of_day().unwrap(), start_of_day(value.date().next_day().unwrap(), &zone).unwrap());
            let (past, length) = (value.duration_since(&start).whole_nanoseconds(), end.duration_since(&start).whole_nanoseconds());
            if rounded(past, length, mode) == 0 { start } else { end }
        } else {
            let start = PlainDateTime::new(value.date(), Time::MIDNIGHT);
            let past = (value.local() - start).whole_nanoseconds();
            kept(&value, start + nanoseconds(rounded(past, unit, mode))).unwrap()
        };
        assert_eq!(found.to_offset_date_time().to_string(), wanted.to_offset_date_time().to_string(), "{value} {unit} {mode:?}");
    }
}

/// Returns the Unix time of the change on the last Sunday of a month at 1:00 UTC.
fn change(year: i32, month: u8) -> Option<i64> {
    let last = Date::from_calendar_date(year, month.try_into().ok()?, 31).ok()?;
    let sunday = last.checked_sub(Duration::days(i64::from(last.weekday().number_days_from_sunday())))?;
    Some(PlainDateTime::new(sunday, Time::from_hms(1, 0, 0).ok()?).assume_utc().unix_timestamp())
}
