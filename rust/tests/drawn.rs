//! Drawn durations, times and moments against whole numbers of 128 bits.

use fotsevindre::util::DateAdjustment;
use fotsevindre::{Date, Duration, Time, UtcOffset, add_to_pair, sub_from_pair};

const SECOND: i128 = 1_000_000_000;
const DAY: i128 = 86_400 * SECOND;
const LEAST: i128 = -9_223_372_036_854_775_808_999_999_999;
const GREATEST: i128 = 9_223_372_036_854_775_807_999_999_999;

/// Numbers drawn one after another.
struct Draw(u64);

impl Draw {
    fn word(&mut self) -> u64 {
        self.0 = self.0.wrapping_mul(6_364_136_223_846_793_005).wrapping_add(1_442_695_040_888_963_407);
        self.0 ^ (self.0 >> 29)
    }

    fn below(&mut self, limit: u64) -> u64 {
        self.word() % limit
    }

    /// A number of nanoseconds that is a duration, of any size.
    fn duration(&mut self) -> i128 {
        let number = (i128::from(self.word() as i64) << 30) | i128::from(self.word() >> 34);
        (number >> self.below(93)).clamp(LEAST, GREATEST)
    }
}

fn exact(number: i128) -> Option<Duration> {
    (LEAST..=GREATEST).contains(&number).then(|| Duration::nanoseconds_i128(number))
}

fn clamped(number: i128) -> Duration {
    Duration::nanoseconds_i128(number.clamp(LEAST, GREATEST))
}

#[test]
fn durations() {
    let mut draw = Draw(32);
    for _ in 0..200_000 {
        let (a, b) = (draw.duration(), draw.duration());
        let (one, other) = (Duration::nanoseconds_i128(a), Duration::nanoseconds_i128(b));
        let factor = draw.word() as i32 >> draw.below(32);
        let wide = i128::from(factor);
        assert_eq!((one.whole_nanoseconds(), other.whole_nanoseconds()), (a, b));
        assert_eq!((one.checked_add(other), one.saturating_add(other)), (exact(a + b), clamped(a + b)));
        assert_eq!((one.checked_sub(other), one.saturating_sub(other)), (exact(a - b), clamped(a - b)));
        assert_eq!((one.checked_mul(factor), one.saturating_mul(factor)), (exact(a * wide), clamped(a * wide)));
        assert_eq!(one.checked_div(factor), if factor == 0 { None } else { exact(a / wide) });
        assert_eq!((one.checked_neg(), one.abs()), (exact(-a), clamped(a.abs())));
        assert_eq!((one.cmp(&other), one == other), (a.cmp(&b), a == b));
        assert_eq!((i128::from(one.whole_weeks()), i128::from(one.whole_days())), (a / (7 * DAY), a / DAY));
        assert_eq!((i128::from(one.whole_hours()), i128::from(one.whole_minutes())), (a / (3600 * SECOND), a / (60 * SECOND)));
        let number = draw.word() as i64 >> draw.below(64);
        assert_eq!(Duration::seconds(number).whole_nanoseconds(), i128::from(number) * SECOND);
        assert_eq!(Duration::milliseconds(number).whole_nanoseconds(), i128::from(number) * 1_000_000);
        assert_eq!(Duration::microseconds(number).whole_nanoseconds(), i128::from(number) * 1_000);
        assert_eq!(Duration::nanoseconds(number).whole_nanoseconds(), i128::from(number));
    }
}

#[test]
fn moments() {
    let mut draw = Draw(29);
    for _ in 0..200_000 {
        let julian_day = draw.below(730_484_634) as i32 - 363_521_074;
        let clock = i128::from(draw.below(DAY as u64));
        let number = draw.duration();
        let (date, duration) = (Date::from_julian_day(julian_day).unwrap(), Duration::nanoseconds_i128(number));
        let time = Time::MIDNIGHT + Duration::nanoseconds(clock as i64);
        assert_eq!((time - Time::MIDNIGHT).whole_nanoseconds(), clock);
        let pair_of = |moment: i128| {
            let date = Date::from_julian_day(i32::try_from(moment.div_euclid(DAY)).ok()?).ok()?;
            Some((date, Time::MIDNIGHT + Duration::nanoseconds_i128(moment.rem_euclid(DAY))))
        };
        let moment = i128::from(julian_day) * DAY + clock;
        assert_eq!(add_to_pair(date, time, duration), pair_of(moment + number));
        assert_eq!(sub_from_pair(date, time, duration), pair_of(moment - number));

        let moved = |days: i128| i32::try_from(i128::from(julian_day) + days).ok().and_then(|day| Date::from_julian_day(day).ok());
        assert_eq!(date.checked_add(duration), moved(number / DAY));
        assert_eq!(date.checked_sub(duration), moved(-(number / DAY)));
        let end = |days: i128| if days < 0 { Date::MIN } else { Date::MAX };
        assert_eq!(date.saturating_add(duration), moved(number / DAY).unwrap_or(end(number)));
        assert_eq!(date.saturating_sub(duration), moved(-(number / DAY)).unwrap_or(end(-number)));

        for (sum, (carry, later)) in
            [(clock + number % DAY, time.adjusting_add(duration)), (clock - number % DAY, time.adjusting_sub(duration))]
        {
            let days = match carry {
                DateAdjustment::Previous => -1,
                DateAdjustment::None => 0,
                DateAdjustment::Next => 1,
            };
            assert_eq!(days * DAY + (later - Time::MIDNIGHT).whole_nanoseconds(), sum);
        }
        assert_eq!((time + duration, time - duration), (time.adjusting_add(duration).1, time.adjusting_sub(duration).1));
        let other = Time::MIDNIGHT + Duration::nanoseconds(draw.below(DAY as u64) as i64);
        assert_eq!(time.duration_until(other).whole_nanoseconds(), (other - time).whole_nanoseconds().rem_euclid(DAY));
        assert_eq!(time.duration_since(other), other.duration_until(time));
    }
}

/// Every offset, by its parts and back.
#[test]
fn offsets() {
    for seconds in -93_599..=93_599 {
        let offset = UtcOffset::from_whole_seconds(seconds).unwrap();
        let parts = (seconds / 3_600, seconds / 60 % 60, seconds % 60);
        assert_eq!(offset.as_hms(), (parts.0 as i8, parts.1 as i8, parts.2 as i8));
        assert_eq!(UtcOffset::from_hms(parts.0 as i8, parts.1 as i8, parts.2 as i8), Ok(offset));
        assert_eq!(i32::from(offset.whole_hours()), parts.0);
        assert_eq!(i32::from(offset.whole_minutes()), seconds / 60);
        assert_eq!((i32::from(offset.minutes_past_hour()), i32::from(offset.seconds_past_minute())), (parts.1, parts.2));
        assert_eq!((-offset).whole_seconds(), -seconds);
    }
}
