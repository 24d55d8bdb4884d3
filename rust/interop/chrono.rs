//! Conversions from and to the crate `chrono`.

use super::same_variants;
use crate::error::{Component, ComponentRange};
use crate::{Date, Month, OffsetDateTime, PlainDateTime, SignedDuration, Time, UtcOffset, Weekday};
use ::chrono::{DateTime, Datelike, FixedOffset, NaiveDate, NaiveDateTime, NaiveTime, TimeZone, Timelike};

/// The Julian day of the day before 0001-01-01, which has the number 0 in `chrono`.
const DAY_ZERO: i32 = 1_721_425;

same_variants!(Month, ::chrono::Month, January February March April May June July August September October November
    December);

impl From<::chrono::Weekday> for Weekday {
    fn from(weekday: ::chrono::Weekday) -> Self {
        Self::Monday.nth_next(weekday.num_days_from_monday() as u8)
    }
}

impl From<Weekday> for ::chrono::Weekday {
    fn from(weekday: Weekday) -> Self {
        (1..weekday.number_from_monday()).fold(Self::Mon, |day, _| day.succ())
    }
}

impl From<NaiveDate> for Date {
    fn from(date: NaiveDate) -> Self {
        Self::from_julian_day(date.num_days_from_ce() + DAY_ZERO).expect("each date of chrono is in range")
    }
}

/// Fails for a year outside the range of `chrono`, which is about -262144 to 262143.
impl TryFrom<Date> for NaiveDate {
    type Error = ComponentRange;

    fn try_from(date: Date) -> Result<Self, Self::Error> {
        Self::from_num_days_from_ce_opt(date.to_julian_day() - DAY_ZERO).ok_or(ComponentRange::unconditional(Component::Year))
    }
}

/// Fails for a leap second.
impl TryFrom<NaiveTime> for Time {
    type Error = ComponentRange;

    fn try_from(time: NaiveTime) -> Result<Self, Self::Error> {
        Self::from_hms_nano(time.hour() as u8, time.minute() as u8, time.second() as u8, time.nanosecond())
    }
}

impl From<Time> for NaiveTime {
    fn from(time: Time) -> Self {
        let (hour, minute, second, nanosecond) = time.as_hms_nano();
        Self::from_hms_nano_opt(hour.into(), minute.into(), second.into(), nanosecond).expect("chrono has each time of day")
    }
}

impl From<FixedOffset> for UtcOffset {
    fn from(offset: FixedOffset) -> Self {
        Self::from_whole_seconds(offset.local_minus_utc()).expect("each offset of chrono is in range")
    }
}

/// Fails outside -23:59:59 to +23:59:59.
impl TryFrom<UtcOffset> for FixedOffset {
    type Error = ComponentRange;

    fn try_from(offset: UtcOffset) -> Result<Self, Self::Error> {
        Self::east_opt(offset.whole_seconds()).ok_or(ComponentRange::unconditional(Component::Seconds))
    }
}

impl From<::chrono::Duration> for SignedDuration {
    fn from(duration: ::chrono::Duration) -> Self {
        let seconds = duration.num_seconds();
        let rest = duration - ::chrono::Duration::seconds(seconds);
        Self::new(seconds, rest.num_nanoseconds().unwrap_or_default() as i32)
    }
}

/// Fails outside the range of `chrono`, which is `i64::MAX` milliseconds in both directions.
impl TryFrom<SignedDuration> for ::chrono::Duration {
    type Error = ComponentRange;

    fn try_from(duration: SignedDuration) -> Result<Self, Self::Error> {
        let milliseconds = i64::try_from(duration.whole_milliseconds()).unwrap_or(i64::MIN);
        if milliseconds == i64::MIN {
            return Err(ComponentRange::unconditional(Component::Seconds));
        }
        let rest = Self::nanoseconds((duration.subsec_nanoseconds() % 1_000_000).into());
        Self::milliseconds(milliseconds).checked_add(&rest).ok_or(ComponentRange::unconditional(Component::Seconds))
    }
}

/// Fails for a leap second.
impl TryFrom<NaiveDateTime> for PlainDateTime {
    type Error = ComponentRange;

    fn try_from(date_time: NaiveDateTime) -> Result<Self, Self::Error> {
        Ok(Self::new(date_time.date().into(), date_time.time().try_into()?))
    }
}

/// Fails for a year outside the range of `chrono`.
impl TryFrom<PlainDateTime> for NaiveDateTime {
    type Error = ComponentRange;

    fn try_from(date_time: PlainDateTime) -> Result<Self, Self::Error> {
        Ok(NaiveDate::try_from(date_time.date())?.and_time(date_time.time().into()))
    }
}

/// Fails for a leap second.
impl TryFrom<DateTime<FixedOffset>> for OffsetDateTime {
    type Error = ComponentRange;

    fn try_from(date_time: DateTime<FixedOffset>) -> Result<Self, Self::Error> {
        // The local date can be outside the range of `chrono`.
        let utc = PlainDateTime::try_from(date_time.naive_utc())?.assume_utc();
        Ok(utc.to_offset((*date_time.offset()).into()))
    }
}

/// Fails if the local date, the date at UTC or the offset is out of the range of `chrono`.
impl TryFrom<OffsetDateTime> for DateTime<FixedOffset> {
    type Error = ComponentRange;

    fn try_from(date_time: OffsetDateTime) -> Result<Self, Self::Error> {
        let local = NaiveDateTime::try_from(date_time.local())?;
        let offset = FixedOffset::try_from(date_time.offset())?;
        local
            .checked_sub_signed(::chrono::Duration::seconds(offset.local_minus_utc().into()))
            .map(|utc| offset.from_utc_datetime(&utc))
            .ok_or(ComponentRange::unconditional(Component::Year))
    }
}
