//! Conversions from and to the crate `time`.

use super::same_variants;
use crate::{Date, Month, OffsetDateTime, PlainDateTime, SignedDuration, Time, UtcOffset, Weekday};
use ::time::error::ComponentRange;

same_variants!(Month, ::time::Month, January February March April May June July August September October November
    December);
same_variants!(Weekday, ::time::Weekday, Monday Tuesday Wednesday Thursday Friday Saturday Sunday);

impl From<::time::Date> for Date {
    fn from(date: ::time::Date) -> Self {
        Self::from_julian_day(date.to_julian_day()).expect("each date of time is in range")
    }
}

/// Fails outside the range of `time`: the years from -9999 to 9999 without its feature
/// `large-dates`.
impl TryFrom<Date> for ::time::Date {
    type Error = ComponentRange;

    fn try_from(date: Date) -> Result<Self, Self::Error> {
        Self::from_julian_day(date.to_julian_day())
    }
}

impl From<::time::Time> for Time {
    fn from(time: ::time::Time) -> Self {
        let (hour, minute, second, nanosecond) = time.as_hms_nano();
        Self::from_hms_nano(hour, minute, second, nanosecond).expect("both have the same times")
    }
}

impl From<Time> for ::time::Time {
    fn from(time: Time) -> Self {
        let (hour, minute, second, nanosecond) = time.as_hms_nano();
        Self::from_hms_nano(hour, minute, second, nanosecond).expect("both have the same times")
    }
}

impl From<::time::UtcOffset> for UtcOffset {
    fn from(offset: ::time::UtcOffset) -> Self {
        Self::from_whole_seconds(offset.whole_seconds()).expect("each offset of time is in range")
    }
}

/// Fails outside the range of `time`, which is -23:59:59 to +23:59:59 in some versions.
impl TryFrom<UtcOffset> for ::time::UtcOffset {
    type Error = ComponentRange;

    fn try_from(offset: UtcOffset) -> Result<Self, Self::Error> {
        Self::from_whole_seconds(offset.whole_seconds())
    }
}

impl From<::time::Duration> for SignedDuration {
    fn from(duration: ::time::Duration) -> Self {
        Self::new(duration.whole_seconds(), duration.subsec_nanoseconds())
    }
}

impl From<SignedDuration> for ::time::Duration {
    fn from(duration: SignedDuration) -> Self {
        Self::new(duration.whole_seconds(), duration.subsec_nanoseconds())
    }
}

impl From<::time::PrimitiveDateTime> for PlainDateTime {
    fn from(date_time: ::time::PrimitiveDateTime) -> Self {
        Self::new(date_time.date().into(), date_time.time().into())
    }
}

/// Fails if the date is out of the range of `time`.
impl TryFrom<PlainDateTime> for ::time::PrimitiveDateTime {
    type Error = ComponentRange;

    fn try_from(date_time: PlainDateTime) -> Result<Self, Self::Error> {
        Ok(Self::new(date_time.date().try_into()?, date_time.time().into()))
    }
}

impl From<::time::OffsetDateTime> for OffsetDateTime {
    fn from(date_time: ::time::OffsetDateTime) -> Self {
        Self::new_in_offset(date_time.date().into(), date_time.time().into(), date_time.offset().into())
    }
}

/// Fails if the local date, the date at UTC or the offset is out of the range of `time`.
impl TryFrom<OffsetDateTime> for ::time::OffsetDateTime {
    type Error = ComponentRange;

    fn try_from(date_time: OffsetDateTime) -> Result<Self, Self::Error> {
        let local = ::time::PrimitiveDateTime::try_from(date_time.local())?;
        // No crate has a date with the maximum Julian day.
        let at_utc = date_time.checked_to_utc().map_or(i32::MAX, |utc| utc.date().to_julian_day());
        ::time::Date::from_julian_day(at_utc)?;
        Ok(local.assume_offset(date_time.offset().try_into()?))
    }
}
