//! The clock of the system.

use crate::sealed::Sealed;
use crate::{Date, OffsetDateTime, PlainDateTime, SignedDuration, Time, UtcOffset, Zone, ZonedDateTime};
use std::time::SystemTime;

/// Local clocks: at an offset from UTC, or in a time zone. Other crates can't implement it.
pub trait LocalClock: Sealed {
    /// Returns the offset of the clocks at an instant, in seconds since 1970-01-01 0:00 UTC.
    fn utc_offset_at(&self, unix_timestamp: i64) -> UtcOffset;
}

impl LocalClock for UtcOffset {
    fn utc_offset_at(&self, _: i64) -> UtcOffset {
        *self
    }
}

impl Sealed for Zone<'_> {}

impl LocalClock for Zone<'_> {
    fn utc_offset_at(&self, unix_timestamp: i64) -> UtcOffset {
        Zone::utc_offset_at(self, unix_timestamp)
    }
}

impl OffsetDateTime {
    /// Returns the current date-time at an offset or in a zone, by the clock of the system.
    ///
    /// ```
    /// use fotsevindre::{OffsetDateTime, UtcOffset};
    ///
    /// let offset = UtcOffset::from_hms(1, 0, 0)?;
    /// assert_eq!(OffsetDateTime::now(&offset).offset(), offset);
    /// # Ok::<(), fotsevindre::error::ComponentRange>(())
    /// ```
    ///
    /// # Panics
    ///
    /// If the local date-time is outside the years -999999 to 999999.
    #[must_use]
    pub fn now(clock: &impl LocalClock) -> Self {
        let now = Self::now_utc();
        now.to_offset(clock.utc_offset_at(now.unix_timestamp()))
    }

    /// Returns the current date-time at UTC, by the clock of the system.
    ///
    /// # Panics
    ///
    /// If the clock is outside the years -999999 to 999999.
    #[must_use]
    pub fn now_utc() -> Self {
        SystemTime::now().into()
    }
}

impl<'z> ZonedDateTime<'z> {
    /// Returns the current date-time in a zone, by the clock of the system.
    ///
    /// # Panics
    ///
    /// If the clock is outside the years -999999 to 999999.
    #[must_use]
    pub fn now(zone: &'z Zone<'z>) -> Self {
        Self::from_offset_date_time(OffsetDateTime::now_utc(), zone).expect("resulting value is out of range")
    }
}

impl PlainDateTime {
    /// Returns the current local date-time at an offset or in a zone, as [`OffsetDateTime::now`]
    /// does.
    ///
    /// # Panics
    ///
    /// If it is outside the years -999999 to 999999.
    #[must_use]
    pub fn now(clock: &impl LocalClock) -> Self {
        OffsetDateTime::now(clock).local()
    }
}

impl Date {
    /// Returns the current date at an offset or in a zone, as [`OffsetDateTime::now`] does.
    ///
    /// # Panics
    ///
    /// If it is outside the years -999999 to 999999.
    #[must_use]
    pub fn today(clock: &impl LocalClock) -> Self {
        OffsetDateTime::now(clock).date()
    }
}

impl Time {
    /// Returns the current time of day at an offset or in a zone, as [`OffsetDateTime::now`] does.
    ///
    /// # Panics
    ///
    /// If the date is outside the years -999999 to 999999.
    #[must_use]
    pub fn now(clock: &impl LocalClock) -> Self {
        OffsetDateTime::now(clock).time()
    }
}

/// Converts to a date-time at UTC. Panics outside the years -999999 to 999999.
impl From<SystemTime> for OffsetDateTime {
    #[track_caller]
    fn from(time: SystemTime) -> Self {
        match time.duration_since(SystemTime::UNIX_EPOCH) {
            Ok(after) => Self::UNIX_EPOCH + duration(after),
            Err(error) => Self::UNIX_EPOCH - duration(error.duration()),
        }
    }
}

/// Converts to the time of the system. Panics if the system has no such time.
impl From<OffsetDateTime> for SystemTime {
    #[track_caller]
    fn from(moment: OffsetDateTime) -> Self {
        let after = moment - OffsetDateTime::UNIX_EPOCH;
        if after.is_negative() { Self::UNIX_EPOCH - after.unsigned_abs() } else { Self::UNIX_EPOCH + after.unsigned_abs() }
    }
}

#[track_caller]
fn duration(duration: std::time::Duration) -> SignedDuration {
    duration.try_into().expect("resulting value is out of range")
}
