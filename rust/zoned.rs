//! Date-times in a zone and periods, with the traits of the standard library.

#[cfg(doc)]
use crate::Policy;
use crate::cal_rounding::round_zoned;
use crate::error::{LocalTimeError, PeriodError};
use crate::{OffsetDateTime, Period, RoundingMode, RoundingUnit, SignedDuration, ZonedDateTime};
use core::error::Error;
use core::fmt;

impl fmt::Display for ZonedDateTime<'_> {
    /// Writes what the clocks show, with their offset, as an [`OffsetDateTime`] does.
    fn fmt(&self, f: &mut fmt::Formatter<'_>) -> fmt::Result {
        fmt::Display::fmt(&self.to_offset_date_time(), f)
    }
}

impl ZonedDateTime<'_> {
    /// Rounds to a multiple of a unit since the midnight of its date, by what the clocks show. The
    /// result keeps the offset if the clocks show the rounded time at this offset, and otherwise goes
    /// by [`Policy::Compatible`].
    ///
    /// To whole days, it is rounded to the start of its day or of the next one, which can be 23 or
    /// 25 hours later. After the start of the next day, in a fold over midnight, it is rounded to
    /// that start.
    ///
    /// ```
    /// use fotsevindre::{OffsetDateTime, RoundingMode, RoundingUnit, Zone, ZonedDateTime};
    ///
    /// # fn main() -> Result<(), Box<dyn std::error::Error>> {
    /// let berlin = Zone::parse_posix("CET-1CEST,M3.5.0,M10.5.0/3")?;
    /// let moment: OffsetDateTime = "2024-03-31 1:50+01:00".parse()?;
    /// let value = ZonedDateTime::from_offset_date_time(moment, &berlin).ok_or("out of range")?;
    /// let hour = value.round(RoundingUnit::HOUR, RoundingMode::HalfCeil)?;
    /// assert_eq!(hour.to_string(), "2024-03-31 3:00:00.0 +02:00:00");
    /// # Ok(())
    /// # }
    /// ```
    ///
    /// # Errors
    ///
    /// Returns `OutOfRange` if the result is out of range, or for whole days also if the start of
    /// one of the two days is, as on the last date.
    pub fn round(&self, unit: RoundingUnit, mode: RoundingMode) -> Result<Self, LocalTimeError> {
        round_zoned(self, unit, mode)
    }
}

impl From<ZonedDateTime<'_>> for OffsetDateTime {
    /// Returns what the clocks show, with their offset.
    fn from(value: ZonedDateTime<'_>) -> Self {
        value.to_offset_date_time()
    }
}

impl From<SignedDuration> for Period {
    /// Creates a period of an exact duration.
    fn from(duration: SignedDuration) -> Self {
        Self::from_duration(duration)
    }
}

impl fmt::Display for LocalTimeError {
    fn fmt(&self, f: &mut fmt::Formatter<'_>) -> fmt::Result {
        f.write_str(match self {
            Self::Skipped => "the clocks skip the local time",
            Self::Repeated => "the clocks show the local time twice",
            Self::OutOfRange => "the local time is out of range",
        })
    }
}

impl Error for LocalTimeError {}

impl fmt::Display for PeriodError {
    fn fmt(&self, f: &mut fmt::Formatter<'_>) -> fmt::Result {
        f.write_str(match self {
            Self::HasDuration => "a period with a duration can't be added to a date",
            Self::OutOfRange => "the resulting date is out of range",
        })
    }
}

impl Error for PeriodError {}
