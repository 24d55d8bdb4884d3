//! Durations with the traits and types of the standard library.

use crate::SignedDuration;
use crate::error::ConversionRange;
use core::iter::Sum;
use core::ops::{Add, Mul};
use core::time::Duration;

impl SignedDuration {
    /// Returns the magnitude as a duration of the standard library. The magnitude of -1.5 s is
    /// 1.5 s.
    #[inline]
    pub fn unsigned_abs(self) -> Duration {
        let (seconds, nanoseconds) = self.unsigned_abs_parts();
        Duration::new(seconds, nanoseconds)
    }
}

impl TryFrom<Duration> for SignedDuration {
    type Error = ConversionRange;

    /// Converts a duration of the standard library.
    ///
    /// # Errors
    ///
    /// Returns `ConversionRange` for more than `i64::MAX` seconds.
    fn try_from(duration: Duration) -> Result<Self, ConversionRange> {
        let seconds = i64::try_from(duration.as_secs()).map_err(|_| ConversionRange)?;
        Ok(Self::new(seconds, duration.subsec_nanos() as i32))
    }
}

impl TryFrom<SignedDuration> for Duration {
    type Error = ConversionRange;

    /// Converts to a duration of the standard library.
    ///
    /// # Errors
    ///
    /// Returns `ConversionRange` if the duration is negative.
    fn try_from(duration: SignedDuration) -> Result<Self, ConversionRange> {
        if duration.is_negative() { Err(ConversionRange) } else { Ok(duration.unsigned_abs()) }
    }
}

impl Sum for SignedDuration {
    fn sum<I: Iterator<Item = Self>>(durations: I) -> Self {
        durations.fold(Self::ZERO, Self::add)
    }
}

impl<'a> Sum<&'a Self> for SignedDuration {
    fn sum<I: Iterator<Item = &'a Self>>(durations: I) -> Self {
        durations.copied().sum()
    }
}

/// Defines the product of a number and a duration.
macro_rules! products {
    ($($number:ident)*) => {
        $(
            impl Mul<SignedDuration> for $number {
                type Output = SignedDuration;

                #[inline]
                #[track_caller]
                fn mul(self, duration: SignedDuration) -> SignedDuration {
                    duration * self
                }
            }
        )*
    };
}
products! { i8 i16 i32 u8 u16 u32 }
