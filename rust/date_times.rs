//! Methods of date-times that the crate `time` names otherwise than the source.

use crate::{OffsetDateTime, PlainDateTime, Time};

impl PlainDateTime {
    /// Returns midnight of the same date. 2024-02-29 23:59 becomes 2024-02-29 0:00.
    #[inline]
    pub const fn truncate_to_day(self) -> Self {
        self.replace_time(Time::MIDNIGHT)
    }
}

impl OffsetDateTime {
    /// Returns midnight of the same local date at the same offset. 2024-02-29 23:59 +01:00 becomes
    /// 2024-02-29 0:00 +01:00.
    #[inline]
    pub const fn truncate_to_day(self) -> Self {
        self.replace_time(Time::MIDNIGHT)
    }

    /// Returns the local hour, minute and second, like [`Self::as_hms`]: (23, 59, 59) at 23:59:59.25.
    #[inline]
    pub const fn to_hms(self) -> (u8, u8, u8) {
        self.as_hms()
    }

    /// Returns the local hour, minute, second and millisecond, like [`Self::as_hms_milli`].
    #[inline]
    pub const fn to_hms_milli(self) -> (u8, u8, u8, u16) {
        self.as_hms_milli()
    }

    /// Returns the local hour, minute, second and microsecond, like [`Self::as_hms_micro`].
    #[inline]
    pub const fn to_hms_micro(self) -> (u8, u8, u8, u32) {
        self.as_hms_micro()
    }

    /// Returns the local hour, minute, second and nanosecond, like [`Self::as_hms_nano`].
    #[inline]
    pub const fn to_hms_nano(self) -> (u8, u8, u8, u32) {
        self.as_hms_nano()
    }
}
