//! Values in formats.

use crate::format::{DateFormat, DateTimeFormat, Format, OffsetDateTimeFormat, OffsetFormat, ParseError, TimeFormat};
use crate::{Date, OffsetDateTime, PlainDateTime, Time, UtcOffset, Zone};
use core::{fmt, str};

/// The maximum bytes of a string: 64 items of 15 bytes.
const CAPACITY: usize = 960;

/// The error of a format that shows something that the value doesn't have, such as the hour of a
/// date.
#[derive(Clone, Copy, Debug, PartialEq, Eq, Hash)]
pub struct UnsupportedItem;

/// The string of a value in a format, in place.
#[derive(Clone, Copy)]
pub struct FormatText {
    length: usize,
    bytes: [u8; CAPACITY],
}

impl FormatText {
    /// Returns the string that a function writes, or `None` if it writes none.
    fn written(print: impl FnOnce(&mut [u8]) -> Option<usize>) -> Option<Self> {
        let mut bytes = [0; CAPACITY];
        let length = print(&mut bytes)?;
        Some(Self { length, bytes })
    }

    /// Returns the string.
    pub fn as_str(&self) -> &str {
        str::from_utf8(&self.bytes[..self.length]).expect("a format is UTF-8, and numbers are ASCII")
    }
}

impl fmt::Display for FormatText {
    fn fmt(&self, f: &mut fmt::Formatter<'_>) -> fmt::Result {
        f.pad(self.as_str())
    }
}

impl fmt::Debug for FormatText {
    fn fmt(&self, f: &mut fmt::Formatter<'_>) -> fmt::Result {
        fmt::Debug::fmt(self.as_str(), f)
    }
}

/// Defines the methods of values that take a format.
macro_rules! values {
    ($($kind:ident: $print:ident, $format:ident;)*) => {
        $(
            impl $kind {
                /// Returns the string of the value in a format.
                ///
                /// # Errors
                ///
                /// Returns `UnsupportedItem` if the format shows something that the value doesn't
                /// have.
                pub fn format(self, format: &Format) -> Result<FormatText, UnsupportedItem> {
                    FormatText::written(|bytes| format.$print(self, bytes)).ok_or(UnsupportedItem)
                }

                #[doc = concat!("Parses a string in a format, like [`", stringify!($format), "::parse`].")]
                ///
                /// # Errors
                ///
                /// Returns `UnexpectedByte` or `UnexpectedEnd`, else `OutOfRange` for the first
                /// component out of range, else `Contradiction`.
                pub fn parse(text: &str, format: &$format) -> Result<Self, ParseError> {
                    format.parse(text.as_bytes())
                }
            }
        )*
    };
}

values! {
    Date: print_date, DateFormat;
    Time: print_time, TimeFormat;
    UtcOffset: print_offset, OffsetFormat;
    PlainDateTime: print_date_time, DateTimeFormat;
    OffsetDateTime: print_offset_date_time, OffsetDateTimeFormat;
}

impl OffsetDateTime {
    /// Returns the string of the same instant in a time zone, in a format that may show the
    /// abbreviation of the zone as `%Z`. Returns `None` if the local date-time is out of range, or
    /// if the abbreviation has more than 15 bytes.
    ///
    /// ```
    /// use fotsevindre::{Format, OffsetDateTime, Zone};
    ///
    /// let berlin = Zone::parse_posix("CET-1CEST,M3.5.0,M10.5.0/3")?;
    /// let moment = OffsetDateTime::from_unix_timestamp(1711846800)?;
    /// let format = Format::new("%H:%M %Z")?;
    /// assert_eq!(moment.format_in_zone(&format, &berlin).unwrap().as_str(), "03:00 CEST");
    /// assert!(moment.format(&format).is_err());
    /// # Ok::<(), Box<dyn std::error::Error>>(())
    /// ```
    pub fn format_in_zone(self, format: &Format, zone: &Zone<'_>) -> Option<FormatText> {
        let local = self.in_zone(zone)?;
        let abbreviation = zone.abbreviation_at(self.unix_timestamp());
        FormatText::written(|bytes| format.print_in_zone(local, abbreviation.as_bytes(), bytes))
    }
}
