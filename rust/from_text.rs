//! `FromStr` by the proved parsers, and periods and durations as ISO 8601 has them.
use crate::error::{ParseDurationError, ParseError, ParseIntervalError};
use crate::interval::{DateInterval, DateTimeInterval};
use crate::text::{ShortText, date, duration, offset, offset_date_time, period, plain, time};
use crate::{Date, OffsetDateTime, Period, PlainDateTime, SignedDuration, Time, UtcOffset};
use core::fmt;
use core::str::FromStr;

macro_rules! parse_by {
    ($($kind:ty: $module:ident, $about:literal;)*) => {
        $(impl FromStr for $kind {
            type Err = ParseError;

            #[doc = $about]
            ///
            /// # Errors
            ///
            /// `UnexpectedByte` or `UnexpectedEnd`, else `OutOfRange` for the first component out of
            /// range.
            fn from_str(text: &str) -> Result<Self, ParseError> {
                $module::parse(text.as_bytes())
            }
        })*
    };
}

parse_by! {
    Date: date, "Parses a calendar date, an ordinal date or a week date, like [`date::parse`].";
    Time: time, "Parses a time of day, such as `9:05` or `23:59:59.25`, like [`time::parse`].";
    UtcOffset: offset, "Parses an offset, such as `Z` or `-05:30:00`, like [`offset::parse`].";
    PlainDateTime: plain, "Parses a date-time, such as `2024-02-29 23:59:59.25`, like [`plain::parse`].";
    OffsetDateTime: offset_date_time,
        "Parses a date-time and an offset, such as `2024-02-29T23:59:59.25+01:00`, like [`offset_date_time::parse`].";
}

macro_rules! parse_iso_by {
    ($($kind:ty: $module:ident, $about:literal;)*) => {
        $(impl $kind {
            #[doc = $about]
            ///
            /// # Errors
            ///
            /// `UnexpectedByte` or `UnexpectedEnd`, else `OutOfRange` for the first component out of
            /// range.
            pub fn parse_iso(text: &str) -> Result<Self, ParseError> {
                crate::text::iso::$module::parse(text.as_bytes())
            }
        })*
    };
}

parse_iso_by! {
    Date: date, "Parses a date of ISO 8601 in any format, such as `20240229`, like [`parse`](crate::text::iso::date::parse).";
    Time: time, "Parses a time of day of ISO 8601 in any format, such as `T2259`, like [`parse`](crate::text::iso::time::parse).";
    PlainDateTime: plain,
        "Parses a date-time of ISO 8601 in any format, such as `20240229T2259`, like [`parse`](crate::text::iso::plain::parse).";
    OffsetDateTime: offset_date_time,
        "Parses a date-time and an offset of ISO 8601 in any format, such as `2024-02-29 22:59:59.25+00`, like \
         [`parse`](crate::text::iso::offset_date_time::parse).";
}

impl FromStr for Period {
    type Err = ParseDurationError;

    /// Parses a period, such as `P1Y2M10DT2H30M0.5S` or `-P1D`, like [`period::parse`].
    ///
    /// # Errors
    ///
    /// `UnexpectedByte` or `UnexpectedEnd`, else `OutOfRange` for the first part out of range.
    fn from_str(text: &str) -> Result<Self, ParseDurationError> {
        period::parse(text.as_bytes())
    }
}

impl fmt::Display for Period {
    /// Prints the period as ISO 8601 has it, such as `P1M3DT4H`, like [`period::Text`].
    fn fmt(&self, f: &mut fmt::Formatter<'_>) -> fmt::Result {
        fmt::Display::fmt(&period::Text::new(*self), f)
    }
}

impl FromStr for DateInterval {
    type Err = ParseIntervalError;

    /// Parses an interval of dates, such as `2024-01-01/P1M`, like
    /// [`parse`](crate::interval::date::parse).
    ///
    /// # Errors
    ///
    /// `UnexpectedByte` or `UnexpectedEnd`, else `OutOfRange` for the first part out of range.
    fn from_str(text: &str) -> Result<Self, ParseIntervalError> {
        crate::interval::date::parse(text.as_bytes())
    }
}

impl FromStr for DateTimeInterval {
    type Err = ParseIntervalError;

    /// Parses an interval of local date-times, such as `2024-01-01T08:00/PT90M`, like
    /// [`parse`](crate::interval::plain::parse).
    ///
    /// # Errors
    ///
    /// `UnexpectedByte` or `UnexpectedEnd`, else `OutOfRange` for the first part out of range.
    fn from_str(text: &str) -> Result<Self, ParseIntervalError> {
        crate::interval::plain::parse(text.as_bytes())
    }
}

impl SignedDuration {
    /// Parses a duration of ISO 8601 without years, months, weeks and days, such as `PT2H30M0.5S`,
    /// like [`duration::parse`].
    ///
    /// # Errors
    ///
    /// `UnexpectedByte` or `UnexpectedEnd`, else `OutOfRange` for the first part out of range.
    pub fn parse_iso8601(text: &str) -> Result<Self, ParseDurationError> {
        duration::parse(text.as_bytes())
    }

    /// Returns the duration as ISO 8601 has it, such as `-PT36H` or `PT0S`, like [`duration::text`].
    pub fn iso8601_text(self) -> ShortText {
        duration::text(self)
    }
}
