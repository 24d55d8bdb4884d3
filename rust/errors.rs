//! Errors as the standard library has them.

use crate::error::sentences::{Components, Sentence};
use crate::error::{
    ComponentRange, ConversionRange, FormatError, IntervalError, InvalidVariant, NamesError, ParseDurationError, ParseError,
    ParseEventError, ParseHolidayRuleError, ParseIntervalError, ParseRuleError, ParseSetError, UnsupportedItem, ZoneError,
};
use crate::format;
use core::error::Error;
use core::{fmt, str};

impl Error for ComponentRange {}
impl Error for ConversionRange {}
impl Error for FormatError {}
impl Error for IntervalError {}
impl Error for InvalidVariant {}
impl Error for NamesError<'_> {}
impl Error for ParseDurationError {}
impl Error for ParseError {}
impl Error for ParseEventError {}
impl Error for ParseHolidayRuleError {}
impl Error for ParseIntervalError {}
impl Error for ParseRuleError {}
impl Error for ParseSetError {}
impl Error for UnsupportedItem {}
impl Error for ZoneError {}
impl Error for format::ParseError {}

impl fmt::Display for UnsupportedItem {
    fn fmt(&self, f: &mut fmt::Formatter<'_>) -> fmt::Result {
        f.write_str("the format shows something that the value doesn't have")
    }
}

impl fmt::Display for Sentence {
    fn fmt(&self, f: &mut fmt::Formatter<'_>) -> fmt::Result {
        f.pad(str::from_utf8(self.as_bytes()).map_err(|_| fmt::Error)?)
    }
}

impl Default for Components {
    /// Returns components that are all 0.
    fn default() -> Self {
        Self {
            year: 0,
            month: 0,
            day: 0,
            ordinal: 0,
            week: 0,
            julian_day: 0,
            hour: 0,
            minute: 0,
            second: 0,
            millisecond: 0,
            microsecond: 0,
            nanosecond: 0,
            offset_hour: 0,
            offset_minute: 0,
            offset_second: 0,
            seconds: 0,
            timestamp: 0,
        }
    }
}

impl ZoneError {
    /// Returns the reason, such as `invalid POSIX offset`.
    pub fn reason(self) -> &'static str {
        self.kind.reason()
    }
}
