//! The calendar of Fotsevindre with the names of the crate `time`.
//!
//! ```
//! use fotsevindre::{Date, Duration, Month};
//!
//! let day = Date::from_calendar_date(2024, Month::February, 29)?;
//! assert_eq!((day + Duration::days(366)).to_string(), "2025-03-01");
//! assert_eq!(day.replace_year(2023).unwrap_err().name(), "day");
//! assert_eq!("2024-02-29".parse(), Ok(day));
//! # Ok::<(), fotsevindre::error::ComponentRange>(())
//! ```
//!
//! # Contracts
//!
//! The library is written in Rattle, which is Rust with contracts, and each contract is proved. The
//! documentation of a function has its contract, folded. The terms that it uses are defined in
//! [`definitions`]. The build script leaves the contracts out, and rustc compiles the rest.
//!
//! # Unsafe code
//!
//! Four blocks of the proved source call `from_utf8_unchecked`: three return the bytes of a
//! [`ShortText`](text::ShortText), a [`RecurrenceText`](recurrence::RecurrenceText) or the
//! [`Text`](text::period::Text) of a period, and one appends ASCII bytes to a `ShortText`. The proofs show that the bytes are UTF-8 if each argument
//! has its invariant and each call fulfils its conditions. Rust checks neither, so other crates must
//! not be able to break them:
//!
//! - A type with an invariant has private fields, and only the proved source sets them.
//! - A public function with a condition checks it and panics. All others are visible in this crate
//!   only, such as the functions that append to a `ShortText`. The build fails for a
//!   function with a condition that isn't in the table of decisions.
//! - Traits with laws are sealed.
//! - The modules written by hand have no unsafe code, but for the one that asks the C library for the
//!   names of a locale, with the feature `std`. They check a condition before they call a function that
//!   has one.
#![no_std]
#![deny(unsafe_code)]
#![warn(missing_docs)]
#[cfg(not(target_pointer_width = "64"))]
compile_error!("fotsevindre supports only targets whose usize has 64 bits, because its proofs are about these");
#[cfg(any(feature = "std", test))]
extern crate std;

// Source that was proved, without its contracts.
include!(concat!(env!("OUT_DIR"), "/library.rs"));
#[cfg(doc)]
include!(concat!(env!("OUT_DIR"), "/definitions.rs"));

#[cfg(feature = "bundled-zones")]
mod bundled_zones;
pub mod columns;
mod date_times;
mod duration;
mod errors;
mod formats;
mod from_text;
mod ics;
#[cfg(any(feature = "chrono", feature = "serde", feature = "time"))]
mod interop;
mod iterators;
mod languages;
mod months;
#[cfg(feature = "std")]
mod std_clock;
#[cfg(all(feature = "std", target_os = "linux"))]
mod std_names;
#[cfg(feature = "std")]
mod std_zones;
mod values;
mod zoned;
mod zones;

/// Traits with laws have a trait of this module above them. Other crates can't name it, so they
/// can't implement them.
///
/// ```compile_fail,E0603
/// struct Mine;
/// impl fotsevindre::sealed::Sealed for Mine {}
/// ```
///
/// Functions whose conditions nothing checks are private, too.
///
/// ```compile_fail,E0624
/// fotsevindre::text::ShortText::new().push_digit(80);
/// ```
///
/// ```compile_fail,E0624
/// fotsevindre::recurrence::Values::none(0).push(1);
/// ```
mod sealed {
    use crate::{ByDay, Date, Month, OffsetDateTime, PlainDateTime, SignedDuration, Time, UtcOffset, Weekday};

    pub trait Sealed {}

    macro_rules! seal {
        ($($kind:ty)*) => { $(impl Sealed for $kind {})* };
    }
    seal! { ByDay Date Month OffsetDateTime PlainDateTime SignedDuration Time UtcOffset Weekday i8 i16 u8 }
}

pub use cal_clock::{Time, UtcOffset};
pub use cal_date::Date;
pub use cal_datetime::{OffsetDateTime, PlainDateTime};
pub use cal_format::Format;
pub use cal_rounding::{RoundingMode, RoundingUnit};
pub use cal_span::SignedDuration;
/// A duration, by its name in the crate `time`.
pub use cal_span::SignedDuration as Duration;
pub use cal_time::{add_to_pair, sub_from_pair};
pub use cal_units::{Month, Weekday};
pub use cal_zone::{Local, Policy, Zone};
pub use cal_zoned::ZonedDateTime;
pub use formats::FormatText;
pub use schedule::{
    ByDay, CalendarUnit, Convention, DateRange, DayCount, Frequency, Period, Rule, RuleDays, Workdays, YearFraction,
};
pub use zone::{Gap, LocalType};

/// Returns the version of the crate. `(0, 2, 0)` is 0.2.0.
pub const fn version() -> (u32, u32, u32) {
    let [major, minor, patch] =
        [number(env!("CARGO_PKG_VERSION_MAJOR")), number(env!("CARGO_PKG_VERSION_MINOR")), number(env!("CARGO_PKG_VERSION_PATCH"))];
    (major, minor, patch)
}

/// Returns the number of decimal digits.
const fn number(digits: &str) -> u32 {
    match u32::from_str_radix(digits, 10) {
        Ok(number) => number,
        Err(_) => panic!("the version of a package is made of numbers"),
    }
}

/// Errors.
pub mod error {
    pub use crate::cal_duration::{DurationComponent, ParseDurationError};
    pub use crate::cal_format::FormatError;
    pub use crate::cal_holiday_text::{ParseHolidayRuleError, ParseHolidayRuleErrorKind};
    pub use crate::cal_ics::{ParseEventError, ParseEventErrorKind};
    pub use crate::cal_interval::{IntervalComponent, IntervalError, ParseIntervalError};
    pub use crate::cal_recurrence::{ParseRuleError, ParseRuleErrorKind, ParseSetError, ParseSetErrorKind};
    pub use crate::cal_schedule::PeriodError;
    pub use crate::cal_text::ParseError;
    pub use crate::cal_tzif::{ZoneError, ZoneErrorKind};
    pub use crate::cal_units::error::{Component, ComponentRange, ConversionRange, InvalidVariant};
    pub use crate::cal_zone::LocalTimeError;
    pub use crate::formats::UnsupportedItem;
    pub use crate::names::NamesError;
    #[cfg(feature = "std")]
    pub use crate::std_zones::NamedZoneError;
    pub use crate::values::TooManyValues;

    /// Sentences of errors, which say the value and its range, or the unknown item of a format. The
    /// errors themselves print the words of the crate `time`.
    ///
    /// ```
    /// use fotsevindre::Date;
    /// use fotsevindre::error::sentences::{Components, component_sentence, string_sentence};
    /// use fotsevindre::error::{Component, ParseError};
    ///
    /// let text = "2023-02-29";
    /// let Err(ParseError::OutOfRange(error)) = text.parse::<Date>() else { panic!("{text} is a date") };
    /// assert_eq!(error.to_string(), "day was not in range");
    /// let sentence = string_sentence(error.component(), text.as_bytes()).unwrap();
    /// assert_eq!(sentence.to_string(), "day 29 is out of range 1 to 28 (February 2023)");
    ///
    /// let components = Components { year: 2023, month: 2, day: 29, ..Components::default() };
    /// assert_eq!(component_sentence(Component::Day, &components).unwrap().to_string(), sentence.to_string());
    /// ```
    pub mod sentences {
        pub use crate::cal_errors::{Components, Sentence, component_sentence, contradiction, unexpected, unknown_item};
        pub use crate::cal_string_errors::{format_sentence, lenient_sentence, string_sentence};
    }
}

/// Events of calendar files (iCalendar, RFC 5545) and their recurrence sets.
///
/// These components and properties aren't applied: `VTODO`, `VJOURNAL`, `VFREEBUSY`, `EXRULE`,
/// `RECURRENCE-ID` and the rules of a `VTIMEZONE`. A `TZID` is the name of a zone.
pub mod calendar {
    pub use crate::cal_ics::{Event, ParseEventError, ParseEventErrorKind, first_event};
    pub use crate::ics::Events;
}

/// Formats for printing and parsing, in the syntax of `strftime` or of the crate `time`.
pub mod format {
    pub use crate::cal_format::{
        DateFormat, DateTimeFormat, Format, FormatError, LenientDateFormat, LenientDateTimeFormat, LenientFormat,
        LenientOffsetDateTimeFormat, LenientTimeFormat, OffsetDateTimeFormat, OffsetFormat, ParseError, TimeFormat,
    };
    pub use crate::formats::{FormatText, UnsupportedItem};
}

/// Intervals and repeated intervals of ISO 8601, of dates and of local date-times.
pub mod interval {
    pub use crate::cal_interval::date::{DateInterval, RepeatedDates};
    pub use crate::cal_interval::plain::{DateTimeInterval, DateTimeRange, RepeatedDateTimes};
    pub use crate::cal_interval::{IntervalComponent, IntervalError, ParseIntervalError, date, plain};
}

/// Iterators.
pub mod iter {
    pub use crate::cal_date::DateIter;
    pub use crate::cal_units::iter::{MonthIter, Rev, WeekdayIter};
}

/// The names of months, weekdays and halves of the day, in twelve languages or as the caller gives
/// them.
///
/// A table of names is a value, and can be a constant. Japanese months begin with a digit, and
/// Polish months have a second form beside a day:
///
/// ```
/// use fotsevindre::Month;
/// use fotsevindre::names::{Names, languages, table};
///
/// const NAMES: Names<'static> = Names { short_weekdays: ["Mo", "Di", "Mi", "Do", "Fr", "Sa", "So"], ..languages::GERMAN };
/// assert_eq!(NAMES.short_month(Month::March), "Mär");
/// assert_eq!(languages::POLISH.month(Month::January), "stycznia");
/// assert_eq!(languages::POLISH.month_alone(Month::January), "styczeń");
/// assert_eq!(languages::JAPANESE.month(Month::January), "1月");
/// // The longest name is found: `Pazar` is Sunday, and `Pazartesi` is Monday.
/// assert_eq!(table::find(&languages::TURKISH.weekdays, b"Pazartesi 1"), Some(0));
/// assert_eq!(table::find(&languages::TURKISH.weekdays, b"Pazar 1"), Some(6));
/// ```
pub mod names {
    pub use crate::cal_names::{Names, languages, table};
    pub use crate::languages::{NamedFormat, NamesError};
    #[cfg(all(feature = "std", target_os = "linux"))]
    pub use crate::std_names::{LocaleNames, NoLocaleError};
}

/// Recurrences of RFC 5545: rules of days and of times of day, sets, and their strings.
pub mod recurrence {
    pub use crate::cal_recurrence::{
        ClockUnit, CountedSet, CountedZonedSet, DateOrTime, DateTimeRule, DateTimeSet, DateTimeSetReadings, DayCursor, Occurrences,
        ParseRuleError, ParseRuleErrorKind, ParseSetError, ParseSetErrorKind, ReadingCursor, Recurrence, RecurrenceSet,
        RecurrenceSetDays, RecurrenceText, RuleCount, RuleEnd, RulePart, RuleReadings, SetDays, SetInstants, SetLine, SetParts,
        SetReadings, TimesOfDay, ZoneName, ZonedSet, fold, parse, parse_days, parse_set, unfold,
    };
    pub use crate::schedule::{ByDay, Frequency, Pattern, Rule, RuleDays, Values};
}

/// Rules of days, working days, holidays, periods and day counts. Functions on one date are methods
/// of [`Date`].
pub mod schedule {
    pub use crate::cal_holiday_text::parse_holiday_rules;
    pub use crate::cal_holidays::{CALENDARS, HolidayDay, HolidayRule, calendar_rules, holidays_between};
    pub use crate::cal_schedule::{
        ByDay, CalendarUnit, Convention, DateRange, DayCount, Frequency, Pattern, Period, PeriodUnit, Rule, RuleDays, Steps,
        Values, Workdays, YearFraction,
    };
    pub use crate::cal_zoned::Steps as DateTimeSteps;
}

/// Strings of dates, date-times, periods and durations.
pub mod text {
    pub use crate::cal_duration::{duration, period};
    pub use crate::cal_text::{
        DateForm, DateOrMoment, MomentForm, ParseError, date, julian_day, offset, offset_date_time, parse_any, plain, rfc3339,
        time, unix,
    };
    pub use crate::cal_units::ShortText;

    /// Strings of ISO 8601 as people's data has them: basic and extended formats, `T` or a space, a
    /// comma or a point. The other modules parse one string for each value.
    pub mod iso {
        pub use crate::cal_iso::{date, offset_date_time, plain, time};
    }
}

/// Lengths of months and years, and functions on slices of values.
pub mod util {
    pub use crate::cal_units::util::{
        DateAdjustment, days_in_month, days_in_year, days_in_year_month, is_leap_year, weeks_in_year,
    };
    pub use crate::cal_units::{Counted, extent, is_rising};
}

/// Time zones.
pub mod zone {
    pub use crate::cal_tzif::{ZoneError, ZoneErrorKind};
    pub use crate::cal_zone::{Change, Gap, Local, LocalType, Policy, Yearly, Zone};
    pub use crate::cal_zoned::{ZonedDateTime, ZonedSteps, start_of_day};
    #[cfg(feature = "std")]
    pub use crate::std_clock::LocalClock;
}

/// The pages for Rust, whose examples are tested.
#[cfg(doctest)]
#[doc = include_str!("../README.md")]
#[doc = include_str!("../docs/RUST.md")]
#[doc = include_str!("../docs/COLUMNS.md")]
#[cfg_attr(feature = "std", doc = include_str!("../docs/COOKBOOK.md"))]
struct Pages;

#[cfg(test)]
mod tests {
    use crate::{Date, Duration, Month, OffsetDateTime, PlainDateTime, Time, UtcOffset, Weekday};

    /// A value of functions that are constant in the crate `time`.
    const MOMENT: OffsetDateTime = {
        let Ok(date) = Date::from_calendar_date(2024, Month::February, 29) else { panic!() };
        let Ok(time) = Time::from_hms_nano(23, 59, 59, 250_000_000) else { panic!() };
        let Ok(offset) = UtcOffset::from_hms(-5, -30, 0) else { panic!() };
        PlainDateTime::new(date, time).assume_offset(offset)
    };
    const WEEKDAY: Weekday = MOMENT.date().weekday();
    const DURATION: Duration = Duration::days(1);

    #[test]
    fn constants_are_the_values_of_calls() {
        let moment: OffsetDateTime = std::hint::black_box("2024-02-29T23:59:59.25-05:30").parse().unwrap();
        assert_eq!((MOMENT, WEEKDAY), (moment, std::hint::black_box(moment).weekday()));
        assert_eq!(MOMENT + DURATION - moment, DURATION);
    }
}
