//! The names of languages by their codes, and in formats.

use crate::cal_format::{Item, Moment};
use crate::cal_named_format as named;
use crate::cal_names::names_of;
use crate::format::{DateFormat, DateTimeFormat, Format, OffsetDateTimeFormat, ParseError, TimeFormat};
use crate::names::Names;
use crate::{Date, OffsetDateTime, PlainDateTime, Time};
use core::fmt;

/// A format with the names of a table in place of the English names, such as of a [`DateFormat`].
/// Each string that it prints of a value that the format holds is the string of this value only.
///
/// ```
/// use fotsevindre::format::{Format, ParseError};
/// use fotsevindre::names::NamesError;
/// use fotsevindre::names::languages::{FRENCH, JAPANESE, TURKISH};
/// use fotsevindre::{Date, Time};
///
/// let format = Format::new("%A, %-d %B %Y").unwrap().for_dates().unwrap();
/// let format = format.with_names(&FRENCH).unwrap();
/// let date = format.parse("jeudi, 29 février 2024".as_bytes()).unwrap();
/// assert_eq!(date, Date::from_ordinal_date(2024, 60).unwrap());
/// assert_eq!(format.parse("jeudi, 29 fevrier 2024".as_bytes()), Err(ParseError::UnexpectedByte(11)));
/// let mut buffer = [0; 100];
/// let length = format.print(date, &mut buffer).unwrap();
/// assert_eq!(&buffer[..length], "jeudi, 29 février 2024".as_bytes());
///
/// let format = Format::new("%p%-I:%M").unwrap().for_times().unwrap().with_names(&JAPANESE).unwrap();
/// assert_eq!(format.parse("午後7:30".as_bytes()), Ok(Time::from_hms(19, 30, 0).unwrap()));
///
/// // Sunday is `Pazar`, and Monday is `Pazartesi`, so a `t` can't come after a weekday.
/// let format = Format::new("%Atesi %F").unwrap().for_dates().unwrap();
/// let error = NamesError::AmbiguousNames { item: 0, name: "Pazar", other: "Pazartesi" };
/// assert_eq!(format.with_names(&TURKISH).unwrap_err(), error);
/// ```
#[derive(Debug)]
pub struct NamedFormat<'n, F> {
    format: F,
    names: Names<'n>,
}

/// An error: two values could have the same string in a format with the names of a table.
#[derive(Clone, Copy, Debug, PartialEq, Eq, Hash)]
pub enum NamesError<'n> {
    /// Two names of the item are the same, or a name goes on to the other one with what comes after
    /// the item.
    AmbiguousNames {
        /// The index of the item in the format, from 0. Each byte, number, name and sign is an item.
        item: usize,
        /// The name that may go on, such as `Pazar`.
        name: &'n str,
        /// The other name, such as `Pazartesi`.
        other: &'n str,
    },
    /// A number, a fraction or a sign goes on with what comes after it.
    AmbiguousNumber {
        /// The index of the item in the format, from 0.
        item: usize,
        /// The first byte with which it goes on, such as the digit of a Japanese month.
        byte: u8,
    },
}

impl fmt::Display for NamesError<'_> {
    fn fmt(&self, f: &mut fmt::Formatter<'_>) -> fmt::Result {
        match *self {
            Self::AmbiguousNames { item, name, other } if name == other => write!(f, "two names of item {item} are {name:?}"),
            Self::AmbiguousNames { item, name, other } => write!(f, "{name:?} of item {item} can go on to {other:?}"),
            Self::AmbiguousNumber { item, byte } => write!(f, "item {item} can go on with {:?}", char::from(byte)),
        }
    }
}

/// Checks that each string of a format with these names has one value.
fn check<'n>(format: &Format, names: &Names<'n>) -> Result<(), NamesError<'n>> {
    named::check_names(format.items(), names).map_err(|error| match error {
        named::NamesError::AmbiguousNames(item, name, other) => {
            let Item::Name(kind) = format.items()[item] else { unreachable!("only names are ambiguous names") };
            let table = named::table_of(names, kind);
            NamesError::AmbiguousNames { item, name: table[name], other: table[other] }
        }
        named::NamesError::AmbiguousNumber(item, byte) => NamesError::AmbiguousNumber { item, byte },
    })
}

/// Defines the methods of formats with names.
macro_rules! named_formats {
    ($($format:ident: $value:ident, $moment_of:ident, $parse:ident;)*) => {
        $(
            impl $format {
                /// Returns the format with these names in place of the English names. `%B` shows a
                /// month beside a day, and `%OB` a month without one.
                ///
                /// # Errors
                ///
                /// Returns the reason why two values could have the same string, for the first item
                /// that has one.
                pub fn with_names<'n>(self, names: &Names<'n>) -> Result<NamedFormat<'n, Self>, NamesError<'n>> {
                    check(self.as_format(), names)?;
                    Ok(NamedFormat { format: self, names: *names })
                }
            }

            impl NamedFormat<'_, $format> {
                /// Writes a value to the front of the buffer, and returns the number of bytes.
                /// Returns `None` if the buffer is too short, and may then change it.
                pub fn print(&self, value: $value, buffer: &mut [u8]) -> Option<usize> {
                    named::print(self.format.as_format().items(), &self.names, &Moment::$moment_of(value), buffer, 0)
                }

                /// Parses a string. Returns the value that the format holds and prints as this
                /// string. Bytes are compared as they are, and the longest name wins.
                ///
                /// # Errors
                ///
                /// Returns `UnexpectedByte` or `UnexpectedEnd`, else `OutOfRange` for the first
                /// component out of range, else `Contradiction`.
                pub fn parse(&self, text: &[u8]) -> Result<$value, ParseError> {
                    named::$parse(&self.format, &self.names, text)
                }
            }
        )*
    };
}

named_formats! {
    DateFormat: Date, of_date, parse_date;
    TimeFormat: Time, of_time, parse_time;
    DateTimeFormat: PlainDateTime, of_date_time, parse_date_time;
    OffsetDateTimeFormat: OffsetDateTime, of_offset_date_time, parse_offset_date_time;
}

impl Names<'static> {
    /// Returns the names of a language by its code of ISO 639-1: `ar`, `de`, `en`, `es`, `fr`,
    /// `it`, `ja`, `pl`, `pt`, `ru`, `tr` or `zh`. Returns `None` for another code.
    ///
    /// ```
    /// use fotsevindre::names::{Names, table};
    /// use fotsevindre::{Month, Weekday};
    ///
    /// let names = Names::of_language("fr").unwrap();
    /// assert_eq!(names.month(Month::February), "février");
    /// assert_eq!(names.weekday(Weekday::Thursday), "jeudi");
    /// assert_eq!(table::find(&names.months, "février 2024".as_bytes()), Some(1));
    /// ```
    pub fn of_language(code: &str) -> Option<Self> {
        names_of(code.as_bytes()).copied()
    }
}
