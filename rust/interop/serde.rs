//! Values as their strings in serde. `FromStr` parses them.
//!
//! Durations have no string that parses.

use crate::{Date, Month, OffsetDateTime, PlainDateTime, Time, UtcOffset, Weekday};
use ::serde::de::{Deserialize, Deserializer, Error, Visitor};
use ::serde::ser::{Serialize, Serializer};
use core::fmt::{self, Display};
use core::marker::PhantomData;
use core::str::FromStr;

/// Parses a string.
struct OfString<T>(PhantomData<T>);

impl<T: FromStr<Err: Display>> Visitor<'_> for OfString<T> {
    type Value = T;

    fn expecting(&self, f: &mut fmt::Formatter<'_>) -> fmt::Result {
        f.write_str("a string")
    }

    fn visit_str<E: Error>(self, text: &str) -> Result<T, E> {
        text.parse().map_err(E::custom)
    }
}

macro_rules! strings {
    ($($kind:ident: $example:literal;)*) => {
        $(
            #[doc = concat!("Serializes the string of the value, such as `", $example, "`.")]
            impl Serialize for $kind {
                fn serialize<S: Serializer>(&self, serializer: S) -> Result<S::Ok, S::Error> {
                    serializer.collect_str(self)
                }
            }

            /// Deserializes a string, like `FromStr`.
            impl<'de> Deserialize<'de> for $kind {
                fn deserialize<D: Deserializer<'de>>(deserializer: D) -> Result<Self, D::Error> {
                    deserializer.deserialize_str(OfString(PhantomData))
                }
            }
        )*
    };
}

strings! {
    Date: "2024-02-29";
    Time: "9:05:00.12";
    UtcOffset: "+01:00:00";
    PlainDateTime: "2024-02-29 9:05:00.12";
    OffsetDateTime: "2024-02-29 9:05:00.12 +01:00:00";
    Month: "February";
    Weekday: "Thursday";
}
