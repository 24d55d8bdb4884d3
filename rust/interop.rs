//! Conversions from and to other crates, for the package in this module's folder.

#[cfg(feature = "chrono")]
mod chrono;
#[cfg(feature = "serde")]
mod serde;
#[cfg(feature = "time")]
mod time;

/// Converts an enum to another with the same variants, and back.
#[cfg(any(feature = "chrono", feature = "time"))]
macro_rules! same_variants {
    ($own:ident, $other:ty, $($variant:ident)*) => {
        impl From<$other> for $own {
            fn from(value: $other) -> Self {
                match value {
                    $(<$other>::$variant => Self::$variant),*
                }
            }
        }

        impl From<$own> for $other {
            fn from(value: $own) -> Self {
                match value {
                    $($own::$variant => Self::$variant),*
                }
            }
        }
    };
}

#[cfg(any(feature = "chrono", feature = "time"))]
use same_variants;
