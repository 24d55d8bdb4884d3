//! Lists of the values of a rule, from slices.

use crate::cal_recurrence::DateOrTime;
use crate::cal_schedule::Values;
use crate::{ByDay, Date, Month, PlainDateTime, Rule, Weekday};
use core::fmt;

impl Rule {
    /// The maximum number of values of a list, 62.
    pub const MAX_VALUES: usize = 62;
}

/// An error: a slice has more than [`Rule::MAX_VALUES`] values.
///
/// It prints, for example, `too many values: 63; expected at most 62`.
#[derive(Clone, Copy, Debug, PartialEq, Eq, Hash)]
pub struct TooManyValues {
    count: usize,
}

impl fmt::Display for TooManyValues {
    fn fmt(&self, f: &mut fmt::Formatter<'_>) -> fmt::Result {
        write!(f, "too many values: {}; expected at most {}", self.count, Rule::MAX_VALUES)
    }
}

impl core::error::Error for TooManyValues {}

/// Converts slices of each type of value. The filler takes the unused places, which nobody sees.
macro_rules! values {
    ($($kind:ty: $filler:expr;)*) => {
        $(
            /// Copies a slice. Fails if it has more than 62 values.
            impl TryFrom<&[$kind]> for Values<$kind> {
                type Error = TooManyValues;

                fn try_from(values: &[$kind]) -> Result<Self, TooManyValues> {
                    if values.len() > Rule::MAX_VALUES {
                        return Err(TooManyValues { count: values.len() });
                    }
                    Ok(Self::from_slice(values, $filler))
                }
            }
        )*
    };
}

values! {
    i8: 0;
    i16: 0;
    u8: 0;
    Month: Month::January;
    ByDay: ByDay::Every(Weekday::Monday);
    Date: Date::MIN;
    PlainDateTime: PlainDateTime::MIN;
    DateOrTime: DateOrTime::Date(Date::MIN);
}
