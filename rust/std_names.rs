//! The names of a locale, from the C library of the system.
#![allow(unsafe_code)]

use crate::names::Names;
use core::array;
use core::ffi::{CStr, c_char, c_int, c_void};
use core::fmt;
use core::ptr::{self, NonNull};
use std::ffi::CString;
use std::string::String;
use std::vec::Vec;

/// The category of a locale that has the names, as glibc and musl number it.
const LC_TIME_MASK: c_int = 1 << 2;

/// The items of the names, as glibc and musl number them: each is the first of a table.
const ABDAY_1: c_int = 0x2_0000;
const DAY_1: c_int = 0x2_0007;
const ABMON_1: c_int = 0x2_000E;
const MON_1: c_int = 0x2_001A;
const AM_STR: c_int = 0x2_0026;
/// The first month without a day, which glibc alone has.
const ALTMON_1: c_int = 0x2_006F;

/// The weekdays of tables that begin with Sunday, from Monday on.
const FROM_MONDAY: [c_int; 7] = [1, 2, 3, 4, 5, 6, 0];

unsafe extern "C" {
    fn newlocale(mask: c_int, name: *const c_char, base: *mut c_void) -> *mut c_void;
    fn nl_langinfo_l(item: c_int, locale: *mut c_void) -> *const c_char;
    fn freelocale(locale: *mut c_void);
}

/// An error: the system has no locale with this name, or its names aren't UTF-8.
#[derive(Clone, Copy, Debug, PartialEq, Eq)]
pub struct NoLocaleError(());

impl fmt::Display for NoLocaleError {
    fn fmt(&self, f: &mut fmt::Formatter<'_>) -> fmt::Result {
        f.write_str("no locale with this name, or its names are not UTF-8")
    }
}

impl std::error::Error for NoLocaleError {}

/// The names of a locale of the system, on Linux. They are without spaces around them.
#[derive(Clone, Debug)]
pub struct LocaleNames {
    months: Vec<String>,
    months_alone: Vec<String>,
    short_months: Vec<String>,
    weekdays: Vec<String>,
    short_weekdays: Vec<String>,
    periods: Vec<String>,
    lower_periods: Vec<String>,
}

impl LocaleNames {
    /// Returns the names of a locale by its name, such as `fr_FR.UTF-8`. Where the C library has only
    /// one form of months, the months without a day are those beside a day. The halves of the day in
    /// lower case are those in upper case, turned to lower case.
    ///
    /// ```
    /// use fotsevindre::names::LocaleNames;
    ///
    /// let english = LocaleNames::new("C").unwrap();
    /// assert_eq!(english.names().months[1], "February");
    /// assert!(LocaleNames::new("xx_XX.UTF-8").is_err());
    /// ```
    pub fn new(locale: &str) -> Result<Self, NoLocaleError> {
        Self::of(&Locale::open(locale).ok_or(NoLocaleError(()))?).ok_or(NoLocaleError(()))
    }

    fn of(locale: &Locale) -> Option<Self> {
        let table =
            |first: c_int, indices: &[c_int]| indices.iter().map(|index| locale.name(first + index)).collect::<Option<Vec<_>>>();
        let months = table(MON_1, &array::from_fn::<_, 12, _>(|index| index as c_int))?;
        let alone = table(ALTMON_1, &array::from_fn::<_, 12, _>(|index| index as c_int))?;
        let periods = table(AM_STR, &[0, 1])?;
        Some(Self {
            months_alone: if alone.iter().any(String::is_empty) { months.clone() } else { alone },
            months,
            short_months: table(ABMON_1, &array::from_fn::<_, 12, _>(|index| index as c_int))?,
            weekdays: table(DAY_1, &FROM_MONDAY)?,
            short_weekdays: table(ABDAY_1, &FROM_MONDAY)?,
            lower_periods: periods.iter().map(|name| name.to_lowercase()).collect(),
            periods,
        })
    }

    /// Returns the names as formats take them.
    #[must_use]
    pub fn names(&self) -> Names<'_> {
        Names {
            months: slices(&self.months),
            months_alone: slices(&self.months_alone),
            short_months: slices(&self.short_months),
            weekdays: slices(&self.weekdays),
            short_weekdays: slices(&self.short_weekdays),
            periods: slices(&self.periods),
            lower_periods: slices(&self.lower_periods),
        }
    }
}

/// Returns strings as an array of their slices.
fn slices<const COUNT: usize>(names: &[String]) -> [&str; COUNT] {
    array::from_fn(|index| names[index].as_str())
}

/// A locale of the C library, which is freed when it is dropped.
struct Locale(NonNull<c_void>);

impl Locale {
    /// Returns the locale with a name, or `None` if the system has none.
    fn open(name: &str) -> Option<Self> {
        let name = CString::new(name).ok()?;
        // SAFETY: the name is a C string, and no base is given.
        let locale = unsafe { newlocale(LC_TIME_MASK, name.as_ptr(), ptr::null_mut()) };
        NonNull::new(locale).map(Self)
    }

    /// Returns a name without spaces around it, or `None` if it isn't UTF-8.
    fn name(&self, item: c_int) -> Option<String> {
        // SAFETY: the locale is open, and the C string that is returned lives at least until the next call.
        let name = unsafe { CStr::from_ptr(nl_langinfo_l(item, self.0.as_ptr())) };
        name.to_str().ok().map(|name| String::from(name.trim()))
    }
}

impl Drop for Locale {
    fn drop(&mut self) {
        // SAFETY: the locale is open, and nothing uses it afterwards.
        unsafe { freelocale(self.0.as_ptr()) }
    }
}
