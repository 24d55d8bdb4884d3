//! Zones and working days.

use crate::error::ZoneError;
use crate::schedule::HolidayRule;
use crate::{Date, Local, OffsetDateTime, Policy, Workdays, Zone, cal_holidays, cal_tzif};

impl Local {
    /// Returns the date-time that a policy selects, or `None` if it is out of range or rejected.
    pub fn by(self, policy: Policy) -> Option<OffsetDateTime> {
        self.select(policy).ok()
    }
}

impl<'a> Zone<'a> {
    /// Parses a TZif file (RFC 9636) of the versions 2 to 4.
    ///
    /// # Errors
    ///
    /// Returns the position of the first wrong byte, and the reason.
    pub fn parse(bytes: &'a [u8]) -> Result<Self, ZoneError> {
        cal_tzif::parse(bytes)
    }

    /// Parses a POSIX string, such as `CET-1CEST,M3.5.0,M10.5.0/3`.
    ///
    /// # Errors
    ///
    /// Returns the position of the first wrong byte, and the reason.
    pub fn parse_posix(text: &'a str) -> Result<Self, ZoneError> {
        cal_tzif::parse_posix(text.as_bytes())
    }

    /// Returns the abbreviation at a Unix time, such as `CEST`, or an empty string if the zone has
    /// none.
    pub fn abbreviation_at(&self, instant: i64) -> &'a str {
        let name = self.kind_at(instant).abbreviation(self.unchecked.table.bytes);
        core::str::from_utf8(name).unwrap_or_default()
    }
}

impl Workdays<'_> {
    /// The working days of most countries.
    pub const MONDAY_TO_FRIDAY: [bool; 7] = [true, true, true, true, true, false, false];
}

impl<'a> Workdays<'a> {
    /// Creates a calendar from a mark for each weekday, from Monday to Sunday, and the holidays of
    /// rules from one date through another, which are written to the front of the buffer. Before and
    /// after these dates it has no holidays.
    ///
    /// Returns `None` if the buffer has fewer places than there are holidays.
    ///
    /// ```
    /// use fotsevindre::schedule::CALENDARS;
    /// use fotsevindre::{Date, Month, Workdays};
    ///
    /// let (_, target) = CALENDARS.iter().find(|calendar| calendar.0 == "target").unwrap();
    /// let first = Date::from_calendar_date(2024, Month::January, 1)?;
    /// let last = Date::from_calendar_date(2024, Month::December, 31)?;
    /// let mut buffer = [Date::MIN; 20];
    /// let days = Workdays::from_rules(Workdays::MONDAY_TO_FRIDAY, target, first, last, &mut buffer).unwrap();
    ///
    /// let maundy_thursday = Date::from_calendar_date(2024, Month::March, 28)?;
    /// assert_eq!(days.next_workday(maundy_thursday).unwrap().to_string(), "2024-04-02");
    /// # Ok::<(), fotsevindre::error::ComponentRange>(())
    /// ```
    pub fn from_rules(marks: [bool; 7], rules: &[HolidayRule], first: Date, last: Date, days: &'a mut [Date]) -> Option<Self> {
        cal_holidays::workdays_from_rules(marks, rules, first, last, days)
    }
}
