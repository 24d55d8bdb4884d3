//! The month and the day of the month of each day of a year, in a table.

use crate::{Date, Month};

/// The month and the day by the low ten bits of a packed date: 512 in a leap year, plus the ordinal.
/// Numbers that no date has are 1 January.
pub(crate) static MONTH_AND_DAY: [(Month, u8); 1024] = {
    let mut table = [(Month::January, 1); 1024];
    let mut number = 1;
    while number < 1024 {
        if let Ok(date) = Date::from_ordinal_date(year(number), (number % 512) as u16) {
            table[number] = date.computed_month_and_day();
        }
        number += 1;
    }
    table
};

/// Returns a leap year for numbers from 512, and a common year for the others.
const fn year(number: usize) -> i32 {
    if number < 512 { 2023 } else { 2024 }
}

#[cfg(test)]
mod tests {
    use crate::{Date, Duration};

    #[test]
    fn the_table_has_the_days_of_each_year() {
        for year in [-999_999, -4, -1, 0, 1, 1900, 2000, 2023, 2024, 999_999] {
            let mut date = Date::from_ordinal_date(year, 1).unwrap();
            while date.year() == year && date < Date::MAX {
                assert_eq!((date.month(), date.day()), date.computed_month_and_day(), "{date}");
                assert_eq!(Date::from_calendar_date(year, date.month(), date.day()), Ok(date));
                date += Duration::days(1);
            }
        }
    }
}
