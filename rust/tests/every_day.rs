//! Every day of the range against a count of one day at a time.

use fotsevindre::{Date, Month, Weekday};
use std::thread;

const FIRST_JULIAN_DAY: i32 = -363_521_074;
const LAST_JULIAN_DAY: i32 = 366_963_559;
const DAYS: i64 = 730_484_634;

/// A day of the count, by all that it has.
struct Counted {
    julian_day: i32,
    year: i32,
    month: u8,
    day: u8,
    ordinal: u16,
    iso_year: i32,
    week: u8,
    weekday: u8,
    month_length: u8,
}

impl Counted {
    /// The first day of the range, a Monday.
    fn first() -> Self {
        Self {
            julian_day: FIRST_JULIAN_DAY,
            year: -999_999,
            month: 1,
            day: 1,
            ordinal: 1,
            iso_year: -999_999,
            week: 1,
            weekday: 0,
            month_length: 31,
        }
    }

    fn length_of_month(&self) -> u8 {
        match self.month {
            2 if self.year % 4 == 0 && (self.year % 100 != 0 || self.year % 400 == 0) => 29,
            2 => 28,
            4 | 6 | 9 | 11 => 30,
            _ => 31,
        }
    }

    /// Goes on by one day.
    fn step(&mut self) {
        self.julian_day += 1;
        self.day += 1;
        self.ordinal += 1;
        if self.day > self.month_length {
            self.day = 1;
            self.month += 1;
            if self.month > 12 {
                self.month = 1;
                self.year += 1;
                self.ordinal = 1;
            }
            self.month_length = self.length_of_month();
        }
        self.weekday += 1;
        if self.weekday == 7 {
            self.weekday = 0;
            self.begin_week();
        }
    }

    /// A week that begins belongs to the year of its Thursday, three days on.
    fn begin_week(&mut self) {
        let year = self.year + i32::from(self.month == 12 && self.day >= 29);
        self.week = if year == self.iso_year { self.week + 1 } else { 1 };
        self.iso_year = year;
    }
}

const MONTHS: [Month; 13] = [
    Month::December,
    Month::January,
    Month::February,
    Month::March,
    Month::April,
    Month::May,
    Month::June,
    Month::July,
    Month::August,
    Month::September,
    Month::October,
    Month::November,
    Month::December,
];

const WEEKDAYS: [Weekday; 7] =
    [Weekday::Monday, Weekday::Tuesday, Weekday::Wednesday, Weekday::Thursday, Weekday::Friday, Weekday::Saturday, Weekday::Sunday];

/// Counts from the first day of the range on, and compares each day from the one Julian day to before the other. It returns the day of
/// the count that comes next.
fn compare_days(from: i32, to: i32) -> Counted {
    let mut counted = Counted::first();
    while counted.julian_day < from {
        counted.step();
    }
    while counted.julian_day < to {
        let (month, weekday) = (MONTHS[usize::from(counted.month)], WEEKDAYS[usize::from(counted.weekday)]);
        let date = Date::from_julian_day(counted.julian_day).unwrap();
        let right = date.to_julian_day() == counted.julian_day
            && date.to_calendar_date() == (counted.year, month, counted.day)
            && date.to_ordinal_date() == (counted.year, counted.ordinal)
            && date.to_iso_week_date() == (counted.iso_year, counted.week, weekday)
            && Date::from_calendar_date(counted.year, month, counted.day) == Ok(date)
            && Date::from_ordinal_date(counted.year, counted.ordinal) == Ok(date)
            && Date::from_iso_week_date(counted.iso_year, counted.week, weekday) == Ok(date);
        assert!(right, "{date}: Julian day {}, {} {} {}", counted.julian_day, counted.year, month, counted.day);
        counted.step();
    }
    counted
}

/// Each day of the range, by as many threads as the machine runs at a time.
#[test]
fn every_day_is_that_of_the_count() {
    let threads = thread::available_parallelism().map_or(1, |threads| threads.get() as i64);
    let start_of = |part: i64| (i64::from(FIRST_JULIAN_DAY) + DAYS * part / threads) as i32;
    thread::scope(|scope| {
        for part in 0..threads {
            scope.spawn(move || compare_days(start_of(part), start_of(part + 1)));
        }
    });
    assert_eq!(start_of(threads), LAST_JULIAN_DAY + 1);
    let after = compare_days(LAST_JULIAN_DAY, LAST_JULIAN_DAY + 1);
    assert_eq!((after.year, after.month, after.day), (1_000_000, 1, 1));
}

/// The parts one by one, and the days before and after, of each day of 400 years at each end of the range and before the year 0.
#[test]
fn parts_are_those_of_the_whole() {
    for first in [FIRST_JULIAN_DAY, 1_648_000, LAST_JULIAN_DAY - 146_097] {
        for julian_day in first..=first + 146_097 {
            let date = Date::from_julian_day(julian_day).unwrap();
            assert_eq!((date.year(), date.month(), date.day()), date.to_calendar_date());
            assert_eq!((date.year(), date.ordinal()), date.to_ordinal_date());
            assert_eq!((date.iso_week(), date.weekday()), (date.to_iso_week_date().1, date.to_iso_week_date().2));
            assert_eq!(date.weekday(), WEEKDAYS[julian_day.rem_euclid(7) as usize]);
            assert_eq!(date.next_day(), Date::from_julian_day(julian_day + 1).ok());
            assert_eq!(date.previous_day(), Date::from_julian_day(julian_day - 1).ok());
        }
    }
}

/// The Sundays and the Mondays of the year so far, counted.
#[test]
fn week_counts_are_counted() {
    for first in [FIRST_JULIAN_DAY, 2_305_448, LAST_JULIAN_DAY - 146_097 + 1] {
        let (mut sundays, mut mondays) = (0, 0);
        for julian_day in first..first + 146_097 {
            let date = Date::from_julian_day(julian_day).unwrap();
            if date.ordinal() == 1 {
                (sundays, mondays) = (0, 0);
            }
            sundays += u8::from(julian_day.rem_euclid(7) == 6);
            mondays += u8::from(julian_day.rem_euclid(7) == 0);
            if date.year() > Date::from_julian_day(first).unwrap().year() {
                assert_eq!((date.sunday_based_week(), date.monday_based_week()), (sundays, mondays), "{date}");
            }
        }
    }
}
