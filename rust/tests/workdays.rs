//! Working days, by the federal holidays of the United States in 2024 and by rows of numpy's `busday_offset`.

use fotsevindre::{Convention, Date, Month, Workdays};

fn day(year: i32, month: u8, day: u8) -> Date {
    Date::from_calendar_date(year, Month::try_from(month).unwrap(), day).unwrap()
}

fn holidays() -> [Date; 10] {
    [(1, 1), (1, 15), (2, 19), (5, 27), (6, 19), (7, 4), (9, 2), (11, 11), (11, 28), (12, 25)]
        .map(|(month, of_month)| day(2024, month, of_month))
}

#[test]
fn days_of_2024() {
    let holidays = holidays();
    let workdays = Workdays::new(Workdays::MONDAY_TO_FRIDAY, &holidays).unwrap();
    assert_eq!(workdays.workdays_between(day(2024, 1, 1), day(2025, 1, 1)), 252);
    assert_eq!(workdays.workdays_between(day(2025, 1, 1), day(2024, 1, 1)), -252);
    assert!(!workdays.is_workday(day(2024, 7, 4)) && workdays.is_workday(day(2024, 7, 5)) && !workdays.is_workday(day(2024, 7, 6)));
    assert_eq!(workdays.next_workday(day(2024, 7, 3)), Some(day(2024, 7, 5)));
    assert_eq!(workdays.previous_workday(day(2024, 7, 8)), Some(day(2024, 7, 5)));
}

#[test]
fn so_many_working_days() {
    let workdays = Workdays::new(Workdays::MONDAY_TO_FRIDAY, &[]).unwrap();
    let saturday = day(2024, 3, 2);
    for (days, wanted) in [(0, day(2024, 3, 4)), (1, day(2024, 3, 4)), (-1, day(2024, 3, 1)), (10, day(2024, 3, 15))] {
        assert_eq!(workdays.checked_add_workdays(saturday, days), Some(wanted), "{days}");
    }
    // The last day of the range is a Friday, and the first one a Monday.
    assert_eq!((workdays.next_workday(Date::MAX), workdays.previous_workday(Date::MIN)), (None, None));
    assert_eq!(workdays.checked_add_workdays(Date::MIN, i32::MIN), None);
    let none = Workdays::new([false; 7], &[]).unwrap();
    assert_eq!((none.next_workday(saturday), none.workdays_between(Date::MIN, Date::MAX)), (None, 0));
}

#[test]
fn conventions() {
    let workdays = Workdays::new(Workdays::MONDAY_TO_FRIDAY, &[]).unwrap();
    let (end, start) = (day(2024, 8, 31), day(2024, 6, 1));
    for (date, convention, wanted) in [
        (end, Convention::Unadjusted, end),
        (end, Convention::Following, day(2024, 9, 2)),
        (end, Convention::ModifiedFollowing, day(2024, 8, 30)),
        (end, Convention::Preceding, day(2024, 8, 30)),
        (start, Convention::Preceding, day(2024, 5, 31)),
        (start, Convention::ModifiedPreceding, day(2024, 6, 3)),
    ] {
        assert_eq!(workdays.adjust(date, convention), Some(wanted), "{date} {convention:?}");
    }
}

#[test]
fn lists_of_holidays() {
    let holidays = holidays();
    let [first, second, ..] = holidays;
    assert!(Workdays::new([true; 7], &[first, first]).is_none() && Workdays::new([true; 7], &[second, first]).is_none());
    // Their number has no limit.
    let many: Vec<_> = (0..=1024).map(|days| Date::from_julian_day(2_460_000 + days).unwrap()).collect();
    let most = Workdays::new([true; 7], &many).unwrap();
    assert_eq!(most.next_workday(many[0]), Date::from_julian_day(2_461_025).ok());
}
