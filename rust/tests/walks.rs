//! Walks over days, months and weekdays, against lists.

use fotsevindre::iter::{DateIter, MonthIter, WeekdayIter};
use fotsevindre::{Date, Month, Weekday};

fn day(julian_day: i32) -> Date {
    Date::from_julian_day(julian_day).unwrap()
}

#[test]
fn worked_rows() {
    let (first, last) = (day(2_458_848), day(2_458_851));
    let mut walk = first.iter_to(last);
    assert_eq!((walk.len(), walk.size_hint()), (4, (4, Some(4))));
    assert_eq!(walk.nth_back(2), Some(day(2_458_849)));
    assert_eq!(walk.clone().collect::<Vec<_>>(), [first]);
    assert_eq!(walk.nth(usize::MAX), None);
    assert_eq!((walk.next(), walk.next_back(), walk.len()), (None, None, 0));
    assert_eq!(DateIter::new(Date::MIN, Date::MAX).len(), 730_484_634);
    assert_eq!(DateIter::new(Date::MIN, Date::MAX).nth(730_484_633), Some(Date::MAX));
    assert_eq!(DateIter::new(Date::MIN, Date::MAX).nth_back(730_484_633), Some(Date::MIN));
    assert_eq!(DateIter::new(Date::MAX, Date::MIN).next(), None);
    assert_eq!(DateIter::new(Date::MAX, Date::MAX).collect::<Vec<_>>(), [Date::MAX]);
    assert_eq!(DateIter::new(Date::MIN, Date::MIN).rev().collect::<Vec<_>>(), [Date::MIN]);
}

/// Each walk of up to six days, with each two calls, against the list of its days.
#[test]
fn against_lists() {
    for first in [day(2_458_847), Date::MIN] {
        for length in 0..=6 {
            let days: Vec<Date> = (0..length).map(|n| day(first.to_julian_day() + n)).collect();
            let walk = || match days.last() {
                Some(last) => first.iter_to(*last),
                None => day(first.to_julian_day() + 1).iter_to(first),
            };
            assert_eq!(walk().collect::<Vec<_>>(), days);
            assert_eq!(walk().rev().collect::<Vec<_>>(), days.iter().rev().copied().collect::<Vec<_>>());
            assert_eq!((walk().count(), walk().last()), (days.len(), days.last().copied()));
            assert_eq!((walk().min(), walk().max()), (days.first().copied(), days.last().copied()));
            for (one, other) in (0..8).flat_map(|one| (0..8).map(move |other| (one, other))) {
                let (mut walk, mut list) = (walk(), days.iter().copied());
                assert_eq!(walk.nth(one), list.nth(one));
                assert_eq!(walk.nth_back(other), list.nth_back(other));
                assert_eq!(walk.len(), list.len());
                assert_eq!(walk.collect::<Vec<_>>(), list.collect::<Vec<_>>());
            }
        }
    }
}

#[test]
fn endless_walks() {
    let mut months = MonthIter::new(Month::June);
    assert_eq!((months.nth(usize::MAX), months.next()), (Some(Month::September), Some(Month::October)));
    let forwards: Vec<Month> = Month::iter_from(Month::November).take(3).collect();
    assert_eq!(forwards, [Month::November, Month::December, Month::January]);
    let mut back = MonthIter::new(Month::June).rev();
    assert_eq!((back.nth(2), back.next()), (Some(Month::April), Some(Month::March)));
    let weekdays: Vec<Weekday> = Weekday::iter_from(Weekday::Sunday).take(2).collect();
    assert_eq!(weekdays, [Weekday::Sunday, Weekday::Monday]);
    let mut back = WeekdayIter::new(Weekday::Monday).rev();
    assert_eq!((back.next(), back.next(), back.size_hint()), (Some(Weekday::Monday), Some(Weekday::Sunday), (usize::MAX, None)));
}
