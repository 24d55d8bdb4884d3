//! Columns: worked rows, each row against the call of one value, and columns that are not of one length.

use fotsevindre::columns::{self, RowError, row_error};
use fotsevindre::error::{ComponentRange, DurationComponent};
use fotsevindre::format::ParseError;
use fotsevindre::{
    Date, Format, Month, PlainDateTime, RoundingMode, RoundingUnit, SignedDuration as Duration, Time, Weekday, Workdays,
};
use std::panic::catch_unwind;

const ROWS: usize = 20_000;

/// Numbers drawn one after another.
struct Draw(u64);

impl Draw {
    fn word(&mut self) -> u64 {
        self.0 = self.0.wrapping_mul(6_364_136_223_846_793_005).wrapping_add(1_442_695_040_888_963_407);
        self.0 ^ (self.0 >> 29)
    }

    fn from(&mut self, min: i64, max: i64) -> i64 {
        min + (self.word() % (max - min + 1) as u64) as i64
    }
}

/// A column of numbers, half of them of the range and a little beside it, and half of them of any bits.
fn column<T>(seed: u64, min: i64, max: i64, of_word: impl Fn(i64) -> T) -> Vec<T> {
    let mut draw = Draw(seed);
    (0..ROWS).map(|row| of_word(if row % 2 == 0 { draw.from(min, max) } else { draw.word() as i64 })).collect()
}

/// The number of a date or a year after an error.
const NO_VALUE: i32 = i32::MIN;

/// Compares rows of made dates and their statuses with what the calls of one value make, and the count of those with none.
#[track_caller]
fn same(dates: &[i32], statuses: &[u8], errors: usize, one_by_one: impl Iterator<Item = Result<Date, ComponentRange>>) {
    let one_by_one: Vec<_> = one_by_one.collect();
    assert_eq!(one_by_one.len(), dates.len());
    for (row, answer) in one_by_one.iter().enumerate() {
        assert_eq!(dates[row], answer.map_or(NO_VALUE, Date::to_julian_day), "{row}");
        assert_eq!(row_error(statuses[row]), answer.err().map(RowError::OutOfRange), "{row}");
    }
    assert_eq!(errors, one_by_one.iter().filter(|answer| answer.is_err()).count());
    assert!(errors > 0 && errors < dates.len());
}

/// Returns the component of a row that is out of range.
fn component(status: u8) -> (&'static str, bool) {
    match row_error(status) {
        Some(RowError::OutOfRange(error)) => (error.name(), error.is_conditional()),
        other => panic!("{other:?}"),
    }
}

#[test]
fn worked_rows() {
    let (mut dates, mut statuses) = ([0; 6], [0; 6]);
    let (years, weeks, weekdays) = ([2020, 2019, 999_999, 999_999, 2020, 1_000_000], [53, 53, 52, 52, 1, 1], [5, 1, 5, 6, 0, 8]);
    assert_eq!(columns::dates_from_iso_week_dates(&years, &weeks, &weekdays, &mut dates, &mut statuses), 4);
    assert_eq!(dates, [2_459_216, NO_VALUE, 366_963_559, NO_VALUE, NO_VALUE, NO_VALUE]);
    assert_eq!((row_error(statuses[0]), row_error(statuses[2])), (None, None));
    let row_errors = [1, 3, 4, 5].map(|row| component(statuses[row]));
    assert_eq!(row_errors, [("week", true), ("weekday", true), ("weekday", false), ("weekday", false)]);

    let (mut moved, mut statuses) = ([0; 4], [0; 4]);
    let dates = [366_963_559, -363_521_074, 2_460_370, 366_963_560];
    assert_eq!(columns::dates_add_days(&dates, &[1, -1, 366, 0], &mut moved, &mut statuses), 3);
    assert_eq!(moved, [NO_VALUE, NO_VALUE, 2_460_736, NO_VALUE]);
    let row_errors = statuses.map(row_error);
    assert_eq!(row_errors, [Some(RowError::ResultOutOfRange), Some(RowError::ResultOutOfRange), None, Some(RowError::InvalidDate)]);
}

#[test]
fn dates_made() {
    let years = column(1, -1_000_009, 1_000_009, |word| word as i32);
    let (small, greater) = (column(2, 0, 13, |word| word as u8), column(3, 0, 60, |word| word as u8));
    let ordinals = column(7, 0, 400, |word| word as u16);
    let julian_days = column(4, -363_600_000, 367_000_000, |word| word);
    let (mut dates, mut statuses) = (vec![0; ROWS], vec![0; ROWS]);
    let one_of = |number: i64| i32::try_from(number).map(Date::from_julian_day);
    let none = Date::from_julian_day(i32::MAX);
    let errors = columns::dates_from_julian_days(&julian_days, &mut dates, &mut statuses);
    same(&dates, &statuses, errors, julian_days.iter().map(|number| one_of(*number).unwrap_or(none)));

    let errors = columns::dates_from_calendar_dates(&years, &small, &greater, &mut dates, &mut statuses);
    let one_of = |row| Month::try_from(small[row]).and_then(|month| Date::from_calendar_date(years[row], month, greater[row]));
    same(&dates, &statuses, errors, (0..ROWS).map(one_of));
    let errors = columns::dates_from_ordinal_dates(&years, &ordinals, &mut dates, &mut statuses);
    same(&dates, &statuses, errors, (0..ROWS).map(|row| Date::from_ordinal_date(years[row], ordinals[row])));

    let errors = columns::dates_from_iso_week_dates(&years, &greater, &small, &mut dates, &mut statuses);
    assert_eq!(errors, statuses.iter().filter(|status| **status != 0).count());
    for row in 0..ROWS {
        let weekday = Weekday::iter_from(Weekday::Monday).take(7).find(|weekday| weekday.number_from_monday() == small[row]);
        match weekday.map(|weekday| Date::from_iso_week_date(years[row], greater[row], weekday)) {
            Some(answer) => {
                assert_eq!(dates[row], answer.map_or(NO_VALUE, Date::to_julian_day));
                assert_eq!(row_error(statuses[row]), answer.err().map(RowError::OutOfRange));
            }
            None => assert_eq!((dates[row], component(statuses[row])), (NO_VALUE, ("weekday", false))),
        }
    }
}

/// Each row against the calls of one value; half of the rows are of no date.
#[test]
fn what_dates_have() {
    let dates = column(5, -363_521_074, 366_963_559, |word| word as i32);
    let days = column(6, -400_000_000, 400_000_000, |word| word);
    let (mut years, mut ordinal_years, mut iso_years, mut moved) = (vec![0; ROWS], vec![0; ROWS], vec![0; ROWS], vec![0; ROWS]);
    let (mut months, mut month_days, mut weeks, mut weekdays) = (vec![0; ROWS], vec![0; ROWS], vec![0; ROWS], vec![0; ROWS]);
    let (mut ordinals, mut week_weekdays, mut statuses) = (vec![0; ROWS], vec![0; ROWS], vec![0; ROWS]);
    let counts = [
        columns::dates_to_calendar_dates(&dates, &mut years, &mut months, &mut month_days, &mut statuses),
        columns::dates_to_ordinal_dates(&dates, &mut ordinal_years, &mut ordinals, &mut statuses),
        columns::dates_to_iso_week_dates(&dates, &mut iso_years, &mut weeks, &mut week_weekdays, &mut statuses),
        columns::dates_weekdays(&dates, &mut weekdays, &mut statuses),
    ];
    let none = statuses.iter().filter(|status| row_error(**status) == Some(RowError::InvalidDate)).count();
    assert!(counts == [none; 4] && none > 0);
    for row in 0..ROWS {
        let Ok(date) = Date::from_julian_day(dates[row]) else {
            assert_eq!((years[row], months[row], month_days[row]), (NO_VALUE, 0, 0));
            assert_eq!((ordinal_years[row], ordinals[row]), (NO_VALUE, 0));
            assert_eq!((iso_years[row], weeks[row], week_weekdays[row], weekdays[row]), (NO_VALUE, 0, 0, 0));
            continue;
        };
        let (year, month, day) = date.to_calendar_date();
        assert_eq!((years[row], months[row], month_days[row]), (year, month as u8, day));
        assert_eq!((ordinal_years[row], ordinals[row]), date.to_ordinal_date());
        let (iso_year, week, weekday) = date.to_iso_week_date();
        assert_eq!((iso_years[row], weeks[row], week_weekdays[row]), (iso_year, week, weekday.number_from_monday()));
        assert_eq!(weekdays[row], weekday.number_from_monday());
    }
    let errors = columns::dates_add_days(&dates, &days, &mut moved, &mut statuses);
    for row in 0..ROWS {
        let later =
            i32::try_from(i64::from(dates[row]).saturating_add(days[row])).ok().filter(|day| Date::from_julian_day(*day).is_ok());
        let expected = match Date::from_julian_day(dates[row]) {
            Ok(_) if later.is_some() => None,
            Ok(_) => Some(RowError::ResultOutOfRange),
            Err(_) => Some(RowError::InvalidDate),
        };
        assert_eq!(row_error(statuses[row]), expected);
        assert_eq!(moved[row], if expected.is_none() { later.unwrap() } else { NO_VALUE });
    }
    assert_eq!(errors, statuses.iter().filter(|status| **status != 0).count());
}

/// Returns the row of a call that adds months or working days, and its error.
fn row_after_move(date: i32, moved: impl Fn(Date) -> Option<Date>) -> (i32, Option<RowError>) {
    match Date::from_julian_day(date).map(moved) {
        Ok(Some(later)) => (later.to_julian_day(), None),
        Ok(None) => (NO_VALUE, Some(RowError::ResultOutOfRange)),
        Err(_) => (NO_VALUE, Some(RowError::InvalidDate)),
    }
}

#[test]
fn dates_of_the_schedule() {
    let mut dates = column(5, -363_521_074, 366_963_559, |word| word as i32);
    let mut others = column(8, -363_521_074, 366_963_559, |word| word as i32);
    let mut moves = column(9, -24_000_000, 24_000_000, |word| word as i32);
    // Both ends of the range, moved past it and to its other end.
    dates[..6].copy_from_slice(&[-363_521_074, -363_521_074, -363_521_074, 366_963_559, 366_963_559, 366_963_559]);
    others[..6].copy_from_slice(&[-363_521_074, 366_963_559, 0, 366_963_559, -363_521_074, 0]);
    moves[..6].copy_from_slice(&[0, -1, 23_999_987, 0, 1, -23_999_987]);
    let (mut moved, mut statuses) = (vec![0; ROWS], vec![0; ROWS]);
    let errors = columns::dates_add_months(&dates, &moves, &mut moved, &mut statuses);
    assert_eq!(errors, statuses.iter().filter(|status| **status != 0).count());
    for row in 0..ROWS {
        let expected = row_after_move(dates[row], |date| date.checked_add_months(moves[row]));
        assert_eq!((moved[row], row_error(statuses[row])), expected, "{row}");
    }

    let holidays = [-363_521_073, 2_451_545, 366_963_557, 366_963_558].map(|day| Date::from_julian_day(day).unwrap());
    let workdays = Workdays::new(Workdays::MONDAY_TO_FRIDAY, &holidays).unwrap();
    let errors = columns::dates_add_workdays(&dates, &moves, &workdays, &mut moved, &mut statuses);
    assert_eq!(errors, statuses.iter().filter(|status| **status != 0).count());
    for row in 0..ROWS {
        let expected = row_after_move(dates[row], |date| workdays.checked_add_workdays(date, moves[row]));
        assert_eq!((moved[row], row_error(statuses[row])), expected, "{row}");
    }

    let mut numbers = vec![0; ROWS];
    let errors = columns::dates_workdays_between(&dates, &others, &workdays, &mut numbers, &mut statuses);
    assert_eq!(errors, statuses.iter().filter(|status| **status != 0).count());
    for row in 0..ROWS {
        let expected = match (Date::from_julian_day(dates[row]), Date::from_julian_day(others[row])) {
            (Ok(date), Ok(other)) => (workdays.workdays_between(date, other), None),
            _ => (NO_VALUE, Some(RowError::InvalidDate)),
        };
        assert_eq!((numbers[row], row_error(statuses[row])), expected, "{row}");
    }
}

/// What one call writes is what the next one takes: by the dates the same as at once, and back again.
#[test]
fn columns_chain() {
    let years = column(1, -1_000_009, 1_000_009, |word| word as i32);
    let (months, days) = (column(2, 0, 13, |word| word as u8), column(3, 0, 32, |word| word as u8));
    let (mut dates, mut made, mut statuses) = (vec![0; ROWS], vec![0; ROWS], vec![0; ROWS]);
    let (mut iso_years, mut weeks, mut weekdays) = (vec![0; ROWS], vec![0; ROWS], vec![0; ROWS]);
    let (mut at_once_years, mut at_once_weeks, mut at_once_weekdays) = (vec![0; ROWS], vec![0; ROWS], vec![0; ROWS]);
    let errors = columns::dates_from_calendar_dates(&years, &months, &days, &mut dates, &mut made);
    assert_eq!(columns::dates_to_iso_week_dates(&dates, &mut iso_years, &mut weeks, &mut weekdays, &mut statuses), errors);
    let at_once = columns::calendar_dates_to_iso_week_dates(
        &years,
        &months,
        &days,
        &mut at_once_years,
        &mut at_once_weeks,
        &mut at_once_weekdays,
        &mut statuses,
    );
    assert_eq!((at_once, &statuses), (errors, &made));
    assert_eq!((&at_once_years, &at_once_weeks, &at_once_weekdays), (&iso_years, &weeks, &weekdays));
    let mut back = vec![0; ROWS];
    assert_eq!(columns::dates_from_iso_week_dates(&iso_years, &weeks, &weekdays, &mut back, &mut statuses), errors);
    assert_eq!(back, dates);
    assert_eq!([Date::MIN, Date::MAX].map(Date::to_julian_day), [-363_521_074, 366_963_559]);
}

/// A call panics where its columns are not of one length, and answers where each has none.
#[test]
fn columns_of_other_lengths() {
    let (numbers, parts, longs, shorts) = ([1; 3], [1; 3], [1; 3], [1; 3]);
    let (whole, byte) = (|length| vec![0_i32; length], |length| vec![0_u8; length]);
    for lengths in
        [[1, 2, 2, 2, 2], [2, 1, 2, 2, 2], [2, 2, 1, 2, 2], [2, 2, 2, 1, 2], [2, 2, 2, 2, 1], [2, 2, 2, 2, 3], [0, 1, 1, 1, 1]]
    {
        let [a, b, c, d, e] = lengths;
        let (n, p, q) = (&numbers[..a], &parts[..b], &parts[..c]);
        assert!(catch_unwind(|| columns::dates_from_calendar_dates(n, p, q, &mut whole(d), &mut byte(e))).is_err());
        assert!(catch_unwind(|| columns::dates_from_iso_week_dates(n, p, q, &mut whole(d), &mut byte(e))).is_err());
        assert!(
            catch_unwind(|| columns::dates_to_calendar_dates(n, &mut whole(b), &mut byte(c), &mut byte(d), &mut byte(e))).is_err()
        );
        assert!(
            catch_unwind(|| columns::dates_to_iso_week_dates(n, &mut whole(b), &mut byte(c), &mut byte(d), &mut byte(e))).is_err()
        );
        assert!(
            catch_unwind(|| {
                columns::calendar_dates_to_iso_week_dates(n, p, q, &mut whole(2), &mut byte(2), &mut byte(d), &mut byte(e))
            })
            .is_err()
        );
    }
    for [a, b, c, d] in [[1, 2, 2, 2], [2, 1, 2, 2], [2, 2, 1, 2], [2, 2, 2, 1], [2, 2, 2, 3], [0, 1, 1, 1]] {
        let n = &numbers[..a];
        assert!(catch_unwind(|| columns::dates_from_ordinal_dates(n, &shorts[..b], &mut whole(c), &mut byte(d))).is_err());
        assert!(catch_unwind(|| columns::dates_add_days(n, &longs[..b], &mut whole(c), &mut byte(d))).is_err());
        assert!(catch_unwind(|| columns::dates_add_months(n, &numbers[..b], &mut whole(c), &mut byte(d))).is_err());
        let workdays = Workdays::new([true; 7], &[]).unwrap();
        assert!(catch_unwind(|| columns::dates_add_workdays(n, &numbers[..b], &workdays, &mut whole(c), &mut byte(d))).is_err());
        assert!(
            catch_unwind(|| columns::dates_workdays_between(n, &numbers[..b], &workdays, &mut whole(c), &mut byte(d))).is_err()
        );
        assert!(catch_unwind(|| columns::dates_to_ordinal_dates(n, &mut whole(b), &mut vec![0; c], &mut byte(d))).is_err());
    }
    for [a, b, c] in [[1, 2, 2], [2, 1, 2], [2, 2, 1], [0, 1, 1], [1, 0, 0]] {
        assert!(catch_unwind(|| columns::dates_from_julian_days(&longs[..a], &mut whole(b), &mut byte(c))).is_err());
        assert!(catch_unwind(|| columns::dates_weekdays(&numbers[..a], &mut byte(b), &mut byte(c))).is_err());
    }
    assert_eq!(columns::dates_from_julian_days(&[], &mut [], &mut []), 0);
    assert_eq!(columns::dates_weekdays(&[], &mut [], &mut []), 0);
}

#[test]
fn texts() {
    let dates = column(8, -363_600_000, 367_000_000, |number| number as i32);
    let (mut bytes, mut bounds, mut statuses) = (vec![77; ROWS * columns::MAX_DATE_LENGTH], vec![0; ROWS + 1], vec![0; ROWS]);
    let errors = columns::dates_calendar_texts(&dates, &mut bytes, &mut bounds, &mut statuses);
    let (mut parsed, mut parsed_statuses) = (vec![0; ROWS], vec![0; ROWS]);
    assert_eq!(columns::dates_parse(&bytes, &bounds, &mut parsed, &mut parsed_statuses), errors);
    assert!(bounds[0] == 0 && bytes[bounds[ROWS] as usize..].iter().all(|byte| *byte == 77));
    for row in 0..ROWS {
        let text = std::str::from_utf8(&bytes[bounds[row] as usize..bounds[row + 1] as usize]).unwrap();
        match Date::from_julian_day(dates[row]) {
            Ok(date) => assert_eq!((text, parsed[row], statuses[row]), (date.to_string().as_str(), dates[row], 0)),
            Err(_) => {
                assert_eq!((text, parsed[row], row_error(statuses[row])), ("", NO_VALUE, Some(RowError::InvalidDate)));
                assert_eq!(row_error(parsed_statuses[row]), Some(RowError::UnexpectedEnd));
            }
        }
    }
}

#[test]
fn texts_of_moments() {
    let text = b"2024-02-29T23:59:59.25+01:002024-02-29t00:00:00z2024-02-30T00:00:00Z";
    let bounds = [0, 28, 48, 68, 3, 69];
    let (mut dates, mut times, mut offsets, mut statuses) = ([0; 5], [0; 5], [0; 5], [0; 5]);
    assert_eq!(columns::moments_parse(text, &bounds, &mut dates, &mut times, &mut offsets, &mut statuses), 3);
    assert_eq!((dates[0], times[0], offsets[0]), (2_460_370, 86_399_250_000_000, 3600));
    assert_eq!((dates[2], times[2], offsets[2]), (NO_VALUE, u64::MAX, NO_VALUE));
    assert_eq!(component(statuses[2]), ("day", true));
    assert_eq!([3, 4].map(|row| row_error(statuses[row])), [Some(RowError::InvalidBounds); 2]);

    (times[1], offsets[2], dates[2]) = (86_400_000_000_000, 93_600, 0);
    (times[2], dates[3], times[3], offsets[3]) = (0, 5_373_485, 0, 0);
    let (mut bytes, mut bounds) = ([0; 5 * columns::MAX_MOMENT_LENGTH], [0; 6]);
    assert_eq!(columns::moments_texts(&dates, &times, &offsets, &mut bytes, &mut bounds, &mut statuses), 4);
    assert_eq!((&bytes[..28], bounds), (&text[..28], [0, 28, 28, 28, 28, 28]));
    let row_errors = [1, 2, 3, 4].map(|row| row_error(statuses[row]));
    assert_eq!(
        row_errors,
        [RowError::InvalidTime, RowError::InvalidOffset, RowError::ResultOutOfRange, RowError::InvalidDate].map(Some)
    );
}

#[test]
fn texts_of_durations() {
    let text = b"PT2H30M-PT90MP1DPT0,5SPT9223372036854775808S";
    let bounds = [0, 7, 13, 16, 22, 44, 45];
    let (mut seconds, mut nanoseconds, mut statuses) = ([0; 6], [0; 6], [0; 6]);
    assert_eq!(columns::durations_parse(text, &bounds, &mut seconds, &mut nanoseconds, &mut statuses), 3);
    assert_eq!((seconds, nanoseconds[3]), ([9000, -5400, i64::MIN, 0, i64::MIN, i64::MIN], 500_000_000));
    let row_errors = [2, 4, 5].map(|row| row_error(statuses[row]));
    let seconds_out = RowError::DurationOutOfRange(DurationComponent::Seconds);
    assert_eq!(row_errors, [RowError::UnexpectedByte, seconds_out, RowError::InvalidBounds].map(Some));
    for (text, component) in
        [("PT2562047788015216H", DurationComponent::Hours), ("PT153722867280912931M", DurationComponent::Minutes)]
    {
        let bounds = [0, text.len() as i32];
        columns::durations_parse(text.as_bytes(), &bounds, &mut [0], &mut [0], &mut statuses[..1]);
        assert_eq!(row_error(statuses[0]), Some(RowError::DurationOutOfRange(component)));
    }
    let (mut bytes, mut bounds) = ([0; 6 * columns::MAX_DURATION_LENGTH], [0; 7]);
    assert_eq!(columns::durations_texts(&seconds, &nanoseconds, &mut bytes, &mut bounds, &mut statuses), 3);
    assert_eq!((&bytes[..21], bounds), (&b"PT2H30M-PT1H30MPT0.5S"[..], [0, 7, 15, 15, 21, 21, 21]));
    assert_eq!(row_error(statuses[2]), Some(RowError::InvalidDuration));
}

/// Rounded rows are the results for one value, and the ends of the range.
#[test]
fn rounded() {
    let unit = RoundingUnit::new(Duration::minutes(15)).unwrap();
    let times = column(11, 0, 86_400_000_000_000, |number| number as u64);
    let dates = column(12, -363_600_000, 367_000_000, |number| number as i32);
    for mode in [RoundingMode::Floor, RoundingMode::Ceil, RoundingMode::Trunc, RoundingMode::HalfCeil, RoundingMode::HalfEven] {
        let (mut rounded, mut statuses) = (vec![0; ROWS], vec![0; ROWS]);
        columns::times_round(&times, unit, mode, &mut rounded, &mut statuses);
        for row in 0..ROWS {
            let past = i64::try_from(times[row]).ok().filter(|time| *time < 86_400_000_000_000);
            let wanted = past.map(|past| (Time::MIDNIGHT + Duration::nanoseconds(past)).round(unit, mode));
            let found = (rounded[row] != u64::MAX).then(|| Time::MIDNIGHT + Duration::nanoseconds(rounded[row] as i64));
            assert_eq!((found, statuses[row] == 0), (wanted, wanted.is_some()), "{}", times[row]);
        }
        let (mut days, mut pair_statuses) = (vec![0; ROWS], vec![0; ROWS]);
        columns::pairs_round(&dates, &times, unit, mode, &mut days, &mut rounded, &mut pair_statuses);
        for row in 0..ROWS {
            let date = Date::from_julian_day(dates[row]);
            let past = i64::try_from(times[row]).ok().filter(|time| *time < 86_400_000_000_000);
            let wanted = match (date, past) {
                (Err(_), _) => Err(RowError::InvalidDate),
                (_, None) => Err(RowError::InvalidTime),
                (Ok(date), Some(past)) => {
                    let local = PlainDateTime::new(date, Time::MIDNIGHT + Duration::nanoseconds(past));
                    local.round(unit, mode).ok_or(RowError::ResultOutOfRange)
                }
            };
            let found = row_error(pair_statuses[row]).map_or_else(
                || {
                    Ok(PlainDateTime::new(
                        Date::from_julian_day(days[row]).unwrap(),
                        Time::MIDNIGHT + Duration::nanoseconds(rounded[row] as i64),
                    ))
                },
                Err,
            );
            assert_eq!(found, wanted, "{} {}", dates[row], times[row]);
        }
    }
}

/// Each row by a format is the result for one date. The formats are parsed and printed in one step, or by their items.
#[test]
fn texts_by_formats() {
    let dates: Vec<i32> = column(9, -363_600_000, 367_000_000, |number| number as i32).into_iter().take(2000).collect();
    let rows = dates.len();
    for description in ["%Y-%m-%d", "%d/%m/%Y", "%A, %-d %B %Y", "%G-W%V-%u", "%j of %Y", "%A %Y-%m-%d"] {
        let format = Format::new(description).unwrap();
        let parser = Format::new(description).unwrap().for_dates().unwrap();
        let (mut bytes, mut bounds) = (vec![0; rows * format.items().len() * columns::MAX_ITEM_LENGTH], vec![0; rows + 1]);
        let mut statuses = vec![0; rows];
        let errors = columns::dates_format(&dates, &format, &mut bytes, &mut bounds, &mut statuses);
        assert_eq!(errors, statuses.iter().filter(|status| **status != 0).count());
        // Every seventh text ends too early, and every seventh one has a wrong byte.
        let mut cut = bounds.clone();
        for row in (0..rows).step_by(7) {
            cut[row + 1] -= i32::from(bounds[row + 1] > bounds[row]);
            bytes[bounds[(row + 3).min(rows - 1)] as usize] ^= 1;
        }
        let (mut parsed, mut parsed_statuses) = (vec![0; rows], vec![0; rows]);
        let errors = columns::dates_parse_format(&bytes, &cut, &parser, &mut parsed, &mut parsed_statuses);
        assert_eq!(errors, parsed_statuses.iter().filter(|status| **status != 0).count());
        for row in 0..rows {
            let [from, to, end] = [cut[row], bounds[row + 1], cut[row + 1]].map(|bound| bound as usize);
            match Date::from_julian_day(dates[row]) {
                Ok(date) => {
                    assert_eq!((to - bounds[row] as usize, statuses[row]), (date.format(&format).unwrap().as_str().len(), 0))
                }
                Err(_) => assert_eq!((to - bounds[row] as usize, row_error(statuses[row])), (0, Some(RowError::InvalidDate))),
            }
            let expected = match parser.parse(&bytes[from..end]) {
                Ok(date) => (date.to_julian_day(), None),
                Err(ParseError::UnexpectedByte(_)) => (NO_VALUE, Some(RowError::UnexpectedByte)),
                Err(ParseError::UnexpectedEnd(_)) => (NO_VALUE, Some(RowError::UnexpectedEnd)),
                Err(ParseError::OutOfRange(error)) => (NO_VALUE, Some(RowError::OutOfRange(error))),
                Err(ParseError::Contradiction(_)) => (NO_VALUE, Some(RowError::Contradiction)),
            };
            assert_eq!((parsed[row], row_error(parsed_statuses[row])), expected, "{description} {row}");
        }
    }
}

#[test]
fn bounds_and_items_of_formats() {
    let format = Format::new("%d/%m/%Y").unwrap();
    let parser = format.for_dates().unwrap();
    let (mut dates, mut statuses) = ([0; 3], [0; 3]);
    let errors = columns::dates_parse_format(b"29/02/2024", &[0, 10, 3, 11], &parser, &mut dates, &mut statuses);
    assert_eq!((errors, dates), (2, [2_460_370, NO_VALUE, NO_VALUE]));
    assert_eq!([1, 2].map(|row| row_error(statuses[row])), [Some(RowError::InvalidBounds); 2]);
    let time = Format::new("%H:%M").unwrap();
    let (mut bytes, mut bounds) = ([0; 45 * 3], [9; 4]);
    assert_eq!(columns::dates_format(&dates, &time, &mut bytes, &mut bounds, &mut statuses), 3);
    let row_errors = statuses.map(row_error);
    let invalid = Some(RowError::InvalidDate);
    assert_eq!((row_errors, bounds), ([Some(RowError::UnsupportedItem), invalid, invalid], [0; 4]));
}

#[test]
fn no_room() {
    let day_first = Format::new("%d/%m/%Y").unwrap();
    let parser = Format::new("%d/%m/%Y").unwrap().for_dates().unwrap();
    for [bytes, bounds, rows] in [[74, 2, 1], [75, 1, 1], [75, 3, 1], [75, 2, 2]] {
        let format = || columns::dates_format(&[0], &day_first, &mut vec![0; bytes], &mut vec![0; bounds], &mut vec![0; rows]);
        assert!(catch_unwind(format).is_err());
    }
    for [bounds, dates, rows] in [[1, 1, 1], [3, 1, 1], [2, 2, 1], [2, 1, 2]] {
        let parse = || columns::dates_parse_format(b"", &vec![0; bounds], &parser, &mut vec![0; dates], &mut vec![0; rows]);
        assert!(catch_unwind(parse).is_err());
    }
    let mut bytes = [0; 12];
    assert!(catch_unwind(move || columns::dates_calendar_texts(&[0], &mut bytes, &mut [0; 2], &mut [0])).is_err());
    assert!(catch_unwind(|| columns::dates_parse(b"", &[], &mut [], &mut [])).is_err());
    assert_eq!(columns::dates_parse(b"", &[0], &mut [], &mut []), 0);
}
