//! Recurrences, by examples of RFC 5545 with their first days.

// The numbers of dates have a group for the year, the month and the day.
#![allow(clippy::inconsistent_digit_grouping)]

use fotsevindre::ByDay::{Every, Nth};
use fotsevindre::Frequency::{Daily, Monthly, Weekly, Yearly};
use fotsevindre::Month::{December, February, January, July, June, November};
use fotsevindre::Weekday::{Friday, Monday, Saturday, Sunday, Thursday, Tuesday, Wednesday};
use fotsevindre::error::TooManyValues;
use fotsevindre::recurrence::{
    DateOrTime, DayCursor, ParseRuleError, ParseRuleErrorKind, ReadingCursor, RecurrenceSet, RuleCount, RuleEnd, RulePart, parse,
    parse_days,
};
use fotsevindre::schedule::{Pattern, Values};
use fotsevindre::{ByDay, Date, Duration, Frequency, Month, OffsetDateTime, PlainDateTime, Rule, Time, Zone};

/// The day with the number of eight digits, as `1997_09_02`.
fn date(number: i32) -> Date {
    let month = Month::try_from((number / 100 % 100) as u8).unwrap();
    Date::from_calendar_date(number / 10_000, month, (number % 100) as u8).unwrap()
}

fn rule(frequency: Frequency, start: i32) -> Rule {
    Rule::new(date(start), frequency)
}

/// Returns the list of these values.
fn list<T, const N: usize>(values: [T; N]) -> Values<T>
where
    Values<T>: for<'a> TryFrom<&'a [T], Error = TooManyValues>,
{
    Values::try_from(&values[..]).unwrap()
}

/// The days by the walk, one after the other, and one day at a time; and where the rule ends with them, there is no other.
fn begins(text: &str, rule: &Rule, days: &[i32], ends: bool) {
    let days: Vec<_> = days.iter().map(|number| date(*number)).collect();
    assert_eq!(rule.first_days(days.len() as u32).collect::<Vec<_>>(), days, "{text}");
    for pair in days.windows(2) {
        assert_eq!(rule.next_after(pair[0]), Some(pair[1]), "{text}");
        assert_eq!(rule.previous_before(pair[1]), Some(pair[0]), "{text}");
    }
    let last = *days.last().unwrap();
    assert!(days[0].iter_to(last).filter(|day| rule.contains(*day)).eq(days.iter().copied()), "{text}");
    assert!(!ends || (rule.next_after(last).is_none() && rule.days().count() == days.len()), "{text}");
    assert!(!ends || rule.days().rev().eq(days.iter().rev().copied()), "{text}");

    let by_text = parse(text.as_bytes()).unwrap();
    assert!(by_text.days(rule.start).take(days.len()).eq(days.iter().copied()), "{text}");
    assert!(rule.days_from(days[1]).take(days.len() - 1).eq(days[1..].iter().copied()), "{text}");
    assert!(!ends || by_text.days(rule.start).count() == days.len(), "{text}");
    assert_eq!(by_text.rule(rule.start), *rule, "{text}");
}

#[test]
fn texts_in_one_order() {
    for (text, written) in [
        ("byday=-01fr;count=3;freq=monthly", "FREQ=MONTHLY;COUNT=3;BYDAY=-1FR"),
        ("WKST=MO;FREQ=DAILY;INTERVAL=1", "FREQ=DAILY"),
        ("FREQ=MONTHLY;BYDAY=FR;BYMONTHDAY=13", "FREQ=MONTHLY;BYMONTHDAY=13;BYDAY=FR"),
    ] {
        let recurrence = parse(text.as_bytes()).unwrap();
        assert_eq!((recurrence.text().as_str(), recurrence.text().len()), (written, written.len()));
        assert_eq!(format!("{recurrence:>40}"), format!("{written:>40}"));
        assert_eq!(parse(written.as_bytes()), Ok(recurrence));
    }
}

#[test]
fn parts() {
    let all = b"byday=tu,+02we,-1su;bymonthday=-31,+07;bymonth=06,12;until=19971231;wkst=su;interval=002;freq=yearly";
    let all = parse(all).unwrap();
    let pattern = &all.pattern;
    assert_eq!((pattern.frequency, pattern.interval, pattern.week_start), (Yearly, 2, Sunday));
    assert_eq!((pattern.months.as_slice(), pattern.month_days.as_slice()), (&[June, December][..], &[-31, 7][..]));
    assert_eq!(pattern.weekdays.as_slice(), [Every(Tuesday), Nth(2, Wednesday), Nth(-1, Sunday)]);
    assert_eq!(all.end, RuleEnd::Until(DateOrTime::Date(date(1997_12_31))));
    let numbered = parse(b"FREQ=YEARLY;BYWEEKNO=1,-53;BYYEARDAY=1,-366;BYDAY=MO;BYSETPOS=2,-366").unwrap().pattern;
    assert_eq!((numbered.weeks.as_slice(), numbered.year_days.as_slice()), (&[1, -53][..], &[1, -366][..]));
    assert_eq!(numbered.set_positions.as_slice(), [2, -366]);
    let counted = parse(b"FREQ=MONTHLY;COUNT=6;BYDAY=-2MO").unwrap();
    assert_eq!((counted.end, counted.rule(Date::MIN).until), (RuleEnd::Count(RuleCount::new(6).unwrap()), None));
    let last = date(1998_02_16);
    assert_eq!(counted.days(date(1997_09_22)).next_back(), Some(last));
    assert_eq!(counted.rule(date(1997_09_22)).next_after(last), Some(date(1998_03_23)));
    assert_eq!((parse(b"FREQ=DAILY").unwrap().end, counted == all), (RuleEnd::Never, false));
    let months = format!("FREQ=YEARLY;BYMONTH=1{}", ",1".repeat(61));
    let months = parse(months.as_bytes()).unwrap();
    assert_eq!((months.pattern.months.as_slice(), months.days(Date::MAX).next()), (&[January; 62][..], None));
}

#[test]
fn examples_of_the_rfc() {
    begins(
        "FREQ=DAILY;UNTIL=19970905",
        &Rule { until: Some(date(1997_09_05)), ..rule(Daily, 1997_09_02) },
        &[1997_09_02, 1997_09_03, 1997_09_04, 1997_09_05],
        true,
    );
    begins(
        "FREQ=WEEKLY;UNTIL=19971006;WKST=SU;BYDAY=TU,TH",
        &Pattern { week_start: Sunday, weekdays: list([Every(Tuesday), Every(Thursday)]), ..Pattern::new(Weekly) }
            .rule(date(1997_09_02), Some(date(1997_10_06))),
        &[1997_09_02, 1997_09_04, 1997_09_09, 1997_09_11, 1997_09_16, 1997_09_18, 1997_09_23, 1997_09_25, 1997_09_30, 1997_10_02],
        true,
    );
    for (text, week_start, days) in [
        ("FREQ=WEEKLY;INTERVAL=2;BYDAY=TU,SU;WKST=MO", Monday, [1997_08_05, 1997_08_10, 1997_08_19, 1997_08_24]),
        ("FREQ=WEEKLY;INTERVAL=2;BYDAY=TU,SU;WKST=SU", Sunday, [1997_08_05, 1997_08_17, 1997_08_19, 1997_08_31]),
    ] {
        let weekdays = list([Every(Tuesday), Every(Sunday)]);
        let pattern = Pattern { interval: 2, week_start, weekdays, ..Pattern::new(Weekly) };
        begins(text, &pattern.rule(date(1997_08_05), None), &days, false);
    }
    let endless = [
        (
            "FREQ=MONTHLY;INTERVAL=2;BYDAY=1SU,-1SU",
            Pattern { interval: 2, weekdays: list([Nth(1, Sunday), Nth(-1, Sunday)]), ..Pattern::new(Monthly) },
            &[1997_09_07, 1997_09_28, 1997_11_02, 1997_11_30, 1998_01_04, 1998_01_25, 1998_03_01, 1998_03_29][..],
        ),
        (
            "FREQ=MONTHLY;BYMONTHDAY=-3",
            Pattern { month_days: list([-3]), ..Pattern::new(Monthly) },
            &[1997_09_28, 1997_10_29, 1997_11_28, 1997_12_29, 1998_01_29, 1998_02_26],
        ),
        (
            "FREQ=MONTHLY;BYDAY=SA;BYMONTHDAY=7,8,9,10,11,12,13",
            Pattern { weekdays: list([Every(Saturday)]), month_days: list([7, 8, 9, 10, 11, 12, 13]), ..Pattern::new(Monthly) },
            &[1997_09_13, 1997_10_11, 1997_11_08, 1997_12_13, 1998_01_10, 1998_02_07, 1998_03_07],
        ),
        (
            "FREQ=YEARLY;BYMONTH=6,7",
            Pattern { months: list([June, July]), ..Pattern::new(Yearly) },
            &[1997_06_10, 1997_07_10, 1998_06_10, 1998_07_10, 1999_06_10],
        ),
        (
            "FREQ=YEARLY;BYDAY=20MO",
            Pattern { weekdays: list([Nth(20, Monday)]), ..Pattern::new(Yearly) },
            &[1997_05_19, 1998_05_18, 1999_05_17],
        ),
        (
            "FREQ=YEARLY;INTERVAL=4;BYMONTH=11;BYDAY=TU;BYMONTHDAY=2,3,4,5,6,7,8",
            Pattern {
                interval: 4,
                months: list([November]),
                weekdays: list([Every(Tuesday)]),
                month_days: list([2, 3, 4, 5, 6, 7, 8]),
                ..Pattern::new(Yearly)
            },
            &[1996_11_05, 2000_11_07, 2004_11_02],
        ),
        (
            "FREQ=YEARLY;INTERVAL=3;BYYEARDAY=1,100,200",
            Pattern { interval: 3, year_days: list([1, 100, 200]), ..Pattern::new(Yearly) },
            &[1997_01_01, 1997_04_10, 1997_07_19, 2000_01_01, 2000_04_09, 2000_07_18, 2003_01_01],
        ),
        (
            "FREQ=YEARLY;BYWEEKNO=20;BYDAY=MO",
            Pattern { weeks: list([20]), weekdays: list([Every(Monday)]), ..Pattern::new(Yearly) },
            &[1997_05_12, 1998_05_11, 1999_05_17],
        ),
        (
            "FREQ=MONTHLY;BYDAY=TU,WE,TH;BYSETPOS=3",
            Pattern {
                weekdays: list([Every(Tuesday), Every(Wednesday), Every(Thursday)]),
                set_positions: list([3]),
                ..Pattern::new(Monthly)
            },
            &[1997_09_04, 1997_10_07, 1997_11_06],
        ),
    ];
    for (text, pattern, days) in endless {
        begins(text, &pattern.rule(date(days[0]), None), days, false);
    }
}

/// The days that `rruleset` of `dateutil` gives.
#[test]
fn sets() {
    let dates = [2024_02_23, 2023_12_25, 2024_02_29, 2024_07_01, 2024_02_01, 2023_12_25].map(date);
    let exceptions = [2024_05_31, 2024_01_26, 2024_07_01, 2024_01_02, 2024_01_26].map(date);
    let pattern = Pattern { weekdays: list([Nth(-1, Friday)]), ..Pattern::new(Monthly) };
    let fridays = || pattern.rule(date(2024_01_01), Some(date(2024_06_30)));
    let set = RecurrenceSet { rule: fridays(), dates: &dates, exceptions: &exceptions };
    let days = [2023_12_25, 2024_02_01, 2024_02_23, 2024_02_29, 2024_03_29, 2024_04_26, 2024_06_28].map(date);
    assert!(set.days().eq(days) && set.days_from(days[3]).eq(days[3..].iter().copied()));
    assert_eq!((set.next_after(days[1]), set.previous_before(days[0])), (Some(days[2]), None));
    assert!(days.iter().all(|day| set.contains(*day)) && !exceptions.iter().any(|day| set.contains(*day)));
    let many = [days[0]; 2000];
    let by_many = RecurrenceSet { rule: fridays(), dates: &many, exceptions: &exceptions };
    assert!(by_many.days().eq([0, 2, 4, 5, 6].map(|index| days[index])));
    let without = RecurrenceSet { rule: fridays(), dates: &[], exceptions: &[days[2]; 2000] };
    assert_eq!(without.next_after(date(2024_01_26)), Some(days[4]));
}

#[test]
fn rules_of_no_day() {
    let of_february = Pattern { months: list([February]), month_days: list([30]), ..Pattern::new(Yearly) };
    let of_february = of_february.rule(date(2024_01_01), None);
    assert_eq!((of_february.days().next(), of_february.next_after(Date::MIN)), (None, None));
    let of_the_0th = Pattern { weekdays: list([Nth(0, Friday)]), ..Pattern::new(Monthly) };
    assert_eq!(of_the_0th.rule(date(2024_01_01), None).days().next(), None);
    let daily = rule(Daily, 2024_01_01);
    assert_eq!((daily.next_after(Date::MIN), daily.next_after(Date::MAX)), (Some(date(2024_01_01)), None));
    assert_eq!((daily.previous_before(daily.start), of_february.previous_before(Date::MAX)), (None, None));
    assert_eq!((daily.days().next_back(), of_february.days().next_back()), (Some(Date::MAX), None));
}

#[test]
fn many_days() {
    let start = date(2000_01_01);
    let third = |index: i64| start + Duration::days(3 * index);
    for count in [129, 192, 193, 448, 704, 705] {
        let text = format!("FREQ=DAILY;INTERVAL=3;COUNT={count}");
        let counted = parse(text.as_bytes()).unwrap();
        assert!(counted.days(start).eq((0..count).map(third)));
        assert!(counted.days(start).skip_while(|day| *day < third(128)).eq((128..count).map(third)));
    }
    let endless = parse(b"FREQ=DAILY;INTERVAL=3").unwrap();
    assert!(endless.rule(start).days_from(third(70)).take(200).eq((70..270).map(third)));
    let late = Date::MAX - Duration::days(63);
    assert!(parse(b"freq=daily").unwrap().days(late).eq(late.iter_to(Date::MAX)));
    let mut none = parse(b"FREQ=DAILY;UNTIL=19991231").unwrap().days(start);
    assert_eq!((none.next(), none.next()), (None, None));
}

#[test]
fn texts_at_fault() {
    let many = format!("FREQ=DAILY;BYMONTHDAY=1{}", ",1".repeat(62));
    for (text, position, reason, printed) in [
        ("FREQ=MONTHLY;HOUR=9;BYDAY=FR", 13, ParseRuleErrorKind::Unknown, "unknown part at 13"),
        ("FREQ=DAILY;UNTIL=20241231;COUNT=3", 26, ParseRuleErrorKind::Twice(RulePart::Count), "duplicate COUNT at 26"),
        (&many, 11, ParseRuleErrorKind::TooMany(RulePart::MonthDays), "too many values in BYMONTHDAY at 11"),
        ("FREQ=HOURS", 0, ParseRuleErrorKind::Value(RulePart::Frequency), "invalid value of FREQ at 0"),
        ("FREQ=DAILY;INTERVAL=0", 11, ParseRuleErrorKind::Value(RulePart::Interval), "invalid value of INTERVAL at 11"),
        ("FREQ=DAILY;WKST=1MO", 11, ParseRuleErrorKind::Value(RulePart::WeekStart), "invalid value of WKST at 11"),
        ("FREQ=DAILY;BYMONTH=13", 11, ParseRuleErrorKind::Value(RulePart::Months), "invalid value of BYMONTH at 11"),
        ("FREQ=DAILY;BYDAY=54MO", 11, ParseRuleErrorKind::Value(RulePart::Weekdays), "invalid value of BYDAY at 11"),
        ("FREQ=DAILY;UNTIL=20230229", 11, ParseRuleErrorKind::Value(RulePart::Until), "invalid value of UNTIL at 11"),
        ("FREQ=YEARLY;BYSETPOS=1", 12, ParseRuleErrorKind::Alone(RulePart::Positions), "no other part with BYSETPOS at 12"),
        ("FREQ=MONTHLY;BYWEEKNO=1", 13, ParseRuleErrorKind::Excluded(RulePart::Weeks), "excluded BYWEEKNO at 13"),
        ("FREQ=WEEKLY;BYYEARDAY=1", 12, ParseRuleErrorKind::Excluded(RulePart::YearDays), "excluded BYYEARDAY at 12"),
        ("BYDAY=MO", 8, ParseRuleErrorKind::Missing, "missing FREQ at 8"),
    ] {
        let fault = parse(text.as_bytes()).unwrap_err();
        assert_eq!((fault, fault.to_string().as_str()), (ParseRuleError { position, reason }, printed), "{text}");
    }
}

#[test]
fn as_many_parts_as_there_can_be() {
    let pattern = Pattern {
        months: list([January; Rule::MAX_VALUES]),
        weeks: list([2; Rule::MAX_VALUES]),
        year_days: list([6; Rule::MAX_VALUES]),
        month_days: list([6; Rule::MAX_VALUES]),
        weekdays: list([Every(Monday); Rule::MAX_VALUES]),
        set_positions: list([-1; Rule::MAX_VALUES]),
        ..Pattern::new(Yearly)
    };
    assert_eq!(pattern.rule(date(2024_01_01), None).days().next(), Some(date(2025_01_06)));
}

/// One more is an error for each kind of value.
#[test]
fn values_past_them() {
    let errors = [
        Values::try_from(&[January; 63][..]).unwrap_err(),
        Values::<i16>::try_from(&[1; 63][..]).unwrap_err(),
        Values::<i8>::try_from(&[1; 63][..]).unwrap_err(),
        Values::<u8>::try_from(&[1; 63][..]).unwrap_err(),
        Values::<ByDay>::try_from(&[Every(Monday); 63][..]).unwrap_err(),
    ];
    for error in errors {
        let _: &dyn std::error::Error = &error;
        assert_eq!(error.to_string(), "too many values: 63; expected at most 62");
    }
    let many = Values::<i8>::try_from(&[1; 100_000][..]).unwrap_err();
    assert_eq!(many.to_string(), "too many values: 100000; expected at most 62");
    assert!(Values::<i8>::try_from(&[][..]).unwrap().is_empty());
}

/// The reading on a day at an hour and a minute.
fn at(number: i32, hour: u8, minute: u8) -> PlainDateTime {
    PlainDateTime::new(date(number), Time::from_hms(hour, minute, 0).unwrap())
}

/// "Every 20 minutes from 9:00 AM to 4:40 PM every day" of RFC 5545.
#[test]
fn times_of_day() {
    let recurrence = parse(b"FREQ=DAILY;BYHOUR=9,10,11,12,13,14,15,16;BYMINUTE=0,20,40").unwrap();
    let start = at(1997_09_02, 9, 0);
    let set = || recurrence.counted_set(start, &[], &[]);
    let wanted = |day| (9..17).flat_map(move |hour| [0, 20, 40].map(|minute| at(1997_09_00 + day, hour, minute)));
    assert!(set().readings().take(29 * 24).eq((2..31).flat_map(wanted)));
    assert!(set().readings_from(at(1997_09_04, 16, 41)).take(24).eq(wanted(5)));
    let (dates, exceptions) = ([at(1997_09_02, 9, 30); 2000], [at(1997_09_02, 9, 20); 2000]);
    let two_lists = recurrence.counted_set(start, &dates, &exceptions);
    assert!(two_lists.readings().take(3).eq([(9, 0), (9, 30), (9, 40)].map(|(hour, minute)| at(1997_09_02, hour, minute))));
    for count in [129, 1984, 1985, 3009] {
        let text = format!("FREQ=DAILY;BYHOUR=0,12;COUNT={count}");
        let counted = parse(text.as_bytes()).unwrap();
        let readings = counted.counted_set(PlainDateTime::MIN, &[], &[]).readings();
        assert!(readings.eq((0..count).map(|index| PlainDateTime::MIN + Duration::hours(12 * index))));
    }
    let last = parse(b"FREQ=DAILY").unwrap().counted_set(PlainDateTime::MAX, &[], &[]);
    assert_eq!(last.readings().collect::<Vec<_>>(), [PlainDateTime::MAX]);
}

/// In the gap 2:30 and 3:30 are one moment, and in the fold 2:30 is the earlier one.
#[test]
fn times_in_a_zone() {
    let berlin = Zone::parse_posix("CET-1CEST,M3.5.0,M10.5.0/3").unwrap();
    for (text, start, wanted) in [
        ("FREQ=DAILY;BYHOUR=2,3;COUNT=4", at(2024_03_30, 2, 30), &["30 2:30:00.0 +01", "30 3:30:00.0 +01", "31 3:30:00.0 +02"][..]),
        ("FREQ=DAILY;BYHOUR=2,3;COUNT=3", at(2024_10_27, 2, 30), &["27 2:30:00.0 +02", "27 3:30:00.0 +01", "28 2:30:00.0 +01"]),
        ("FREQ=DAILY;BYHOUR=2,3;UNTIL=20241027T013000Z", at(2024_10_27, 2, 30), &["27 2:30:00.0 +02"]),
    ] {
        let recurrence = parse(text.as_bytes()).unwrap();
        let set = || recurrence.zoned_set(start, &[], &[], &berlin);
        let moments: Vec<_> = set().occurrences().collect();
        let texts: Vec<_> = moments.iter().map(|moment| moment.to_string()[8..].trim_end_matches(":00").to_string()).collect();
        assert_eq!(texts, wanted, "{text}");
        assert!(set().occurrences_after(moments[0]).eq(moments[1..].iter().copied()), "{text}");
        let first = [start];
        let without = recurrence.zoned_set(start, &[], &first, &berlin);
        assert!(without.occurrences().eq(moments[1..].iter().copied()), "{text}");
    }
    let daily = parse(b"FREQ=DAILY").unwrap();
    let mut daily = daily.zoned_set(at(2024_01_01, 12, 0), &[], &[], &berlin).occurrences_after(OffsetDateTime::UNIX_EPOCH);
    assert_eq!(daily.nth(200).unwrap().to_string(), "2024-07-19 12:00:00.0 +02:00:00");
}

/// The lists of a set have no limit.
#[test]
fn many_readings() {
    let start = at(2024_01_01, 12, 0);
    let set = parse(b"FREQ=DAILY").unwrap();
    let many = [start; 1025];
    let mut readings = set.counted_set(start, &[], &many).readings();
    assert_eq!(readings.next(), Some(at(2024_01_02, 12, 0)));
}

#[test]
fn hours() {
    let nine = PlainDateTime::new(date(1997_09_02), Time::from_hms(9, 0, 0).unwrap());
    let by_text = parse(b"FREQ=HOURLY;INTERVAL=3;UNTIL=19970902T170000").unwrap();
    let hours: Vec<_> = by_text.readings(nine).map(|reading| reading.time().hour()).collect();
    assert_eq!(hours, [9, 12, 15]);
    assert_eq!(by_text.text().as_str(), "FREQ=HOURLY;INTERVAL=3;UNTIL=19970902T170000");
    let fault = parse_days(b"FREQ=HOURLY").unwrap_err();
    assert_eq!((fault.position, fault.reason), (0, ParseRuleErrorKind::Value(RulePart::Frequency)));
}

/// Pages of a COUNT go on from a cursor, and are together the days of the whole rule.
#[test]
fn pages_of_days() {
    for (text, size) in [
        ("FREQ=MONTHLY;BYDAY=-1FR;COUNT=7", 3),
        ("FREQ=DAILY;INTERVAL=2;COUNT=10", 4),
        ("FREQ=DAILY;COUNT=1", 5),
        ("FREQ=DAILY;UNTIL=19971224", 30),
    ] {
        let recurrence = parse(text.as_bytes()).unwrap();
        let rule = recurrence.rule(date(1997_09_02));
        let (mut cursor, mut all) = (recurrence.day_cursor(), Vec::new());
        loop {
            // A client keeps the integers of the cursor between the pages.
            let mut kept = DayCursor { last: cursor.last, left: cursor.left };
            let page: Vec<_> = std::iter::from_fn(|| kept.next_day(&rule)).take(size).collect();
            all.extend_from_slice(&page);
            cursor = kept;
            if page.len() < size {
                break;
            }
        }
        assert!(recurrence.days(date(1997_09_02)).eq(all.iter().copied()), "{text}");
        assert_eq!(cursor.last, all.last().copied(), "{text}");
        for (index, day) in all.iter().enumerate() {
            let mut late = recurrence.day_cursor();
            late.skip_to(&rule, *day);
            assert_eq!(late.last, index.checked_sub(1).map(|before| all[before]), "{text}");
            assert_eq!(late.next_day(&rule), Some(*day), "{text}");
        }
    }
    let recurrence = parse(b"FREQ=DAILY;COUNT=5").unwrap();
    let rule = recurrence.rule(date(1997_09_02));
    let mut cursor = recurrence.day_cursor();
    cursor.skip_to(&rule, date(1997_09_04));
    assert_eq!(cursor, DayCursor { last: Some(date(1997_09_03)), left: 3 });
    cursor.skip_to(&rule, date(1997_09_01));
    assert_eq!(cursor, DayCursor { last: Some(date(1997_09_03)), left: 3 });
    cursor.skip_to(&rule, Date::MAX);
    assert_eq!((cursor.last, cursor.next_day(&rule)), (Some(date(1997_09_06)), None));
    // A cursor of nothing: the first days after its day.
    let mut odd = DayCursor { last: Some(Date::MAX), left: u32::MAX };
    assert_eq!(odd.next_day(&rule), None);
    let mut odd = DayCursor { last: Some(Date::MIN), left: 1 };
    assert_eq!([odd.next_day(&rule), odd.next_day(&rule)], [Some(date(1997_09_02)), None]);
}

/// Sets of readings and of instants go on from a cursor too.
#[test]
fn pages_of_sets() {
    let berlin = Zone::parse_posix("CET-1CEST,M3.5.0,M10.5.0/3").unwrap();
    let start = at(2024_03_30, 2, 30);
    let (dates, exceptions) = ([at(2024_04_01, 12, 0)], [at(2024_04_02, 2, 30)]);
    for text in
        ["FREQ=DAILY;COUNT=300", "FREQ=HOURLY;COUNT=300", "FREQ=DAILY;BYHOUR=2,3;COUNT=301", "FREQ=DAILY;UNTIL=20240501T000000Z"]
    {
        let recurrence = parse(text.as_bytes()).unwrap();
        let whole: Vec<_> = recurrence.counted_set(start, &dates, &exceptions).readings().collect();
        let (mut cursor, mut last, mut all) = (recurrence.reading_cursor(), PlainDateTime::MIN, Vec::new());
        for _ in 0..whole.len().div_ceil(7) {
            let kept = ReadingCursor { last: cursor.last, left: cursor.left };
            let mut set = recurrence.counted_set_at(start, kept, &dates, &exceptions);
            for _ in 0..7 {
                let Some(next) = set.next_after(last) else { break };
                all.push(next);
                last = next;
            }
            cursor = set.cursor();
        }
        assert_eq!(all, whole, "{text}");
        let set = || recurrence.zoned_set(start, &dates, &exceptions, &berlin);
        let whole: Vec<_> = set().occurrences().collect();
        let (mut cursor, mut last, mut all) = (recurrence.reading_cursor(), OffsetDateTime::UNIX_EPOCH, Vec::new());
        for _ in 0..whole.len().div_ceil(7) {
            let mut set = recurrence.zoned_set_at(start, cursor, &dates, &exceptions, &berlin);
            for _ in 0..7 {
                let Some(next) = set.next_after(last) else { break };
                all.push(next);
                last = next;
            }
            cursor = set.cursor();
        }
        assert_eq!(all, whole, "{text}");
    }
    let recurrence = parse(b"FREQ=DAILY;COUNT=1000").unwrap();
    let mut set = recurrence.counted_set(start, &[], &[]);
    assert_eq!(set.cursor(), ReadingCursor { last: Some(start), left: 999 });
    set.first_from(at(2025_03_30, 2, 30)).unwrap();
    let cursor = set.cursor();
    assert!(cursor.left < 700 && cursor.last.is_some_and(|last| last >= at(2025_03_30, 2, 30)));
    // A cursor of nothing: the readings up to its own, and the first ones after it.
    let odd = ReadingCursor { last: Some(at(2024_04_02, 0, 0)), left: 1 };
    assert!(
        recurrence
            .counted_set_at(start, odd, &[], &[])
            .readings()
            .eq([2024_03_30, 2024_03_31, 2024_04_01, 2024_04_02].map(|day| at(day, 2, 30)))
    );
    let none = ReadingCursor { last: None, left: 0 };
    assert_eq!(recurrence.counted_set_at(start, none, &[], &[]).readings().next(), None);
}
