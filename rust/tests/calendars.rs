//! The holidays of the known calendars, by the dates of another program and by lists from memory.

use fotsevindre::error::{ParseHolidayRuleError, ParseHolidayRuleErrorKind};
use fotsevindre::schedule::{CALENDARS, HolidayDay, HolidayRule, holidays_between, parse_holiday_rules};
use fotsevindre::{Date, Month, Weekday, Workdays};

/// Lines of a name, a year and days.
const PUBLISHED: &str = include_str!("calendars.txt");

fn date(year: i32, month: u8, day: u8) -> Date {
    Date::from_calendar_date(year, Month::try_from(month).unwrap(), day).unwrap()
}

/// Returns the rules of a calendar.
fn rules(name: &str) -> &'static [HolidayRule] {
    CALENDARS.iter().find(|calendar| calendar.0 == name).unwrap().1
}

#[test]
fn known_calendars_have_the_listed_holidays() {
    let mut years = [0; CALENDARS.len()];
    for line in PUBLISHED.lines().filter(|line| !line.starts_with('#')) {
        let mut words = line.split(' ');
        let (name, year) = (words.next().unwrap(), words.next().unwrap().parse().unwrap());
        let listed: Vec<Date> = words.map(|word| date(year, word[..2].parse().unwrap(), word[2..].parse().unwrap())).collect();

        let mut buffer = [Date::MIN; 20];
        let found = holidays_between(rules(name), date(year, 1, 1), date(year, 12, 31), &mut buffer).unwrap();
        let found: Vec<Date> =
            found.iter().copied().filter(|day| !matches!(day.weekday(), Weekday::Saturday | Weekday::Sunday)).collect();
        assert_eq!(found, listed, "{name} {year}");
        years[CALENDARS.iter().position(|calendar| calendar.0 == name).unwrap()] += 1;
    }
    assert!(years.iter().all(|count| *count >= 10), "{years:?}");
}

#[test]
fn holidays_need_room_for_each() {
    let (first, last) = (date(2021, 1, 1), date(2021, 12, 31));
    let mut buffer = [Date::MIN; 12];
    assert_eq!(holidays_between(rules("us-federal"), first, last, &mut buffer).unwrap().len(), 12);
    assert!(holidays_between(rules("us-federal"), first, last, &mut buffer[..11]).is_none());
    assert!(Workdays::from_rules(Workdays::MONDAY_TO_FRIDAY, rules("us-federal"), first, last, &mut buffer[..11]).is_none());
}

#[test]
fn rules_reach_over_years() {
    let rule = |day| HolidayRule { day, first_year: -999_999, last_year: 999_999, moves: [0; 7] };
    // The Julian calendar is about twenty years from the Gregorian one at the ends of the range.
    for year in [-999_000, -1, 1582, 2024, 999_000] {
        for day in [HolidayDay::JulianEaster(0), HolidayDay::JulianEaster(-128), HolidayDay::Easter(127)] {
            let found = rule(day).holiday_for(year).unwrap();
            let mut buffer = [Date::MIN; 1];
            assert_eq!(holidays_between(&[rule(day)], found, found, &mut buffer), Some([found].as_slice()), "{year}");
        }
    }
}

/// Returns the rules of a text.
fn parsed(text: &str) -> Result<Vec<HolidayRule>, ParseHolidayRuleError> {
    let mut rules = [HolidayRule { day: HolidayDay::Easter(0), first_year: 0, last_year: 0, moves: [0; 7] }; 30];
    parse_holiday_rules(text.as_bytes(), &mut rules).map(<[_]>::to_vec)
}

#[test]
fn rules_have_a_text() {
    let target = "01-01 1999..\neaster-2 2000..\neaster+1 2000..\n05-01 2000..\n12-25 1999..\n12-26 2000..\n1999-12-31\n2001-12-31";
    assert_eq!(parsed(target).as_deref(), Ok(rules("target")));
    let federal = "
        # Public holidays of the federal offices of the United States.\r
        01-01 1971.. SA-1 SU+1  # New Year's Day
        01-3MO 1986.. sa-1 su+1
        2-3mo 1971.. SA-1 SU+1
        05-lastMO 1971.. SA-1 SU+1
        06-19 2021.. SA-1 SU+1
        7-4 SA-1 SU+1 1971..999999
        09-1MO 1971.. SU+01 SA-01\r\n
        10-2MO SA-1 1971.. SU+1
        10-4MO 1971..1977 SA-1 SU+1\r
        11-11 1978.. SA-1 SU+1
        11-4TH 1971.. SA-1 SU+1

        12-25 1971.. SA-1 SU+1
    ";
    assert_eq!(parsed(federal).as_deref(), Ok(rules("us-federal")));
    // The states of Germany begin with nine common holidays.
    let saxony = "01-01\nEaster-2\neaster+1\n05-01\nEASTER+39\neaster+50\n10-03\n12-25\n12-26\n10-31\n11-WE>=16";
    let since_1995 = saxony.replace('\n', " 1995..\n") + " 1995..";
    assert_eq!(parsed(&since_1995).as_deref(), Ok(rules("de-sn")));
    for text in ["", "\n\n", "#", " # 12-25", "\r\n \r\n"] {
        assert_eq!(parsed(text), Ok(vec![]), "{text:?}");
    }
}

#[test]
fn days_have_a_text() {
    let every = |day| HolidayRule { day, first_year: -999_999, last_year: 999_999, moves: [0; 7] };
    for (text, rule) in [
        ("02-29", every(HolidayDay::Fixed(Month::February, 29))),
        ("2024-02-29", HolidayRule { first_year: 2024, last_year: 2024, ..every(HolidayDay::Fixed(Month::February, 29)) }),
        ("05-5FR", every(HolidayDay::Nth(Month::May, Weekday::Friday, 5))),
        ("02-SU>=29", every(HolidayDay::OnOrAfter(Month::February, 29, Weekday::Sunday))),
        ("1-mo>=8", every(HolidayDay::OnOrAfter(Month::January, 8, Weekday::Monday))),
        ("12-LASTtu", every(HolidayDay::Last(Month::December, Weekday::Tuesday))),
        (
            "2027-12-lastTU",
            HolidayRule { first_year: 2027, last_year: 2027, ..every(HolidayDay::Last(Month::December, Weekday::Tuesday)) },
        ),
        ("easter", every(HolidayDay::Easter(0))),
        ("easter+99", every(HolidayDay::Easter(99))),
        ("julian-easter-48", every(HolidayDay::JulianEaster(-48))),
        ("2024-julian-easter+1", HolidayRule { first_year: 2024, last_year: 2024, ..every(HolidayDay::JulianEaster(1)) }),
        ("0100-12-25", HolidayRule { first_year: 100, last_year: 100, ..every(HolidayDay::Fixed(Month::December, 25)) }),
        ("12-25 ..2009", HolidayRule { last_year: 2009, ..every(HolidayDay::Fixed(Month::December, 25)) }),
        ("12-25 2009..2009", HolidayRule { first_year: 2009, last_year: 2009, ..every(HolidayDay::Fixed(Month::December, 25)) }),
        ("12-25 ..", every(HolidayDay::Fixed(Month::December, 25))),
        (
            "12-25 MO+1 TU+2 WE+3 TH+4 FR+5 SA+6 SU-99",
            HolidayRule { moves: [1, 2, 3, 4, 5, 6, -99], ..every(HolidayDay::Fixed(Month::December, 25)) },
        ),
    ] {
        assert_eq!(parsed(text), Ok(vec![rule]), "{text}");
    }
}

#[test]
fn invalid_words_have_a_position() {
    // The position, after the words that are valid.
    for (text, position) in [
        ("12-32", 0),
        ("02-30", 0),
        ("2023-02-29", 0),
        ("04-31", 0),
        ("13-01", 0),
        ("00-01", 0),
        ("01-00", 0),
        ("1225", 0),
        ("12-025", 0),
        ("012-25", 0),
        ("12-", 0),
        ("-25", 0),
        ("2024", 0),
        ("2024-", 0),
        ("0000-12-25", 0),
        ("1000000-12-25", 0),
        ("12-0MO", 0),
        ("12-6MO", 0),
        ("12-MO", 0),
        ("12-lastXX", 0),
        ("12-last", 0),
        ("12-MO>8", 0),
        ("12-MO>=32", 0),
        ("02-MO>=30", 0),
        ("2023-02-MO>=29", 0),
        ("12-XX>=8", 0),
        ("easter2", 0),
        ("easter+0", 0),
        ("easter+100", 0),
        ("easter+", 0),
        ("easters", 0),
        ("julian-easter*1", 0),
        ("J2460399", 0),
        ("Christmas", 0),
        ("12-25\t", 0),
        ("12-25 12-26", 6),
        ("12-25 2009..1999", 6),
        ("12-25 1999.", 6),
        ("12-25 1999", 6),
        ("12-25 1999...", 6),
        ("12-25 0..", 6),
        ("12-25 1999.. ..2009", 13),
        ("2024-12-25 1999..", 11),
        ("12-25 SA1", 6),
        ("12-25 SA", 6),
        ("12-25 SA+0", 6),
        ("12-25 XX+1", 6),
        ("12-25  SA-1 SA-2", 12),
        ("12-25\n12-26 # comment\n\n 12-32", 24),
        ("12-25\r\r\n", 0),
    ] {
        let error = ParseHolidayRuleError { position, reason: ParseHolidayRuleErrorKind::Invalid };
        assert_eq!(parsed(text), Err(error), "{text}");
    }
    let error = parsed("12-25\n13-25").unwrap_err();
    assert_eq!(error.to_string(), "invalid rule of a holiday at 6");
}

#[test]
fn rules_need_room() {
    let mut rules = [HolidayRule { day: HolidayDay::Easter(0), first_year: 0, last_year: 0, moves: [0; 7] }; 2];
    assert_eq!(parse_holiday_rules(b"12-25\n12-26\n", &mut rules).map(<[_]>::len), Ok(2));
    let error = parse_holiday_rules(b"12-25\n#\n 12-26\n01-01\n13-01", &mut rules).unwrap_err();
    assert_eq!((error.position, error.to_string().as_str()), (15, "too many rules of holidays at 15"));
    // An earlier invalid word comes first.
    let error = parse_holiday_rules(b"12-25\n12-26\n01-01 x", &mut rules).unwrap_err();
    assert_eq!((error.position, error.reason), (18, ParseHolidayRuleErrorKind::Invalid));
}
