//! Names of languages. The expected values are from glibc's locales.

use fotsevindre::format::Format;
use fotsevindre::names::{Names, NamesError, table};
use fotsevindre::{Date, Month, PlainDateTime, Time, UtcOffset, Weekday};

const CODES: [&str; 12] = ["ar", "de", "en", "es", "fr", "it", "ja", "pl", "pt", "ru", "tr", "zh"];

fn tables<'n>(names: &'n Names<'n>) -> [&'n [&'n str]; 7] {
    [
        &names.months,
        &names.months_alone,
        &names.short_months,
        &names.weekdays,
        &names.short_weekdays,
        &names.periods,
        &names.lower_periods,
    ]
}

#[test]
fn each_language_has_its_names() {
    // The code, February beside a day and alone, its short name, Thursday and its short name.
    let rows = [
        ("de", "Februar", "Februar", "Feb", "Donnerstag", "Do"),
        ("en", "February", "February", "Feb", "Thursday", "Thu"),
        ("fr", "février", "février", "févr.", "jeudi", "jeu."),
        ("ja", "2月", "2月", "2月", "木曜日", "木"),
        ("pl", "lutego", "luty", "lut", "czwartek", "czw"),
        ("ru", "февраля", "Февраль", "фев", "Четверг", "Чт"),
        ("zh", "二月", "二月", "2月", "星期四", "四"),
    ];
    for (code, month, alone, short_month, weekday, short_weekday) in rows {
        let names = Names::of_language(code).unwrap();
        assert_eq!(names.month(Month::February), month);
        assert_eq!(names.month_alone(Month::February), alone);
        assert_eq!(names.short_month(Month::February), short_month);
        assert_eq!(names.weekday(Weekday::Thursday), weekday);
        assert_eq!(names.short_weekday(Weekday::Thursday), short_weekday);
    }
    assert!(Names::of_language("xx").is_none());
}

#[test]
fn each_distinct_name_is_found_again() {
    for code in CODES {
        let names = Names::of_language(code).unwrap();
        for table in tables(&names) {
            // A language without halves of the day has two empty names.
            assert_eq!(table::are_distinct(table), table != ["", ""], "{code} {table:?}");
            if !table::are_distinct(table) {
                continue;
            }
            for byte in [b' ', b',', b'1'] {
                for (index, name) in table.iter().enumerate() {
                    let text = [name.as_bytes(), &[byte]].concat();
                    assert!(table::continues(table, byte) || table::find(table, &text) == Some(index), "{code} {name}");
                }
            }
            for (index, name) in table.iter().enumerate() {
                assert_eq!(table::find(table, name.as_bytes()), Some(index), "{code} {name}");
            }
        }
    }
}

#[test]
fn only_turkish_names_begin_others() {
    let begun: Vec<&str> = CODES
        .into_iter()
        .filter(|code| {
            let names = Names::of_language(code).unwrap();
            tables(&names).into_iter().any(|table| table != ["", ""] && !table::are_apart(table))
        })
        .collect();
    assert_eq!(begun, ["tr"]);
}

/// The formats in which each name is printed and parsed.
const FORMATS: [&str; 21] = [
    "%A, %-d %B %Y",
    "%-d %B %Y",
    "%d. %OB %Y",
    "%d. %b %Y",
    "%a %d %b %Y",
    "%Y %B %d",
    "%B%d%Y",
    "%Y年%B%-d日",
    "%Y-%b-%d",
    "%d/%b/%Y",
    "%b %-d, %Y",
    "%d%B%Y",
    "%A%F",
    "%a%F",
    "%F%A",
    "%F %A",
    "%A",
    "%-d%B %Y",
    "%Y%m%d%a",
    "%G-W%V-%u %a",
    "%B.%-d.%Y",
];

/// Formats of times of day with the half of the day.
const TIME_FORMATS: [&str; 6] = ["%I:%M %p", "%-I:%M%p", "%p%-I:%M", "%-I%p%M", "%p %I.%M.%S", "%I:%M:%S%.f%p"];

const DATE_TIME_FORMATS: [&str; 6] =
    ["%A, %-d %B %Y %T", "%A%F %R", "%a%H%M%d%b%Y", "%-d %B %Y %-I:%M %p", "%F%p%I:%M%A", "%B%A%-d. %Y %R"];

const OFFSET_DATE_TIME_FORMATS: [&str; 5] = ["%a, %d %b %Y %T %z", "%A%s%:z", "%s%A%z", "%a%z%s", "%F %I:%M %p%:z%a"];

/// Returns the formats with which the names are refused. In each of the others, each value that is
/// printed is parsed, and no string without its last byte has the same value.
macro_rules! refused {
    ($formats:expr, $for_values:ident, $names:expr, $values:expr) => {{
        let mut refused = Vec::new();
        for format in $formats {
            let Some(values) = Format::new(format).unwrap().$for_values() else {
                continue;
            };
            let Ok(named) = values.with_names(&$names) else {
                refused.push(format);
                continue;
            };
            for value in $values {
                let mut buffer = [0; 200];
                let length = named.print(value, &mut buffer).unwrap();
                assert_eq!(named.parse(&buffer[..length]), Ok(value), "{format} {:?}", $names.months);
                assert!(named.parse(&buffer[..length - 1]).ok() != Some(value), "{format} {:?}", $names.months);
            }
        }
        refused
    }};
}

/// Returns each day of 2024, at another minute of the day.
fn date_times() -> Vec<PlainDateTime> {
    (1..=366)
        .map(|day: u16| {
            let date = Date::from_ordinal_date(2024, day).unwrap();
            PlainDateTime::new(date, Time::from_hms((day % 24) as u8, (day % 60) as u8, 0).unwrap())
        })
        .collect()
}

#[test]
fn each_name_reads_back_in_formats() {
    for code in CODES {
        let names = Names::of_language(code).unwrap();
        let refused = refused!(FORMATS, for_dates, names, date_times().into_iter().map(PlainDateTime::date));
        // Months that begin with a digit.
        let expected: &[&str] = if code == "ja" { &["%-d%B %Y"] } else { &[] };
        assert_eq!(refused, expected, "{code}");
    }
}

#[test]
fn each_name_of_a_time_reads_back_in_formats() {
    let offset = UtcOffset::from_hms(-5, -30, 0).unwrap();
    for code in CODES {
        let names = Names::of_language(code).unwrap();
        // Without names for the halves of the day, 7 in the morning is 7 in the evening.
        let has_periods = ["ar", "en", "ja", "tr", "zh"].contains(&code);
        let is_expected = |format: &&str| !has_periods && format.contains("%p");
        let times = date_times().into_iter().map(PlainDateTime::time);
        let refused = refused!(TIME_FORMATS, for_times, names, times.clone());
        assert_eq!(refused, TIME_FORMATS.into_iter().filter(is_expected).collect::<Vec<_>>(), "{code}");
        let refused = refused!(DATE_TIME_FORMATS, for_date_times, names, date_times());
        assert_eq!(refused, DATE_TIME_FORMATS.into_iter().filter(is_expected).collect::<Vec<_>>(), "{code}");
        let moments = date_times().into_iter().map(|local| local.assume_offset(offset));
        let refused = refused!(OFFSET_DATE_TIME_FORMATS, for_offset_date_times, names, moments.clone());
        assert_eq!(refused, OFFSET_DATE_TIME_FORMATS.into_iter().filter(is_expected).collect::<Vec<_>>(), "{code}");
    }
}

/// Returns why a format for dates is refused with names.
fn refusal<'n>(format: &str, names: &Names<'n>) -> NamesError<'n> {
    Format::new(format).unwrap().for_dates().unwrap().with_names(names).unwrap_err()
}

#[test]
fn a_refused_format_has_a_reason() {
    let turkish = Names::of_language("tr").unwrap();
    let pazar = refusal("%Atesi %F", &turkish);
    assert_eq!(pazar, NamesError::AmbiguousNames { item: 0, name: "Pazar", other: "Pazartesi" });
    assert_eq!(pazar.to_string(), "\"Pazar\" of item 0 can go on to \"Pazartesi\"");
    let cuma = refusal("%F %Artesi", &turkish);
    assert_eq!(cuma, NamesError::AmbiguousNames { item: 6, name: "Cuma", other: "Cumartesi" });
    let japanese = refusal("%-d%B %Y", &Names::of_language("ja").unwrap());
    assert_eq!(japanese, NamesError::AmbiguousNumber { item: 0, byte: b'1' });
    assert_eq!(japanese.to_string(), "item 0 can go on with '1'");
    let french = Format::new("%I:%M %p").unwrap().for_times().unwrap();
    let french = french.with_names(&Names::of_language("fr").unwrap()).unwrap_err();
    assert_eq!(french, NamesError::AmbiguousNames { item: 4, name: "", other: "" });
    assert_eq!(french.to_string(), "two names of item 4 are \"\"");
}

#[cfg(all(feature = "std", target_os = "linux"))]
#[test]
fn a_locale_has_names() {
    use fotsevindre::names::LocaleNames;

    let english = LocaleNames::new("C").unwrap();
    let names = english.names();
    assert_eq!(tables(&names)[..6], tables(&Names::of_language("en").unwrap())[..6]);
    assert_eq!(names.lower_periods, ["am", "pm"]);
    for wrong in ["xx_XX.UTF-8", "", "C\0"] {
        // The empty name is that of the environment.
        assert!(wrong.is_empty() || LocaleNames::new(wrong).is_err(), "{wrong}");
    }
    // Not every system has these locales.
    for code in CODES {
        let country = match code {
            "ar" => "EG",
            "en" => "US",
            "ja" => "JP",
            "zh" => "CN",
            _ => &code.to_uppercase(),
        };
        if let Ok(found) = LocaleNames::new(&format!("{code}_{country}.UTF-8")) {
            let language = Names::of_language(code).unwrap();
            assert_eq!(found.names().months, language.months, "{code}");
            assert_eq!(found.names().months_alone, language.months_alone, "{code}");
            assert_eq!(found.names().weekdays, language.weekdays, "{code}");
        }
    }
}
