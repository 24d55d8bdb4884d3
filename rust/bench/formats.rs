//! Printing and parsing by a format, over random dates of the years 1000 to 9999.

use super::{compare, over, Draw, DRAWN};
use fotsevindre::{Date, Format};

/// Times each format in both directions.
pub fn compare_formats() {
    for pattern in ["%Y-%m-%d", "%d %b %Y", "%d/%m/%Y", "%Y-%j", "%G-W%V-%u"] {
        compare_format(pattern);
    }
}

fn compare_format(pattern: &str) {
    let mut draw = Draw(0x9e37_79b9_7f4a_7c15);
    let julian_days: Vec<_> = (0..DRAWN).map(|_| 2_086_303 + draw.below(3_287_182) as i32).collect();
    let format = Format::new(pattern).unwrap();
    let for_dates = format.clone().for_dates().unwrap();
    let dates: Vec<_> = julian_days.iter().map(|day| Date::from_julian_day(*day).unwrap()).collect();
    let texts: Vec<_> = dates.iter().map(|date| date.format(&format).unwrap().as_str().to_owned()).collect();
    #[cfg(has_chrono)]
    let chronos: Vec<_> =
        julian_days.iter().map(|day| chrono::NaiveDate::from_num_days_from_ce_opt(day - 1_721_425).unwrap()).collect();
    compare(
        "formats",
        &format!("{pattern} printed"),
        vec![
            ("here", over(&dates, |date| date.format(&format).unwrap())),
            #[cfg(has_chrono)]
            ("chrono", over(&chronos, |date| date.format(pattern).to_string())),
        ],
    );
    compare(
        "formats",
        &format!("{pattern} parsed"),
        vec![
            ("here", over(&texts, |text| Date::parse(text, &for_dates).unwrap())),
            #[cfg(has_chrono)]
            ("chrono", over(&texts, |text| chrono::NaiveDate::parse_from_str(text, pattern).unwrap())),
        ],
    );
}
