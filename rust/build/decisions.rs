//! The decision about each public function whose contract has a condition. Rust checks no contract,
//! so the crate checks the condition, or the function isn't public. The build fails for a function
//! that isn't in a table.

/// A replacement for a condition.
pub enum Decision {
    /// Panics with these words: the body ends with `.unwrap()` of the checked function.
    Panic(&'static str),
    /// Panics with the words of the function that the body calls.
    Calls(&'static str),
    /// Panics with these words unless this expression is true.
    Check(&'static str, &'static str),
    /// Needs no check: Rust can call each closure.
    Keep,
    /// Is visible in the crate only.
    Hide,
}
use Decision::{Calls, Check, Keep, Panic};

const NEW: &str = "overflow constructing a duration";
const ADD: &str = "overflow when adding durations";
const SUBTRACT: &str = "overflow when subtracting durations";
const MULTIPLY: &str = "overflow when multiplying duration";
const DIVIDE: &str = "overflow when dividing duration";
const ADD_TO_DATE: &str = "overflow adding duration to date";
const SUBTRACT_FROM_DATE: &str = "overflow subtracting duration from date";
const NEXT_OCCURRENCE: &str = "overflow calculating the next occurrence of a weekday";
const PREV_OCCURRENCE: &str = "overflow calculating the previous occurrence of a weekday";
const DATE_TIME: &str = "resulting value is out of range";
const OFFSET: &str = "local datetime out of valid range";

/// The decisions by owner (`Type` or `Trait for Type`) and name.
const DECISIONS: &[(&str, &str, Decision)] = &[
    ("CycleIter", "all_once", Keep),
    ("CycleIter", "any_once", Keep),
    ("Rev", "all_once", Keep),
    ("Rev", "any_once", Keep),
    ("SignedDuration", "new", Check(NEW, "seconds.checked_add((nanoseconds / NANOSECONDS_PER_SECOND) as i64).is_some()")),
    ("SignedDuration", "weeks", Check(NEW, "weeks.checked_mul(SECONDS_PER_WEEK).is_some()")),
    ("SignedDuration", "days", Check(NEW, "days.checked_mul(SECONDS_PER_DAY).is_some()")),
    ("SignedDuration", "hours", Check(NEW, "hours.checked_mul(SECONDS_PER_HOUR).is_some()")),
    ("SignedDuration", "minutes", Check(NEW, "minutes.checked_mul(SECONDS_PER_MINUTE).is_some()")),
    ("SignedDuration", "nanoseconds_i128", Check(NEW, IS_DURATION)),
    ("SignedDuration", "product", Panic(MULTIPLY)),
    ("SignedDuration", "quotient", Panic(DIVIDE)),
    ("Add for SignedDuration", "add", Panic(ADD)),
    ("AddAssign for SignedDuration", "add_assign", Calls(ADD)),
    ("Sub for SignedDuration", "sub", Panic(SUBTRACT)),
    ("SubAssign for SignedDuration", "sub_assign", Calls(SUBTRACT)),
    ("Neg for SignedDuration", "neg", Panic("overflow when negating duration")),
    ("Mul for SignedDuration", "mul", Calls(MULTIPLY)),
    ("MulAssign for SignedDuration", "mul_assign", Calls(MULTIPLY)),
    ("Div for SignedDuration", "div", Calls(DIVIDE)),
    ("DivAssign for SignedDuration", "div_assign", Calls(DIVIDE)),
    ("Date", "next_occurrence", Panic(NEXT_OCCURRENCE)),
    ("Date", "prev_occurrence", Panic(PREV_OCCURRENCE)),
    ("Date", "nth_next_occurrence", Panic(NEXT_OCCURRENCE)),
    ("Date", "nth_prev_occurrence", Panic(PREV_OCCURRENCE)),
    ("Add for Date", "add", Panic(ADD_TO_DATE)),
    ("AddAssign for Date", "add_assign", Calls(ADD_TO_DATE)),
    ("Sub for Date", "sub", Panic(SUBTRACT_FROM_DATE)),
    ("SubAssign for Date", "sub_assign", Calls(SUBTRACT_FROM_DATE)),
    ("Add for PlainDateTime", "add", Panic(DATE_TIME)),
    ("AddAssign for PlainDateTime", "add_assign", Calls(DATE_TIME)),
    ("Sub for PlainDateTime", "sub", Panic(DATE_TIME)),
    ("SubAssign for PlainDateTime", "sub_assign", Calls(DATE_TIME)),
    ("Add for OffsetDateTime", "add", Panic(DATE_TIME)),
    ("AddAssign for OffsetDateTime", "add_assign", Calls(DATE_TIME)),
    ("Sub for OffsetDateTime", "sub", Panic(DATE_TIME)),
    ("SubAssign for OffsetDateTime", "sub_assign", Calls(DATE_TIME)),
    ("OffsetDateTime", "to_offset", Panic(OFFSET)),
    ("OffsetDateTime", "to_utc", Panic(OFFSET)),
];

/// The seconds fit in an `i64`.
const IS_DURATION: &str = "nanoseconds / NANOSECONDS_PER_SECOND as i128 >= i64::MIN as i128 \
    && nanoseconds / NANOSECONDS_PER_SECOND as i128 <= i64::MAX as i128";

/// Functions with a condition that only the crate calls, by owner. Free functions have none.
const HIDDEN: &[(&str, &[&str])] = &[
    ("Cycle", &["at"]),
    (
        "ShortText",
        &[
            "push",
            "push_digit",
            "push_two_digits",
            "push_three_digits",
            "push_number",
            "push_i32",
            "push_i128",
            "push_year",
            "push_decimals",
        ],
    ),
    ("Date", &["from_month_index_clamped", "from_month_number_clamped"]),
    ("Sentence", &["push", "push_number", "push_position"]),
    ("Text", &["push_to"]),
    ("Values", &["from_slice", "push"]),
    ("ParseError", &["unexpected"]),
    ("Scanner", &["byte_from"]),
    ("Fields", &["are_within"]),
    ("Format", &["moment_of_numbers"]),
    ("Layout", &["kind"]),
    ("Table", &["new", "time", "kind", "change"]),
    ("Instants", &["select"]),
    ("Span", &["single"]),
    ("Rule", &["from_changes", "single_after"]),
    ("UncheckedZone", &["single_in_table", "instants_of", "instants_near_change"]),
    ("Zone", &["from_parts", "instants_of"]),
    ("WeekdayMarks", &["nth_marked"]),
    ("", &["julian_kernel", "date_of_kernel", "to_date", "to_calendar_date", "to_iso_week_date", "days_since_monday"]),
    ("", &["nth_next_occurrence", "nth_prev_occurrence", "month_number_and_day", "clamped_date_in_month"]),
    ("", &["stays", "in_order", "not_past", "one_more", "months_round_trip"]),
    ("", &["scan_positive_number", "push_interval", "push_end", "push_list", "push_week_start"]),
    ("", &["date_from_numbers", "time_from_numbers", "plain_from_numbers", "moment_from_numbers"]),
    ("", &["push_fraction", "scan_more_decimals"]),
    ("", &["name_at", "print", "print_items", "scan"]),
    ("", &["parse_date", "parse_time", "parse_date_time", "parse_offset_date_time"]),
    ("", &["has_room", "values_of", "put", "split", "insert_date", "add_date", "add_rule"]),
];

/// Functions without a condition that only the crate calls, because Rust has a trait for each, or
/// another function with the name.
const REPLACED: &[(&str, &[&str])] = &[
    ("DateIter", &["clone"]),
    ("CycleIter", &["clone"]),
    ("Rev", &["clone"]),
    ("SignedDuration", &["unsigned_abs"]),
    ("Local", &["select"]),
];

/// Private functions whose results are in a table in Rust: the crate, the owner, the name, and the
/// look-up. The function of the source computes the table, by the name with `computed_`.
pub const TABLES: &[(&str, &str, &str, &str)] =
    &[("cal_date", "Date", "month_and_day", "crate::months::MONTH_AND_DAY[(self.packed & 1023) as usize]")];

/// Returns the decision about a function, or `None` if nobody decided.
pub fn decision(owner: &str, name: &str) -> Option<&'static Decision> {
    let listed = DECISIONS.iter().find(|row| (row.0, row.1) == (owner, name)).map(|row| &row.2);
    listed.or_else(|| contains(HIDDEN, owner, name).then_some(&Decision::Hide))
}

/// Returns `true` if a function without a condition isn't public in Rust.
pub fn is_replaced(owner: &str, name: &str) -> bool {
    contains(REPLACED, owner, name)
}

fn contains(table: &[(&str, &[&str])], owner: &str, name: &str) -> bool {
    table.iter().any(|row| row.0 == owner && row.1.contains(&name))
}
