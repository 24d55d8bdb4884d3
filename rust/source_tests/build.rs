//! Writes the crates and their tests as Rust into the folder of the build.

mod adapt;
#[path = "../program.rs"]
mod program;
#[path = "../build/strip/mod.rs"]
mod strip;

use std::process::ExitCode;

fn main() -> ExitCode {
    program::write(
        &[
            "cal_units",
            "cal_errors",
            "cal_span",
            "cal_clock",
            "cal_date",
            "cal_time",
            "cal_datetime",
            "cal_schedule",
            "cal_text",
            "cal_duration",
            "cal_format",
            "cal_names",
            "cal_named_format",
            "cal_zone",
            "cal_zoned",
            "cal_interval",
            "cal_iso",
            "cal_rounding",
            "cal_holidays",
            "cal_tzif",
            "cal_recurrence",
            "cal_string_errors",
            "cal_holiday_text",
            "cal_ics",
            "caldate_lines",
            "caldate_answers",
            "caldate_args",
            "caldate_run",
            "cal_time_tests",
            "cal_datetime_tests",
            "cal_schedule_tests",
            "caldate_tests",
            "caltool",
            "cal_values",
        ],
        Some(&adapt::change),
    )
}
