//! Writes the program and its libraries as Rust into the folder of the build.

#[path = "../program.rs"]
mod program;
#[path = "../build/strip/mod.rs"]
mod strip;

use std::process::ExitCode;

fn main() -> ExitCode {
    program::write(
        &[
            "cal_units",
            "cal_span",
            "cal_clock",
            "cal_date",
            "cal_time",
            "cal_datetime",
            "cal_schedule",
            "cal_text",
            "cal_duration",
            "cal_format",
            "cal_names",
            "cal_named_format",
            "cal_iso",
            "cal_zone",
            "cal_zoned",
            "cal_rounding",
            "cal_tzif",
            "cal_recurrence",
            "cal_ics",
            "cal_holidays",
            "cal_holiday_text",
            "caldate_lines",
            "caldate_answers",
            "caldate_args",
            "caldate_run",
            "caldate",
        ],
        None,
    )
}
