//! Writes the library for C, and the libraries below it, as Rust into the folder of the build.

mod parameters;
#[path = "../build/strip/mod.rs"]
mod strip;

use std::env;
use std::fs;
use std::path::{Path, PathBuf};
use std::process::ExitCode;

/// The libraries, as modules of the crate.
const CRATES: [&str; 25] = [
    "cal_units",
    "cal_errors",
    "cal_span",
    "cal_clock",
    "cal_date",
    "cal_time",
    "cal_datetime",
    "cal_schedule",
    "cal_text",
    "cal_iso",
    "cal_duration",
    "cal_holidays",
    "cal_format",
    "cal_names",
    "cal_named_format",
    "cal_zone",
    "cal_tzif",
    "cal_zoned",
    "cal_interval",
    "cal_rounding",
    "cal_recurrence",
    "cal_string_errors",
    "cal_holiday_text",
    "cal_ics",
    "cal_c",
];

fn main() -> ExitCode {
    let folder = |name| env::var_os(name).map(PathBuf::from).unwrap_or_default();
    let top = folder("CARGO_MANIFEST_DIR").join("../..");
    println!("cargo::rerun-if-changed=../build/strip");
    let options = strip::Options { crates: &CRATES, standard: "core", tests: None, more: Some(&parameters::change) };
    match strip::write_crates(&top.join("crates"), &folder("OUT_DIR"), &options) {
        Ok(_) => {
            name_shared_object(&top);
            ExitCode::SUCCESS
        }
        Err(fault) => {
            println!("cargo::error={fault}");
            ExitCode::FAILURE
        }
    }
}

/// Gives the shared object the name that compatible versions have in common, such as `libfotsevindre.so.0.2`: the major
/// version, and before 1.0 the minor one, too.
fn name_shared_object(top: &Path) {
    println!("cargo::rerun-if-changed={}", top.join("VERSION").display());
    let version = fs::read_to_string(top.join("VERSION")).unwrap_or_default();
    let parts = if version.starts_with("0.") { 2 } else { 1 };
    let compatible: Vec<&str> = version.trim().split('.').take(parts).collect();
    if env::var("CARGO_CFG_TARGET_OS").is_ok_and(|system| system == "linux") {
        println!("cargo::rustc-cdylib-link-arg=-Wl,-soname,libfotsevindre.so.{}", compatible.join("."));
    }
}
