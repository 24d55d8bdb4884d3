//! Writes the libraries as Rust into the folder of the build.

mod constants;
mod contracts;
mod decisions;
mod definitions;
mod face;
mod members;
mod methods;
mod strip;
mod zones;

use definitions::Definitions;
use std::env;
use std::fs;
use std::path::PathBuf;
use std::process::ExitCode;
use strip::{Edits, Fault, Options, Source};
use zones::Zones;

/// The libraries, as modules of the crate.
const CRATES: [&str; 25] = [
    "cal_units",
    "cal_errors",
    "cal_span",
    "cal_clock",
    "cal_date",
    "cal_time",
    "cal_datetime",
    "cal_schedule",
    "cal_text",
    "cal_duration",
    "cal_format",
    "cal_names",
    "cal_named_format",
    "cal_zone",
    "cal_zoned",
    "cal_interval",
    "cal_iso",
    "cal_rounding",
    "cal_holidays",
    "cal_tzif",
    "cal_recurrence",
    "cal_string_errors",
    "cal_holiday_text",
    "cal_ics",
    "cal_c",
];

fn main() -> ExitCode {
    match write() {
        Ok(()) => ExitCode::SUCCESS,
        Err(fault) => {
            println!("cargo::error={fault}");
            ExitCode::FAILURE
        }
    }
}

/// Writes the libraries, and the definitions of their contracts.
fn write() -> Result<(), Fault> {
    let folder = |name| env::var_os(name).map(PathBuf::from).unwrap_or_default();
    // The package in rust/interop has these sources too.
    let package = folder("CARGO_MANIFEST_DIR");
    let root = package.ancestors().find(|folder| folder.join("crates").is_dir()).unwrap_or(&package);
    println!("cargo::rerun-if-changed={}", root.join("rust/build").display());
    let (crates, out) = (root.join("crates"), folder("OUT_DIR"));
    let definitions = Definitions::read(&crates, &CRATES)?;
    let change = |source: &Source, edits: &mut Edits| face::change(source, &definitions, edits);
    let options = Options { crates: &CRATES, standard: "core", tests: None, more: Some(&change) };
    strip::write_crates(&crates, &out, &options)?;
    if env::var_os("CARGO_FEATURE_BUNDLED_ZONES").is_some() {
        Zones::read(&Zones::folder())?.write(&out)?;
    }
    let pages = out.join("definitions.rs");
    fs::write(&pages, definitions.written()).map_err(|error| Fault::at_file(&pages, &error))
}
