//! What the build scripts of the programs and of the tests of the source share.
use crate::strip::{Change, Edits, Fault, Kind, Options, Source, write_crates};
use std::env;
use std::path::PathBuf;
use std::process::ExitCode;

/// Writes these crates as Rust into the folder of the build, with their tests if `tests` changes
/// them.
pub fn write(crates: &[&str], tests: Option<&Change>) -> ExitCode {
    let folder = |name| env::var_os(name).map(PathBuf::from).unwrap_or_default();
    println!("cargo::rerun-if-changed=../build");
    println!("cargo::rerun-if-changed=../program.rs");
    let change = |source: &Source, edits: &mut Edits| {
        allow_any_drop(source, edits);
        match tests {
            Some(change) => change(source, edits),
            None => offer_main(source, edits),
        }
    };
    let top = folder("CARGO_MANIFEST_DIR").join("../..");
    let worked = top.join("tests/worked");
    let options = Options { crates, standard: "std", tests: tests.map(|_| worked.as_path()), more: Some(&change) };
    match write_crates(&top.join("crates"), &folder("OUT_DIR"), &options) {
        Ok(_) => ExitCode::SUCCESS,
        Err(fault) => {
            println!("cargo::error={fault}");
            ExitCode::FAILURE
        }
    }
}

/// Makes the main function of a program public.
fn offer_main(source: &Source, edits: &mut Edits) -> Result<(), Fault> {
    for item in &source.items {
        if item.kind == Kind::Function && item.name == "main" {
            edits.insert(source.bytes(&item.head).start, "pub ");
        }
    }
    for (at, token) in source.tokens.iter().enumerate() {
        if source.word(at) == "HostRuntime" {
            edits.insert(token.range.start, "std::");
        }
    }
    Ok(())
}

/// Replaces the bound `Drop`, which says that values may be dropped. In Rust all may.
fn allow_any_drop(source: &Source, edits: &mut Edits) {
    let words = || (0..source.tokens.len()).filter(|at| !source.word(*at).trim().is_empty());
    for ((before, mark), at) in words().zip(words().skip(1)).zip(words().skip(2)) {
        let is_bound = source.word(mark) == "+" || source.word(mark) == ":" && source.word(before) != ":";
        if is_bound && source.word(at) == "Drop" {
            edits.replace(source.tokens[at].range.clone(), "Sized");
        }
    }
}
