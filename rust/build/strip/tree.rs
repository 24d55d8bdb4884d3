use super::fault::Fault;
use super::translate::{Options, Source, translated};
use std::fs;
use std::io;
use std::path::{Path, PathBuf};

/// The module of the casts that [`translated`] writes.
const SIGNS: &str = include_str!("signs.rs");

/// The module of the tests of a crate, beside its own modules.
const MODULE: &str = "worked.rattle";

/// Writes the crates of a folder as Rust: the files of each, and of its tests, into a folder of its
/// name, and a file `library.rs` that declares all of them as modules. Returns the number of files.
///
/// # Errors
///
/// Returns the first file that isn't understood, or can't be read or written.
pub fn write_crates(folder: &Path, out: &Path, options: &Options) -> Result<usize, Fault> {
    let mut library = format!("#[allow(unused)]\npub(crate) mod signs {{\n{SIGNS}}}\n");
    let mut count = 0;
    for krate in options.crates {
        let target = out.join(krate);
        let source = folder.join(krate).join("src");
        let tests = options.tests.map(|tests| tests.join(krate));
        for part in [Some(&source), tests.as_ref()].into_iter().flatten().filter(|part| part.exists()) {
            println!("cargo::rerun-if-changed={}", part.display());
            count += write_folder(krate, part, &target, options)?;
        }
        let root = target.join(if source.join("main.rt").exists() { "main.rs" } else { "lib.rs" });
        if tests.is_some_and(|tests| tests.join(MODULE).exists()) {
            append(&root, "#[cfg(test)]\nmod worked;\n")?;
        }
        library.push_str(&format!(
            "#[path = {root:?}]\n#[allow(unused, unsafe_code, missing_docs, clippy::all)]\n#[warn(clippy::incompatible_msrv)]\npub(crate) mod {krate};\n"
        ));
    }
    write(&out.join("library.rs"), &library)?;
    Ok(count)
}

/// Writes the files of a folder and of the folders in it.
fn write_folder(krate: &str, from: &Path, to: &Path, options: &Options) -> Result<usize, Fault> {
    let mut count = 0;
    for path in entries(from).map_err(|error| Fault::at_file(from, &error))? {
        let target = to.join(path.file_name().unwrap_or_default());
        if path.is_dir() {
            count += write_folder(krate, &path, &target, options)?;
        } else if path.extension().is_some_and(|extension| extension == "rt" || extension == "rattle") {
            let text = fs::read_to_string(&path).map_err(|error| Fault::at_file(&path, &error))?;
            let source = Source::new(path, krate, text)?;
            write(&target.with_extension("rs"), &translated(&source, options)?)?;
            count += 1;
        }
    }
    Ok(count)
}

/// Returns the entries of a folder in the order of their names.
fn entries(folder: &Path) -> io::Result<Vec<PathBuf>> {
    let mut paths = fs::read_dir(folder)?.map(|entry| Ok(entry?.path())).collect::<io::Result<Vec<_>>>()?;
    paths.sort();
    Ok(paths)
}

/// Appends to a file.
fn append(path: &Path, text: &str) -> Result<(), Fault> {
    let whole = fs::read_to_string(path).map_err(|error| Fault::at_file(path, &error))?;
    write(path, &(whole + text))
}

fn write(path: &Path, text: &str) -> Result<(), Fault> {
    let folder = path.parent().unwrap_or(path);
    fs::create_dir_all(folder).and_then(|()| fs::write(path, text)).map_err(|error| Fault::at_file(path, &error))
}
