use crate::strip::Fault;
use std::collections::BTreeMap;
use std::env;
use std::fs::{self, DirEntry};
use std::path::{Path, PathBuf};

/// The zone files of a machine, for the feature `bundled-zones`.
#[derive(Default)]
pub struct Zones {
    /// The version of the database, or `unknown`.
    pub version: String,
    /// The place of each zone in the bytes, by its name: the start and the end.
    pub places: BTreeMap<String, (usize, usize)>,
    /// The contents of the files, each once.
    pub bytes: Vec<u8>,
}

impl Zones {
    /// Returns the folder that `Zone::named` reads on this machine.
    pub fn folder() -> PathBuf {
        println!("cargo::rerun-if-env-changed=TZDIR");
        let folder = env::var_os("TZDIR").filter(|folder| !folder.is_empty());
        let folder = folder.map_or_else(|| PathBuf::from("/usr/share/zoneinfo"), PathBuf::from);
        println!("cargo::rerun-if-changed={}", folder.display());
        folder
    }

    /// Reads the zones of a folder. Names in the database begin with a capital letter, so this leaves out
    /// `localtime`, `posix` and `right`.
    ///
    /// # Errors
    ///
    /// Returns a file that can't be read, or a folder without zones.
    pub fn read(folder: &Path) -> Result<Self, Fault> {
        let mut zones = Self { version: version(folder), ..Self::default() };
        if folder.is_dir() {
            zones.add_folder(folder, "", &mut BTreeMap::new())?;
        }
        if zones.places.is_empty() {
            let reason = "no time zones for the feature bundled-zones; install tzdata, or set TZDIR to a folder of zones";
            return Err(Fault::at_file(folder, &reason));
        }
        Ok(zones)
    }

    /// Adds the zones of a folder, whose names begin with a prefix.
    fn add_folder(&mut self, folder: &Path, prefix: &str, known: &mut BTreeMap<Vec<u8>, (usize, usize)>) -> Result<(), Fault> {
        let fault = |error| Fault::at_file(folder, &error);
        let mut entries: Vec<DirEntry> = fs::read_dir(folder).and_then(Iterator::collect).map_err(fault)?;
        entries.sort_by_key(DirEntry::file_name);
        for entry in entries {
            let (path, name) = (entry.path(), entry.file_name());
            let Some(name) = name.to_str().filter(|name| is_name(name)).map(|name| format!("{prefix}{name}")) else {
                continue;
            };
            if path.is_dir() {
                self.add_folder(&path, &format!("{name}/"), known)?;
            } else if path.is_file() {
                let file = fs::read(&path).map_err(|error| Fault::at_file(&path, &error))?;
                if file.starts_with(b"TZif") {
                    let start = self.bytes.len();
                    let place = *known.entry(file).or_insert_with_key(|file| {
                        self.bytes.extend(file);
                        (start, self.bytes.len())
                    });
                    self.places.insert(name, place);
                }
            }
        }
        Ok(())
    }

    /// Writes the bytes into `zones.bin`, and the rest as Rust into `zones.rs`.
    ///
    /// # Errors
    ///
    /// Returns a file that can't be written.
    pub fn write(&self, out: &Path) -> Result<(), Fault> {
        let rows: String = self.places.iter().map(|(name, (start, end))| format!("({name:?},{start},{end}),")).collect();
        let source = format!(
            "const VERSION: &str = {:?};\nstatic BYTES: &[u8] = include_bytes!(\"zones.bin\");\nstatic PLACES: &[(&str, usize, usize)] = &[{rows}];\n",
            self.version
        );
        for (name, content) in [("zones.bin", self.bytes.as_slice()), ("zones.rs", source.as_bytes())] {
            let path = out.join(name);
            fs::write(&path, content).map_err(|error| Fault::at_file(&path, &error))?;
        }
        Ok(())
    }
}

/// Returns `true` for a part of the name of a zone.
fn is_name(part: &str) -> bool {
    let is_name_byte = |byte: u8| byte.is_ascii_alphanumeric() || b"_-+".contains(&byte);
    part.bytes().all(is_name_byte) && part.starts_with(|first: char| first.is_ascii_uppercase())
}

/// Returns the version of the database, such as `2025b`, from `tzdata.zi` or `+VERSION`, or `unknown`.
fn version(folder: &Path) -> String {
    let line = |name| fs::read_to_string(folder.join(name)).ok()?.lines().next().map(str::to_string);
    let source = line("tzdata.zi").and_then(|line| line.strip_prefix("# version ").map(str::to_string));
    source.or_else(|| line("+VERSION")).map_or_else(|| "unknown".into(), |version| version.trim().into())
}
