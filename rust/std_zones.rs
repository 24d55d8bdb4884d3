//! Time zones by name, from the files of the system.

use crate::Zone;
#[cfg(feature = "bundled-zones")]
use crate::bundled_zones::bundled;
use crate::error::ZoneError;
use std::boxed::Box;
use std::collections::BTreeMap;
use std::ffi::OsString;
use std::fs::{self, File};
use std::io::{self, Read};
use std::path::Path;
use std::string::String;
use std::sync::{Mutex, PoisonError};
use std::vec::Vec;
use std::{env, fmt};

/// The folder, unless the variable `TZDIR` has another one.
const FOLDER: &str = "/usr/share/zoneinfo";

/// The maximum size of a file, in bytes. The files of the time zone database have below 4000.
const MAX_BYTES: u64 = 65_536;

/// The zones that were read.
static ZONES: Mutex<BTreeMap<String, &'static Zone<'static>>> = Mutex::new(BTreeMap::new());

/// An error: no zone has the name.
#[derive(Debug)]
#[non_exhaustive]
pub enum NamedZoneError {
    /// The name is invalid. It has letters, digits, `_`, `-`, `+` and `/`, and begins with a letter.
    Name,
    /// The file can't be read.
    File(io::Error),
    /// The file isn't a regular file, such as a folder.
    NotRegular,
    /// The file has more than 65536 bytes.
    TooLong,
    /// The file isn't a TZif file.
    Zone(ZoneError),
}

impl fmt::Display for NamedZoneError {
    fn fmt(&self, f: &mut fmt::Formatter<'_>) -> fmt::Result {
        match self {
            Self::Name => f.write_str("invalid name of a zone"),
            Self::File(error) => error.fmt(f),
            Self::NotRegular => f.write_str("not a regular file"),
            Self::TooLong => f.write_str("file too long"),
            Self::Zone(error) => error.fmt(f),
        }
    }
}

impl std::error::Error for NamedZoneError {
    fn source(&self) -> Option<&(dyn std::error::Error + 'static)> {
        match self {
            Self::File(error) => Some(error),
            Self::Zone(error) => Some(error),
            Self::Name | Self::NotRegular | Self::TooLong => None,
        }
    }
}

impl Zone<'static> {
    /// Returns the zone with a name, such as `Europe/Berlin`.
    ///
    /// The file is in the folder that the variable `TZDIR` names, or else in `/usr/share/zoneinfo`.
    /// It is read once, and the zone is kept until the program ends. If the file can't be read, the feature
    /// `bundled-zones` has the zone of the machine that built the crate.
    ///
    /// # Errors
    ///
    /// The reason why no zone has the name.
    ///
    /// ```no_run
    /// use fotsevindre::{OffsetDateTime, Zone};
    ///
    /// let berlin = Zone::named("Europe/Berlin")?;
    /// println!("{:?}", OffsetDateTime::now_utc().in_zone(berlin));
    /// # Ok::<(), fotsevindre::error::NamedZoneError>(())
    /// ```
    pub fn named(name: &str) -> Result<&'static Self, NamedZoneError> {
        if !is_name(name) {
            return Err(NamedZoneError::Name);
        }
        let mut zones = ZONES.lock().unwrap_or_else(PoisonError::into_inner);
        if let Some(zone) = zones.get(name) {
            return Ok(zone);
        }
        let folder = env::var_os("TZDIR").filter(|folder| !folder.is_empty());
        let folder = folder.unwrap_or_else(|| OsString::from(FOLDER));
        let bytes = match read(&Path::new(&folder).join(name)) {
            Err(NamedZoneError::File(error)) => bundled(name).ok_or(NamedZoneError::File(error))?,
            found => {
                let bytes = found?;
                // Only the bytes of a zone are kept.
                Zone::parse(&bytes).map_err(NamedZoneError::Zone)?;
                Box::leak(bytes.into_boxed_slice())
            }
        };
        let zone = Self::parse(bytes).map_err(NamedZoneError::Zone)?;
        Ok(zones.entry(name.into()).or_insert(Box::leak(Box::new(zone))))
    }
}

/// Returns nothing, as the crate has no zones without the feature `bundled-zones`.
#[cfg(not(feature = "bundled-zones"))]
fn bundled(_: &str) -> Option<&'static [u8]> {
    None
}

/// Returns `true` if the file of a zone with this name is in the folder of the zones.
fn is_name(name: &str) -> bool {
    let is_name_byte = |byte: u8| byte.is_ascii_alphanumeric() || b"_-+/".contains(&byte);
    name.starts_with(|first: char| first.is_ascii_alphabetic()) && name.bytes().all(is_name_byte)
}

/// Reads a regular file. Nothing else is opened, since a pipe would wait.
fn read(path: &Path) -> Result<Vec<u8>, NamedZoneError> {
    if !fs::metadata(path).map_err(NamedZoneError::File)?.is_file() {
        return Err(NamedZoneError::NotRegular);
    }
    let mut bytes = Vec::new();
    let file = File::open(path).map_err(NamedZoneError::File)?;
    file.take(MAX_BYTES + 1).read_to_end(&mut bytes).map_err(NamedZoneError::File)?;
    if bytes.len() as u64 > MAX_BYTES { Err(NamedZoneError::TooLong) } else { Ok(bytes) }
}
