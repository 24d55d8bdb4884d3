//! The time zones in the crate, on a machine without any.

use fotsevindre::Zone;
use fotsevindre::error::NamedZoneError;
use std::path::{Path, PathBuf};
use std::{env, fs};

include!(concat!(env!("OUT_DIR"), "/zones.rs"));

/// Appends the names of the zone files in a folder.
fn add_names(root: &Path, folder: &Path, names: &mut Vec<String>) {
    for entry in fs::read_dir(folder).unwrap() {
        let path = entry.unwrap().path();
        let name = path.strip_prefix(root).unwrap().to_str().unwrap().to_string();
        if path.is_dir() && name.starts_with(|first: char| first.is_ascii_uppercase()) {
            add_names(root, &path, names);
        } else if name.starts_with(|first: char| first.is_ascii_uppercase()) && !name.contains('.') {
            names.push(name);
        }
    }
}

/// The only test, so no other thread reads `TZDIR`.
#[test]
fn zones_without_files() {
    let root = env::var_os("TZDIR").map_or_else(|| PathBuf::from("/usr/share/zoneinfo"), PathBuf::from);
    let empty = env::temp_dir().join(format!("fotsevindre-bundled-{}", std::process::id()));
    fs::create_dir_all(&empty).unwrap();
    // SAFETY: this binary has one test.
    unsafe { env::set_var("TZDIR", &empty) };

    // The files of the machine come first.
    fs::copy(root.join("Europe/Berlin"), empty.join("Zulu")).unwrap();
    fs::write(empty.join("GMT"), b"TZif").unwrap();
    assert_eq!(Zone::named("Zulu").unwrap().abbreviation_at(1711846800), "CEST");
    assert!(matches!(Zone::named("GMT"), Err(NamedZoneError::Zone(_))));
    fs::remove_file(empty.join("GMT")).unwrap();

    let berlin = Zone::named("Europe/Berlin").unwrap();
    assert_eq!((berlin.abbreviation_at(1711846799), berlin.abbreviation_at(1711846800)), ("CET", "CEST"));
    assert!(std::ptr::eq(Zone::named("Europe/Berlin").unwrap(), berlin), "the zone is kept");
    for name in ["Europe/Berln", "Europe", "localtime", "right/UTC", "A", "z"] {
        assert!(matches!(Zone::named(name), Err(NamedZoneError::File(_))), "{name}");
    }

    let mut names = Vec::new();
    add_names(&root, &root, &mut names);
    names.sort_unstable();
    assert!(names.iter().eq(PLACES.iter().map(|place| place.0)), "all zones");
    for (name, start, end) in PLACES {
        assert!(BYTES[*start..*end] == fs::read(root.join(name)).unwrap(), "{name}");
        assert!(Zone::named(name).is_ok(), "{name}");
    }
    if let Ok(source) = fs::read_to_string(root.join("tzdata.zi")) {
        assert_eq!(source.lines().next().unwrap(), format!("# version {}", Zone::bundled_version()));
    }
    assert_eq!(VERSION, Zone::bundled_version());

    fs::remove_dir_all(&empty).unwrap();
}
