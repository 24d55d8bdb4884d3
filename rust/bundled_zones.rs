//! The time zones of the machine that built the crate.

use crate::Zone;

include!(concat!(env!("OUT_DIR"), "/zones.rs"));

impl Zone<'static> {
    /// Returns the version of the time zone database that is built into the crate, such as `2025b`, or
    /// `unknown`.
    #[must_use]
    pub const fn bundled_version() -> &'static str {
        VERSION
    }
}

/// Returns the bytes of the zone with a name.
pub fn bundled(name: &str) -> Option<&'static [u8]> {
    let index = PLACES.binary_search_by_key(&name, |place| place.0).ok()?;
    let (_, start, end) = PLACES[index];
    BYTES.get(start..end)
}
