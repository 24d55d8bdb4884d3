//! Constants of types that only the crate has. They are written after the type, since they name its
//! private fields.

use crate::strip::{Edits, Item, Source};

/// The members by crate and type.
const MEMBERS: &[(&str, &str, &str)] = &[
    // A packed date is its year times 1024 plus its ordinal, with a mark in a leap year.
    ("cal_date", "Date", "pub(crate) const UNIX_EPOCH: Self = Self { packed: 1970 * 1024 + 1 };"),
    (
        "cal_datetime",
        "OffsetDateTime",
        "/// The start of Unix time, 1970-01-01 0:00:00.0 +00:00:00.\n\
         pub const UNIX_EPOCH: Self = Self { date: Date::UNIX_EPOCH, offset: UtcOffset::UTC, time: Time::MIDNIGHT };",
    ),
];

/// Adds the members of a type after it.
pub fn add(source: &Source, item: &Item, edits: &mut Edits) {
    let found = MEMBERS.iter().find(|row| (row.0, row.1) == (source.krate.as_str(), item.name.as_str()));
    if let Some((_, name, members)) = found {
        edits.insert(source.bytes(&item.all).end, format!(" impl {name} {{ {members} }}"));
    }
}
