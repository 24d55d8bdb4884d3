//! Additions for a crate of Rust: checked conditions, contracts in the documentation,
//! small functions that other crates may inline, and methods of traits that the kit has on types.

use crate::constants;
use crate::contracts;
use crate::decisions::{Decision, TABLES, decision, is_replaced};
use crate::definitions::Definitions;
use crate::members;
use crate::methods;
use crate::strip::{Edits, Fault, Item, Kind, Source, TokenKind};

/// Traits with laws. Only the crate implements them.
const SEALED: [&str; 4] = ["Counted", "Cycle", "SetValue", "Word"];

/// The number of lines of a body up to which a function is marked `#[inline]`.
const SMALL_LINES: usize = 12;

/// Methods that a trait has in Rust, and only the type in the source.
const TRAIT_METHODS: &[(&str, &str)] = &[
    (
        "Iterator for DateIter",
        "fn nth(&mut self, n: usize) -> Option<Date> { DateIter::nth(self, n) } \
         fn count(self) -> usize { DateIter::count(self) } \
         fn last(self) -> Option<Date> { DateIter::last(self) } \
         fn max(self) -> Option<Date> { DateIter::max(self) } \
         fn min(self) -> Option<Date> { DateIter::min(self) }",
    ),
    ("DoubleEndedIterator for DateIter", "fn nth_back(&mut self, n: usize) -> Option<Date> { DateIter::nth_back(self, n) }"),
    ("Iterator for CycleIter", "fn nth(&mut self, n: usize) -> Option<C> { CycleIter::nth(self, n) }"),
    ("Iterator for Rev", "fn nth(&mut self, n: usize) -> Option<C> { Rev::nth(self, n) }"),
];

/// Changes a file.
///
/// # Errors
///
/// Returns a public function with a condition that nobody decided about.
pub fn change(source: &Source, definitions: &Definitions, edits: &mut Edits) -> Result<(), Fault> {
    if source.krate == "cal_c" {
        plain(source, edits);
        return Ok(());
    }
    for item in &source.items {
        match item.kind {
            Kind::Function => {
                function(source, item, definitions, edits)?;
                methods::add(source, item, definitions, edits);
            }
            Kind::Impl | Kind::Trait => {
                block(source, item, edits);
                constants::own_methods(source, item, edits);
            }
            Kind::Use => export(source, item, edits),
            Kind::Type => {
                derives(source, item, edits);
                members::add(source, item, edits);
            }
            _ => {}
        }
    }
    for at in 0..source.tokens.len() {
        duration_parts(source, at, edits);
        methods::link(source, at, edits);
    }
    Ok(())
}

/// Makes functions for C plain functions of the crate, without symbols, and all items visible in it,
/// so that modules written by hand can call the rows of a column.
fn plain(source: &Source, edits: &mut Edits) {
    for at in 0..source.tokens.len() {
        if source.word(at) == "#" && source.word(at + 2) == "unsafe" && source.word(at + 4) == "no_mangle" {
            edits.comment_out(source.bytes(&(at..at + 7)));
        }
        if source.word(at) == "extern" && source.word(at + 2) == "\"C\"" {
            edits.comment_out(source.bytes(&(at..at + 3)));
        }
    }
    for item in &source.items {
        if item.kind == Kind::Type {
            derives(source, item, edits);
        }
        show(source, item, edits);
    }
}

/// Makes an item visible in the crate.
fn show(source: &Source, item: &Item, edits: &mut Edits) {
    let head = source.part(&item.head);
    let start = source.bytes(&item.head).start;
    let is_named = matches!(item.kind, Kind::Function | Kind::Type | Kind::Module) || head.starts_with("const ");
    if let Some(name) = head.strip_prefix("macro_rules!") {
        edits.insert(source.bytes(&item.all).end, format!(" pub(crate) use {};", name.trim()));
    } else if head.starts_with("pub(super)") {
        edits.replace(start..start + "pub(super)".len(), "pub(crate)");
    } else if is_named && !head.starts_with("pub") && !is_of_trait(source, item) {
        edits.insert(start, "pub(crate) ");
    }
}

/// Adds methods of traits, and seals traits.
fn block(source: &Source, item: &Item, edits: &mut Edits) {
    let Some(body) = &item.body else { return };
    if let Some((_, methods)) = TRAIT_METHODS.iter().find(|row| row.0 == item.name) {
        edits.insert(source.bytes(body).start + 1, *methods);
    }
    if item.kind == Kind::Trait && SEALED.contains(&item.name.as_str()) {
        let has_bounds = source.part(&item.head).contains(':');
        let end = source.bytes(&item.head).start + source.part(&item.head).trim_end().len();
        edits.insert(end, if has_bounds { " + crate::sealed::Sealed" } else { ": crate::sealed::Sealed" });
    }
}

/// Traits that types have in Rust, but not in the source.
const DERIVES: &[(&str, &[&str], &[&str])] = &[
    ("cal_units", &["ShortText"], &["Copy"]),
    (
        "cal_format",
        &[
            "Format",
            "Shown",
            "DateFormat",
            "TimeFormat",
            "OffsetFormat",
            "DateTimeFormat",
            "OffsetDateTimeFormat",
            "LenientFormat",
            "LenientDateFormat",
            "LenientTimeFormat",
            "LenientDateTimeFormat",
            "LenientOffsetDateTimeFormat",
        ],
        &["Debug"],
    ),
    ("cal_recurrence", &["ZonedSet", "Occurrences", "CountedZonedSet"], &["Debug"]),
    ("cal_duration", &["Text"], &["Copy"]),
    ("cal_zone", &["Zone", "UncheckedZone", "Table"], &["Copy", "Debug", "PartialEq", "Eq"]),
    ("cal_c", &["Policy"], &["PartialEq", "Eq", "Hash"]),
    ("cal_zone", &["Gap", "Layout", "Local", "Rule", "Yearly"], &["Debug", "PartialEq", "Eq"]),
    ("cal_zone", &["Policy"], &["Hash"]),
    ("cal_zoned", &["ZonedDateTime"], &["Copy", "Debug"]),
    ("cal_schedule", &["Period", "DateRange"], &["Hash"]),
];

/// Derives traits. A type that the kit drops can be cloned in Rust, unless it has a clone of its
/// own.
fn derives(source: &Source, item: &Item, edits: &mut Edits) {
    let derived = source.part(&(item.all.start..item.head.start));
    let has =
        |name: &str| derived.contains(name) || source.items.iter().any(|other| other.name == format!("{name} for {}", item.name));
    let listed = DERIVES.iter().filter(|row| row.0 == source.krate && row.1.contains(&item.name.as_str())).flat_map(|row| row.2);
    let dropped = derived.contains("Drop").then_some(&"Clone");
    let traits: Vec<&str> = listed.chain(dropped).copied().filter(|name| !has(name)).collect();
    if !traits.is_empty() {
        edits.insert(source.bytes(&item.head).start, format!("#[derive({})] ", traits.join(", ")));
    }
    if item.name == "Table" {
        let fields = item.body.clone().unwrap_or_default();
        let bytes = fields.clone().find(|at| source.word(*at) == "bytes");
        edits.insert(source.tokens[bytes.unwrap_or(fields.start)].range.start, "pub(crate) ");
    }
}

/// Exports functions that aren't public for the crate only.
fn export(source: &Source, item: &Item, edits: &mut Edits) {
    let head = source.bytes(&item.head);
    let is_hidden = |name: &str| matches!(decision("", name), Some(Decision::Hide));
    let Some((path, _)) = source.part(&item.head).strip_prefix("pub use ").and_then(|path| path.split_once('{')) else {
        if item.head.clone().any(|at| is_hidden(source.word(at))) && source.part(&item.head).starts_with("pub use") {
            edits.replace(head.start..head.start + "pub".len(), "pub(crate)");
        }
        return;
    };
    for at in item.head.clone().filter(|at| is_hidden(source.word(*at))) {
        edits.insert(head.start, format!("pub(crate) use {path}{}; ", source.word(at)));
        let end = at + 1 + usize::from(source.word(at + 1) == ",");
        edits.comment_out(source.bytes(&(at..end)));
    }
}

/// Decides about a function.
fn function(source: &Source, item: &Item, definitions: &Definitions, edits: &mut Edits) -> Result<(), Fault> {
    let head = source.bytes(&item.head);
    let is_public = source.part(&item.head).starts_with("pub fn");
    let is_reachable = is_public || is_of_trait(source, item);
    let found = decision(&item.owner, &item.name);
    if is_reachable && contracts::has_condition(source, item) && found.is_none() {
        let reason = format!("nobody decided about the condition of {} {}", item.owner, item.name);
        return Err(source.fault(head.start, reason));
    }
    let found = found.filter(|_| contracts::has_condition(source, item));
    let is_hidden = matches!(found, Some(Decision::Hide)) || is_replaced(&item.owner, &item.name);
    if is_hidden && is_public {
        edits.replace(head.start..head.start + "pub".len(), "pub(crate)");
    }
    let words = checked(source, item, found, edits)?;
    let mut attributes = String::new();
    if is_reachable && !is_hidden {
        attributes += &contracts::documentation(source, item, words, definitions);
    }
    if words.is_some() {
        attributes += "#[track_caller] ";
    }
    if is_always_inline(source, item) {
        attributes += "#[inline(always)] ";
    } else if is_small(source, item) {
        attributes += "#[inline] ";
    }
    edits.insert(head.start, attributes);
    table(source, item, edits);
    constants::change(source, item, edits);
    Ok(())
}

/// Makes a function a look-up in a table, which the function of the source computes.
fn table(source: &Source, item: &Item, edits: &mut Edits) {
    let key = (source.krate.as_str(), item.owner.as_str(), item.name.as_str());
    let Some((.., body)) = TABLES.iter().find(|row| (row.0, row.1, row.2) == key) else { return };
    let Some(name) = item.head.clone().find(|at| source.word(*at) == item.name) else { return };
    let rest: String =
        (name + 1..item.head.end).filter(|at| source.tokens[*at].kind != TokenKind::Clause).map(|at| source.word(at)).collect();
    let rest = rest.split_whitespace().collect::<Vec<_>>().join(" ");
    let function = item.head.clone().find(|at| source.word(*at) == "fn").unwrap_or(name);
    edits.replace(source.bytes(&item.head).start..source.tokens[function].range.start, "pub(crate) ");
    edits.insert(source.tokens[name].range.start, "computed_");
    edits.insert(source.bytes(&item.all).end, format!(" #[inline] pub(crate) const fn {}{rest} {{ {body} }}", item.name));
}

/// Writes the check of a condition, and returns the words of its panic.
fn checked(source: &Source, item: &Item, found: Option<&Decision>, edits: &mut Edits) -> Result<Option<&'static str>, Fault> {
    let Some(body) = &item.body else { return Ok(None) };
    let range = source.bytes(body);
    match found {
        Some(Decision::Panic(words)) => {
            let calls: Vec<_> = source.part(body).match_indices(".unwrap()").collect();
            let [(at, call)] = calls[..] else {
                return Err(source.fault(range.start, "a body that should panic without one .unwrap()"));
            };
            let start = range.start + at;
            edits.replace(start..start + call.len(), format!(".expect({words:?})"));
            Ok(Some(*words))
        }
        Some(Decision::Check(words, condition)) => {
            edits.insert(range.start + 1, format!(" if !({condition}) {{ panic!({words:?}) }}"));
            Ok(Some(*words))
        }
        Some(Decision::Calls(words)) => Ok(Some(*words)),
        Some(Decision::Keep | Decision::Hide) | None => Ok(None),
    }
}

/// Returns `true` for a method of a trait, which is as public as the trait.
fn is_of_trait(source: &Source, item: &Item) -> bool {
    let owner = source.items.iter().find(|other| {
        let is_around = other.body.as_ref().is_some_and(|body| body.contains(&item.head.start));
        matches!(other.kind, Kind::Impl | Kind::Trait) && is_around
    });
    owner.is_some_and(|owner| owner.kind == Kind::Trait || owner.name.contains(" for "))
}

/// Returns `true` for the steps from a date and a period to a date. A caller that adds a period once
/// multiplies by 1, which disappears only where the steps are inlined.
fn is_always_inline(source: &Source, item: &Item) -> bool {
    source.krate == "cal_schedule" && item.owner.is_empty() && ["nth_period", "nth_date", "moved"].contains(&item.name.as_str())
}

/// Returns `true` if the function is small and has no attribute about inlining.
fn is_small(source: &Source, item: &Item) -> bool {
    let Some(body) = &item.body else { return false };
    let before = source.part(&(item.all.start..item.head.start));
    let code = source.part(body).lines().filter(|line| !line.trim().is_empty() && !line.trim_start().starts_with("//")).count();
    code <= SMALL_LINES && !before.contains("#[inline") && !before.contains("#[cold]") && !before.contains("#[test]")
}

/// Gives the name of the source's `unsigned_abs` of a duration, which returns a pair, another name:
/// in Rust it returns a [`std::time::Duration`].
fn duration_parts(source: &Source, at: usize, edits: &mut Edits) {
    if source.word(at) != "unsigned_abs" || source.tokens[at].kind != TokenKind::Word || source.krate == "cal_units" {
        return;
    }
    let start = source.tokens[at].range.start;
    let line = source.text[..start].rfind('\n').map_or(0, |index| index + 1);
    let before = source.text[line..start].trim_start();
    if before.starts_with("let (") || source.krate == "cal_span" && before == "pub fn " {
        edits.insert(source.tokens[at].range.end, "_parts");
    }
}
