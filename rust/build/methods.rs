//! Free functions that are methods in Rust. A crate of the kit can't add methods to the types of
//! another crate; here all are one crate.

use crate::contracts;
use crate::definitions::Definitions;
use crate::strip::{Edits, Item, Kind, Source, TokenKind};

/// The functions by crate and by the type that has them as methods. Their first parameter becomes
/// `self` if it has this type.
const METHODS: &[(&str, &str, &[&str])] = &[
    ("cal_datetime", "Date", &["midnight", "with_time", "with_hms", "with_hms_milli", "with_hms_micro", "with_hms_nano"]),
    (
        "cal_schedule",
        "Date",
        &[
            "checked_add_months",
            "saturating_add_months",
            "checked_add_years",
            "months_until",
            "years_until",
            "period_until",
            "period_until_by",
            "first_of",
            "last_of",
            "first_of_month",
            "last_of_month",
            "first_of_quarter",
            "last_of_quarter",
            "first_of_year",
            "last_of_year",
            "first_of_iso_week",
            "last_of_iso_week",
            "quarter",
            "on_or_after",
            "on_or_before",
            "day_count",
            "nth_weekday_of_month",
            "last_weekday_of_month",
            "checked_add_period",
            "nth_period",
            "step_of",
        ],
    ),
    ("cal_zone", "OffsetDateTime", &["in_zone"]),
    ("cal_zoned", "PlainDateTime", &["checked_add_period", "nth_period", "period_until", "step_of"]),
    ("cal_rounding", "Time", &["round_time"]),
    ("cal_rounding", "PlainDateTime", &["round_date_time"]),
    ("cal_rounding", "OffsetDateTime", &["round_offset_date_time"]),
    ("cal_rounding", "SignedDuration", &["round_duration"]),
    ("cal_holidays", "Date", &["easter", "julian_easter"]),
];

/// Returns the name of the method. The functions of `cal_rounding` have the type in their names.
fn method_name(name: &str) -> &str {
    if name.starts_with("round_") { "round" } else { name }
}

/// Makes links to functions that are methods in Rust links to these.
pub fn link(source: &Source, at: usize, edits: &mut Edits) {
    if source.tokens[at].kind == TokenKind::Doc {
        let start = source.tokens[at].range.start;
        for (place, target) in links(&source.krate, source.word(at)) {
            edits.insert(start + place, target);
        }
    }
}

/// Returns the targets of links to functions that are methods, each with the place after its link.
/// A link to a function of another crate has the name of that crate.
fn links(krate: &str, text: &str) -> Vec<(usize, String)> {
    let mut found = Vec::new();
    for (of, owner, names) in METHODS {
        let path = if *of == krate { String::new() } else { format!("{of}::") };
        for name in *names {
            let link = format!("[`{path}{name}`]");
            let target = format!("(crate::{owner}::{})", method_name(name));
            let places = text.match_indices(&link).map(|(start, _)| start + link.len());
            found.extend(places.filter(|end| !text[*end..].starts_with('(')).map(|end| (end, target.clone())));
        }
    }
    found.sort_by_key(|place| std::cmp::Reverse(place.0));
    found
}

/// Returns the documentation that the source has for a function, as one attribute of its method.
fn documentation(source: &Source, item: &Item) -> String {
    let lines = (item.all.start..item.head.start).filter(|at| source.tokens[*at].kind == TokenKind::Doc);
    let lines: Vec<&str> = lines.filter_map(|at| source.word(at).strip_prefix("///")).collect();
    let mut text = lines.join("\n");
    for (place, target) in links(&source.krate, &text) {
        text.insert_str(place, &target);
    }
    format!("#[doc = {text:?}] ")
}

/// Adds the method of a free function after it.
pub fn add(source: &Source, item: &Item, definitions: &Definitions, edits: &mut Edits) {
    let name = item.name.as_str();
    let Some((_, owner, _)) = METHODS.iter().find(|row| row.0 == source.krate && row.2.contains(&name)) else { return };
    let is_inside =
        |other: &Item| other.kind == Kind::Impl && other.body.as_ref().is_some_and(|body| body.contains(&item.head.start));
    if !source.part(&item.head).starts_with("pub fn") || source.items.iter().any(is_inside) {
        return;
    }
    let head: String =
        item.head.clone().filter(|at| source.tokens[*at].kind != TokenKind::Clause).map(|at| source.word(at)).collect();
    let (Some(open), Some(close)) = (head.find('('), head.rfind(')')) else { return };
    let result = head.split_once("->").map_or("()", |parts| parts.1).trim();
    let close = if head.contains("->") { head[..head.find("->").unwrap_or(close)].rfind(')').unwrap_or(close) } else { close };
    let parameters: Vec<(&str, &str)> = head[open + 1..close].split(',').filter_map(|part| part.trim().split_once(':')).collect();
    let has_self = parameters.first().is_some_and(|first| first.1.trim() == *owner);
    let declared = parameters.iter().enumerate().map(|(index, (name, kind))| match index {
        0 if has_self => "self".to_string(),
        _ => format!("{name}: {kind}"),
    });
    let passed = parameters.iter().enumerate().map(|(index, (name, _))| if index == 0 && has_self { "self" } else { *name });
    let (declared, passed) = (declared.collect::<Vec<_>>().join(", "), passed.collect::<Vec<_>>().join(", "));
    let documentation = documentation(source, item) + &contracts::documentation(source, item, None, definitions);
    let method = format!("#[inline] pub fn {}({declared}) -> {result} {{ {name}({passed}) }}", method_name(name));
    edits.insert(source.bytes(&item.all).end, format!(" impl {owner} {{ {documentation}{method} }}"));
}
