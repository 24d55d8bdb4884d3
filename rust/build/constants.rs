//! Functions that are `const` in Rust. In these, what would call a method of a trait is written
//! without one: `u32::from(x)`, `x?`, `x.min(y)`, and the indexes of months and weekdays.

use crate::strip::{Edits, Item, Source, TokenKind, operand, sign_cast};
use std::ops::Range;

/// Types of numbers. `u8` isn't one of them, because months and weekdays are converted to it, too.
const NUMBERS: [&str; 11] = ["i8", "i16", "i32", "i64", "i128", "isize", "u16", "u32", "u64", "u128", "usize"];

/// The functions: a line has a crate, a type or `-`, and names. The compiler rejects a function that
/// can't be constant, because of a loop, a closure or a trait.
const LIST: &str = include_str!("constants.txt");

/// Returns `true` if a function is listed.
fn is_listed(krate: &str, owner: &str, name: &str) -> bool {
    let owner = if owner.is_empty() { "-" } else { owner };
    let head = format!("{krate} {owner}: ");
    LIST.lines().filter_map(|line| line.strip_prefix(&head)).any(|names| names.split(' ').any(|listed| listed == name))
}

/// Makes a function `const` if it is listed.
pub fn change(source: &Source, item: &Item, edits: &mut Edits) {
    if !is_listed(&source.krate, &item.owner, &item.name) {
        return;
    }
    let Some(function) = item.head.clone().find(|at| source.word(*at) == "fn") else { return };
    edits.insert(source.tokens[function].range.start, "const ");
    for at in item.body.clone().unwrap_or_default() {
        without_traits(source, item, at, edits);
    }
}

/// Makes `u32::from(x)` a cast, because a constant can't call a method of a trait. Only numbers and
/// `bool` are converted so.
fn widening(source: &Source, at: usize, edits: &mut Edits) {
    let is_call = (1..5).map(|place| source.word(at + place)).eq([":", ":", "from", "("]);
    if !NUMBERS.contains(&source.word(at)) || !is_call {
        return;
    }
    let open = at + 4;
    let close = closing(source, open);
    edits.replace(source.bytes(&(at..open + 1)), "((");
    edits.replace(source.bytes(&(close..close + 1)), format!(") as {})", source.word(at)));
}

/// Makes `x?` a `match`, because a constant can't call the trait behind it.
fn early_return(source: &Source, at: usize, is_option: bool, edits: &mut Edits) {
    if source.word(at) != "?" {
        return;
    }
    let arms =
        if is_option { "Some(value) => value, None => return None" } else { "Ok(value) => value, Err(error) => return Err(error)" };
    edits.open(&operand(source, at), "(match ");
    edits.replace(source.bytes(&(at..at + 1)), format!(" {{ {arms} }})"));
}

/// Makes `x.min(y)` and `x.max(y)` of numbers an `if`, because a constant can't call a method of a
/// trait.
fn selection(source: &Source, at: usize, edits: &mut Edits) {
    let sign = match source.word(at + 1) {
        "min" => "<",
        "max" => ">",
        _ => return,
    };
    if source.word(at) != "." || source.word(at + 2) != "(" {
        return;
    }
    let close = closing(source, at + 2);
    edits.open(&operand(source, at), "(match (");
    edits.replace(source.bytes(&(at..at + 3)), ", ");
    edits.replace(
        source.bytes(&(close..close + 1)),
        format!(") {{ (one, other) => if one {sign} other {{ one }} else {{ other }} }})"),
    );
}

/// Gives a type the methods of a trait with indexes as constant methods of its own, because a
/// constant can't call a method of a trait.
pub fn own_methods(source: &Source, item: &Item, edits: &mut Edits) {
    let Some((_, kind)) = item.name.split_once("Cycle for ").filter(|_| item.body.is_some()) else { return };
    let methods = source.items.iter().filter(|method| method.owner == item.name && method.body.is_some());
    let methods: Vec<String> = methods.map(|method| format!("pub(crate) const {}", code(source, method))).collect();
    edits.insert(source.bytes(&item.all).end, format!(" impl {kind} {{ {} }}", methods.join(" ")));
}

/// Returns a function as constant code in one line, without its contract and comments.
fn code(source: &Source, item: &Item) -> String {
    let mut edits = Edits::default();
    let part = item.head.start..item.all.end;
    for at in part.clone() {
        match source.tokens[at].kind {
            TokenKind::Clause => edits.replace(source.bytes(&(at..at + 1)), ""),
            TokenKind::Blank => edits.replace(source.bytes(&(at..at + 1)), " "),
            _ => {
                sign_cast(source, at, &mut edits);
                without_traits(source, item, at, &mut edits);
            }
        }
    }
    edits.applied_within(&source.text, source.bytes(&part))
}

/// Writes what calls a method of a trait at a token without it.
fn without_traits(source: &Source, item: &Item, at: usize, edits: &mut Edits) {
    widening(source, at, edits);
    early_return(source, at, source.part(&item.head).contains("-> Option"), edits);
    selection(source, at, edits);
}

/// Returns the token that closes the bracket.
fn closing(source: &Source, open: usize) -> usize {
    let mut depth = 0;
    let closes = |at: &usize| {
        match source.word(*at) {
            "(" => depth += 1,
            ")" => depth -= 1,
            _ => {}
        }
        depth == 0
    };
    Range { start: open, end: source.tokens.len() }.find(closes).unwrap_or(open)
}
