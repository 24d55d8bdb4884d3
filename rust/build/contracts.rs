//! Contracts in the documentation.

use crate::definitions::{Definitions, code, escaped};
use crate::strip::{Item, Kind, Source, TokenKind};
use std::collections::BTreeMap;

/// Clauses with this label only help proofs.
const LEFT_OUT: &str = "ensures closed_form";

/// Returns `true` if the function has a condition: a `requires`, or for an operator a
/// `ghost can_..` in its `impl`.
pub fn has_condition(source: &Source, item: &Item) -> bool {
    clauses(source, item).iter().any(|clause| clause.starts_with("requires"))
}

/// Returns the clauses of a function, with the comments between them. The ghosts of its `impl` that
/// are about it are clauses, too.
fn clauses(source: &Source, item: &Item) -> Vec<String> {
    let is_around = |other: &&Item| other.body.as_ref().is_some_and(|body| body.contains(&item.head.start));
    let around = source.items.iter().filter(|other| other.kind == Kind::Impl).find(is_around);
    let inside = around.and_then(|around| around.body.clone()).unwrap_or_default();
    let ghosts = inside.filter(|at| source.tokens[*at].kind == TokenKind::Ghost);
    let ghosts = ghosts.filter_map(|at| clause_of(source.word(at), &item.name));
    let own = item.head.clone().filter(|at| match source.tokens[*at].kind {
        TokenKind::Clause => true,
        TokenKind::Blank => source.word(*at).starts_with("//"),
        _ => false,
    });
    ghosts.chain(own.map(|at| source.word(at).to_string())).collect()
}

/// Returns the clause of an operator that a ghost is: `can_add` is the condition of `add`, and
/// `add_gives` its result.
fn clause_of(ghost: &str, function: &str) -> Option<String> {
    let (name, text) = ghost.strip_prefix("ghost ")?.split_once('=')?;
    let text = text.trim().trim_end_matches(';');
    match name.trim() {
        name if name.strip_prefix("can_") == Some(function) => Some(format!("requires {text}")),
        name if name.strip_suffix("_gives") == Some(function) || name == function => Some(format!("ensures {text}")),
        _ => None,
    }
}

/// Returns an attribute with the contract as documentation, folded, or nothing without a contract.
pub fn documentation(source: &Source, item: &Item, panics: Option<&str>, definitions: &Definitions) -> String {
    let mut text = String::new();
    if let Some(words) = panics {
        text += &format!("\n\n# Panics\n\nPanics with `{words}` unless the condition in the contract holds.");
    }
    let clauses = clauses(source, item);
    if clauses.iter().any(|clause| !clause.starts_with("//")) {
        let names = definitions.imports(ghost_uses(source));
        text += "\n\n<details><summary>Contract</summary>\n\n";
        // Without a panic, each value of Rust fulfils the condition.
        let is_shown = |clause: &&String| !clause.starts_with(LEFT_OUT) && (panics.is_some() || !clause.starts_with("requires"));
        for clause in clauses.iter().filter(is_shown) {
            text += &written_clause(clause, &names);
        }
        text += "\n</details>";
    }
    if text.is_empty() { text } else { format!("#[doc = {text:?}] ") }
}

/// Returns the `ghost use` lines of a file.
fn ghost_uses(source: &Source) -> impl Iterator<Item = &str> {
    let ghosts = source.tokens.iter().filter(|token| token.kind == TokenKind::Ghost);
    ghosts.map(|token| &source.text[token.range.clone()]).filter(|text| text.starts_with("ghost use "))
}

/// Returns a clause as Markdown. A condition becomes what the function panics unless it holds.
fn written_clause(clause: &str, names: &BTreeMap<&str, String>) -> String {
    if let Some(comment) = clause.strip_prefix("//") {
        return format!("{}\n", escaped(comment.trim()));
    }
    let clause = match clause.strip_prefix("requires") {
        Some(condition) => format!("panics unless{condition}"),
        None => clause.to_string(),
    };
    let depth = clause.lines().skip(1).map(|line| line.len() - line.trim_start().len()).min().unwrap_or(0);
    let lines: Vec<String> =
        clause.lines().enumerate().map(|(index, line)| code(if index > 0 { &line[depth - 2..] } else { line }, names)).collect();
    format!("\n{}\n", lines.join("<br>\n"))
}
