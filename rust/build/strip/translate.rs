use super::edits::Edits;
use super::fault::Fault;
use super::items::{Item, Items, Kind};
use super::lexer::{Token, TokenKind, tokens};
use super::operand::operand;
use std::ops::Range;
use std::path::{Path, PathBuf};

/// Adds changes to the translation of a file.
pub type Change<'a> = dyn Fn(&Source, &mut Edits) -> Result<(), Fault> + 'a;

/// How source is translated.
pub struct Options<'a> {
    /// The crates that become modules, with the path of the module that has them, such as
    /// `crate::`.
    pub crates: &'a [&'a str],
    /// The path that replaces the kit's `std`, such as `core`.
    pub standard: &'a str,
    /// The folder of the tests, which are left out without it.
    pub tests: Option<&'a Path>,
    /// Other changes of each file.
    pub more: Option<&'a Change<'a>>,
}

/// A file with its tokens and items.
pub struct Source {
    /// The file.
    pub path: PathBuf,
    /// The crate that has it.
    pub krate: String,
    /// The text.
    pub text: String,
    /// All tokens.
    pub tokens: Vec<Token>,
    /// All items.
    pub items: Vec<Item>,
}

impl Source {
    /// Splits a file into tokens and items.
    ///
    /// # Errors
    ///
    /// Returns the line of what isn't understood.
    pub fn new(path: PathBuf, krate: &str, text: String) -> Result<Self, Fault> {
        let mut source = Source { path, krate: krate.to_string(), text, tokens: Vec::new(), items: Vec::new() };
        source.tokens = tokens(&source.text).map_err(|(at, reason)| source.fault(at, reason))?;
        source.items = Items::read(&source.text, &source.tokens).map_err(|(at, reason)| source.fault(at, reason))?;
        Ok(source)
    }

    /// Returns the fault at an index.
    pub fn fault(&self, at: usize, reason: impl Into<String>) -> Fault {
        let line = self.text[..at].matches('\n').count() + 1;
        Fault { path: self.path.clone(), line, reason: reason.into() }
    }

    /// Returns the bytes of tokens.
    pub fn bytes(&self, tokens: &Range<usize>) -> Range<usize> {
        match self.tokens.get(tokens.clone()) {
            Some([first, .., last]) => first.range.start..last.range.end,
            Some([token]) => token.range.clone(),
            _ => 0..0,
        }
    }

    /// Returns the text of tokens.
    pub fn part(&self, tokens: &Range<usize>) -> &str {
        &self.text[self.bytes(tokens)]
    }

    /// Returns the text of a token, or nothing after the last one.
    pub fn word(&self, token: usize) -> &str {
        self.tokens.get(token).map_or("", |token| &self.text[token.range.clone()])
    }
}

/// Returns the file as Rust.
///
/// # Errors
///
/// Returns what isn't understood.
pub fn translated(source: &Source, options: &Options) -> Result<String, Fault> {
    let mut edits = Edits::default();
    for token in &source.tokens {
        if matches!(token.kind, TokenKind::Clause | TokenKind::Ghost) {
            edits.comment_out(token.range.clone());
        }
    }
    for at in 0..source.tokens.len() {
        attribute(source, at, &mut edits);
        path(source, at, options, &mut edits);
        link(source, at, &mut edits);
        hasher(source, at, options, &mut edits);
        sign_cast(source, at, &mut edits);
    }
    for item in &source.items {
        if is_left_out(source, item, options) {
            edits.comment_out(source.bytes(&item.all));
        } else {
            trait_method(source, item, &mut edits)?;
        }
    }
    if let Some(more) = options.more {
        more(source, &mut edits)?;
    }
    Ok(edits.applied(&source.text))
}

/// Leaves out `#[tactic(..)]`, `#[cycle(..)]`, and `Drop` in `#[derive(..)]`.
fn attribute(source: &Source, at: usize, edits: &mut Edits) {
    let open = at + 1 + usize::from(source.word(at + 1) == "!");
    if source.word(at) != "#" || source.word(open) != "[" {
        return;
    }
    let close = (open..source.tokens.len()).find(|token| source.word(*token) == "]").unwrap_or(open);
    match source.word(open + 1) {
        "tactic" | "cycle" => edits.comment_out(source.bytes(&(at..close + 1))),
        "derive" => {
            if let Some(drop) = (open..close).find(|token| source.word(*token) == "Drop") {
                let end = drop + 1 + usize::from(source.word(drop + 1) == ",");
                edits.comment_out(source.bytes(&(drop..end)));
            }
        }
        _ => {}
    }
}

/// Replaces the first name of a path with its name in Rust.
fn path(source: &Source, at: usize, options: &Options, edits: &mut Edits) {
    let is_path = source.word(at + 1) == ":" && source.word(at + 2) == ":";
    let is_inner = at > 0 && source.word(at - 1) == ":";
    if source.tokens[at].kind != TokenKind::Word || !is_path || is_inner {
        return;
    }
    let range = source.tokens[at].range.clone();
    match source.word(at) {
        "crate" => edits.insert(range.end, format!("::{}", source.krate)),
        "std" => edits.replace(range, options.standard),
        word if options.crates.contains(&word) => edits.insert(range.start, "crate::"),
        _ => {}
    }
}

/// Makes the targets of links in documentation the paths that they have in Rust.
fn link(source: &Source, at: usize, edits: &mut Edits) {
    let token = &source.tokens[at];
    if token.kind == TokenKind::Doc {
        for (start, target) in source.word(at).match_indices("](crate") {
            edits.insert(token.range.start + start + target.len(), format!("::{}", source.krate));
        }
    }
}

/// Leaves `DefaultHasher` out of an import, because `core` has none.
fn hasher(source: &Source, at: usize, options: &Options, edits: &mut Edits) {
    if options.standard == "core" && source.word(at) == "DefaultHasher" && source.word(at + 1) == "," {
        edits.comment_out(source.bytes(&(at..at + 2)));
    }
}

/// Replaces `x.cast_signed()` and `x.cast_unsigned()`, which came with Rust 1.87, by a function that
/// constants can call.
pub fn sign_cast(source: &Source, at: usize, edits: &mut Edits) {
    let method = match source.word(at + 1) {
        "cast_signed" => "into_signed",
        "cast_unsigned" => "into_unsigned",
        _ => return,
    };
    if source.word(at) == "." {
        edits.open(&operand(source, at), "crate::signs::Bits(");
        edits.replace(source.bytes(&(at..at + 2)), format!(").{method}"));
    }
}

/// Returns `true` for what only the kit has: models, clones that may fail, and modules of tests if
/// they aren't kept.
fn is_left_out(source: &Source, item: &Item, options: &Options) -> bool {
    let all = source.part(&item.all);
    match item.kind {
        Kind::Impl => item.name.starts_with("Model for "),
        Kind::Use => matches!(source.part(&item.head), "use std::marker::Model" | "use std::alloc::AllocError"),
        Kind::Module => options.tests.is_none() && all.contains("#[cfg(test)]"),
        Kind::Function if item.owner.is_empty() => {
            source.path.ends_with("laws.rt") && source.part(&item.head).contains("AllocError>")
                || options.standard == "core" && all.contains("DefaultHasher")
        }
        _ => false,
    }
}

/// Gives `fmt` and `clone` the signatures that Rust has.
fn trait_method(source: &Source, item: &Item, edits: &mut Edits) -> Result<(), Fault> {
    let changes: &[(&str, &str)] = match (item.kind, item.name.as_str(), item.owner.split(' ').next()) {
        (Kind::Function, "fmt", Some("Display" | "Debug")) => &[("<W: fmt::Write>", ""), ("<W>", "<'_>")],
        (Kind::Function, "clone", Some("Clone")) => &[("Result<Self, AllocError>", "Self"), ("Ok(", "(")],
        _ => return Ok(()),
    };
    let all = source.bytes(&item.all);
    let mut at = source.bytes(&item.head).start;
    for (kit, rust) in changes {
        let Some(place) = source.text[at..all.end].find(kit) else {
            return Err(source.fault(at, format!("a method {} without {kit}", item.name)));
        };
        at += place + kit.len();
        edits.replace(at - kit.len()..at, *rust);
    }
    Ok(())
}
