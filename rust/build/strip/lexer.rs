use std::ops::Range;

/// The kind of a token.
#[derive(Clone, Copy, Debug, PartialEq, Eq)]
pub enum TokenKind {
    /// White space and comments that aren't documentation.
    Blank,
    /// A comment of documentation: `///` or `//!`.
    Doc,
    /// A name, a keyword or a number.
    Word,
    /// A string, a character or a lifetime.
    Literal,
    /// Any other character.
    Mark,
    /// A `requires` or `ensures` with its label and its braces.
    Clause,
    /// A `ghost` declaration up to its semicolon or comma.
    Ghost,
}

/// A part of a file.
#[derive(Clone, Debug, PartialEq, Eq)]
pub struct Token {
    /// The kind.
    pub kind: TokenKind,
    /// The range in bytes.
    pub range: Range<usize>,
}

/// The index and the reason of source that isn't understood.
pub type Refusal = (usize, &'static str);

/// Splits a file into tokens, without gaps.
///
/// # Errors
///
/// Returns the index of a string, comment, clause or ghost that has no end or isn't understood.
pub fn tokens(text: &str) -> Result<Vec<Token>, Refusal> {
    let mut result = Vec::new();
    let mut at = 0;
    while at < text.len() {
        let (kind, end) = token_at(text, at)?;
        result.push(Token { kind, range: at..end });
        at = end;
    }
    Ok(result)
}

/// Returns the kind and the end of the token at the index.
fn token_at(text: &str, at: usize) -> Result<(TokenKind, usize), Refusal> {
    let rest = &text[at..];
    let first = rest.chars().next().ok_or((at, "a token without a character"))?;
    if first.is_whitespace() {
        return Ok((TokenKind::Blank, at + rest.len() - rest.trim_start().len()));
    }
    if rest.starts_with("//") {
        let is_doc = rest.starts_with("//!") || rest.starts_with("///") && !rest.starts_with("////");
        let end = at + rest.find('\n').unwrap_or(rest.len());
        return Ok((if is_doc { TokenKind::Doc } else { TokenKind::Blank }, end));
    }
    if rest.starts_with("/*") {
        return Ok((TokenKind::Blank, at + comment_length(rest).ok_or((at, "a comment without an end"))?));
    }
    if let Some(length) = literal_length(rest) {
        let length = length.ok_or((at, "a string without an end"))?;
        return Ok((TokenKind::Literal, at + length));
    }
    if !is_name(first) {
        return Ok((TokenKind::Mark, at + first.len_utf8()));
    }
    let word = &rest[..word_length(rest)];
    match word {
        "requires" | "ensures" => Ok((TokenKind::Clause, clause_end(text, at, word.len())?)),
        "ghost" => Ok((TokenKind::Ghost, ghost_end(text, at)?)),
        _ => Ok((TokenKind::Word, at + word.len())),
    }
}

/// Returns `true` if names have the character.
pub fn is_name(c: char) -> bool {
    c.is_alphanumeric() || c == '_'
}

/// Returns the length of the name or number at the start.
fn word_length(rest: &str) -> usize {
    rest.find(|c| !is_name(c)).unwrap_or(rest.len())
}

/// Returns the length of a block comment, in which others may be nested.
fn comment_length(rest: &str) -> Option<usize> {
    let mut depth = 0;
    let mut at = 0;
    loop {
        let part = &rest[at..];
        if part.starts_with("/*") {
            depth += 1;
            at += 2;
        } else if part.starts_with("*/") {
            depth -= 1;
            at += 2;
            if depth == 0 {
                return Some(at);
            }
        } else {
            at += part.chars().next()?.len_utf8();
        }
    }
}

/// Returns the length of a string, a character or a lifetime, `Some(None)` if it has no end, or
/// `None` if something else is at the start.
fn literal_length(rest: &str) -> Option<Option<usize>> {
    let prefix = ["br", "cr", "r", "b", "c"].into_iter().find(|prefix| {
        let after =
            rest.strip_prefix(prefix).map(|after| if prefix.ends_with('r') { after.trim_start_matches('#') } else { after });
        after.is_some_and(|after| after.starts_with('"') || *prefix == "b" && after.starts_with('\''))
    });
    let prefix = prefix.unwrap_or("");
    let body = &rest[prefix.len()..];
    if prefix.ends_with('r') {
        let hashes = body.find('"')?;
        let close = format!("\"{}", &body[..hashes]);
        let start = hashes + 1;
        return Some(body[start..].find(&close).map(|at| prefix.len() + start + at + close.len()));
    }
    match body.chars().next()? {
        '"' => Some(string_length(body).map(|length| prefix.len() + length)),
        '\'' => Some(Some(prefix.len() + character_length(body))),
        _ => None,
    }
}

/// Returns the length of a string with escapes.
fn string_length(rest: &str) -> Option<usize> {
    let mut is_escaped = true;
    for (at, c) in rest.char_indices() {
        match c {
            '"' if !is_escaped => return Some(at + 1),
            _ => is_escaped = c == '\\' && !is_escaped,
        }
    }
    None
}

/// Returns the length of a character or a lifetime.
fn character_length(rest: &str) -> usize {
    let inner = &rest[1..];
    let length = match inner.chars().next() {
        Some('\\') => inner.get(2..).and_then(|after| after.find('\'')).map_or(1, |at| at + 2),
        first => first.map_or(0, char::len_utf8),
    };
    if inner[length..].starts_with('\'') { length + 2 } else { 1 + word_length(inner) }
}

/// Returns the end of a clause: a keyword, an optional label, and text in braces.
fn clause_end(text: &str, at: usize, keyword: usize) -> Result<usize, Refusal> {
    let open = text[at..].find('{').map(|length| at + length).ok_or((at, "a clause without a brace"))?;
    let label = text[at + keyword..open].trim();
    if !label.chars().all(is_name) {
        return Err((at, "a clause without a brace"));
    }
    specification_end(text, at, open)
}

/// Returns the end of a ghost: `ghost use ..;`, `ghost name = { .. };` or `ghost name: { .. },`.
fn ghost_end(text: &str, at: usize) -> Result<usize, Refusal> {
    let after = |from: usize| from + text[from..].len() - text[from..].trim_start().len();
    let name = after(at + "ghost".len());
    let length = word_length(&text[name..]);
    if &text[name..name + length] == "use" {
        let end = text[name..].find(';').map(|length| name + length + 1).ok_or((at, "a ghost without an end"))?;
        return whole(text, at..end);
    }
    let sign = after(name + length);
    let open = after(sign + 1);
    if length == 0 || !text[sign..].starts_with([':', '=']) || !text[open..].starts_with('{') {
        return Err((at, "a ghost in an unknown form"));
    }
    let end = after(specification_end(text, at, open)?);
    if text[end..].starts_with([';', ',']) { Ok(end + 1) } else { Err((at, "a ghost without a semicolon or comma")) }
}

/// Returns the end of the text in braces that opens at `open`. Specifications have strings and
/// names with quotation marks, so `'` begins a character only if it's a brace.
fn specification_end(text: &str, start: usize, open: usize) -> Result<usize, Refusal> {
    let mut depth = 0;
    let mut at = open;
    loop {
        let rest = &text[at..];
        let next = rest.chars().next().ok_or((start, "a brace without an end"))?;
        let length = match next {
            '"' => string_length(rest).ok_or((start, "a string without an end in a clause"))?,
            '\'' if rest.starts_with("'{'") || rest.starts_with("'}'") => 3,
            c => c.len_utf8(),
        };
        depth += usize::from(next == '{');
        depth -= usize::from(next == '}');
        at += length;
        if depth == 0 {
            return whole(text, start..at);
        }
    }
}

/// Returns the end of a range, or an error if it has an item or the end of one: then a brace was
/// counted that isn't one. Comments in it would end the comment that it becomes.
fn whole(text: &str, range: Range<usize>) -> Result<usize, Refusal> {
    let part = &text[range.clone()];
    let starts = [
        "pub ",
        "pub(",
        "fn ",
        "impl ",
        "impl<",
        "#[",
        "///",
        "let mut ",
        "use ",
        "mod ",
        "struct ",
        "enum ",
        "const ",
        "ensures ",
        "requires ",
        "ghost ",
    ];
    let is_item = |line: &str| line.starts_with('}') || starts.iter().any(|start| line.trim_start().starts_with(start));
    if part.lines().skip(1).any(is_item) {
        return Err((range.start, "a clause with an item in it"));
    }
    if ["//", "/*", "*/"].iter().any(|mark| part.contains(mark)) {
        return Err((range.start, "a clause with a comment in it"));
    }
    Ok(range.end)
}
