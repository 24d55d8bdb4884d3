use super::lexer::is_name;
use super::translate::Source;
use std::ops::Range;

/// Keywords that can stand before an expression.
const KEYWORDS: [&str; 9] = ["break", "else", "if", "in", "let", "match", "mut", "return", "while"];

/// Returns the bytes of the methods, fields and paths that end before a token.
pub fn operand(source: &Source, end: usize) -> Range<usize> {
    let mut start = end;
    let mut depth = 0;
    for at in (0..end).rev() {
        let word = source.word(at);
        depth += usize::from(matches!(word, ")" | "]"));
        let is_path = word == ":" && [at + 1, at.wrapping_sub(1)].iter().any(|next| source.word(*next) == ":");
        let is_part = depth > 0 || is_path || matches!(word, "." | "?") || word.chars().all(is_name) || word.trim().is_empty();
        if !is_part || depth == 0 && KEYWORDS.contains(&word) {
            break;
        }
        depth -= usize::from(matches!(word, "(" | "["));
        start = if word.trim().is_empty() { start } else { at };
    }
    source.tokens[start].range.start..source.tokens[end].range.start
}
