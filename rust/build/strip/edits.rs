use std::cmp::Reverse;
use std::ops::Range;

/// Changes to a file.
#[derive(Default)]
pub struct Edits {
    list: Vec<Edit>,
}

/// Replaces a range of bytes. If it opens an expression, `until` is the end of that, else 0.
struct Edit {
    range: Range<usize>,
    until: usize,
    text: String,
}

impl Edits {
    /// Replaces a range.
    pub fn replace(&mut self, range: Range<usize>, text: impl Into<String>) {
        self.list.push(Edit { range, until: 0, text: text.into() });
    }

    /// Inserts a string before an index.
    pub fn insert(&mut self, at: usize, text: impl Into<String>) {
        self.replace(at..at, text);
    }

    /// Inserts a string before an expression. If two start at the same index, the string of the longer one is first.
    pub fn open(&mut self, expression: &Range<usize>, text: &str) {
        self.list.push(Edit { range: expression.start..expression.start, until: expression.end, text: text.to_string() });
    }

    /// Turns a range into a block comment. Comments may be nested, so parts of it may be comments.
    pub fn comment_out(&mut self, range: Range<usize>) {
        self.insert(range.start, "/*");
        self.insert(range.end, "*/");
    }

    /// Returns the text with all changes. Insertions at one index keep their order.
    ///
    /// # Panics
    ///
    /// Panics if two ranges overlap.
    pub fn applied(self, text: &str) -> String {
        self.applied_within(text, 0..text.len())
    }

    /// Returns a part of the text with the changes, all of which must be in it.
    ///
    /// # Panics
    ///
    /// Panics if two ranges overlap, or if one isn't in the part.
    pub fn applied_within(mut self, text: &str, part: Range<usize>) -> String {
        self.list.sort_by_key(|edit| (edit.range.start, edit.range.end, Reverse(edit.until)));
        let mut result = String::with_capacity(2 * part.len());
        let mut at = part.start;
        for Edit { range, text: replacement, .. } in self.list {
            result.push_str(&text[at..range.start]);
            result.push_str(&replacement);
            at = range.end;
        }
        result.push_str(&text[at..part.end]);
        result
    }
}

#[cfg(test)]
mod tests {
    use super::Edits;

    #[test]
    fn changes_are_applied_in_order() {
        let mut edits = Edits::default();
        edits.replace(4..7, "ghost");
        edits.comment_out(0..3);
        edits.insert(3, "!");
        assert_eq!(edits.applied("one two"), "/*one*/! ghost");
    }

    #[test]
    fn the_longer_expression_is_opened_first() {
        let mut edits = Edits::default();
        edits.insert(0, "crate::");
        edits.open(&(0..3), "f(");
        edits.insert(3, ")");
        edits.open(&(0..5), "g(");
        edits.insert(5, ")");
        assert_eq!(edits.applied("one.a"), "g(f(crate::one).a)");
    }
}
