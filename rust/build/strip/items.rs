use super::lexer::{Refusal, Token, TokenKind};
use std::ops::Range;

/// The kind of an item.
#[derive(Clone, Copy, Debug, PartialEq, Eq)]
pub enum Kind {
    /// A function, in a module, an `impl` or a trait.
    Function,
    /// An `impl`, whose name is `Type` or `Trait for Type`.
    Impl,
    /// A trait.
    Trait,
    /// A module, here or in a file.
    Module,
    /// A structure or an enumeration.
    Type,
    /// A `use`.
    Use,
    /// Anything else: a constant, a type alias, a macro or its call, or a ghost.
    Other,
}

/// An item of a file. Ranges are of tokens.
#[derive(Clone, Debug)]
pub struct Item {
    /// The kind.
    pub kind: Kind,
    /// Its name. Type parameters are left out.
    pub name: String,
    /// The name of the `impl` or trait around it, or nothing.
    pub owner: String,
    /// All of it, from the documentation and the attributes on.
    pub all: Range<usize>,
    /// The declaration: from the visibility to before the braces or the semicolon.
    pub head: Range<usize>,
    /// The braces, or nothing if a semicolon ends it.
    pub body: Option<Range<usize>>,
}

/// Reads the items of a file.
pub struct Items<'a> {
    text: &'a str,
    tokens: &'a [Token],
    at: usize,
    list: Vec<Item>,
}

impl<'a> Items<'a> {
    /// Returns the items. The items of an `impl`, a trait or a module in braces come after it.
    ///
    /// # Errors
    ///
    /// Returns the index of what isn't an item in a known form.
    pub fn read(text: &'a str, tokens: &'a [Token]) -> Result<Vec<Item>, Refusal> {
        let mut items = Items { text, tokens, at: 0, list: Vec::new() };
        items.block("")?;
        if items.at < tokens.len() { Err(items.refusal("a brace that nothing opens")) } else { Ok(items.list) }
    }

    /// Reads items up to a closing brace or the end of the file.
    fn block(&mut self, owner: &str) -> Result<(), Refusal> {
        self.skip_blanks();
        while self.at < self.tokens.len() && self.word() != "}" {
            self.item(owner)?;
            self.skip_blanks();
        }
        Ok(())
    }

    /// Reads an item.
    fn item(&mut self, owner: &str) -> Result<(), Refusal> {
        let start = self.at;
        self.attributes()?;
        if matches!(self.kind(), None | Some(TokenKind::Ghost)) || self.word() == "}" {
            // A ghost, or inner attributes and documentation of the file.
            self.at += usize::from(self.kind() == Some(TokenKind::Ghost));
            return Ok(());
        }
        let head = self.at;
        self.visibility()?;
        let (kind, name) = self.kind_and_name(owner)?;
        let has_braces =
            matches!(kind, Kind::Function | Kind::Impl | Kind::Trait | Kind::Module | Kind::Type) || self.is_macro(head);
        let end = self.declaration_end(has_braces)?;
        let mut item = Item { kind, name, owner: owner.to_string(), all: start..end, head: head..end, body: None };
        let place = self.list.len();
        self.list.push(item.clone());
        self.at = end;
        let is_block = self.word() == "{";
        if is_block && matches!(kind, Kind::Impl | Kind::Trait | Kind::Module) {
            self.at += 1;
            self.block(&item.name.clone())?;
            self.expect("}")?;
        } else if is_block {
            self.group()?;
        } else {
            self.expect(";")?;
        }
        item.body = is_block.then_some(end..self.at);
        item.all.end = self.at;
        self.list[place] = item;
        Ok(())
    }

    /// Skips documentation and attributes.
    fn attributes(&mut self) -> Result<(), Refusal> {
        loop {
            self.skip_blanks();
            match (self.kind(), self.word()) {
                (Some(TokenKind::Doc), _) => self.at += 1,
                (_, "#") => {
                    self.at += 1;
                    self.at += usize::from(self.word() == "!");
                    self.group()?;
                }
                _ => return Ok(()),
            }
        }
    }

    /// Skips `pub` and `pub(..)`.
    fn visibility(&mut self) -> Result<(), Refusal> {
        if self.word() == "pub" {
            self.advance();
            if self.word() == "(" {
                self.group()?;
                self.skip_blanks();
            }
        }
        Ok(())
    }

    /// Returns the kind and the name of the item, from its keyword on.
    fn kind_and_name(&mut self, owner: &str) -> Result<(Kind, String), Refusal> {
        while matches!(self.word(), "unsafe" | "extern") || self.kind() == Some(TokenKind::Literal) || self.is_const_function() {
            self.advance();
        }
        let keyword = self.word();
        let kind = match keyword {
            "fn" => Kind::Function,
            "impl" => return Ok((Kind::Impl, self.impl_name())),
            "trait" => Kind::Trait,
            "mod" => Kind::Module,
            "struct" | "enum" => Kind::Type,
            "use" => return Ok((Kind::Use, String::new())),
            "const" | "static" | "type" | "macro_rules" => Kind::Other,
            _ if owner.is_empty() && self.kind() == Some(TokenKind::Word) && self.word_after(1) == "!" => Kind::Other,
            _ => return Err(self.refusal("an item in an unknown form")),
        };
        self.advance();
        Ok((kind, self.word().to_string()))
    }

    fn is_const_function(&self) -> bool {
        self.word() == "const" && matches!(self.word_after(2), "fn" | "unsafe")
    }

    /// Returns `true` if a macro is defined or called at a token.
    fn is_macro(&self, at: usize) -> bool {
        self.tokens[at + 1..].first().is_some_and(|token| &self.text[token.range.clone()] == "!")
    }

    /// Returns `Type` for `impl<T> Type<T>`, and `Trait for Type` for `impl Trait<T> for Type`.
    fn impl_name(&self) -> String {
        let mut words = Vec::new();
        let mut depth = 0;
        for token in &self.tokens[self.at + 1..] {
            match &self.text[token.range.clone()] {
                "<" => depth += 1,
                ">" => depth -= 1,
                "{" | "where" => break,
                word if depth == 0 && token.kind == TokenKind::Word => words.push(word),
                _ => {}
            }
        }
        match words.iter().position(|word| *word == "for") {
            Some(place) if place > 0 => format!("{} for {}", words[place - 1], words.last().unwrap_or(&"")),
            _ => words.last().unwrap_or(&"").to_string(),
        }
    }

    /// Returns the token that ends a declaration: its semicolon, or its brace if it may have one.
    fn declaration_end(&mut self, has_braces: bool) -> Result<usize, Refusal> {
        let start = self.at;
        while self.at < self.tokens.len() {
            match self.word() {
                "{" if has_braces => break,
                ";" => break,
                "(" | "[" | "{" => self.group()?,
                ")" | "]" | "}" => return Err(self.refusal("a bracket that nothing opens")),
                _ => self.at += 1,
            }
        }
        let end = self.at;
        self.at = start;
        if end < self.tokens.len() { Ok(end) } else { Err(self.refusal("an item without an end")) }
    }

    /// Skips a group in brackets.
    fn group(&mut self) -> Result<(), Refusal> {
        let start = self.at;
        let mut depth = 0;
        while self.at < self.tokens.len() {
            match self.word() {
                "(" | "[" | "{" => depth += 1,
                ")" | "]" | "}" => depth -= 1,
                _ => {}
            }
            self.at += 1;
            if depth == 0 {
                return Ok(());
            }
        }
        self.at = start;
        Err(self.refusal("a bracket without an end"))
    }

    fn expect(&mut self, mark: &str) -> Result<(), Refusal> {
        if self.word() != mark {
            return Err(self.refusal("an item without an end"));
        }
        self.at += 1;
        Ok(())
    }

    /// Skips a token and the blanks after it.
    fn advance(&mut self) {
        self.at += 1;
        self.skip_blanks();
    }

    fn skip_blanks(&mut self) {
        while self.kind() == Some(TokenKind::Blank) {
            self.at += 1;
        }
    }

    fn kind(&self) -> Option<TokenKind> {
        self.tokens.get(self.at).map(|token| token.kind)
    }

    fn word(&self) -> &'a str {
        self.word_after(0)
    }

    fn word_after(&self, count: usize) -> &'a str {
        match self.tokens.get(self.at + count) {
            Some(token) if matches!(token.kind, TokenKind::Word | TokenKind::Mark) => &self.text[token.range.clone()],
            _ => "",
        }
    }

    fn refusal(&self, reason: &'static str) -> Refusal {
        (self.tokens.get(self.at).map_or(self.text.len(), |token| token.range.start), reason)
    }
}
