//! Parameters as C passes them. In the proved source a parameter `days: &[i32]` of an `extern "C"` function is a pointer and
//! a length. For rustc it is one struct, which C passes in other places. A date is an `i32` in the source and a struct with
//! one `int32_t` in the header. Some processors, such as s390x, extend the number to 64 bits, and not the struct.
//!
//! So a function with such parameters becomes one of Rust, with a wrapper of its name that C calls.

use crate::strip::{Edits, Fault, Kind, Source, TokenKind};

/// Gives wrappers to the exported functions of a file that need them.
///
/// # Errors
///
/// Returns the line of an exported function, or of a parameter, that isn't understood.
pub fn change(source: &Source, edits: &mut Edits) -> Result<(), Fault> {
    let exports = (0..source.tokens.len()).filter(|token| source.word(*token) == "no_mangle");
    for export in exports {
        let tokens = source
            .items
            .iter()
            .find(|item| item.kind == Kind::Function && item.all.contains(&export))
            .map_or(0..0, |item| item.head.clone());
        let is_word = |token: &usize| matches!(source.tokens[*token].kind, TokenKind::Word | TokenKind::Literal | TokenKind::Mark);
        let words: Vec<&str> = tokens.clone().filter(is_word).map(|token| source.word(token)).collect();
        let place = source.tokens[export].range.start;
        let signature = Signature::new(&words).ok_or_else(|| source.fault(place, "an exported function in an unknown form"))?;
        if let Some(wrapper) = signature.wrapper() {
            // The attribute `#[unsafe(no_mangle)]`, and `extern "C"`.
            edits.comment_out(source.bytes(&(export - 4..export + 3)));
            let convention = tokens.start + 2..tokens.start + 5;
            edits.comment_out(source.bytes(&convention));
            edits.insert(source.text.len(), wrapper);
        }
    }
    Ok(())
}

/// The signature of an exported function, in words.
struct Signature<'a> {
    name: &'a str,
    lifetimes: &'a [&'a str],
    parameters: Vec<Parameter<'a>>,
    result: &'a [&'a str],
}

/// A parameter: its name and the words of its type.
struct Parameter<'a> {
    name: &'a str,
    kind: &'a [&'a str],
}

impl<'a> Signature<'a> {
    /// Reads a signature: `pub extern "C" fn name<'a>(..) -> Type`.
    fn new(words: &'a [&'a str]) -> Option<Self> {
        let ["pub", "extern", "\"C\"", "fn", name, rest @ ..] = words else { return None };
        let (lifetimes, rest) = rest.split_at(rest.iter().position(|word| *word == "(")?);
        let (inner, result) = rest[1..].split_at(rest[1..].iter().rposition(|word| *word == ")")?);
        let parameters = split_at_commas(inner).into_iter().map(Parameter::new).collect::<Option<_>>()?;
        let [")", "-", ">", result @ ..] = result else { return None };
        Some(Self { name, lifetimes, parameters, result })
    }

    /// Returns the function that C calls, or `None` if that has the same parameters.
    fn wrapper(&self) -> Option<String> {
        if self.parameters.iter().all(|parameter| parameter.slice().is_none() && !parameter.is_number()) {
            return None;
        }
        let name = self.name;
        let parameters: Vec<String> = self.parameters.iter().map(Parameter::for_c).collect();
        let arguments: Vec<String> = self.parameters.iter().map(Parameter::argument).collect();
        Some(format!(
            "\n#[unsafe(export_name = \"{name}\")]\nextern \"C\" fn {name}_for_c{}({}) -> {} {{\n    {name}({})\n}}\n",
            self.lifetimes.join(" "),
            parameters.join(", "),
            self.result.join(" "),
            arguments.join(", "),
        ))
    }
}

impl<'a> Parameter<'a> {
    /// Reads a parameter. A type with a bracket is a slice, or isn't understood.
    fn new(words: &'a [&'a str]) -> Option<Self> {
        let (["mut", name, ":", kind @ ..] | [name, ":", kind @ ..]) = words else { return None };
        let parameter = Self { name, kind };
        (parameter.slice().is_some() || !kind.contains(&"[")).then_some(parameter)
    }

    /// Returns whether the slice can be written, and the type of its items, or `None` for another type.
    fn slice(&self) -> Option<(bool, &'a str)> {
        let (["&", "[", item, "]"] | ["&", "mut", "[", item, "]"]) = self.kind else { return None };
        Some((self.kind.contains(&"mut"), item))
    }

    /// Returns whether this can be a struct of one number in C. If C has a number, it is in the same place.
    fn is_number(&self) -> bool {
        self.kind == ["i32"]
    }

    /// Returns the declaration for C.
    fn for_c(&self) -> String {
        let name = self.name;
        match self.slice() {
            Some((true, item)) => format!("{name}: *mut {item}, {name}_length: usize"),
            Some((false, item)) => format!("{name}: *const {item}, {name}_length: usize"),
            None if self.is_number() => format!("{name}: crate::Number"),
            None => format!("{name}: {}", self.kind.join(" ")),
        }
    }

    /// Returns the argument of the function in Rust. The `unsafe` relies on the header: it requires arrays of these lengths,
    /// and that a written array overlaps nothing else.
    fn argument(&self) -> String {
        let name = self.name;
        match self.slice() {
            Some((true, _)) => format!("unsafe {{ core::slice::from_raw_parts_mut({name}, {name}_length) }}"),
            Some((false, _)) => format!("unsafe {{ core::slice::from_raw_parts({name}, {name}_length) }}"),
            None if self.is_number() => format!("{name}.0"),
            None => name.to_string(),
        }
    }
}

/// Splits words at the commas that aren't in brackets.
fn split_at_commas<'a>(words: &'a [&'a str]) -> Vec<&'a [&'a str]> {
    let mut depth = 0;
    let parts = words.split(|word| {
        match *word {
            "(" | "[" | "<" => depth += 1,
            ")" | "]" | ">" => depth -= 1,
            _ => {}
        }
        *word == "," && depth == 0
    });
    parts.filter(|part| !part.is_empty()).collect()
}
