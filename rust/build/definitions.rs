//! The definitions that contracts name, as pages of the documentation.

use crate::strip::Fault;
use std::collections::BTreeMap;
use std::fs;
use std::path::Path;

/// The beginning of the module of definitions.
const HEAD: &str = "/// The terms that contracts use, as they are defined for the proofs.
///
/// Terms without a link, such as `IfOk`, are from the library of Rattle.
pub mod definitions {
";

/// The files of definitions: the text of each by its crate and its module, such as `cal_date` and
/// `Date`.
#[derive(Default)]
pub struct Definitions {
    files: BTreeMap<(String, String), String>,
}

impl Definitions {
    /// Reads the definitions of crates.
    ///
    /// # Errors
    ///
    /// Returns a file that can't be read.
    pub fn read(folder: &Path, crates: &[&str]) -> Result<Self, Fault> {
        let mut definitions = Self::default();
        for krate in crates {
            let specs = folder.join(krate).join("specs");
            println!("cargo::rerun-if-changed={}", specs.display());
            definitions.read_folder(krate, &specs, "").map_err(|error| Fault::at_file(&specs, &error))?;
        }
        Ok(definitions)
    }

    fn read_folder(&mut self, krate: &str, folder: &Path, prefix: &str) -> std::io::Result<()> {
        for entry in fs::read_dir(folder)? {
            let path = entry?.path();
            let name = path.file_stem().unwrap_or_default().to_string_lossy().into_owned();
            if path.is_dir() {
                self.read_folder(krate, &path, &format!("{prefix}{name}."))?;
            } else if path.extension().is_some_and(|extension| extension == "antt") {
                self.files.insert((krate.to_string(), format!("{prefix}{name}")), fs::read_to_string(&path)?);
            }
        }
        Ok(())
    }

    /// Returns the names that `use` lines import, each with the path of its page.
    pub fn imports<'a>(&self, lines: impl Iterator<Item = &'a str>) -> BTreeMap<&'a str, String> {
        let mut names = BTreeMap::new();
        for line in lines {
            let path = line.trim_start_matches("ghost ").trim_start_matches("pub ").trim_start_matches("use Rattle.");
            let Some((module, list)) = path.split_once(".{") else { continue };
            for name in list.split(|c| ",{}; ".contains(c)).filter(|name| !name.is_empty()) {
                if let Some(page) = self.page(module, name, 4) {
                    names.insert(name, page);
                }
            }
        }
        names
    }

    /// Returns the path of the page that defines a name of a module, such as
    /// `crate::definitions::cal_date::Date#IsDate`. Modules and crates may export what others
    /// define.
    fn page(&self, path: &str, name: &str, depth: usize) -> Option<String> {
        let (krate, module) = path.split_once(".specs.").filter(|_| depth > 0)?;
        let text = |module: &str| self.files.get(&(krate.to_string(), module.to_string()));
        match text(module) {
            Some(own) if own.lines().any(|line| defined(line) == Some(name)) => {
                Some(format!("crate::definitions::{krate}::{}#{name}", module.replace('.', "_")))
            }
            Some(own) => exported(own).find_map(|path| self.page(path, name, depth - 1)),
            None => {
                let end = format!(".specs.{module}");
                exported(text("Lib")?).filter(|path| path.ends_with(&end)).find_map(|path| self.page(path, name, depth - 1))
            }
        }
    }

    /// Returns the pages as a module of Rust.
    pub fn written(&self) -> String {
        let mut out = String::from(HEAD);
        let mut open = "";
        for ((krate, module), text) in &self.files {
            if krate != open {
                out +=
                    &format!("{}/// The definitions of `{krate}`.\npub mod {krate} {{\n", if open.is_empty() { "" } else { "}\n" });
                open = krate;
            }
            out += &format!("#[doc = {:?}]\npub mod {} {{}}\n", self.document(text), module.replace('.', "_"));
        }
        out + if open.is_empty() { "}\n" } else { "}\n}\n" }
    }

    /// Returns a file as a page: its comments as text, and its lines as code with anchors.
    fn document(&self, text: &str) -> String {
        let names = self.imports(text.lines().filter(|line| line.contains("use Rattle.")));
        let mut page = String::new();
        for line in text.lines().filter(|line| !line.contains("use Rattle.")) {
            if let Some(comment) = line.strip_prefix("--") {
                page += &format!("{}\n", escaped(comment.trim_start()));
            } else if line.trim().is_empty() {
                page += "\n";
            } else {
                let anchor = defined(line).map_or(String::new(), |name| format!("<a id=\"{name}\"></a>"));
                page += &format!("{anchor}{}<br>\n", code(line, &names));
            }
        }
        page
    }
}

/// Returns the modules of which a file exports names.
fn exported(text: &str) -> impl Iterator<Item = &str> {
    let paths = text.lines().filter_map(|line| line.strip_prefix("pub use Rattle."));
    paths.map(|path| path.split(".{").next().unwrap_or(path).trim())
}

/// Returns the name that a line defines: the word after `pub` and the kind of the definition.
fn defined(line: &str) -> Option<&str> {
    let (before, after) = line.split_once("pub ")?;
    let after = ["record ", "data "].iter().fold(after, |after, kind| after.strip_prefix(kind).unwrap_or(after));
    let is_definition =
        before.chars().all(|c| c.is_ascii_lowercase() || c == ' ') && !after.starts_with("use ") && !after.starts_with("mod ");
    let name = &after[..after.find([' ', ':']).unwrap_or(after.len())];
    (is_definition && !name.is_empty()).then_some(name)
}

/// Returns a line as code of HTML in which the names link to their pages.
pub fn code(line: &str, names: &BTreeMap<&str, String>) -> String {
    let is_name = |c: char| c.is_alphanumeric() || "_'-".contains(c);
    let indent = line.len() - line.trim_start().len();
    let mut out = format!("<code>{}", "&emsp;".repeat(indent / 2));
    let mut rest = line.trim();
    while !rest.is_empty() {
        let length = rest.find(|c| !is_name(c)).unwrap_or(rest.len()).max(rest.chars().next().map_or(0, char::len_utf8));
        let (word, after) = rest.split_at(length);
        match names.get(word) {
            Some(page) => out += &format!("[{}]({page})", escaped(word)),
            None => out += &escaped(word),
        }
        rest = after;
    }
    out + "</code>"
}

/// Returns the string with each special character of Markdown and HTML escaped.
pub fn escaped(text: &str) -> String {
    let mut out = String::new();
    for c in text.chars() {
        match c {
            '&' => out += "&amp;",
            '<' => out += "&lt;",
            '>' => out += "&gt;",
            '\\' | '`' | '*' | '_' | '[' | ']' | '|' | '#' | '~' | '$' => out += &format!("\\{c}"),
            c => out.push(c),
        }
    }
    out
}
