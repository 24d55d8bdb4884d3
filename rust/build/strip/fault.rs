use std::fmt;
use std::path::{Path, PathBuf};

/// Source that the build script doesn't understand.
#[derive(Debug)]
pub struct Fault {
    /// The file.
    pub path: PathBuf,
    /// The line, from 1.
    pub line: usize,
    /// The reason.
    pub reason: String,
}

impl Fault {
    /// Returns the fault of a file that can't be read or written.
    pub fn at_file(path: &Path, reason: &dyn fmt::Display) -> Self {
        Self { path: path.to_path_buf(), line: 1, reason: reason.to_string() }
    }
}

impl fmt::Display for Fault {
    fn fmt(&self, f: &mut fmt::Formatter<'_>) -> fmt::Result {
        write!(f, "{}:{}: {}", self.path.display(), self.line, self.reason)
    }
}
