//! Files that are read.
pub use std::fs::{File, Metadata};
use std::io::{Read, Result};

/// Access to files.
pub trait Files {
    type File: Read;

    /// Opens a file to read it.
    fn open(&self, path: &str) -> Result<Self::File>;

    /// Returns the kind of a file.
    fn metadata(&self, path: &str) -> Result<Metadata>;
}

/// Opens a file to read it.
pub fn open<S: Files>(system: &S, path: &str) -> Result<S::File> {
    system.open(path)
}

/// Returns the kind of a file, and follows links to it.
pub fn metadata<S: Files>(system: &S, path: &str) -> Result<Metadata> {
    system.metadata(path)
}

impl Files for crate::HostRuntime {
    type File = File;

    fn open(&self, path: &str) -> Result<File> {
        File::open(path)
    }

    fn metadata(&self, path: &str) -> Result<Metadata> {
        std::fs::metadata(path)
    }
}
