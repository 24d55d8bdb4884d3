//! What the tests take from the kit beside the system. Memory comes from an allocator that they
//! name, and may run out; access to the system is a value.
extern crate std as host;

use runtime::{fmt, io, ops};

/// Access to the system.
#[derive(Clone, Copy)]
pub struct HostRuntime;

/// Access to an allocator.
pub trait AllocGlobal {
    fn alloc(&self) -> alloc::Global {
        alloc::Global
    }
}

impl AllocGlobal for HostRuntime {}

impl runtime::fs::Files for HostRuntime {
    type File = runtime::fs::File;

    fn open(&self, path: &str) -> io::Result<Self::File> {
        host::fs::File::open(path)
    }

    fn metadata(&self, path: &str) -> io::Result<runtime::fs::Metadata> {
        host::fs::metadata(path)
    }
}

impl HostRuntime {
    pub fn alloc(&self) -> alloc::Global {
        alloc::Global
    }
}

pub mod alloc {
    #[derive(Clone, Copy, Debug)]
    pub struct Global;

    #[derive(Clone, Copy, Debug, PartialEq)]
    pub struct AllocError;

    impl From<AllocError> for runtime::io::Error {
        fn from(_: AllocError) -> Self {
            runtime::io::ErrorKind::OutOfMemory.into()
        }
    }
}

pub mod process {
    pub use runtime::process::ExitCode;

    /// Access to the end of the process.
    pub trait Abort {}

    impl Abort for super::HostRuntime {}
}

pub mod test {
    /// A test that couldn't be run.
    #[derive(Debug)]
    pub struct Fail;

    impl From<super::alloc::AllocError> for Fail {
        fn from(_: super::alloc::AllocError) -> Self {
            Fail
        }
    }

    impl From<runtime::io::Error> for Fail {
        fn from(_: runtime::io::Error) -> Self {
            Fail
        }
    }

    impl From<runtime::fmt::Error> for Fail {
        fn from(_: runtime::fmt::Error) -> Self {
            Fail
        }
    }
}

#[derive(Clone, Debug, PartialEq)]
pub struct Vec<T> {
    pub items: runtime::vec::Vec<T>,
}

impl<T: Clone> Vec<T> {
    pub fn new(_: alloc::Global) -> Self {
        Vec { items: runtime::vec::Vec::new() }
    }

    pub fn push(&mut self, item: T) -> Result<(), alloc::AllocError> {
        self.items.push(item);
        Ok(())
    }

    pub fn extend_from_slice(&mut self, items: &[T]) -> Result<(), alloc::AllocError> {
        self.items.extend_from_slice(items);
        Ok(())
    }

    pub fn as_slice(&self) -> &[T] {
        &self.items
    }
}

impl<T> ops::Deref for Vec<T> {
    type Target = [T];

    fn deref(&self) -> &[T] {
        &self.items
    }
}

impl io::Write for Vec<u8> {
    fn write(&mut self, bytes: &[u8]) -> io::Result<usize> {
        self.items.write(bytes)
    }

    fn flush(&mut self) -> io::Result<()> {
        Ok(())
    }
}

/// Methods of slices that allocate.
pub trait Slice<T> {
    fn to_vec_with(&self, _: alloc::Global) -> Result<Vec<T>, alloc::AllocError>;

    fn repeat_with(&self, _: alloc::Global, count: usize) -> Result<Vec<T>, alloc::AllocError>;
}

impl<T: Copy> Slice<T> for [T] {
    fn to_vec_with(&self, _: alloc::Global) -> Result<Vec<T>, alloc::AllocError> {
        Ok(Vec { items: self.to_vec() })
    }

    fn repeat_with(&self, _: alloc::Global, count: usize) -> Result<Vec<T>, alloc::AllocError> {
        Ok(Vec { items: self.repeat(count) })
    }
}

pub struct String(runtime::string::String);

impl String {
    pub fn new(_: alloc::Global) -> Self {
        String(runtime::string::String::new())
    }

    pub fn clear(&mut self) {
        self.0.clear();
    }

    pub fn is_empty(&self) -> bool {
        self.0.is_empty()
    }

    pub fn as_str(&self) -> &str {
        &self.0
    }

    pub fn as_bytes(&self) -> &[u8] {
        self.0.as_bytes()
    }

    pub fn write_fmt(&mut self, text: fmt::Arguments<'_>) -> fmt::Result {
        fmt::Write::write_fmt(&mut self.0, text)
    }
}

/// Formats into memory of the allocator that is named.
macro_rules! format {
    (in $alloc:expr; $($text:tt)*) => {{
        let mut text = $crate::kit::String::new($alloc);
        match text.write_fmt(core::format_args!($($text)*)) {
            Ok(()) => Ok(text),
            Err(_) => Err($crate::kit::alloc::AllocError),
        }
    }};
}

/// Aborts by way of the system if a condition is false.
macro_rules! assert {
    ($system:expr; $($condition:tt)*) => { core::assert!($($condition)*) };
    ($($condition:tt)*) => { core::assert!($($condition)*) };
}
