//! The system, as the proved programs use it: streams without buffers, files, arguments, variables
//! and the clock.
//!
//! The programs name this crate `std`. It has the items of Rust's `std`, except that access to the
//! system takes a value: `HostRuntime`, or what a test has in its place.
pub use std::*;

mod stream;

pub mod env;
pub mod fs;
pub mod process;
pub mod time;

pub use stream::Stream;

/// Streams of bytes.
pub mod io {
    pub use std::io::{Error, ErrorKind, Read, Result, Write};

    /// Returns standard output.
    pub fn writer(_: &crate::HostRuntime) -> crate::Stream {
        crate::Stream::OUTPUT
    }
}

/// Access to the system of this process.
pub struct HostRuntime {
    pub(crate) arguments: env::Arguments,
}

impl HostRuntime {
    /// Returns standard input.
    pub fn reader(&self) -> Stream {
        Stream::INPUT
    }

    /// Returns standard error.
    pub fn stderr(&self) -> Stream {
        Stream::ERRORS
    }
}

/// Defines the C function `main`, which runs the Rust function and returns its status.
///
/// Rust's own `main` opens `/dev/null` in place of a standard stream that is closed, so the output
/// of a program would be lost without an error.
#[macro_export]
macro_rules! main {
    ($program:path) => {
        #[unsafe(no_mangle)]
        extern "C" fn main(count: ::core::ffi::c_int, arguments: *const *const ::core::ffi::c_char) -> ::core::ffi::c_int {
            // SAFETY: C passes its arguments to `main`, and they last as long as the process.
            let runtime = unsafe { $crate::process::start(count, arguments) };
            $program(runtime).status()
        }
    };
}
