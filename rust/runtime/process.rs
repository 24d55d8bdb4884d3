//! The start of the process, and its end.
use crate::HostRuntime;
use crate::env::Arguments;
use std::ffi::{c_char, c_int};

/// The status of a program.
pub struct ExitCode(u8);

impl From<u8> for ExitCode {
    fn from(status: u8) -> Self {
        ExitCode(status)
    }
}

impl ExitCode {
    /// Returns the status, 0 to 255.
    pub fn status(self) -> c_int {
        self.0.into()
    }
}

/// Returns access to the system. A write to a closed pipe fails from then on, and doesn't end the
/// process by a signal.
///
/// # Safety
///
/// The arguments are those of the C function `main`.
#[cfg(unix)]
pub unsafe fn start(count: c_int, arguments: *const *const c_char) -> HostRuntime {
    use std::ffi::{CStr, OsStr};
    use std::os::unix::ffi::OsStrExt;

    unsafe extern "C" {
        fn signal(number: c_int, handler: usize) -> usize;
    }
    const SIGPIPE: c_int = 13;
    const SIG_IGN: usize = 1;
    // SAFETY: ignoring a signal runs no code.
    unsafe { signal(SIGPIPE, SIG_IGN) };
    let argument = |index| {
        // SAFETY: `main` has this many arguments, each of which ends with a zero byte.
        let text = unsafe { CStr::from_ptr(*arguments.add(index)) };
        OsStr::from_bytes(text.to_bytes()).to_os_string()
    };
    HostRuntime { arguments: Arguments((0..count as usize).map(argument).collect()) }
}

/// Returns access to the system.
///
/// # Safety
///
/// This function is safe. The other one isn't.
#[cfg(not(unix))]
pub unsafe fn start(_: c_int, _: *const *const c_char) -> HostRuntime {
    HostRuntime { arguments: Arguments(std::env::args_os().collect()) }
}
