//! Arguments and variables.
use std::ffi::{OsStr, OsString};

/// Why a buffer wasn't filled.
#[derive(Clone, Copy)]
pub enum FillError {
    NotPresent,
    /// The value is longer than the buffer.
    TooLong,
}

/// Access to the arguments and the variables. Each method copies its value to the front of the
/// buffer, and returns the length.
pub trait Env {
    /// Copies an argument. The argument 0 is the name of the program.
    fn arg(&self, index: usize, buffer: &mut [u8]) -> Result<usize, FillError>;

    /// Copies the value of a variable.
    fn var(&self, name: &str, buffer: &mut [u8]) -> Result<usize, FillError>;

    /// Copies a variable, usually `NAME=value`.
    fn var_at(&self, index: usize, buffer: &mut [u8]) -> Result<usize, FillError>;
}

/// The arguments of the process.
pub(crate) struct Arguments(pub(crate) Vec<OsString>);

impl Env for crate::HostRuntime {
    fn arg(&self, index: usize, buffer: &mut [u8]) -> Result<usize, FillError> {
        fill(self.arguments.0.get(index).map(OsString::as_os_str), buffer)
    }

    fn var(&self, name: &str, buffer: &mut [u8]) -> Result<usize, FillError> {
        fill(std::env::var_os(name).as_deref(), buffer)
    }

    fn var_at(&self, index: usize, buffer: &mut [u8]) -> Result<usize, FillError> {
        let variable = std::env::vars_os().nth(index).map(|(mut name, value)| {
            name.push("=");
            name.push(value);
            name
        });
        fill(variable.as_deref(), buffer)
    }
}

fn fill(value: Option<&OsStr>, buffer: &mut [u8]) -> Result<usize, FillError> {
    let bytes = value.ok_or(FillError::NotPresent)?.as_encoded_bytes();
    let front = buffer.get_mut(..bytes.len()).ok_or(FillError::TooLong)?;
    front.copy_from_slice(bytes);
    Ok(bytes.len())
}
