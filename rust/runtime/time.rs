//! The clock.
use std::io::{Error, Result};
pub use std::time::Duration;

/// A clock, which may be one of a test.
pub trait Clock {
    /// Returns the time since some moment of the past.
    fn monotonic(&self) -> Result<Duration>;

    /// Returns the time since 1970 began, or an error before that.
    fn since_1970(&self) -> Result<Duration>;
}

/// A time since 1970.
pub struct SystemTime(Duration);

/// The first moment of 1970 at UTC.
pub const UNIX_EPOCH: SystemTime = SystemTime(Duration::ZERO);

impl SystemTime {
    /// Reads the clock.
    pub fn now<C: Clock>(clock: &C) -> Result<SystemTime> {
        clock.since_1970().map(SystemTime)
    }

    /// Returns the time from an earlier one to this.
    pub fn duration_since(&self, earlier: SystemTime) -> Result<Duration> {
        self.0.checked_sub(earlier.0).ok_or(Error::other("the other time is later"))
    }
}

impl Clock for crate::HostRuntime {
    fn monotonic(&self) -> Result<Duration> {
        Err(std::io::ErrorKind::Unsupported.into())
    }

    fn since_1970(&self) -> Result<Duration> {
        std::time::SystemTime::now().duration_since(std::time::UNIX_EPOCH).map_err(Error::other)
    }
}
