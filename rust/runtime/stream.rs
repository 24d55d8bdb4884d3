//! The standard streams.
use std::io::{Read, Result, Write};

/// A standard stream without a buffer. Each read and write is one of the system's, and fails as it
/// does, also if the stream is closed.
pub struct Stream(i32);

impl Stream {
    pub(crate) const INPUT: Stream = Stream(0);
    pub(crate) const OUTPUT: Stream = Stream(1);
    pub(crate) const ERRORS: Stream = Stream(2);

    #[cfg(unix)]
    fn with<T>(&self, access: impl FnOnce(&mut std::fs::File) -> Result<T>) -> Result<T> {
        use std::os::fd::FromRawFd;
        // SAFETY: the file isn't dropped, so it closes no descriptor of the process.
        let mut file = std::mem::ManuallyDrop::new(unsafe { std::fs::File::from_raw_fd(self.0) });
        access(&mut file)
    }
}

#[cfg(unix)]
impl Read for Stream {
    fn read(&mut self, buffer: &mut [u8]) -> Result<usize> {
        self.with(|file| file.read(buffer))
    }
}

#[cfg(unix)]
impl Write for Stream {
    fn write(&mut self, bytes: &[u8]) -> Result<usize> {
        self.with(|file| file.write(bytes))
    }

    fn flush(&mut self) -> Result<()> {
        Ok(())
    }
}

#[cfg(not(unix))]
impl Read for Stream {
    fn read(&mut self, buffer: &mut [u8]) -> Result<usize> {
        std::io::stdin().read(buffer)
    }
}

#[cfg(not(unix))]
impl Write for Stream {
    fn write(&mut self, bytes: &[u8]) -> Result<usize> {
        if self.0 == 2 {
            return std::io::stderr().write(bytes);
        }
        let mut output = std::io::stdout().lock();
        let written = output.write(bytes)?;
        output.flush()?;
        Ok(written)
    }

    fn flush(&mut self) -> Result<()> {
        Ok(())
    }
}
