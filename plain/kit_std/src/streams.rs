// Made by tools/plain-rust of tools/plain/kit_std/src/streams.rs: change that.
//! The three streams of a process. What is written is handed to the system before the call returns:
//! Rust's own standard output has a buffer, and takes a closed stream for one that takes all.

use std::fs::File;
use std::io::{Read, Result, Write};
use std::mem::ManuallyDrop;

/// A stream of the process. It is not closed when this goes.
pub struct Stream(Option<ManuallyDrop<File>>);

/// Which of the three.
#[derive(Clone, Copy, PartialEq, Eq)]
pub(crate) enum Which {
    Input,
    Output,
    Error,
}

impl Stream {
    pub(crate) fn of(which: Which) -> Stream {
        Stream(file_of(which).map(ManuallyDrop::new))
    }

    fn file(&mut self) -> Result<&mut File> {
        match &mut self.0 {
            Some(file) => Ok(file),
            None => Err(std::io::ErrorKind::Unsupported.into()),
        }
    }
}

#[cfg(unix)]
fn file_of(which: Which) -> Option<File> {
    use std::os::unix::io::FromRawFd;
    let number = match which {
        Which::Input => 0,
        Which::Output => 1,
        Which::Error => 2,
    };
    // SAFETY: the process owns its three streams as long as it runs, and `Stream` never closes one.
    // Where it is closed already, each call on it is answered by an error.
    Some(unsafe { File::from_raw_fd(number) })
}

#[cfg(windows)]
fn file_of(which: Which) -> Option<File> {
    use std::os::windows::io::{AsRawHandle, FromRawHandle};
    let handle = match which {
        Which::Input => std::io::stdin().as_raw_handle(),
        Which::Output => std::io::stdout().as_raw_handle(),
        Which::Error => std::io::stderr().as_raw_handle(),
    };
    if handle.is_null() {
        return None;
    }
    // SAFETY: as on Unix.
    Some(unsafe { File::from_raw_handle(handle) })
}

#[cfg(not(any(unix, windows)))]
fn file_of(_which: Which) -> Option<File> {
    None
}

impl Read for Stream {
    fn read(&mut self, buffer: &mut [u8]) -> Result<usize> {
        self.file()?.read(buffer)
    }
}

impl Write for Stream {
    fn write(&mut self, bytes: &[u8]) -> Result<usize> {
        self.file()?.write(bytes)
    }

    /// Nothing is kept back.
    fn flush(&mut self) -> Result<()> {
        Ok(())
    }
}
