// Made by tools/plain-rust of tools/plain/kit_std/src/fs.rs: change that.
//! Files by name.

use crate::io;
use crate::rt::HostRuntime;
use std::io::Read;

/// A file that is open for reading.
pub struct File(std::fs::File);

impl File {
    /// Opens a file.
    ///
    /// # Errors
    ///
    /// Those of Rust's `File::open`.
    pub fn open(_rt: &HostRuntime, name: &str) -> io::Result<File> {
        std::fs::File::open(name).map(File)
    }

    /// What the system says of the file: its kind, and its bytes.
    ///
    /// # Errors
    ///
    /// Those of Rust's `File::metadata`.
    pub fn metadata(&self) -> io::Result<std::fs::Metadata> {
        self.0.metadata()
    }
}

impl Read for File {
    fn read(&mut self, buffer: &mut [u8]) -> io::Result<usize> {
        self.0.read(buffer)
    }
}
