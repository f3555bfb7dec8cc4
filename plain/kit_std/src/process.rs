// Made by tools/plain-rust of tools/plain/kit_std/src/process.rs: change that.
//! How a process ends.

/// The status of a program.
#[derive(Clone, Copy, Debug, PartialEq, Eq)]
pub struct ExitCode(u8);

impl ExitCode {
    /// The number that the system is told, 0 to 255.
    pub fn number(self) -> u8 {
        self.0
    }
}

impl From<u8> for ExitCode {
    fn from(number: u8) -> Self {
        ExitCode(number)
    }
}
