// Made by tools/plain-rust of crates/fax_tool/src/refusal.rt: change that.
//! Refusals of a run that are no fault of the input.

use fax_bits::Memory as OutOfMemory;
use thiserror::Error;

/// Why a run ended with status 3.
// It is public since the contract of `run` names it: what a run with status 3 said, and why.
#[derive(Clone, Copy, Debug, PartialEq, Eq, Error)]
pub enum Refusal {
    /// A growth was refused.
    #[error("out of memory")]
    Memory,
    /// A read failed, or the input is longer than the program reads.
    #[error("the input cannot be read")]
    Read,
    /// A write failed.
    #[error("the output cannot be written")]
    Write,
}

impl Refusal {
    /// The line for the error stream.
    // ensures { result.now ≡ refusal_line self }
    pub fn line(self) -> &'static str {
        match self {
            Refusal::Memory => "fault: Memory\n",
            Refusal::Read => "fault: Read\n",
            Refusal::Write => "fault: Write\n",
        }
    }
}

impl From<OutOfMemory> for Refusal {
    fn from(_memory: OutOfMemory) -> Self {
        Refusal::Memory
    }
}
