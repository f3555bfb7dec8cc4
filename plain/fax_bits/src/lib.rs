// Made by tools/plain-rust of crates/fax_bits/src/lib.rt: change that.
//! Bits of coded strips, read and written, and the code tables of ITU-T T.4.
#![forbid(unsafe_code)]

mod bit_reversal;
mod codes;
mod indexes;
mod look_up;
mod mode_codes;
mod pairs;
mod pending;
mod put;
mod run_codes;
mod sink;
mod source;
mod vertical_indexes;
mod verticals;
mod window;
mod zero_runs;

pub use bit_reversal::reverse_bits;
pub use codes::{CodeEntry, CodeFault, CodeTable, read_code};
pub use mode_codes::{ModeCode, Modes};
pub use pairs::{RunPair, SHORT_RUN};
pub use pending::PendingBits;
pub use put::{put_mode, put_run};
pub use run_codes::{BlackRuns, LONGEST_MAKE_UP, RunCode, WhiteRuns};
pub use sink::BitSink;
pub use source::BitSource;
use thiserror::Error;
pub use verticals::Verticals;

/// The colour of a pel.
#[derive(Clone, Copy, Debug, PartialEq, Eq)]
pub enum Colour {
    White,
    Black,
}

/// Which bit of a byte comes first (TIFF 6.0, FillOrder).
#[derive(Clone, Copy, Debug, PartialEq, Eq)]
pub enum FillOrder {
    /// The highest bit is first: FillOrder 1.
    MsbFirst,
    /// The lowest bit is first: FillOrder 2.
    LsbFirst,
}

/// Want of memory: a growth was refused.
#[derive(Clone, Copy, Debug, PartialEq, Eq, Error)]
#[error("out of memory")]
pub struct Memory;
