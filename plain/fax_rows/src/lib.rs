// Made by tools/plain-rust of crates/fax_rows/src/lib.rt: change that.
//! Rows of fax pages, read and written in one-dimensional and two-dimensional coding (ITU-T T.4 and
//! T.6).
#![forbid(unsafe_code)]

mod change_list;
mod changes_of_row;
mod changing_elements;
mod longest_runs;
mod one_dimensional;
mod ones;
mod packed;
mod pels;
mod put_rows;
mod runs;
mod simd;
mod two_dimensional;
mod unpacked;
mod white;

pub use changing_elements::b1_b2;
use fax_bits::CodeFault;
pub use fax_bits::{BitSink, BitSource, Colour, FillOrder, Memory};
pub use longest_runs::LongestRuns;
pub use one_dimensional::{read_1d, read_1d_canonical};
pub use pels::Row;
pub use put_rows::{put_1d, put_2d};
pub use simd::first_other;
use thiserror::Error;
pub use two_dimensional::{read_2d, read_2d_canonical};
pub use white::{skip_white_1d, skip_white_2d};

/// Why a row could not be read.
#[derive(Clone, Copy, Debug, PartialEq, Eq, Error)]
pub enum RowFault {
    /// The bits end within a code.
    #[error("the data ends within a row")]
    DataEnds,
    /// No code of the table that is expected begins so.
    #[error("no code begins so")]
    BadCode,
    /// The prefix of codes that T.4 leaves to extensions.
    #[error("an extension code")]
    Extension,
    /// A run passes the row's width.
    #[error("a run is longer than the row")]
    RunTooLong,
    /// A vertical code leads out of the row (T.4, section 4.2.1.3.2).
    #[error("a vertical code leads out of the row")]
    OutOfRow,
}

impl From<CodeFault> for RowFault {
    fn from(fault: CodeFault) -> RowFault {
        match fault {
            CodeFault::DataEnds => RowFault::DataEnds,
            CodeFault::BadCode => RowFault::BadCode,
        }
    }
}
