// Made by tools/plain-rust of crates/fax_walk/src/end.rt: change that.
//! How the rows or the pages of a file end.

use fax_files::{Cause, FileFault};
use thiserror::Error;

/// How a file's rows or pages end.
#[derive(Clone, Copy, Debug, PartialEq, Eq)]
pub enum End {
    /// After the last page.
    EndOfPages,
    /// At a fault, with the place of the next row there: row 0 for a fault of the header, of a
    /// directory or of a field.
    Fault { page: u32, row: u32, cause: Cause },
    /// The cursor names no row of the file and no place after one.
    Outside,
}

/// Why a walk returns no row, or a reader of pages no page.
#[derive(Clone, Copy, Debug, PartialEq, Eq, Error)]
pub enum WalkFault {
    /// A growth was refused. The walk is as it was, and the call may be made again.
    #[error("out of memory")]
    Memory,
    /// The fault that ends the rows, with the place of the next row. It is returned again.
    #[error("page {page} row {row}: {cause}")]
    AtRow { page: u32, row: u32, cause: Cause },
    /// The cursor names no row of the file and no place after one. It is returned again.
    #[error("the cursor is outside the file")]
    CursorOutside,
}

impl End {
    /// What a call returns that advances to what comes next, where that has ended so: that there is
    /// nothing, or the fault.
    // ensures { result ≡ answer_of self }
    pub(crate) fn answer(self) -> Result<bool, WalkFault> {
        match self {
            End::EndOfPages => Ok(false),
            End::Fault { page, row, cause } => Err(WalkFault::AtRow { page, row, cause }),
            End::Outside => Err(WalkFault::CursorOutside),
        }
    }

    /// The end at a fault of the file, at this row of a page.
    // ensures { result ≡ Fault page row (File fault) }
    pub(crate) fn of_file(page: u32, row: u32, fault: FileFault) -> End {
        End::Fault {
            page,
            row,
            cause: Cause::File(fault),
        }
    }
}
