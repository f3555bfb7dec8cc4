// Made by tools/plain-rust of crates/fax_walk/src/walk_start.rt: change that.
//! What a walk begins with.

use crate::{Cursor, LongCursor};
use fax_bits::Memory;

/// What a walk begins with.
pub enum WalkStart {
    /// A cursor: the strip that holds its row is read from its beginning.
    AtCursor(Cursor),
    /// A place inside a strip, from which on the strip is read.
    AtLongCursor(LongCursor),
}

impl WalkStart {
    /// The cursor of what it begins with.
    // ensures { result ≡ start_cursor self.now }
    pub(crate) fn cursor(&self) -> Cursor {
        match self {
            WalkStart::AtCursor(cursor) => *cursor,
            WalkStart::AtLongCursor(place) => place.at,
        }
    }

    /// The long cursor that it begins with, if it does.
    ///
    /// # Errors
    ///
    /// `Memory` where a growth was refused.
    // ensures { IfOk result (λ place. place ≡ start_place self.now) }
    pub(crate) fn long_cursor(&self) -> Result<Option<LongCursor>, Memory> {
        match self {
            WalkStart::AtCursor(_) => Ok(None),
            WalkStart::AtLongCursor(place) => Ok(Some(LongCursor {
                at: place.at,
                bits: place.bits,
                runs: place.runs.clone().map_err(|_| Memory)?,
            })),
        }
    }
}
