// Made by tools/plain-rust of crates/fax_c/src/fill.rt: change that.
//! How far a call has written, and why it wrote no more.

use crate::faults::FaxFault;
use crate::status;
use crate::told::FaxTold;
use fax_walk::{Cursor, End, WalkFault};

/// Why no more was written.
#[derive(Clone, Copy)]
pub(crate) enum Stop {
    /// All that was asked for is written.
    Done,
    /// There is no more of it.
    Ended(End),
    /// A growth was refused.
    Memory,
    /// The next row has no room.
    NoRoom,
}

/// What was written: so many pages or rows, in so many numbers, and where to continue.
#[derive(Clone, Copy)]
pub(crate) struct Filled {
    pub(crate) cursor: Cursor,
    pub(crate) count: usize,
    pub(crate) used: usize,
    pub(crate) stop: Stop,
}

impl Stop {
    /// Why nothing more is returned.
    // ensures { result ≡ stop_of fault }
    pub(crate) fn of_fault(fault: WalkFault) -> Self {
        match fault {
            WalkFault::AtRow { page, row, cause } => Stop::Ended(End::Fault { page, row, cause }),
            WalkFault::CursorOutside => Stop::Ended(End::Outside),
            WalkFault::Memory => Stop::Memory,
        }
    }

    /// Whether the next row has no room.
    // ensures room { result ≡ false → self ≢ Stop.NoRoom }
    // ensures none { result ≡ true → self ≡ Stop.NoRoom }
    pub(crate) fn is_no_room(self) -> bool {
        matches!(self, Stop::NoRoom)
    }

    /// The number that a call returns.
    // ensures { result ≡ status_of self }
    pub(crate) fn status(self) -> u32 {
        match self {
            Stop::Done => status::DONE,
            Stop::Ended(End::EndOfPages) => status::END,
            Stop::Ended(End::Fault { .. }) => status::FAULT,
            Stop::Ended(End::Outside) => status::OUTSIDE,
            Stop::Memory => status::MEMORY,
            Stop::NoRoom => status::NO_ROOM,
        }
    }

    /// The reported fault.
    // ensures { result ≡ fault_of self }
    fn fault(self) -> FaxFault {
        match self {
            Stop::Ended(end) => FaxFault::of_end(end),
            Stop::Done | Stop::Memory | Stop::NoRoom => FaxFault::none(),
        }
    }
}

impl Filled {
    /// Nothing was written.
    // ensures { result ≡ record { cursor = cursor; count = 0; used = 0; stop = stop } }
    pub(crate) fn nothing(cursor: Cursor, stop: Stop) -> Self {
        Filled {
            cursor,
            count: 0,
            used: 0,
            stop,
        }
    }

    /// Reports what was written, and returns how the call ended.
    // ensures { IsTold self.now told.new result }
    pub(crate) fn fill_result(&self, told: &mut FaxTold) -> u32 {
        *told = FaxTold {
            count: self.count,
            used: self.used,
            page: self.cursor.page,
            row: self.cursor.row,
            fault: self.stop.fault(),
        };
        self.stop.status()
    }
}
