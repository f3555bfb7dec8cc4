// Made by tools/plain-rust of crates/fax_tool/src/input.rt: change that.
//! The input that words name.

use crate::streams::Source;
use thiserror::Error;

/// A file could not be opened.
#[derive(Clone, Copy, Debug, PartialEq, Eq, Error)]
#[error("the file cannot be opened")]
pub struct NotOpened;

/// A source that is standard input until a file is opened by its name, and then that file, before
/// its first byte. Contracts see the bytes of the file of each name, where they are known, and
/// which names may be refused.
pub trait Input: Source {
    /// Goes to the file of this name.
    ///
    /// # Errors
    ///
    /// `NotOpened` where there is no such file, or it cannot be opened. The source is then as it
    /// was, but that it counts one more file that was not opened, apart from calls that failed.
    // ensures bytes { OnOk result (Self.remaining self.new ≡ named self.old name.now) }
    // ensures taken { OnOk result (Self.taken self.new ≡ 0) }
    // ensures counts { OnOk result (Self.counts self.new ≡ no_faults) }
    // ensures refused { OnErr result (refuses self.old name.now) }
    // ensures kept { OnErr result (Self.remaining self.new ≡ Self.remaining self.old) }
    // ensures none_taken { OnErr result (Self.taken self.new ≡ Self.taken self.old) }
    // ensures unopened { OnErr result
    //     (Self.counts self.new ≡ counts_unopened (Self.counts self.old)) }
    fn open(&mut self, name: &str) -> Result<(), NotOpened>;
}
