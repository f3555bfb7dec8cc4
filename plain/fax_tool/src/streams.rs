// Made by tools/plain-rust of crates/fax_tool/src/streams.rt: change that.
//! The streams that a run reads and writes.

pub(crate) mod input_buffer;
pub mod transfer;

use kit_std::io;
use thiserror::Error;

/// Why a call on a stream moved nothing.
#[derive(Clone, Copy, Debug, PartialEq, Eq, Error)]
pub enum StreamFault {
    /// A signal came in between, and the call may be made again.
    #[error("the call was interrupted")]
    Interrupted,
    #[error("the call failed")]
    Failed,
}

/// A stream that bytes are taken from. Contracts see its bytes left, where they are known, how many
/// bytes were taken, and how many calls were interrupted or failed; counts stay at `u64::MAX`.
pub trait Source {
    /// Moves the next bytes to the front of the buffer, and returns how many: 0 only where the
    /// buffer is empty or no byte is left.
    // ensures within { IfOk result (λ n. n ≤ length buffer.new) }
    // ensures bytes { TakesBytes (remaining self.old) (remaining self.new) result buffer.new }
    // ensures taken { taken self.new ≡ taken_after result (taken self.old) }
    // ensures counts { counts self.new ≡ counts_after result (counts self.old) }
    fn take(&mut self, buffer: &mut [u8]) -> Result<usize, StreamFault>;
}

/// A stream that bytes are given to. Contracts see its bytes written, where they are known, and how
/// many calls were interrupted or failed; counts stay at `u64::MAX`.
pub trait Sink {
    /// Writes bytes from the front of the slice, and returns how many: 0 only where the slice is
    /// empty.
    // ensures within { IfOk result (λ n. n ≤ length bytes.now) }
    // ensures some { IfOk result (λ n. 0 < length bytes.now → 0 < n) }
    // ensures bytes { GivesBytes (written self.old) (written self.new) result bytes.now }
    // ensures counts { counts self.new ≡ counts_after result (counts self.old) }
    fn give(&mut self, bytes: &[u8]) -> Result<usize, StreamFault>;
}

/// How many calls on a stream were interrupted, how many failed, and how many files were not
/// opened. All stay at `u64::MAX`.
#[derive(Clone, Copy)]
struct FaultCounts {
    interrupted: u64,
    failed: u64,
    unopened: u64,
}

impl FaultCounts {
    /// No call was interrupted, none failed, and no file was not opened.
    const NONE: FaultCounts = FaultCounts {
        interrupted: 0,
        failed: 0,
        unopened: 0,
    };

    /// Counts one more call with this fault, and answers the fault.
    // ensures same { result ≡ fault }
    // ensures counted { counts_of self.new ≡ counts_after (Err fault) (counts_of self.old) }
    fn count(&mut self, fault: StreamFault) -> StreamFault {
        match fault {
            StreamFault::Interrupted => self.interrupted = self.interrupted.saturating_add(1),
            StreamFault::Failed => self.failed = self.failed.saturating_add(1),
        }
        fault
    }
}

/// The fault of a call on a stream of std.
// ensures { IsFaultOf (error_kind error.now) result }
fn fault_of(error: &io::Error) -> StreamFault {
    match error.kind() {
        io::ErrorKind::Interrupted => StreamFault::Interrupted,
        _ => StreamFault::Failed,
    }
}

/// A reader of std as a source.
pub struct FromRead<R> {
    reader: R,
    taken: u64,
    faults: FaultCounts,
}

impl<R: io::Read> FromRead<R> {
    /// The reader's bytes from here on, with counts of 0.
    // ensures reader { reader_of result ≡ reader }
    // ensures remaining { ⟦<FromRead<R> as Source>⟧.remaining result ≡ R.remaining reader }
    // ensures taken { ⟦<FromRead<R> as Source>⟧.taken result ≡ 0 }
    // ensures counts { ⟦<FromRead<R> as Source>⟧.counts result ≡ no_faults }
    pub fn new(reader: R) -> Self {
        FromRead {
            reader,
            taken: 0,
            faults: FaultCounts::NONE,
        }
    }

    /// Counts a file that was not opened, apart from calls that failed. The reader stays.
    // ensures reader { reader_of self.new ≡ reader_of self.old }
    // ensures remaining { ⟦<FromRead<R> as Source>⟧.remaining self.new
    //     ≡ ⟦<FromRead<R> as Source>⟧.remaining self.old }
    // ensures taken { ⟦<FromRead<R> as Source>⟧.taken self.new
    //     ≡ ⟦<FromRead<R> as Source>⟧.taken self.old }
    // ensures counts { ⟦<FromRead<R> as Source>⟧.counts self.new
    //     ≡ counts_unopened (⟦<FromRead<R> as Source>⟧.counts self.old) }
    pub fn count_unopened(&mut self) {
        // Counted as a call that failed, it was a reason for `fault: Read`.
        self.faults.unopened = self.faults.unopened.saturating_add(1);
    }

    /// The reader, after the bytes that were taken.
    // ensures reader { result ≡ reader_of self }
    // ensures remaining { R.remaining result ≡ ⟦<FromRead<R> as Source>⟧.remaining self }
    pub fn into_inner(self) -> R {
        let FromRead { reader, .. } = self;
        reader
    }
}

impl<R: io::Read> Source for FromRead<R> {
    fn take(&mut self, buffer: &mut [u8]) -> Result<usize, StreamFault> {
        match self.reader.read(buffer) {
            Ok(count) => {
                self.taken = self.taken.saturating_add(count as u64);
                Ok(count)
            }
            Err(error) => Err(self.faults.count(fault_of(&error))),
        }
    }
}

/// A writer of std as a sink.
pub struct ToWrite<W> {
    writer: W,
    faults: FaultCounts,
}

impl<W: io::Write> ToWrite<W> {
    /// The writer, with counts of 0.
    // ensures writer { writer_of result ≡ writer }
    // ensures written { ⟦<ToWrite<W> as Sink>⟧.written result ≡ W.contents writer }
    // ensures counts { ⟦<ToWrite<W> as Sink>⟧.counts result ≡ no_faults }
    pub fn new(writer: W) -> Self {
        ToWrite {
            writer,
            faults: FaultCounts::NONE,
        }
    }

    /// The writer, with what was given.
    // ensures writer { result ≡ writer_of self }
    // ensures written { W.contents result ≡ ⟦<ToWrite<W> as Sink>⟧.written self }
    pub fn into_inner(self) -> W {
        let ToWrite { writer, .. } = self;
        writer
    }
}

impl<W: io::Write> Sink for ToWrite<W> {
    /// A write that takes 0 bytes of a slice that is not empty has failed.
    fn give(&mut self, bytes: &[u8]) -> Result<usize, StreamFault> {
        match self.writer.write(bytes) {
            Ok(0) if !bytes.is_empty() => Err(self.faults.count(StreamFault::Failed)),
            Ok(count) => Ok(count),
            Err(error) => Err(self.faults.count(fault_of(&error))),
        }
    }
}
