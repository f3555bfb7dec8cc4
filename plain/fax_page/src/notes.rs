// Made by tools/plain-rust of crates/fax_page/src/notes.rt: change that.
//! What is worth a note in a strip that has all its rows.

use crate::lines::{read_codes, read_eol, read_start, stop, take_white};
use crate::uncounted::classify_end;
use crate::writer::put_codes;
use crate::{Coding, Dimension, FillOrder, MOST_ROWS, RowsEnd, StripFault, StripForm};
use fax_rows::{BitSink, BitSource, Memory, Row, RowFault, read_1d_canonical, read_2d_canonical};
use kit_std::alloc::Global;
use kit_std::marker::Model;
use kit_std::mem::swap;
use thiserror::Error;

/// How many EOLs a return to control has (T.4, section 4.1.4).
pub(crate) const RETURN_EOLS: u32 = 6;

/// The end of a facsimile block as a number: two EOLs (T.6, End-of-facsimile block).
pub(crate) const END_OF_BLOCK: u32 = 0x1001;

/// How many bits the end of a facsimile block has.
pub(crate) const END_OF_BLOCK_BITS: u32 = 24;

/// What is worth a note in a strip of which all rows can be read.
// Its fields are words, as flags are; the numbers that are printed belong to `NoteKind`.
#[derive(Clone, Copy, Debug, PartialEq, Eq)]
pub struct StripNotes {
    /// The strip is MMR, and no end of a facsimile block stands after its last row (T.6,
    /// End-of-facsimile block).
    pub no_end_of_block: bool,
    /// The strip is MH or MR, and a return to control stands after its last row: six EOLs, each
    /// with any fill, in MR each with a tag bit of 1 (T.4, section 4.1.4).
    pub return_to_control: bool,
    /// A 1 stands after the last row, and after the end of the facsimile block or the return to
    /// control where there is one.
    pub data_after_end: bool,
    /// The codes of some row are others than T.4 chooses (T.4, sections 4.1.1 and 4.2.1.3.3).
    pub not_t4_choice: bool,
}

/// What was found in rows of a strip of unknown height.
#[derive(Clone, Copy, Debug, PartialEq, Eq)]
pub struct UncountedNotes {
    /// How many rows there are, at most 1,000,000.
    pub rows: u32,
    /// How they end.
    pub end: RowsEnd,
    /// What is worth a note in a strip of so many rows.
    pub notes: StripNotes,
}

/// Why a strip has no notes.
#[derive(Clone, Copy, Debug, PartialEq, Eq, Error)]
pub enum NotesFault {
    /// A growth was refused.
    #[error("out of memory")]
    Memory,
    /// This row of the strip, from 0, could not be read.
    #[error("row {row}: {fault}")]
    Strip { row: u32, fault: StripFault },
}

impl From<Memory> for NotesFault {
    fn from(_refused: Memory) -> Self {
        NotesFault::Memory
    }
}

/// Reads the codes of a row that is coded so into `row`, of which nothing is said after a fault,
/// and returns whether they are seen to be those that T.4 chooses.
// requires same_width { length reference.now ≡ length row.old }
// ensures read { read_codes_of dimension (length row.old) reference.now source.old.remaining
//     ≡ answered (λ _. row.new) result source.new.remaining }
// ensures chosen { IfOk result (λ chosen. IsTrue chosen
//     → Code.IsChosen dimension reference.now source.old.remaining row.new source.new.remaining) }
// ensures same_width { length row.new ≡ length row.old }
fn read_seen(
    source: &mut BitSource,
    dimension: Dimension,
    reference: &Row,
    row: &mut Row,
) -> Result<bool, RowFault> {
    match dimension {
        Dimension::OneDimensional => read_1d_canonical(source, row),
        Dimension::TwoDimensional => read_2d_canonical(source, reference, row),
    }
}

/// What is kept from strip to strip.
struct NotedRows {
    /// The row before the next one, white before the first one of a strip.
    reference: Row,
    /// Where the next row is read to.
    row: Row,
    /// Where a row is written that is to be compared.
    sink: BitSink,
}

/// A strip that is read for its notes, row by row.
struct NotedStrip<'a> {
    source: BitSource<'a>,
    form: StripForm,
    /// Whether the codes of some row up to here are others than T.4 chooses.
    not_t4_choice: bool,
}

impl<'a> NotedStrip<'a> {
    /// Reads the codes of row `i`, which are expected, into `row`, of which nothing is said after a
    /// fault, and returns whether they are those that T.4 chooses. Only where that is not seen
    /// while they are read, the row is written and compared.
    // requires { Code.IsNoting self.old rows.old }
    // ensures ok { IfOk result (Code.AreCodesRead self.old.form dimension rows.old.reference
    //     self.old.source.remaining rows.new.row self.new.source.remaining) }
    // ensures err { IfErr result (Code.IsCodesFault self.old.form i dimension
    //     rows.old.reference self.old.source.remaining) }
    // ensures same_width { length rows.new.row ≡ length rows.old.row }
    // ensures same_reference { rows.new.reference ≡ rows.old.reference }
    // ensures same_form { self.new.form ≡ self.old.form }
    fn read_canonical(
        &mut self,
        rows: &mut NotedRows,
        dimension: Dimension,
        i: u32,
    ) -> Result<bool, NotesFault> {
        // The readers answer whether each step was T.4's choice; at any doubt the row is written
        // again, in a sink that is emptied for each row, and compared. That a row begins so is that
        // it is coded so, since what is written is read as nothing else (a law of `fax_rows`).
        let codes = self.source.fork();
        match read_seen(&mut self.source, dimension, &rows.reference, &mut rows.row) {
            Ok(true) => return Ok(true),
            Ok(false) => {}
            Err(cause) => {
                let fault = stop(&codes, cause);
                return Err(NotesFault::Strip { row: i, fault });
            }
        }
        rows.sink.clear();
        put_codes(&mut rows.sink, dimension, &rows.reference, &rows.row)?;
        Ok(rows.sink.starts_with(&codes))
    }

    /// Reads the codes of row `i`, which are expected, into `row`, of which nothing is said after a
    /// fault, and asks nothing of them.
    // requires { Code.IsNoting self.old rows.old }
    // ensures ok { OnOk result
    //     (read_codes_of dimension self.old.form.width rows.old.reference self.old.source.remaining
    //     ≡ read rows.new.row self.new.source.remaining) }
    // ensures err { IfErr result (Code.IsCodesFault self.old.form i dimension
    //     rows.old.reference self.old.source.remaining) }
    // ensures same_width { length rows.new.row ≡ length rows.old.row }
    // ensures same_reference { rows.new.reference ≡ rows.old.reference }
    // ensures same_form { self.new.form ≡ self.old.form }
    // ensures same_choice { self.new.not_t4_choice ≡ self.old.not_t4_choice }
    fn read_plain(
        &mut self,
        rows: &mut NotedRows,
        dimension: Dimension,
        i: u32,
    ) -> Result<(), NotesFault> {
        let codes = self.source.fork();
        match read_codes(&mut self.source, dimension, &rows.reference, &mut rows.row) {
            Ok(()) => Ok(()),
            Err(cause) => {
                let fault = stop(&codes, cause);
                Err(NotesFault::Strip { row: i, fault })
            }
        }
    }

    /// Reads the codes of row `i`, which are expected. Once the codes of a row are others than T.4
    /// chooses, rows are only read.
    // requires { Code.IsNoting self.old rows.old }
    // ensures ok { OnOk result (Code.AreCodesNoted self.old.form dimension rows.old.reference
    //     self.old.source.remaining rows.new.reference self.new.source.remaining
    //     self.old.not_t4_choice self.new.not_t4_choice) }
    // ensures err { IfErr result (Code.IsCodesFault self.old.form i dimension
    //     rows.old.reference self.old.source.remaining) }
    // ensures still { Code.IsNoting self.new rows.new }
    // ensures same_form { self.new.form ≡ self.old.form }
    fn note_codes(
        &mut self,
        rows: &mut NotedRows,
        dimension: Dimension,
        i: u32,
    ) -> Result<(), NotesFault> {
        if self.not_t4_choice {
            self.read_plain(rows, dimension, i)?;
        } else {
            self.not_t4_choice = !self.read_canonical(rows, dimension, i)?;
        }
        swap(&mut rows.reference, &mut rows.row);
        Ok(())
    }

    /// Reads row `i`, the next one. A white row after a white one is skipped.
    // requires { Code.IsNoting self.old rows.old }
    // ensures ok { OnOk result (Code.IsLineNoted self.old.form i rows.old.reference
    //     self.old.source.remaining rows.new.reference self.new.source.remaining
    //     self.old.not_t4_choice self.new.not_t4_choice) }
    // ensures err { IfErr result
    //     (Code.IsLineFault self.old.form i rows.old.reference self.old.source.remaining) }
    // ensures still { Code.IsNoting self.new rows.new }
    // ensures same_form { self.new.form ≡ self.old.form }
    fn read_row(&mut self, rows: &mut NotedRows, i: u32) -> Result<(), NotesFault> {
        let dimension = match read_start(&mut self.source, self.form.coding, i) {
            Ok(dimension) => dimension,
            Err(fault) => return Err(NotesFault::Strip { row: i, fault }),
        };
        if take_white(&mut self.source, dimension, &rows.reference) {
            return Ok(());
        }
        self.note_codes(rows, dimension, i)
    }
}

/// Goes after an EOL of a return to control, and returns whether there is one (T.4, sections 4.1.4
/// and 4.2.4).
// ensures { Code.TakesReturnEol coding source.old.remaining result source.new.remaining }
fn skip_return_eol(source: &mut BitSource, coding: Coding) -> bool {
    if let Err(_none) = read_eol(source, false) {
        return false;
    }
    match coding {
        Coding::Mh => true,
        Coding::Mr => source.take(1, 1),
        Coding::Mmr => false,
    }
}

/// What stands after a return to control, where there is one (T.4, section 4.1.4).
// ensures { Code.IsAfterMark (Ends.AreRtcEols coding 6 source.now.remaining) result }
fn after_return_to_control<'a>(source: &BitSource<'a>, coding: Coding) -> Option<BitSource<'a>> {
    let mut ahead = source.fork();
    for _eol in 0..RETURN_EOLS {
        if !skip_return_eol(&mut ahead, coding) {
            return None;
        }
    }
    Some(ahead)
}

/// What stands after the end mark of a strip, where there is one (T.4, section 4.1.4; T.6,
/// End-of-facsimile block).
// ensures { Code.IsAfterMark (Ends.IsEndMark coding source.now.remaining) result }
pub(crate) fn after_end<'a>(source: &BitSource<'a>, coding: Coding) -> Option<BitSource<'a>> {
    // The end of a facsimile block has no fill: with a zero before it a strip of MMR has none, and
    // data.
    match coding {
        Coding::Mh | Coding::Mr => after_return_to_control(source, coding),
        Coding::Mmr => {
            let mut ahead = source.fork();
            if ahead.take(END_OF_BLOCK, END_OF_BLOCK_BITS) {
                Some(ahead)
            } else {
                None
            }
        }
    }
}

/// The notes on a strip whose rows end at a source.
// ensures { Code.AreNotesAfter coding source.now.remaining not_t4_choice result }
fn notes_after(source: &BitSource, coding: Coding, not_t4_choice: bool) -> StripNotes {
    // A lone EOL after the last row is data after the end: no return to control stands there. Six
    // EOLs after a strip of MMR are the end of its block, two EOLs, and then data.
    let (ended, data_after_end) = match after_end(source, coding) {
        Some(after) => (true, after.zeros().is_some()),
        None => (false, source.zeros().is_some()),
    };
    let (no_end_of_block, return_to_control) = match coding {
        Coding::Mh | Coding::Mr => (false, ended),
        Coding::Mmr => (!ended, false),
    };
    StripNotes {
        no_end_of_block,
        return_to_control,
        data_after_end,
        not_t4_choice,
    }
}

/// What was found in so many rows whose data continue at a source, where this fault is in the way
/// of the next row, or none is.
// ensures { Code.AreFoundAfter coding upcoming.now.remaining rows fault not_t4_choice result }
fn found_in_rows(
    upcoming: &BitSource,
    coding: Coding,
    rows: u32,
    fault: Option<StripFault>,
    not_t4_choice: bool,
) -> UncountedNotes {
    UncountedNotes {
        rows,
        end: classify_end(upcoming, coding, rows, fault),
        notes: notes_after(upcoming, coding, not_t4_choice),
    }
}

/// Reads strips of one width for their notes, one after another. Contracts see how many pels their
/// rows have.
pub struct NotesReader {
    rows: NotedRows,
}

impl Model for NotesReader {}

impl NotesReader {
    /// A reader of strips of this width. It takes the memory of two rows.
    ///
    /// # Errors
    ///
    /// `Memory` where a growth was refused.
    // requires some { 0 < width }
    // requires short { width < 2 ^ 16 }
    // ensures { IfOk result (λ reader. reader ≡ width) }
    pub fn new(alloc: Global, width: u32) -> Result<Self, Memory> {
        let reference = Row::white(alloc, width)?;
        let row = Row::white(alloc, width)?;
        // Its bits alone are looked at, and no bytes of them.
        let sink = BitSink::new(alloc, FillOrder::MsbFirst);
        Ok(NotesReader {
            rows: NotedRows {
                reference,
                row,
                sink,
            },
        })
    }

    /// The notes on a strip in at most 4,294,967,295 bytes. It takes memory only where a row is
    /// written, at most for that row: no strip is written whole.
    ///
    /// # Errors
    ///
    /// `Strip` where a row cannot be read, and `Memory` where a growth was refused.
    // requires count { length bytes.now ≤ 4294967295 }
    // requires limits { IsStripForm form }
    // requires width { form.width ≡ self.old }
    // ensures ok { IfOk result (λ notes. noted form (bits form.order bytes.now) ≡ Ok notes) }
    // ensures err { IfErr result (IsNotesFault form (bits form.order bytes.now)) }
    // ensures same_width { self.new ≡ self.old }
    pub fn notes(&mut self, bytes: &[u8], form: StripForm) -> Result<StripNotes, NotesFault> {
        self.rows.reference.whiten();
        let mut strip = NotedStrip {
            source: BitSource::new(bytes, form.order),
            form,
            not_t4_choice: false,
        };
        for i in 0..form.rows {
            strip.read_row(&mut self.rows, i)?;
        }
        Ok(notes_after(&strip.source, form.coding, strip.not_t4_choice))
    }

    /// How many rows of a strip of unknown height stand in at most 4,294,967,295 bytes, how they
    /// end, and the notes on them. How many rows the form says is not looked at. It takes memory
    /// only where a row is written, at most for that row.
    ///
    /// # Errors
    ///
    /// `Memory` where a growth was refused.
    // requires count { length bytes.now ≤ 4294967295 }
    // requires limits { IsStripForm form }
    // requires width { form.width ≡ self.old }
    // ensures ok { IfOk result (λ found.
    //     found ≡ noted_uncounted form (bits form.order bytes.now)) }
    // ensures same_width { self.new ≡ self.old }
    pub fn uncounted_notes(
        &mut self,
        bytes: &[u8],
        form: StripForm,
    ) -> Result<UncountedNotes, Memory> {
        self.rows.reference.whiten();
        let mut strip = NotedStrip {
            source: BitSource::new(bytes, form.order),
            form: StripForm {
                rows: MOST_ROWS,
                ..form
            },
            not_t4_choice: false,
        };
        for i in 0..MOST_ROWS {
            let upcoming = strip.source.fork();
            let other = strip.not_t4_choice;
            match strip.read_row(&mut self.rows, i) {
                Ok(()) => {}
                Err(NotesFault::Strip { row: _, fault }) => {
                    return Ok(found_in_rows(&upcoming, form.coding, i, Some(fault), other));
                }
                Err(NotesFault::Memory) => return Err(Memory),
            }
        }
        let other = strip.not_t4_choice;
        Ok(found_in_rows(&strip.source, form.coding, MOST_ROWS, None, other))
    }
}

/// The notes on a strip in at most 4,294,967,295 bytes. It takes memory for what a row needs: no
/// strip is written whole.
///
/// # Errors
///
/// `Strip` where a row cannot be read, and `Memory` where a growth was refused.
// requires count { length bytes.now ≤ 4294967295 }
// requires limits { IsStripForm form }
// ensures ok { IfOk result (λ notes. noted form (bits form.order bytes.now) ≡ Ok notes) }
// ensures err { IfErr result (IsNotesFault form (bits form.order bytes.now)) }
pub fn strip_notes(alloc: Global, bytes: &[u8], form: StripForm) -> Result<StripNotes, NotesFault> {
    let mut reader = NotesReader::new(alloc, form.width)?;
    reader.notes(bytes, form)
}
