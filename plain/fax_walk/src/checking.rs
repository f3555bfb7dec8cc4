// Made by tools/plain-rust of crates/fax_walk/src/checking.rt: change that.
//! A file that is read wholly for what is worth a note in it.

use kit_std::prelude::Vec;

use crate::Place;
use fax_bits::Memory;
use fax_files::{Cause, Chain, Directory, PageForm, Received, Strips, Tiff};
use fax_page::{NotesFault, NotesReader, StripNotes};
use kit_std::alloc::Global;

/// What is noted.
#[derive(Clone, Copy, Debug, PartialEq, Eq)]
pub enum NoteKind {
    /// A strip of MMR without the end of a facsimile block after its last row (T.6,
    /// End-of-facsimile block).
    NoEndOfBlock,
    /// A strip of MH or MR with a return to control after its last row (T.4, section 4.1.4).
    ReturnToControl,
    /// A strip with a 1 after its last row, and after the end of the facsimile block or the
    /// return to control where there is one.
    DataAfterEnd,
    /// A strip with a row whose codes are others than T.4 chooses (T.4, sections 4.1.1 and
    /// 4.2.1.3.3).
    NotT4Choice,
    /// A directory whose entries do not ascend by their tags (TIFF 6.0, section 2).
    EntriesOutOfOrder,
    /// A page of which the receiver says that rows were bad, with what it counted (RFC 2306,
    /// BadFaxLines, CleanFaxData and ConsecutiveBadFaxLines). `check` has no such note.
    BadFaxLines(Received),
}

impl NoteKind {
    /// The note's name.
    // ensures { result.now ≡ (number_and_name self).1 }
    pub fn name(self) -> &'static str {
        match self {
            NoteKind::NoEndOfBlock => "NoEndOfBlock",
            NoteKind::ReturnToControl => "ReturnToControl",
            NoteKind::DataAfterEnd => "DataAfterEnd",
            NoteKind::NotT4Choice => "NotT4Choice",
            NoteKind::EntriesOutOfOrder => "EntriesOutOfOrder",
            NoteKind::BadFaxLines(_counts) => "BadFaxLines",
        }
    }

    /// The note's number, 1 to 6.
    // ensures { result ≡ (number_and_name self).0 }
    pub fn number(self) -> u8 {
        match self {
            NoteKind::NoEndOfBlock => 1,
            NoteKind::ReturnToControl => 2,
            NoteKind::DataAfterEnd => 3,
            NoteKind::NotT4Choice => 4,
            NoteKind::EntriesOutOfOrder => 5,
            NoteKind::BadFaxLines(_counts) => 6,
        }
    }
}

/// A note on a page, or on a strip of it.
// The kind has the number and the name that are printed.
#[derive(Clone, Copy, Debug, PartialEq, Eq)]
pub struct Note {
    /// The page, from 0.
    pub page: u32,
    /// The strip of the page, from 0, or none where the note is on the page's directory.
    pub strip: Option<u32>,
    /// What is noted.
    pub kind: NoteKind,
}

/// What was found in a file up to its first fault.
pub struct Report {
    /// The notes by page: first those on its directory, then those on its strips in their order.
    /// A page that is refused and a strip that is not whole have none, and nothing after a fault
    /// has.
    pub notes: Vec<Note>,
    /// How many pages were read wholly.
    pub pages: u64,
    /// How many rows were read.
    pub rows: u64,
    /// The first fault, with the place of the next row there: row 0 for a fault of the header, of a
    /// directory or of a field.
    pub fault: Option<(Place, Cause)>,
}

/// How far a page was read: how many rows, and the fault after them where it was not read wholly.
#[derive(Clone, Copy)]
struct PageRead {
    rows: u32,
    fault: Option<Cause>,
}

/// Adds a note where its test holds.
// ensures { OnOk result
//     (notes.new.items ≡ notes.old.items ++ Spec.note_if test page strip kind) }
fn note_if(
    notes: &mut Vec<Note>,
    test: bool,
    page: u32,
    strip: Option<u32>,
    kind: NoteKind,
) -> Result<(), Memory> {
    if test {
        notes.push(Note { page, strip, kind }).map_err(|_| Memory)?;
    }
    Ok(())
}

/// Adds the notes on a strip.
// ensures { OnOk result
//     (notes.new.items ≡ notes.old.items ++ Spec.notes_on_strip page strip found) }
fn note_strip(notes: &mut Vec<Note>, page: u32, strip: u32, found: StripNotes) -> Result<(), Memory> {
    let strip = Some(strip);
    note_if(
        notes,
        found.no_end_of_block,
        page,
        strip,
        NoteKind::NoEndOfBlock,
    )?;
    note_if(
        notes,
        found.return_to_control,
        page,
        strip,
        NoteKind::ReturnToControl,
    )?;
    note_if(
        notes,
        found.data_after_end,
        page,
        strip,
        NoteKind::DataAfterEnd,
    )?;
    note_if(
        notes,
        found.not_t4_choice,
        page,
        strip,
        NoteKind::NotT4Choice,
    )
}

/// How far a page was read where a strip that begins after so many rows has no notes.
// requires { Code.IsRowInside before fault }
// ensures { IfOk result (Code.IsReadTo before fault) }
fn read_to(before: u32, fault: NotesFault) -> Result<PageRead, Memory> {
    match fault {
        NotesFault::Memory => Err(Memory),
        NotesFault::Strip { row, fault } => Ok(PageRead {
            rows: before + row,
            fault: Some(Cause::Strip(fault)),
        }),
    }
}

/// Reads the strips of a page and adds the notes on each, up to the first that is not whole.
// requires form { form_of strips.now.directory ≡ Ok form.now }
// requires limits { IsPageForm form.now }
// requires count { strips.now.count ≡ form.now.strips }
// requires here { Code.IsDirectoryOfPage strips.now.directory page }
// ensures { IfOk result (λ read. (with_received : Bool) → Code.IsRestChecked with_received
//     strips.now.directory.file (Code.before_strip form.now page 0) page
//     notes.old.items notes.new.items read) }
fn check_strips(
    alloc: Global,
    page: u32,
    form: &PageForm,
    strips: &Strips,
    notes: &mut Vec<Note>,
) -> Result<PageRead, Memory> {
    let mut reader = NotesReader::new(alloc, form.width)?;
    for s in 0..form.strips {
        let before = s * form.rows_per_strip;
        let bytes = match strips.bytes(s) {
            Ok(bytes) => bytes,
            Err(fault) => {
                return Ok(PageRead {
                    rows: before,
                    fault: Some(Cause::File(fault)),
                });
            }
        };
        match reader.notes(bytes, form.strip_form(s)) {
            Ok(found) => note_strip(notes, page, s, found)?,
            Err(fault) => return read_to(before, fault),
        }
    }
    Ok(PageRead {
        rows: form.rows,
        fault: None,
    })
}

/// Whether a number is there, and above 0.
// ensures { result ≡ Spec.is_above_zero number }
fn is_above_zero(number: Option<u32>) -> bool {
    match number {
        Some(number) => 0 < number,
        None => false,
    }
}

/// Whether the receiver of a page says that rows of it were bad.
// ensures { result ≡ Spec.has_bad_rows counts }
fn has_bad_rows(counts: Received) -> bool {
    is_above_zero(counts.bad_rows) || is_above_zero(counts.clean)
}

/// Adds the notes on a page's directory, and among them what its receiver counted, where that is
/// asked for.
// ensures { OnOk result (notes.new.items ≡ notes.old.items
//     ++ Spec.notes_on_directory with_received directory.now.endian directory.now.file
//     directory.now.offset page) }
fn note_directory(
    with_received: bool,
    page: u32,
    directory: &Directory,
    notes: &mut Vec<Note>,
) -> Result<(), Memory> {
    let out_of_order = !directory.in_order();
    note_if(notes, out_of_order, page, None, NoteKind::EntriesOutOfOrder)?;
    let counts = directory.received();
    let bad = with_received && has_bad_rows(counts);
    note_if(notes, bad, page, None, NoteKind::BadFaxLines(counts))
}

/// Reads a page and adds the notes on it, up to its first fault. A page that is refused has none.
// requires { Code.IsDirectoryOfPage directory.now page }
// ensures { IfOk result (Code.IsRestChecked with_received directory.now.file
//     (Code.before_page page) page notes.old.items notes.new.items) }
fn check_page(
    alloc: Global,
    with_received: bool,
    page: u32,
    directory: &Directory,
    notes: &mut Vec<Note>,
) -> Result<PageRead, Memory> {
    let (form, strips) = match directory.page_and_strips() {
        Ok(page) => page,
        Err(fault) => {
            return Ok(PageRead {
                rows: 0,
                fault: Some(Cause::File(fault)),
            });
        }
    };
    note_directory(with_received, page, directory, notes)?;
    check_strips(alloc, page, &form, &strips, notes)
}

/// The report on a file with a good header, with what receivers counted or without.
// requires { header tiff.file ≡ Ok tiff.head }
// ensures { IfOk result (Spec.IsReport with_received tiff.entry.file) }
fn check_pages(alloc: Global, with_received: bool, tiff: Tiff) -> Result<Report, Memory> {
    // It does not go by a walk, which returns rows and not their bits. What it counts are the items
    // of the same definition (`AreItems`).
    let mut chain = Chain::new(tiff);
    let mut report = Report {
        notes: Vec::new(alloc),
        pages: 0,
        rows: 0,
        fault: None,
    };
    loop {
        let page = chain.yielded();
        report.pages = u64::from(page);
        let directory = match chain.next() {
            Ok(Some(directory)) => directory,
            Ok(None) => return Ok(report),
            Err(fault) => {
                report.fault = Some((Place { page, row: 0 }, Cause::File(fault)));
                return Ok(report);
            }
        };
        let read = check_page(alloc, with_received, page, &directory, &mut report.notes)?;
        report.rows += u64::from(read.rows);
        if let Some(cause) = read.fault {
            let row = read.rows;
            report.fault = Some((Place { page, row }, cause));
            return Ok(report);
        }
    }
}

/// The report on any bytes, with what receivers counted or without.
// ensures { IfOk result (Spec.IsReport with_received file.now) }
fn check_file(alloc: Global, with_received: bool, file: &[u8]) -> Result<Report, Memory> {
    match Tiff::read_header(file) {
        Ok(tiff) => check_pages(alloc, with_received, tiff),
        Err(fault) => Ok(Report {
            notes: Vec::new(alloc),
            pages: 0,
            rows: 0,
            fault: Some((Place { page: 0, row: 0 }, Cause::File(fault))),
        }),
    }
}

/// Reads a file from any bytes up to its first fault, and reports on it.
///
/// # Errors
///
/// `Memory` where a growth was refused.
// ensures { IfOk result (Spec.IsReport false file.now) }
pub fn check(alloc: Global, file: &[u8]) -> Result<Report, Memory> {
    check_file(alloc, false, file)
}

/// The same as `check`, and notes each page of which the receiver says that rows were bad, after
/// the note on the order of its entries (RFC 2306, BadFaxLines and CleanFaxData). Where a page has
/// no such note its rows may still be other ones than were sent: a receiver need not write these
/// fields.
///
/// # Errors
///
/// `Memory` where a growth was refused.
// ensures { IfOk result (Spec.IsReport true file.now) }
pub fn check_received(alloc: Global, file: &[u8]) -> Result<Report, Memory> {
    check_file(alloc, true, file)
}
