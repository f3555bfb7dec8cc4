// Made by tools/plain-rust of crates/fax_c/src/file_report.rt: change that.
//! What is worth a note in a file.

use crate::faults::FaxFault;
use crate::status;
use fax_walk::{Note, Report, check};
use kit_std::alloc::Global;

/// A note on a page, or on a strip of it.
#[repr(C)]
#[derive(Clone, Copy)]
pub struct FaxNote {
    /// The page, from 0.
    pub page: u32,
    /// The strip of the page, from 0, or 4,294,967,295 where the note is on the page's directory.
    pub strip: u32,
    /// What is noted: 1 to 5, as N1 to N5.
    pub kind: u32,
}

/// What was found in a file up to its first fault.
#[repr(C)]
#[derive(Clone, Copy)]
pub struct FaxReport {
    /// How many pages were read wholly.
    pub pages: u64,
    /// How many rows were read.
    pub rows: u64,
    /// How many notes there are.
    pub notes: usize,
    pub fault: FaxFault,
}

impl FaxNote {
    /// A note as it stands in memory of the caller.
    // ensures { result ≡ note_of note.now }
    fn of(note: &Note) -> Self {
        FaxNote {
            page: note.page,
            strip: note.strip.unwrap_or(u32::MAX),
            kind: u32::from(note.kind.number()),
        }
    }
}

impl FaxReport {
    /// A report as it stands in memory of the caller, without its notes.
    // ensures { result ≡ report_of report.now }
    fn of(report: &Report) -> Self {
        FaxReport {
            pages: report.pages,
            rows: report.rows,
            notes: report.notes.len(),
            fault: match report.fault {
                Some((place, cause)) => FaxFault::of_cause(place.page, place.row, cause),
                None => FaxFault::none(),
            },
        }
    }
}

/// Writes the first notes, as many as have room.
// ensures { Spec.AreNotesPut found.now notes.old notes.new }
fn put_notes(found: &[Note], notes: &mut [FaxNote]) {
    let count = found.len().min(notes.len());
    for i in 0..count {
        notes[i] = FaxNote::of(&found[i]);
    }
}

/// Reads a file wholly up to its first fault, and writes the first notes, as many as have room, and
/// what else is reported.
// ensures { Spec.TellsReport file.now notes.old notes.new report.old report.new result }
pub fn faxpages_check(
    alloc: Global,
    file: &[u8],
    notes: &mut [FaxNote],
    report: &mut FaxReport,
) -> u32 {
    match check(alloc, file) {
        Ok(found) => {
            put_notes(&found.notes, notes);
            *report = FaxReport::of(&found);
            match found.fault {
                Some(_) => status::FAULT,
                None => status::END,
            }
        }
        Err(_) => status::MEMORY,
    }
}
