// Made by tools/plain-rust of crates/fax_tool/src/commands/check.rt: change that.
//! `check`: what is worth a note in a file.

use kit_std::prelude::String;

use crate::refusal::Refusal;
use crate::streams::transfer::{RetryCount, read_to_end, write_all};
use crate::streams::{Sink, Source};
use crate::text::fault::{ErrorLine, row_fault_line};
use crate::text::push_number;
use arrayvec::ArrayString;
use fax_bits::Memory;
use fax_walk::{Note, NoteKind, Report, check, check_received};
use itoa::Buffer;
use kit_std::alloc::Global;

/// A line of the report, which is made without memory.
type ReportLine = ArrayString<96>;

/// Appends the number of a strip, where there is one.
// requires { array_string_len line.old + 17 ≤ 96 }
// ensures text { line.new.bytes ≡ line.old.bytes ++ SparseBytes.and_strip strip }
// ensures len { array_string_len line.new ≤ array_string_len line.old + 17 }
fn push_strip(line: &mut ReportLine, strip: Option<u32>) {
    if let Some(strip) = strip {
        line.push_str(" strip");
        push_number(line, strip);
    }
}

/// Appends a number, or a hyphen where there is none.
// requires { array_string_len line.old + 11 ≤ 96 }
// ensures text { line.new.bytes ≡ line.old.bytes ++ Text.and_count number }
// ensures len { array_string_len line.new ≤ array_string_len line.old + 11 }
fn push_count(line: &mut ReportLine, number: Option<u32>) {
    match number {
        Some(number) => push_number(line, number),
        None => line.push_str(" -"),
    }
}

/// Appends what the receiver of a page counted, where a note has it.
// requires { array_string_len line.old + 33 ≤ 96 }
// ensures text { line.new.bytes ≡ line.old.bytes ++ Text.and_counts kind }
// ensures len { array_string_len line.new ≤ array_string_len line.old + 33 }
fn push_counts(line: &mut ReportLine, kind: NoteKind) {
    if let NoteKind::BadFaxLines(counts) = kind {
        push_count(line, counts.bad_rows);
        push_count(line, counts.consecutive);
        push_count(line, counts.clean);
    }
}

/// The line of a note: `note page P strip S`, or without a strip where it is on the page's
/// directory, the note's number and name, and what it counts.
// ensures { result.bytes ≡ Text.note_line note }
fn note_line(note: Note) -> ReportLine {
    let mut digits = Buffer::new();
    let mut line = ReportLine::new();
    line.push_str("note page");
    push_number(&mut line, note.page);
    push_strip(&mut line, note.strip);
    line.push_str(": N");
    line.push_str(digits.format(note.kind.number()));
    line.push_str(" ");
    line.push_str(note.kind.name());
    push_counts(&mut line, note.kind);
    line.push_str("\n");
    line
}

/// The last line: how many pages were read wholly, and how many rows.
// ensures { result.bytes ≡ SparseBytes.counts_line pages rows }
fn counts_line(pages: u64, rows: u64) -> ReportLine {
    let mut line = ReportLine::new();
    line.push_str("pages");
    push_number(&mut line, pages);
    line.push_str(" rows");
    push_number(&mut line, rows);
    line.push_str("\n");
    line
}

/// Appends a line.
// ensures { OnOk result (string_bytes text.new ≡ string_bytes text.old ++ line.bytes) }
fn put(text: &mut String, line: ReportLine) -> Result<(), Memory> {
    text.push_str(line.as_str()).map_err(|_| Memory)
}

/// The text of a report: its notes, line by line, and its counts.
// ensures { IfOk result (λ text. string_bytes text ≡ SparseBytes.report_output report.now) }
fn report_text(alloc: Global, report: &Report) -> Result<String, Memory> {
    let mut text = String::new(alloc);
    for note in &report.notes {
        put(&mut text, note_line(*note))?;
    }
    put(&mut text, counts_line(report.pages, report.rows))?;
    Ok(text)
}

/// The line of a report's fault, if there is one.
// ensures error { (Text.report_text report.now).error ≡ Outcome.error_of result }
// ensures status { (Text.report_text report.now).status ≡ Outcome.status_of result }
fn fault_line(report: &Report) -> Option<ErrorLine> {
    let (place, cause) = report.fault?;
    Some(row_fault_line(place.page, place.row, cause))
}

/// The report on a file, with what receivers counted or without.
// ensures { IfOk result (IsReport received file.now) }
fn report_on(alloc: Global, received: bool, file: &[u8]) -> Result<Report, Memory> {
    if received {
        check_received(alloc, file)
    } else {
        check(alloc, file)
    }
}

/// Reads the input whole and writes what is worth a note in it, how many pages were read wholly,
/// and how many rows.
// requires input_counts { R.counts input.old ≡ no_faults }
// requires taken { R.taken input.old ≡ 0 }
// requires counts { W.counts out.old ≡ no_faults }
// ensures ok { IfOk result (IsDone (Check received)
//     (input_after (R.remaining input.old) (R.taken input.new) (R.counts input.new))
//     (output_after (W.written out.old) (W.written out.new) (W.counts out.new))) }
// ensures err { IfErr result (λ refusal. IsStopped (Check received) refusal
//     (input_after (R.remaining input.old) (R.taken input.new) (R.counts input.new))
//     (output_after (W.written out.old) (W.written out.new) (W.counts out.new))) }
pub fn write_report<R: Source, W: Sink>(
    alloc: Global,
    received: bool,
    input: &mut R,
    out: &mut W,
) -> Result<Option<ErrorLine>, Refusal> {
    let file = read_to_end(alloc, input)?;
    let report = report_on(alloc, received, &file)?;
    let text = report_text(alloc, &report)?;
    let mut interruptions = RetryCount::NONE;
    write_all(out, &mut interruptions, text.as_bytes())?;
    Ok(fault_line(&report))
}
