// Made by tools/plain-rust of crates/fax_tool/src/commands/print.rt: change that.
//! `rows` and `list`: the runs of each row, or the form of each page, line by line.

use kit_std::prelude::{String, Vec};

use crate::args::Selection;
use crate::commands::printed_lines::Lines;
use crate::refusal::Refusal;
use crate::streams::transfer::{RetryCount, read_to_end, write_all};
use crate::streams::{Sink, Source};
use crate::text::fault::{ErrorLine, end_line};
use crate::text::output_buffer::OutputBuffer;
use arrayvec::ArrayString;
use fax_bits::Memory;
use fax_walk::{Cursor, End, Pages, Walk, WalkStart};
use kit_std::alloc::Global;

/// How many bytes of text are collected, and a line more, before they are written.
const ENOUGH_TEXT: usize = 65_536;

/// The line that a run ends with where rows are left, made without memory: `next` and the cursor.
// ensures { result.bytes ≡ next_line (AtCursor cursor) }
fn next_line(cursor: Cursor) -> ArrayString<29> {
    let mut line = ArrayString::new();
    line.push_str("next ");
    line.push_str(cursor.text().as_str());
    line.push_str("\n");
    line
}

/// Writes a text in two parts.
// requires { W.counts out.old ≡ counted interruptions.old }
// ensures ok { OnOk result (Appends (W.written out.old) (W.written out.new)
//     (first.now ++ second.now)) }
// ensures worked { OnOk result (HasWorked (W.counts out.new)) }
// ensures err { IfErr result (IsGivenInPart (W.written out.old) (W.written out.new)
//     (first.now ++ second.now)
//     (W.counts out.new)) }
fn give_two<W: Sink>(
    out: &mut W,
    interruptions: &mut RetryCount,
    first: &[u8],
    second: &[u8],
) -> Result<(), Refusal> {
    match write_all(out, interruptions, first) {
        Ok(()) => write_all(out, interruptions, second),
        Err(refusal) => Err(refusal),
    }
}

/// Writes the lines that are whole, and the line that says where to continue, when memory was
/// refused.
// requires { W.counts out.old ≡ counted interruptions.old }
// ensures { StopsWith (lines.now ++ next.now) result
//     (output_after (W.written out.old) (W.written out.new) (W.counts out.new)) }
fn stop_for_memory<W: Sink>(
    out: &mut W,
    interruptions: &mut RetryCount,
    lines: &[u8],
    next: &str,
) -> Refusal {
    match give_two(out, interruptions, lines, next.as_bytes()) {
        Ok(()) => Refusal::Memory,
        Err(refusal) => refusal,
    }
}

/// Writes the text that is collected, and empties it; its room stays.
// requires { W.counts out.old ≡ counted interruptions.old }
// ensures ok { OnOk result (Appends (W.written out.old) (W.written out.new) text.old) }
// ensures emptied { OnOk result (text.new ≡ []) }
// ensures counts { OnOk result (W.counts out.new ≡ counted interruptions.new) }
// ensures worked { OnOk result (HasWorked (W.counts out.new)) }
// ensures err { IfErr result (IsGivenInPart (W.written out.old) (W.written out.new) text.old
//     (W.counts out.new)) }
pub fn flush<W: Sink>(
    out: &mut W,
    interruptions: &mut RetryCount,
    text: &mut OutputBuffer,
) -> Result<(), Refusal> {
    write_all(out, interruptions, text.as_bytes())?;
    text.clear();
    Ok(())
}

/// Writes the text that is collected where it is long, and empties it then.
// requires { W.counts out.old ≡ counted interruptions.old }
// ensures ok { OnOk result (SendsPart (W.written out.old) (W.written out.new) text.old text.new) }
// ensures counts { OnOk result (W.counts out.new ≡ counted interruptions.new) }
// ensures err { IfErr result (IsGivenInPart (W.written out.old) (W.written out.new) text.old
//     (W.counts out.new)) }
pub fn flush_if_full<W: Sink>(
    out: &mut W,
    interruptions: &mut RetryCount,
    text: &mut OutputBuffer,
) -> Result<(), Refusal> {
    // A line may come on top: the longest has 131,085 bytes, the widest row with a change at each
    // pel.
    if text.len() < ENOUGH_TEXT {
        return Ok(());
    }
    flush(out, interruptions, text)
}

/// What is left of a limit after one more line.
// requires { IfSome remaining (λ n. 0 < n) }
// ensures { result ≡ option_map (λ n. n - 1) remaining }
fn after_one(remaining: Option<u32>) -> Option<u32> {
    match remaining {
        Some(n) => Some(n - 1),
        None => None,
    }
}

/// Prints the lines, up to the limit, and returns how they ended, or `None` at the limit.
// requires counts { W.counts out.old ≡ counted interruptions.old }
// requires fresh { L.yielded lines.old ≡ 0 }
// ensures ok { IfOk result (λ ending. PrintsLines (L.tail lines.old) max ending
//     (L.yielded lines.new) (W.written out.old) (W.written out.new)) }
// ensures tail { OnOk result ((all : List PrintedLine) (end : TheEnd) → L.tail lines.old all end
//     ↔ L.tail lines.new all end) }
// ensures origin { OnOk result (L.origin lines.new ≡ L.origin lines.old) }
// ensures counts { OnOk result (W.counts out.new ≡ counted interruptions.new) }
// ensures err { IfErr result (λ refusal. StopsPrinting (λ _. ⊥)
//     (IsTextOfFirst (L.tail lines.old) max (L.origin lines.old)) refusal
//     (output_after (W.written out.old) (W.written out.new) (W.counts out.new))) }
fn print_lines<L: Lines, W: Sink>(
    alloc: Global,
    lines: &mut L,
    max: Option<u32>,
    out: &mut W,
    interruptions: &mut RetryCount,
) -> Result<Option<End>, Refusal> {
    lines.lemma_one();
    let mut text = OutputBuffer::new(alloc);
    let mut remaining = max;
    loop {
        if remaining == Some(0) {
            flush(out, interruptions, &mut text)?;
            return Ok(None);
        }
        flush_if_full(out, interruptions, &mut text)?;
        let cursor = lines.cursor();
        match lines.put_next(&mut text) {
            Ok(None) => remaining = after_one(remaining),
            Ok(Some(end)) => {
                flush(out, interruptions, &mut text)?;
                return Ok(Some(end));
            }
            Err(Memory) => {
                let next = next_line(cursor);
                return Err(stop_for_memory(out, interruptions, text.as_bytes(), &next));
            }
        }
    }
}

/// The line that says where to continue, with the long cursor, where there is one.
// ensures { IfOk result (λ line. IsNextLine (L.tail lines.now) (L.origin lines.now)
//     (L.yielded lines.now) true (string_bytes line)) }
fn long_next_line<L: Lines>(alloc: Global, lines: &L) -> Result<String, Memory> {
    lines.lemma_one();
    let mut line = String::from_str(alloc, "next ").map_err(|_| Memory)?;
    match lines.long_cursor(alloc)? {
        Some(place) => place.put_text(&mut line)?,
        None => lines.cursor().put_text(&mut line)?,
    }
    line.push_str("\n").map_err(|_| Memory)?;
    Ok(line)
}

/// Writes where to continue, with a long cursor where it is asked for and there is one.
// requires { W.counts out.old ≡ counted interruptions.old }
// ensures ok { OnOk result ((line : List ℕ) × IsNextLine (L.tail lines.now)
//     (L.origin lines.now) (L.yielded lines.now) long line
//     × Appends (W.written out.old) (W.written out.new) line) }
// ensures worked { OnOk result (HasWorked (W.counts out.new)) }
// ensures err { IfErr result (λ refusal. StopsPrinting
//     (λ printed. IsNextLine (L.tail lines.now) (L.origin lines.now) (L.yielded lines.now) long
//     printed.output)
//     (IsNextLine (L.tail lines.now) (L.origin lines.now) (L.yielded lines.now) false) refusal
//     (output_after (W.written out.old) (W.written out.new) (W.counts out.new))) }
fn give_next<L: Lines, W: Sink>(
    alloc: Global,
    lines: &L,
    long: bool,
    out: &mut W,
    interruptions: &mut RetryCount,
) -> Result<(), Refusal> {
    let next = next_line(lines.cursor());
    if long {
        return match long_next_line(alloc, lines) {
            Ok(line) => write_all(out, interruptions, line.as_bytes()),
            Err(Memory) => Err(stop_for_memory(out, interruptions, b"", &next)),
        };
    }
    write_all(out, interruptions, next.as_bytes())
}

/// What the last line says: how the printing ended, `None` at its limit, and whether it says where
/// to continue by a long cursor.
#[derive(Clone, Copy)]
struct LastLine {
    ending: Option<End>,
    long: bool,
}

/// Writes the last line of the output: `end`, or where to continue, or none for a cursor outside of
/// the file. Where printing ended at its limit there is no end.
// requires { W.counts out.old ≡ counted interruptions.old }
// ensures ok { OnOk result ((line : List ℕ) × IsLastLine (L.tail lines.now)
//     (L.origin lines.now) (L.yielded lines.now) last.long last.ending line
//     × Appends (W.written out.old) (W.written out.new) line) }
// ensures worked { OnOk result (HasWorked (W.counts out.new)) }
// ensures err { IfErr result (λ refusal. StopsPrinting
//     (λ printed. IsLastLine (L.tail lines.now) (L.origin lines.now) (L.yielded lines.now)
//     last.long last.ending printed.output)
//     (IsNextLine (L.tail lines.now) (L.origin lines.now) (L.yielded lines.now) false) refusal
//     (output_after (W.written out.old) (W.written out.new) (W.counts out.new))) }
fn give_last_line<L: Lines, W: Sink>(
    alloc: Global,
    lines: &L,
    last: LastLine,
    out: &mut W,
    interruptions: &mut RetryCount,
) -> Result<(), Refusal> {
    match last.ending {
        Some(End::EndOfPages) => write_all(out, interruptions, b"end\n"),
        Some(End::Outside) => write_all(out, interruptions, b""),
        Some(End::Fault { .. }) => give_next(alloc, lines, last.long, out, interruptions),
        None => give_next(alloc, lines, last.long, out, interruptions),
    }
}

/// Prints the lines, up to the limit, and the last line, and answers the line of their fault, if
/// there is one.
// requires counts { W.counts out.old ≡ no_faults }
// requires fresh { L.yielded lines.old ≡ 0 }
// ensures ok { IfOk result (WritesOutput
//     (IsTextOfLines (L.tail lines.old) long max (L.origin lines.old))
//     (output_after (W.written out.old) (W.written out.new) (W.counts out.new))) }
// ensures worked { OnOk result (HasWorked (W.counts out.new)) }
// ensures err { IfErr result (λ refusal. StopsPrinting
//     (IsTextOfLines (L.tail lines.old) long max (L.origin lines.old))
//     (IsTextOfFirst (L.tail lines.old) max (L.origin lines.old)) refusal
//     (output_after (W.written out.old) (W.written out.new) (W.counts out.new))) }
fn print_all<L: Lines, W: Sink>(
    alloc: Global,
    lines: &mut L,
    max: Option<u32>,
    long: bool,
    out: &mut W,
) -> Result<Option<ErrorLine>, Refusal> {
    lines.lemma_one();
    let mut interruptions = RetryCount::NONE;
    let ending = print_lines(alloc, lines, max, out, &mut interruptions)?;
    let last = LastLine { ending, long };
    give_last_line(alloc, lines, last, out, &mut interruptions)?;
    Ok(end_line(ending))
}

/// Reads the input whole. Where memory is refused it writes where to continue: at this cursor.
// requires input_counts { R.counts input.old ≡ no_faults }
// requires taken { R.taken input.old ≡ 0 }
// requires counts { W.counts out.old ≡ no_faults }
// ensures whole { IfOk result (λ file. IfSome (R.remaining input.old) (λ bytes. file.items ≡ bytes)) }
// ensures limit { IfOk result (λ file. vec_len file ≤ max_file) }
// ensures read { OnOk result (IsRead
//     (input_after (R.remaining input.old) (R.taken input.new) (R.counts input.new))) }
// ensures unwritten { OnOk result (out.new ≡ out.old) }
// ensures err { IfErr result (λ refusal. StopsAtBeginning (next_line (AtCursor cursor)) refusal
//     (input_after (R.remaining input.old) (R.taken input.new) (R.counts input.new))
//     (output_after (W.written out.old) (W.written out.new) (W.counts out.new))) }
fn read_or_stop<R: Source, W: Sink>(
    alloc: Global,
    cursor: Cursor,
    input: &mut R,
    out: &mut W,
) -> Result<Vec<u8>, Refusal> {
    match read_to_end(alloc, input) {
        Ok(file) => Ok(file),
        Err(refusal) => match refusal {
            Refusal::Memory => {
                let mut interruptions = RetryCount::NONE;
                let next = next_line(cursor);
                Err(stop_for_memory(out, &mut interruptions, b"", &next))
            }
            _ => Err(refusal),
        },
    }
}

/// What the rows of a part begin with. Where memory is refused it writes where to continue: there.
// requires { W.counts out.old ≡ no_faults }
// ensures ok { IfOk result (λ origin. origin ≡ origin_of part.now) }
// ensures unwritten { OnOk result (out.new ≡ out.old) }
// ensures err { IfErr result (λ refusal. StopsWith
//     (next_line (AtCursor (start_cursor (origin_of part.now)))) refusal
//     (output_after (W.written out.old) (W.written out.new) (W.counts out.new))) }
fn begin_or_stop<W: Sink>(part: &Selection, out: &mut W) -> Result<WalkStart, Refusal> {
    match part.origin() {
        Ok(origin) => Ok(origin),
        Err(Memory) => {
            let mut interruptions = RetryCount::NONE;
            let next = next_line(part.begin());
            Err(stop_for_memory(out, &mut interruptions, b"", &next))
        }
    }
}

/// Reads the input whole and prints the rows of its pages from the cursor on, up to the limit, and
/// then `end`, or `next` with the place of the next row: a long cursor where the part asks for it
/// and there is one.
// requires input_counts { R.counts input.old ≡ no_faults }
// requires taken { R.taken input.old ≡ 0 }
// requires counts { W.counts out.old ≡ no_faults }
// ensures ok { IfOk result (IsDone (Rows part.now)
//     (input_after (R.remaining input.old) (R.taken input.new) (R.counts input.new))
//     (output_after (W.written out.old) (W.written out.new) (W.counts out.new))) }
// ensures err { IfErr result (λ refusal. IsStopped (Rows part.now) refusal
//     (input_after (R.remaining input.old) (R.taken input.new) (R.counts input.new))
//     (output_after (W.written out.old) (W.written out.new) (W.counts out.new))) }
pub fn rows<R: Source, W: Sink>(
    alloc: Global,
    part: &Selection,
    input: &mut R,
    out: &mut W,
) -> Result<Option<ErrorLine>, Refusal> {
    let origin = begin_or_stop(part, out)?;
    let file = read_or_stop(alloc, part.begin(), input, out)?;
    let mut walk = Walk::begin(alloc, &file, origin);
    print_all(alloc, &mut walk, part.max, part.long, out)
}

/// Reads the input whole and prints the forms of its pages from the cursor on, up to the limit, and
/// then `end`, or `next` with the place of the next page.
// requires input_counts { R.counts input.old ≡ no_faults }
// requires taken { R.taken input.old ≡ 0 }
// requires counts { W.counts out.old ≡ no_faults }
// ensures ok { IfOk result (IsDone (Forms part.now)
//     (input_after (R.remaining input.old) (R.taken input.new) (R.counts input.new))
//     (output_after (W.written out.old) (W.written out.new) (W.counts out.new))) }
// ensures err { IfErr result (λ refusal. IsStopped (Forms part.now) refusal
//     (input_after (R.remaining input.old) (R.taken input.new) (R.counts input.new))
//     (output_after (W.written out.old) (W.written out.new) (W.counts out.new))) }
pub fn list<R: Source, W: Sink>(
    alloc: Global,
    part: &Selection,
    input: &mut R,
    out: &mut W,
) -> Result<Option<ErrorLine>, Refusal> {
    let file = read_or_stop(alloc, part.cursor, input, out)?;
    let mut pages = Pages::resume(&file, part.cursor);
    print_all(alloc, &mut pages, part.max, false, out)
}
