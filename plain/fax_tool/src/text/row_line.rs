// Made by tools/plain-rust of crates/fax_tool/src/text/row_line.rt: change that.
//! The line of a row.

use crate::text::number_cache::{NUMBERS, NumberCache, PAIRED, are_below, pair_indexes};
use crate::text::output_buffer::{OutputBuffer, make_room};
use fax_bits::Memory;
use fax_rows::{LongestRuns, Row};
use fax_walk::Place;

/// The most bytes of a line but for its runs: a word, two numbers after a blank each, and the line
/// end; and those after it that may be written over.
const LINE_BYTES: usize = 42;

/// The most bytes of a run after a blank.
const RUN_BYTES: usize = 6;

/// Writes the runs that are still to come, each after a blank, and returns where they end.
// requires { at + 6 * length runs + 11 ≤ length bytes.old }
// ensures written { take result bytes.new ≡ take at bytes.old ++ flat_map and_number runs.entry }
// ensures within { result ≤ at + 6 * length runs.entry }
// ensures same_len { length bytes.new ≡ length bytes.old }
fn write_rest(
    bytes: &mut [u8],
    at: usize,
    texts: &mut NumberCache,
    mut runs: LongestRuns<'_>,
) -> usize {
    let mut end = at;
    while let Some(run) = runs.next_run() {
        end = texts.write_number(bytes, end, run);
    }
    end
}

/// Writes eight numbers below `PAIRED` at an offset, each after a blank, and returns where they
/// end.
#[inline(always)]
// requires below { AreBelow 64 numbers }
// requires room { at + 64 ≤ length bytes.old }
// ensures written { take result bytes.new ≡ take at bytes.old ++ flat_map and_number numbers }
// ensures within { result ≤ at + 48 }
// ensures same_len { length bytes.new ≡ length bytes.old }
fn write_pairs(bytes: &mut [u8], at: usize, texts: &mut NumberCache, numbers: [u16; 8]) -> usize {
    let indexes = pair_indexes(numbers);
    let two = texts.write_pair(bytes, at, indexes[0]);
    let four = texts.write_pair(bytes, two, indexes[1]);
    let six = texts.write_pair(bytes, four, indexes[2]);
    texts.write_pair(bytes, six, indexes[3])
}

/// Writes eight numbers below `NUMBERS` at an offset, each after a blank, and returns where they
/// end.
#[inline(always)]
// requires below { AreBelow 2048 numbers }
// requires room { at + 64 ≤ length bytes.old }
// ensures written { take result bytes.new ≡ take at bytes.old ++ flat_map and_number numbers }
// ensures within { result ≤ at + 48 }
// ensures same_len { length bytes.new ≡ length bytes.old }
fn write_singly(bytes: &mut [u8], at: usize, texts: &mut NumberCache, numbers: [u16; 8]) -> usize {
    let one = texts.write_cached(bytes, at, numbers[0]);
    let two = texts.write_cached(bytes, one, numbers[1]);
    let three = texts.write_cached(bytes, two, numbers[2]);
    let four = texts.write_cached(bytes, three, numbers[3]);
    let five = texts.write_cached(bytes, four, numbers[4]);
    let six = texts.write_cached(bytes, five, numbers[5]);
    let seven = texts.write_cached(bytes, six, numbers[6]);
    texts.write_cached(bytes, seven, numbers[7])
}

/// Writes eight numbers at an offset, each after a blank, and returns where they end: two by two,
/// where all of them are short. `None` where one of them is long, and then nothing is written.
#[inline(always)]
// requires { at + 64 ≤ length bytes.old }
// ensures written { IfSome result (λ end. take end bytes.new
//     ≡ take at bytes.old ++ flat_map and_number numbers) }
// ensures within { IfSome result (λ end. end ≤ at + 48) }
// ensures none { IfNone result (bytes.new ≡ bytes.old) }
// ensures same_len { length bytes.new ≡ length bytes.old }
fn write_eight(
    bytes: &mut [u8],
    at: usize,
    texts: &mut NumberCache,
    numbers: [u16; 8],
) -> Option<usize> {
    // All eight are looked at together: a branch for each pair of them is less often foretold.
    if are_below(numbers, PAIRED) {
        Some(write_pairs(bytes, at, texts, numbers))
    } else if are_below(numbers, NUMBERS) {
        Some(write_singly(bytes, at, texts, numbers))
    } else {
        None
    }
}

/// Writes the runs of a row at an offset, each after a blank, and returns where they end.
// requires { at + 6 * length (runs_of row.now) + 16 ≤ length bytes.old }
// ensures written { take result bytes.new ≡ take at bytes.old
//     ++ flat_map and_number (runs_of row.now) }
// ensures within { result ≤ at + 6 * length (runs_of row.now) }
// ensures same_len { length bytes.new ≡ length bytes.old }
fn write_runs(bytes: &mut [u8], at: usize, texts: &mut NumberCache, row: &Row) -> usize {
    let mut end = at;
    let mut runs = LongestRuns::of_row(row);
    while let Some(eight) = runs.eight_ahead() {
        let Some(next) = write_eight(bytes, end, texts, eight) else {
            break;
        };
        end = next;
        runs.skip(8);
    }
    write_rest(bytes, end, texts, runs)
}

/// Writes the line of a row at an offset, and returns where it ends.
// requires { at + (42 + 6 * length (runs_of row.now)) ≤ length bytes.old }
// ensures written { take result bytes.new
//     ≡ take at bytes.old ++ row_line_of place.page place.row (runs_of row.now) }
// ensures within { result ≤ length bytes.new }
fn write_line(
    bytes: &mut [u8],
    at: usize,
    texts: &mut NumberCache,
    place: Place,
    row: &Row,
) -> usize {
    bytes[at] = b'r';
    bytes[at + 1] = b'o';
    bytes[at + 2] = b'w';
    let page_end = texts.write_number(bytes, at + 3, place.page);
    let row_end = texts.write_number(bytes, page_end, place.row);
    let end = write_runs(bytes, row_end, texts, row);
    bytes[end] = b'\n';
    end + 1
}

/// Appends the line of a row: `row P R` and the row's runs.
// ensures ok { OnOk result (text.new ≡ text.old
//     ++ row_line_of place.page place.row (runs_of row.now)) }
// ensures err { OnErr result (text.new ≡ text.old) }
pub fn put_row_line(text: &mut OutputBuffer, place: Place, row: &Row) -> Result<(), Memory> {
    let runs = LongestRuns::of_row(row).len();
    let end = text.end;
    make_room(&mut text.bytes, end, LINE_BYTES + RUN_BYTES * runs)?;
    text.end = write_line(text.bytes.as_mut_slice(), end, &mut text.texts, place, row);
    Ok(())
}
