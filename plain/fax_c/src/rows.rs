// Made by tools/plain-rust of crates/fax_c/src/rows.rt: change that.
//! The rows of a file, written one after another.

use crate::fill::{Filled, Stop};
use crate::format::{Packed, RowFormat};
use crate::forms::next_form;
use crate::places::{FaxPlace, bit_offset, place_after, started_at};
use crate::told::FaxTold;
use fax_walk::{Cursor, End, Pages, Walk};
use kit_std::alloc::Global;

/// A row that was written: where its numbers lie, and its place.
#[repr(C)]
#[derive(Clone, Copy)]
pub struct FaxRow {
    /// Where its numbers begin in `out`.
    pub at: usize,
    /// How many numbers it has there.
    pub len: u32,
    /// Its page and its number there, both from 0.
    pub page: u32,
    pub row: u32,
    /// How many pels it has.
    pub width: u32,
}

/// Writes the next row of a walk at a place, and returns where it lies.
// requires { at ≤ length out.old }
// ensures put { Code.IsPut F.numbers walk.old out.old at result walk.new out.new }
// ensures room { result ≡ Err NoRoom → length out.old < at + F.MOST }
fn put_next<F: RowFormat>(walk: &mut Walk, out: &mut [F::Number], at: usize) -> Result<FaxRow, Stop> {
    match walk.next_row() {
        Ok(Some((place, row))) => match F::put(row, out, at) {
            Some(to) => Ok(FaxRow {
                at,
                len: (to - at) as u32,
                page: place.page,
                row: place.row,
                width: row.width(),
            }),
            None => Err(Stop::NoRoom),
        },
        Ok(None) => Err(Stop::Ended(End::EndOfPages)),
        Err(fault) => Err(Stop::of_fault(fault)),
    }
}

/// Writes the first rows of a walk, as many as are asked for and have room, and where each lies.
/// The place, with which the walk began, is then the one after them.
// requires none { walk.old.yielded ≡ 0 }
// requires origin { Code.StartsAt walk.old.origin place.old runs.old }
// ensures filled { Spec.AreRowsFilled F.numbers walk.old.file walk.old.origin rows.old out.old
//     result rows.new out.new }
// ensures place { PlaceSpec.IsAfter walk.old.file walk.old.origin result runs.old place.new
//     runs.new }
fn fill<F: RowFormat>(
    walk: &mut Walk,
    place: &mut FaxPlace,
    runs: &mut [u32],
    rows: &mut [FaxRow],
    out: &mut [F::Number],
) -> Filled {
    // Where less room is left than the largest row takes, the place is reported before a row is
    // read: a walk that has read the row has passed the place, and cannot step back. So the runs
    // after those of the place may change, of the first 65,536: to keep the others would cost a
    // copy of all.
    let mut count = 0;
    let mut used = 0;
    while count < rows.len() {
        let cursor = walk.cursor();
        bit_offset::<F>(walk, cursor, count, out.len() - used, place, runs);
        match put_next::<F>(walk, out, used) {
            Ok(row) => {
                rows[count] = row;
                count += 1;
                used += row.len as usize;
            }
            Err(stop) => {
                let filled = Filled {
                    cursor,
                    count,
                    used,
                    stop,
                };
                place_after(walk, &filled, place, runs);
                return filled;
            }
        }
    }
    let filled = Filled {
        cursor: walk.cursor(),
        count,
        used,
        stop: Stop::Done,
    };
    place_after(walk, &filled, place, runs);
    filled
}

/// Writes the rows of a file from a cursor on.
// ensures { Spec.TellsRows F.numbers file.now (AtCursor cursor) rows.old out.old rows.new out.new
//     told.new result }
pub(crate) fn fill_at<F: RowFormat>(
    alloc: Global,
    file: &[u8],
    cursor: Cursor,
    rows: &mut [FaxRow],
    out: &mut [F::Number],
    told: &mut FaxTold,
) -> u32 {
    let mut place = FaxPlace::at(cursor);
    let mut walk = Walk::resume(alloc, file, cursor);
    fill::<F>(&mut walk, &mut place, &mut [], rows, out).fill_result(told)
}

/// How the rows end at a row of a page that the file has not, where they end so at its first row.
// ensures { result ≡ Code.end_at_row end row }
fn end_at_row(end: End, row: u32) -> End {
    match end {
        End::EndOfPages if row > 0 => End::Outside,
        _ => end,
    }
}

/// How the rows end at a cursor, where the file has not its page.
// ensures page { result ≡ None → HasPage file.now at.page }
// ensures end { IfSome result (λ end. (read_page file.now at ≡ Err end)) }
fn end_without_page(file: &[u8], at: Cursor) -> Option<End> {
    let mut pages = Pages::resume(
        file,
        Cursor {
            page: at.page,
            row: 0,
        },
    );
    match next_form(&mut pages) {
        Ok(_) => None,
        Err(end) => Some(end_at_row(end, at.row)),
    }
}

/// Why a call stops where memory was refused before its first row: DONE where no row was asked for,
/// the end where no such page is there, and else MEMORY.
// ensures { Code.IsRefusedAt file.now at asked result }
fn stop_at_refusal(file: &[u8], at: Cursor, asked: usize) -> Stop {
    if asked == 0 {
        return Stop::Done;
    }
    match end_without_page(file, at) {
        Some(end) => Stop::Ended(end),
        None => Stop::Memory,
    }
}

/// Writes the rows of a file from a place on, which is then the one after them. A place that lacks
/// runs is reported as one outside the file.
// ensures { PlaceSpec.GoesOn F.numbers file.now
//     (record { place = place.old; runs = runs.old; rows = rows.old; out = out.old })
//     (record { place = place.new; runs = runs.new; rows = rows.new; out = out.new }) told.new
//     result }
pub(crate) fn fill_from<F: RowFormat>(
    alloc: Global,
    file: &[u8],
    place: &mut FaxPlace,
    runs: &mut [u32],
    rows: &mut [FaxRow],
    out: &mut [F::Number],
    told: &mut FaxTold,
) -> u32 {
    // A place that lacks its runs is OUTSIDE: NO_ROOM would have a caller grow `out` for ever.
    let cursor = place.cursor();
    if place.lacks_runs(runs) {
        return Filled::nothing(cursor, Stop::Ended(End::Outside)).fill_result(told);
    }
    let Some(origin) = started_at(alloc, place, runs) else {
        let stop = stop_at_refusal(file, cursor, rows.len());
        return Filled::nothing(cursor, stop).fill_result(told);
    };
    let mut walk = Walk::begin(alloc, file, origin);
    fill::<F>(&mut walk, place, runs, rows, out).fill_result(told)
}

/// Writes rows of a file from a cursor on as packed bytes, one after another, at most as many as
/// `rows` has room for, and there where each lies.
// ensures { Spec.TellsRows packed_row file.now (AtCursor (record { page = page; row = row })) rows.old
//     out.old rows.new out.new told.new result }
pub fn faxpages_rows(
    alloc: Global,
    file: &[u8],
    page: u32,
    row: u32,
    rows: &mut [FaxRow],
    out: &mut [u8],
    told: &mut FaxTold,
) -> u32 {
    fill_at::<Packed>(alloc, file, Cursor { page, row }, rows, out, told)
}

/// Writes rows of a file from a place on, as `faxpages_rows`; the place is then the one after them.
// ensures { PlaceSpec.GoesOn packed_row file.now
//     (record { place = place.old; runs = runs.old; rows = rows.old; out = out.old })
//     (record { place = place.new; runs = runs.new; rows = rows.new; out = out.new }) told.new
//     result }
pub fn faxpages_rows_from(
    alloc: Global,
    file: &[u8],
    place: &mut FaxPlace,
    runs: &mut [u32],
    rows: &mut [FaxRow],
    out: &mut [u8],
    told: &mut FaxTold,
) -> u32 {
    fill_from::<Packed>(alloc, file, place, runs, rows, out, told)
}
