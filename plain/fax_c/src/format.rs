// Made by tools/plain-rust of crates/fax_c/src/format.rt: change that.
//! How a row is written in memory of the caller: as numbers, one after another.

use crate::raster::{packed_len, put_packed};
use fax_rows::{LongestRuns, Row};

/// How a row is written.
pub(crate) trait RowFormat {
    /// What it is written in.
    type Number: Copy;

    /// How many a row has at most.
    const MOST: usize;

    /// Writes those of a row at a place, where they have room, and returns where they end.
    // requires { at ≤ length out.old }
    // ensures put { IsPutAt (numbers row.now) out.old at result out.new }
    // ensures few { length (numbers row.now) ≤ 2 ^ 16 }
    // ensures most { length (numbers row.now) ≤ MOST }
    fn put(row: &Row, out: &mut [Self::Number], at: usize) -> Option<usize>;
}

/// As packed bytes: the highest bit first, 1 for black, with zeros up to a whole byte.
pub(crate) struct Packed;

impl RowFormat for Packed {
    type Number = u8;

    const MOST: usize = 8_192;
    fn put(row: &Row, out: &mut [u8], at: usize) -> Option<usize> {
        if out.len() - at < packed_len(row.width()) {
            return None;
        }
        Some(put_packed(row, out, at))
    }
}

/// As the lengths of its longest runs, white first: the first one is 0 where the row begins black.
pub(crate) struct Runs;

/// Writes the remaining runs at a place where they have room.
// requires { at + length runs.old ≤ length out.old }
// ensures { out.new ≡ take at out.old ++ runs.old ++ drop (at + length runs.old) out.old }
fn put_runs(runs: &mut LongestRuns, out: &mut [u32], at: usize) {
    let mut to = at;
    while let Some(run) = runs.next_run() {
        out[to] = run;
        to += 1;
    }
}

/// Writes the runs of a row where those of any row have room, and returns how many they are.
// requires { 65536 ≤ length out.old }
// ensures { IsPutAt (runs_of row.now) out.old 0 (Some result) out.new }
pub(crate) fn put_all_runs(row: &Row, out: &mut [u32]) -> u32 {
    let mut runs = LongestRuns::of_row(row);
    let count = runs.len();
    put_runs(&mut runs, out, 0);
    count as u32
}

impl RowFormat for Runs {
    type Number = u32;

    const MOST: usize = 65_536;

    fn put(row: &Row, out: &mut [u32], at: usize) -> Option<usize> {
        let mut runs = LongestRuns::of_row(row);
        let len = runs.len();
        if out.len() - at < len {
            return None;
        }
        put_runs(&mut runs, out, at);
        Some(at + len)
    }
}

/// As the places of its changing elements: the pels, from 0, of another colour than the pel before
/// them, where white stands before the first.
pub(crate) struct Changes;

impl RowFormat for Changes {
    type Number = u32;

    const MOST: usize = 65_536;
    fn put(row: &Row, out: &mut [u32], at: usize) -> Option<usize> {
        // For the proof: a row has no more changes than pels.
        let _width = row.width();
        let changes = row.changes();
        if out.len() - at < changes.len() {
            return None;
        }
        let to = at + changes.len();
        out[at..to].copy_from_slice(changes);
        Some(to)
    }
}
