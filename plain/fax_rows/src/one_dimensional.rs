// Made by tools/plain-rust of crates/fax_rows/src/one_dimensional.rt: change that.
//! Rows in one-dimensional coding (ITU-T T.4, section 4.1.1).

use crate::RowFault;
use crate::changes_of_row::{push_change, put_sentinels, toggle_change_after};
use crate::pels::Row;
use crate::runs::run_by_table;
use fax_bits::{BitSource, Colour};

/// The runs of a row that are read so far, as places of change.
#[derive(Clone, Copy)]
struct RunsSoFar {
    /// The index after the last place that is put.
    end: usize,
    /// How many pels they have.
    total: u32,
    /// Whether their codes are seen to be those that T.4 chooses.
    is_canonical: bool,
}

impl RunsSoFar {
    /// Notes whether T.4 itself codes such a run next: it has pels, or it is the first of its row.
    /// Otherwise the codes are not those that T.4 chooses (T.4, section 4.1.1).
    #[inline(always)]
    // ensures chosen { IsTrue self.new.is_canonical → IsTrue self.old.is_canonical
    //     × ((0 < run) ⊎ ((self.old.total ≡ 0) × (colour ≡ Colour.White))) }
    // ensures end { self.new.end ≡ self.old.end }
    // ensures total { self.new.total ≡ self.old.total }
    fn see(&mut self, colour: Colour, run: u32) {
        if run == 0 && (self.total > 0 || colour == Colour::Black) {
            self.is_canonical = false;
        }
    }
}

/// Reads a run of the colour after others, mostly by one look-up, and returns how many pels it has.
#[inline(always)]
// requires short { width < 2 ^ 16 }
// requires within { runs.old.total ≤ width }
// ensures read { read_run_of colour width runs.old.total ahead.old.remaining
//     ≡ answered (λ n. runs.old.total + n) result ahead.new.remaining }
// ensures within { IfOk result (λ n. runs.old.total + n ≤ width) }
// ensures chosen { IfOk result (λ n. IsTrue runs.new.is_canonical → IsTrue runs.old.is_canonical
//     × (ahead.old.remaining ≡ run_bits colour n ++ ahead.new.remaining)) }
// ensures end { runs.new.end ≡ runs.old.end }
// ensures total { runs.new.total ≡ runs.old.total }
// ensures same_end { KeepsEnd ahead.old ahead.new }
// ensures shorter { OnOk result (length ahead.new.remaining < length ahead.old.remaining) }
fn next_run(
    ahead: &mut BitSource,
    colour: Colour,
    width: u32,
    runs: &mut RunsSoFar,
) -> Result<u32, RowFault> {
    if let Some(pels) = ahead.try_read_run(colour, width - runs.total) {
        return Ok(pels);
    }
    let run = run_by_table(ahead, colour, width, runs.total)?;
    runs.is_canonical = runs.is_canonical && run.is_canonical;
    Ok(run.pels)
}

/// Reads a run of the colour after others, and puts the place where it ends.
#[inline(always)]
// requires short { width < 2 ^ 16 }
// requires unfinished { runs.old.total < width }
// requires put { AreChangesPut width changes.old runs.old.end runs.old.total }
// ensures put { OnOk result (AreChangesPut width changes.new runs.new.end runs.new.total) }
// ensures toggled { OnOk result
//     (TogglesAt changes.old changes.new runs.old.end runs.new.end runs.new.total) }
// ensures read { read_run_of colour width runs.old.total ahead.old.remaining
//     ≡ answered (λ _. runs.new.total) result ahead.new.remaining }
// ensures right { OnOk result (runs.old.total ≤ runs.new.total) }
// ensures chosen { OnOk result (IsTrue runs.new.is_canonical → IsTrue runs.old.is_canonical
//     × (ahead.old.remaining ≡ run_bits colour (runs.new.total - runs.old.total) ++ ahead.new.remaining)
//     × ((0 < runs.new.total - runs.old.total)
//     ⊎ ((runs.old.total ≡ 0) × (colour ≡ Colour.White)))) }
// ensures room { HasRoom width changes.new }
// ensures same_end { KeepsEnd ahead.old ahead.new }
// ensures shorter { OnOk result (length ahead.new.remaining < length ahead.old.remaining) }
fn put_next_run(
    ahead: &mut BitSource,
    changes: &mut [u32],
    width: u32,
    colour: Colour,
    runs: &mut RunsSoFar,
) -> Result<(), RowFault> {
    let run = next_run(ahead, colour, width, runs)?;
    runs.see(colour, run);
    runs.total += run;
    runs.end = toggle_change_after(changes, runs.end, runs.total, run);
    Ok(())
}

/// Reads the runs of a row: a white run and the black one after it mostly by one look-up.
#[inline(always)]
// requires some { 0 < width }
// requires short { width < 2 ^ 16 }
// requires room { HasRoom width changes.old }
// ensures read { read_one_dimensional width source.old.remaining
//     ≡ answered (λ runs. row_of changes.new runs.end width) result source.new.remaining }
// ensures chosen { IfOk result (λ runs. IsTrue runs.is_canonical → source.old.remaining
//     ≡ one_dimensional_bits (row_of changes.new runs.end width) ++ source.new.remaining) }
// ensures put { IfOk result (λ runs. AreChangesPut width changes.new runs.end width) }
// ensures room { HasRoom width changes.new }
// ensures same_end { KeepsEnd source.old source.new }
fn read_runs(source: &mut BitSource, changes: &mut [u32], width: u32) -> Result<RunsSoFar, RowFault> {
    // One reader serves those who ask whether the codes are T.4's choice and those who do not: to
    // see it costs nothing where no run is empty.
    let mut ahead = source.fork();
    let mut runs = RunsSoFar {
        end: 1,
        total: 0,
        is_canonical: true,
    };
    while runs.total < width {
        if let Some(pair) = ahead.try_read_run_pair(runs.total, width) {
            let middle = runs.total + pair.white;
            let next = push_change(changes, runs.end, middle);
            runs.total = middle + pair.black;
            runs.end = push_change(changes, next, runs.total);
            continue;
        }
        put_next_run(&mut ahead, changes, width, Colour::White, &mut runs)?;
        if runs.total < width {
            put_next_run(&mut ahead, changes, width, Colour::Black, &mut runs)?;
        }
    }
    source.advance_to(&ahead);
    Ok(runs)
}

/// Reads a row in one-dimensional coding: runs of white and black pels in turn, white first, up to
/// the row's width (T.4, section 4.1.1). It takes no memory.
///
/// # Errors
///
/// The fault of the first code that is no part of the row. Nothing else is said of the row then.
// ensures read { read_one_dimensional (length row.old) source.old.remaining
//     ≡ answered (λ _. row.new) result source.new.remaining }
// ensures same_width { length row.new ≡ length row.old }
// The source continues in the same bits.
// ensures same_end { KeepsEnd source.old source.new }
pub fn read_1d(source: &mut BitSource, row: &mut Row) -> Result<(), RowFault> {
    read_1d_canonical(source, row)?;
    Ok(())
}

/// Reads a row as `read_1d` does, and returns whether its codes are seen to be those that T.4
/// chooses (T.4, section 4.1.1). Where they are not seen to be so, nothing is said of them.
///
/// # Errors
///
/// As for `read_1d`.
#[inline(never)]
// ensures read { read_one_dimensional (length row.old) source.old.remaining
//     ≡ answered (λ _. row.new) result source.new.remaining }
// ensures chosen { IfOk result (λ chosen. IsTrue chosen
//     → source.old.remaining ≡ one_dimensional_bits row.new ++ source.new.remaining) }
// ensures same_width { length row.new ≡ length row.old }
// The source continues in the same bits.
// ensures same_end { KeepsEnd source.old source.new }
pub fn read_1d_canonical(source: &mut BitSource, row: &mut Row) -> Result<bool, RowFault> {
    let width = row.width;
    let changes = row.changes.as_mut_slice();
    match read_runs(source, changes, width) {
        Ok(runs) => {
            row.end = put_sentinels(changes, runs.end, width);
            Ok(runs.is_canonical)
        }
        Err(fault) => {
            row.end = put_sentinels(changes, 1, width);
            Err(fault)
        }
    }
}
