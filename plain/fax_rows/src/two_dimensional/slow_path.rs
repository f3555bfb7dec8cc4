// Made by tools/plain-rust of crates/fax_rows/src/two_dimensional/slow_path.rt: change that.
//! A row in two-dimensional coding, read on from where no look-up finds the next code (ITU-T T.4,
//! section 4.2.1.3.2).

use super::horizontal_runs::{LookupExit, NeedsTable, RowStop, two_runs_by_table};
use super::modes::{by_mode, past_runs};
use super::steps::{CodingPosition, CodingState};
use crate::RowFault;
use crate::change_list::ChangingElements;
use crate::changes_of_row::colour_after;
use fax_bits::{BitSource, CodeFault, ModeCode, Modes, read_code};

/// Where a row is to be read on, by the numbers that the loop over its modes keeps.
#[derive(Clone, Copy)]
pub(super) struct SlowPath {
    /// What no look-up finds.
    pub needed: NeedsTable,
    /// Its place in the bits of the source.
    pub place: u64,
    /// a0 as a number: -1 just before the first pel.
    pub a0: i32,
    /// The index after the last place that is put.
    pub end: usize,
    /// The index of b1 among the reference row's places, which says a0's colour.
    pub b1: usize,
}

impl SlowPath {
    /// How far the row is read.
    // ensures { (at : CodingState) → self.a0 ≡ Spec.a0_number (position_of at.position [])
    //     → self.end ≡ at.end → self.b1 ≡ at.b1 → alternate Black at.b1 ≡ at.position.colour
    //     → result ≡ at }
    fn position(self) -> CodingState {
        let a0 = if self.a0 < 0 {
            None
        } else {
            Some(self.a0 as u32)
        };
        CodingState {
            position: CodingPosition {
                a0,
                colour: colour_after(self.b1),
            },
            end: self.end,
            b1: self.b1,
        }
    }
}

/// Reads a mode by a look-up, or else by its table.
// ensures read { read_code_of modes source.old.remaining
//     ≡ answered (λ mode. mode) result source.new.remaining }
// ensures ok { IfOk result (λ mode. Decodes modes source.old.remaining mode source.new.remaining) }
// ensures same_end { KeepsEnd source.old source.new }
// ensures shorter { OnOk result (length source.new.remaining < length source.old.remaining) }
fn mode_by_table(source: &mut BitSource) -> Result<ModeCode, CodeFault> {
    if let Some(mode) = source.try_read_mode::<false>() {
        return Ok(mode);
    }
    read_code::<Modes>(source)
}

/// Horizontal mode with runs by their tables: the first of them where it is not read, and the
/// second.
// requires inside { IsCodingStateInRow reference changes.old at }
// requires fits { IfSome first (λ n. position_pel at.position + n ≤ reference.width) }
// ensures read { (b : List Bool) → AreRunsNeeded at.position.colour b first source.old.remaining
//     → IfOk result (λ next. IsPairReadOn CANONICAL reference.entry changes.old changes.new at next
//     b source.new.remaining) }
// ensures err { (b : List Bool) → AreRunsNeeded at.position.colour b first source.old.remaining
//     → IfErr result (λ stop. IsStopOf CANONICAL (λ fault. IsHorizontalFault
//     (element_pels reference.entry) (coding_position reference.entry.width changes.old at) b fault) stop) }
// ensures room { HasRoom reference.entry.width changes.new }
// ensures same_end { KeepsEnd source.old source.new }
// ensures shorter { OnOk result (length source.new.remaining < length source.old.remaining) }
fn horizontal_by_table<const CANONICAL: bool>(
    source: &mut BitSource,
    reference: ChangingElements,
    changes: &mut [u32],
    at: CodingState,
    first: Option<u32>,
) -> Result<CodingState, RowStop> {
    let from = at.position.first_pel();
    let colour = colour_after(at.b1);
    let runs = two_runs_by_table::<CANONICAL>(source, colour, reference.width, from, first)?;
    past_runs::<CANONICAL>(reference, changes, at, runs)
}

/// Reads what is expected, and advances by it.
// requires inside { IsCodingStateInRow reference changes.old at }
// requires within { IsNeededWithin reference.width (position_pel at.position) needed }
// ensures read { (b : List Bool) → IsNeeded at.position.colour b needed source.old.remaining
//     → IfOk result (λ next. AreStepsRead CANONICAL reference.entry changes.old changes.new at next
//     b source.new.remaining) }
// ensures stop { (b : List Bool) → IsNeeded at.position.colour b needed source.old.remaining
//     → IfErr result (λ stop. IsStepStop CANONICAL reference.entry changes.old at b stop) }
// ensures room { HasRoom reference.entry.width changes.new }
// ensures same_end { KeepsEnd source.old source.new }
// ensures shorter { OnOk result (length source.new.remaining < length source.old.remaining) }
fn read_needed<const CANONICAL: bool>(
    source: &mut BitSource,
    reference: ChangingElements,
    changes: &mut [u32],
    at: CodingState,
    needed: NeedsTable,
) -> Result<CodingState, RowStop> {
    match needed {
        NeedsTable::Mode => match mode_by_table(source) {
            Ok(mode) => match by_mode::<CANONICAL, false>(source, reference, changes, at, mode) {
                Ok(next) => Ok(next),
                Err(LookupExit::NeedsTable(first)) => {
                    horizontal_by_table::<CANONICAL>(source, reference, changes, at, first)
                }
                Err(LookupExit::Stopped(stop)) => Err(stop),
            },
            Err(fault) => Err(RowStop::Fault(RowFault::from(fault))),
        },
        NeedsTable::Runs(first) => horizontal_by_table::<CANONICAL>(
            source, reference, changes, at, first,
        ),
    }
}

/// Reads a row on from what is expected, and returns where its places end. Where it stops the
/// source is as it was.
#[cold]
#[inline(never)]
// requires slow_path_at { IsSlowPath CANONICAL reference source.old changes.old slow_path_at }
// ensures read { IfOk result (λ end. IsReadRow CANONICAL reference.entry source.old.remaining changes.new
//     end source.new.remaining) }
// ensures stop { IfErr result
//     (λ stop. IsRowStop CANONICAL reference.entry source.old.remaining stop) }
// ensures unchanged { OnErr result (source.new ≡ source.old) }
// ensures room { HasRoom reference.entry.width changes.new }
// ensures same_end { KeepsEnd source.old source.new }
pub(super) fn finish_by_table<const CANONICAL: bool>(
    source: &mut BitSource,
    reference: ChangingElements,
    changes: &mut [u32],
    slow_path_at: SlowPath,
) -> Result<usize, RowStop> {
    let mut ahead = source.fork();
    ahead.skip_to(slow_path_at.place);
    let mut at = read_needed::<CANONICAL>(
        &mut ahead,
        reference,
        changes,
        slow_path_at.position(),
        slow_path_at.needed,
    )?;
    while at.position.first_pel() < reference.width {
        at = read_needed::<CANONICAL>(&mut ahead, reference, changes, at, NeedsTable::Mode)?;
    }
    source.advance_to(&ahead);
    Ok(at.end)
}
