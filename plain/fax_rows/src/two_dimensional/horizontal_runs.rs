// Made by tools/plain-rust of crates/fax_rows/src/two_dimensional/horizontal_runs.rt: change that.
//! The next codes of a row in two-dimensional coding: by look-ups, or else by their tables (ITU-T
//! T.4, section 4.2.1.3.2).

use super::canonical::is_taken;
use crate::RowFault;
use crate::runs::{other, run_by_table};
use fax_bits::{BitSource, Colour};

/// What is expected where no look-up finds the next code.
#[derive(Clone, Copy)]
pub(super) enum NeedsTable {
    /// A mode.
    Mode,
    /// The two runs of horizontal mode; or the second of them, after a first one of so many pels.
    Runs(Option<u32>),
}

/// Why a row is not read on.
#[derive(Clone, Copy)]
pub(super) enum RowStop {
    /// A step is not seen to be T.4's choice.
    Other,
    /// The fault of the first mode or run that is no part of the row.
    Fault(RowFault),
}

impl From<RowFault> for RowStop {
    fn from(fault: RowFault) -> RowStop {
        RowStop::Fault(fault)
    }
}

/// Why look-ups do not read a row on.
#[derive(Clone, Copy)]
pub(super) enum LookupExit<D> {
    /// None of them finds what is expected.
    NeedsTable(D),
    /// It is not read on by tables either.
    Stopped(RowStop),
}

impl<D> From<RowStop> for LookupExit<D> {
    fn from(stop: RowStop) -> LookupExit<D> {
        LookupExit::Stopped(stop)
    }
}

/// The runs of horizontal mode, by the pels that they have.
#[derive(Clone, Copy)]
pub(super) struct TwoRuns {
    pub first: u32,
    pub second: u32,
}

/// Reads a run of the colour whose first pel is `from` and the run of the other one after it, each
/// by a look-up. Else it returns the first run, where that is found. `CANONICAL` and `BATCHED`
/// change nothing here: they give each caller a copy of its own, which the compiler inlines.
#[inline(always)]
// requires from { from ≤ width }
// ensures read { IfOk result
//     (λ runs. AreReadRuns true colour width from source.old.remaining runs source.new.remaining) }
// ensures needed { IfErr result
//     (λ first. AreRunsNeeded colour source.old.remaining first source.new.remaining) }
// ensures fits { IfErr result (λ first. IfSome first (λ n. from + n ≤ width)) }
// ensures same_end { KeepsEnd source.old source.new }
// ensures no_longer { length source.new.remaining ≤ length source.old.remaining }
pub(super) fn run_by_run<const CANONICAL: bool, const BATCHED: bool>(
    source: &mut BitSource,
    colour: Colour,
    width: u32,
    from: u32,
) -> Result<TwoRuns, Option<u32>> {
    let Some(first) = source.try_read_run(colour, width - from) else {
        return Err(None);
    };
    let Some(second) = source.try_read_run(other(colour), width - from - first) else {
        return Err(Some(first));
    };
    Ok(TwoRuns { first, second })
}

/// What `run_by_run` does: a white run and the black one after it mostly by one look-up.
#[inline(always)]
// requires width { width < 2 ^ 16 }
// requires from { from ≤ width }
// ensures read { IfOk result
//     (λ runs. AreReadRuns true colour width from source.old.remaining runs source.new.remaining) }
// ensures needed { IfErr result
//     (λ first. AreRunsNeeded colour source.old.remaining first source.new.remaining) }
// ensures fits { IfErr result (λ first. IfSome first (λ n. from + n ≤ width)) }
// ensures same_end { KeepsEnd source.old source.new }
// ensures no_longer { length source.new.remaining ≤ length source.old.remaining }
pub(super) fn two_runs<const CANONICAL: bool, const BATCHED: bool>(
    source: &mut BitSource,
    colour: Colour,
    width: u32,
    from: u32,
) -> Result<TwoRuns, Option<u32>> {
    match colour {
        Colour::White => match source.try_read_run_pair(from, width) {
            Some(pair) => Ok(TwoRuns {
                first: pair.white,
                second: pair.black,
            }),
            None => run_by_run::<CANONICAL, BATCHED>(source, Colour::White, width, from),
        },
        Colour::Black => run_by_run::<CANONICAL, BATCHED>(source, Colour::Black, width, from),
    }
}

/// Reads the runs that `two_runs` does not find, by their tables: a run of the colour whose first
/// pel is `from`, where it is not read, and the run of the other colour after it. With `CANONICAL`
/// it stops where their codes may not be T.4's choice.
// requires width { width < 2 ^ 16 }
// requires from { from ≤ width }
// requires fits { IfSome first (λ n. from + n ≤ width) }
// ensures read { (b : List Bool) → AreRunsNeeded colour b first source.old.remaining
//     → IfOk result (λ runs. AreReadRuns CANONICAL colour width from b runs source.new.remaining) }
// ensures within { IfOk result (λ runs. from + runs.first + runs.second ≤ width) }
// ensures stop { (b : List Bool) → AreRunsNeeded colour b first source.old.remaining
//     → IfErr result
//     (λ stop. IsStopOf CANONICAL (λ fault. IsPairFault colour width from b fault) stop) }
// ensures same_end { KeepsEnd source.old source.new }
// ensures shorter { OnOk result (length source.new.remaining < length source.old.remaining) }
pub(super) fn two_runs_by_table<const CANONICAL: bool>(
    source: &mut BitSource,
    colour: Colour,
    width: u32,
    from: u32,
    first: Option<u32>,
) -> Result<TwoRuns, RowStop> {
    let mut is_canonical = true;
    let first = match first {
        Some(first) => first,
        None => {
            let run = run_by_table(source, colour, width, from)?;
            is_canonical = run.is_canonical;
            run.pels
        }
    };
    let second = run_by_table(source, other(colour), width, from + first)?;
    if is_taken::<CANONICAL>(is_canonical && second.is_canonical) {
        Ok(TwoRuns {
            first,
            second: second.pels,
        })
    } else {
        Err(RowStop::Other)
    }
}
