// Made by tools/plain-rust of crates/fax_rows/src/two_dimensional/vertical_0_batches.rt: change that.
//! Steps of two-dimensional coding with a1 under b1, of which several are read at once: their
//! places are copied from the reference row (ITU-T T.4, section 4.2.1.3.2).

use super::steps::{CodingPosition, CodingState, vertical_0};
use crate::change_list::ChangingElements;
use crate::changes_of_row::colour_after;
use fax_bits::BitSource;

/// How many places are copied at once, and so how many steps are read at most.
const COPIED: usize = 8;

/// How many of these steps come after the first.
const MOST_MORE: u32 = COPIED as u32 - 1;

/// Fewer steps than this after the first are read one by one.
const LEAST_MORE: u32 = 3;

/// Copies eight places of another row to the index `end`.
#[inline(always)]
// requires room { end + COPIED ≤ length changes.old }
// requires others { from + COPIED ≤ length other.now }
// ensures copied { (i : ℕ) → i < COPIED
//     → slice_index changes.new (end + i) ≡ slice_index other.now (from + i) }
// ensures kept { take end changes.new ≡ take end changes.old }
// ensures same_len { length changes.new ≡ length changes.old }
fn copy_eight(changes: &mut [u32], end: usize, other: &[u32], from: usize) {
    changes[end..end + COPIED].copy_from_slice(&other[from..from + COPIED]);
}

/// Reads a step with a1 under b1, after its code, and up to seven more of them, whose codes are 1s
/// that are next, where the row does not end among the next eight changes.
#[inline(always)]
// requires inside { IsCodingStateInRow reference changes.old at }
// ensures read { (b : List Bool) → Decodes modes b (Vertical (pos 0)) source.old.remaining
//     → AreStepsRead true reference.entry changes.old changes.new at result b source.new.remaining }
// ensures same_end { KeepsEnd source.old source.new }
// ensures no_longer { length source.new.remaining ≤ length source.old.remaining }
pub(super) fn vertical_0_batch(
    source: &mut BitSource,
    reference: ChangingElements,
    changes: &mut [u32],
    at: CodingState,
) -> CodingState {
    // Eight places are copied from the reference row, of which as many count as codes are read: so
    // both rows have room for eight after their last place, or the steps are read one by one. On a
    // page of text three of five modes are so.
    if source.ones() < LEAST_MORE
        || at.b1 + COPIED > reference.end
        || at.end + COPIED > changes.len()
    {
        return vertical_0(reference, changes, at);
    }
    let count = source.skip_ones(MOST_MORE) as usize + 1;
    copy_eight(changes, at.end, reference.changes, at.b1);
    let b1 = at.b1 + count;
    let position = CodingPosition {
        a0: Some(reference.changes[b1 - 1]),
        colour: colour_after(b1),
    };
    let end = at.end + count;
    CodingState { position, end, b1 }
}
