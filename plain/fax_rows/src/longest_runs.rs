// Made by tools/plain-rust of crates/fax_rows/src/longest_runs.rt: change that.
//! The longest runs of a row, one after another (ITU-T T.4, section 4.1.1).

use crate::changes_of_row::toggle_change;
use crate::pels::Row;
use kit_std::marker::Model;
use kit_std::simd::prelude::*;

/// The longest runs of a row that are still to come. Contracts see the list of their lengths in
/// pels.
// It is public so that a caller goes over a row's runs without a list of them, and knows how many
// there are.
pub struct LongestRuns<'a> {
    /// Where the next run begins, and then where each run ends.
    changes: &'a [u32],
}

impl<'a> Model for LongestRuns<'a> {}

impl<'a> LongestRuns<'a> {
    /// All runs of the row, white first: the first one has no pels where the row begins black.
    // ensures { result ≡ runs_of row.now }
    pub fn of_row(row: &'a Row) -> Self {
        LongestRuns {
            changes: &row.changes[..row.end + 1],
        }
    }

    /// How many runs are still to come.
    // ensures count { result ≡ length self.now }
    // ensures few { result ≤ 2 ^ 16 }
    pub fn len(&self) -> usize {
        self.changes.len() - 1
    }

    /// How many pels the next run has. `None` where no run is left.
    #[inline(always)]
    // ensures first { MatchOption result (self.old ≡ []) (λ n. self.old ≡ n ∷ self.new) }
    // ensures none_left { IfNone result (self.new ≡ []) }
    // ensures short { IfSome result (λ n. n < 2 ^ 16) }
    pub fn next_run(&mut self) -> Option<u32> {
        if self.changes.len() < 2 {
            return None;
        }
        let run = self.changes[1] - self.changes[0];
        self.changes = &self.changes[1..];
        Some(run)
    }

    /// How many pels each of the next eight runs has; they are still to come. `None` where fewer
    /// are left.
    #[inline(always)]
    // ensures { MatchOption result (length self.now < 8)
    //     (λ runs. (runs ≡ take 8 self.now) × (8 ≤ length self.now)) }
    pub fn eight_ahead(&self) -> Option<[u16; 8]> {
        // The text of `rows` is written by eight runs at a time. `skip` leaves out those that are
        // written.
        if self.changes.len() <= 8 {
            return None;
        }
        let begins = u32x8::from_slice(self.changes);
        let ends = u32x8::from_slice(&self.changes[1..]);
        Some((ends - begins).cast::<u16>().to_array())
    }

    /// Leaves out so many of the next runs, at most all of them.
    #[inline(always)]
    // requires { count ≤ length self.old }
    // ensures { self.new ≡ drop count self.old }
    pub fn skip(&mut self, count: usize) {
        self.changes = &self.changes[count..];
    }
}

/// Whether these are the longest runs of a row of this width.
// ensures { IsTrue result ↔ AreLongest runs.now width }
pub(crate) fn are_longest(runs: &[u32], width: u32) -> bool {
    let mut remaining = width;
    for (i, n) in runs.iter().enumerate() {
        if (i > 0 && *n == 0) || *n > remaining {
            return false;
        }
        remaining -= *n;
    }
    remaining == 0
}

/// Puts the places where runs end, white first, and returns where these places end.
// requires short { width < 2 ^ 16 }
// requires room { HasRoom width changes.old }
// requires whole { sum runs.now ≡ width }
// ensures pels { row_of changes.new result width ≡ pels_of_runs Colour.White runs.now }
// ensures put { AreChangesPut width changes.new result width }
pub(crate) fn put_runs(changes: &mut [u32], runs: &[u32], _width: u32) -> usize {
    let mut end = 1;
    let mut total = 0;
    for n in runs {
        total += *n;
        end = toggle_change(changes, end, total);
    }
    end
}
