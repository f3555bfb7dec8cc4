// Made by tools/plain-rust of crates/fax_rows/src/changing_elements.rt: change that.
//! Changing elements, and the places b1 and b2 of a reference row (ITU-T T.4, section 4.2.1.3.1).

use crate::pels::Row;
use fax_bits::Colour;

impl Row {
    /// The place of the next changing element right of `from`, or the width where there is none
    /// (T.4, section 4.2.1.3.1). `None` is the place just before the first pel. It is for other
    /// callers: the coders here go by the index of a change.
    // ensures place { result ≡ Spec.next_change self.now from }
    // ensures within { result ≤ length self.now }
    // ensures right { result < length self.now → Spec.is_right_of from result ≡ true }
    pub fn next_change(&self, from: Option<u32>) -> u32 {
        let row = self.elements();
        row.changes[row.change_after(from)]
    }

    /// The place of the next changing element right of `from` that is not of this colour, or the
    /// width where there is none (T.4, section 4.2.1.3.1). `None` is the place just before the
    /// first pel. It is for other callers, as `next_change` is.
    // ensures place { result ≡ Spec.b1 self.now from colour }
    // ensures within { result ≤ length self.now }
    // ensures right { result < length self.now → Spec.is_right_of from result ≡ true }
    pub fn next_of(&self, from: Option<u32>, colour: Colour) -> u32 {
        let row = self.elements();
        row.changes[row.b1_from(from, colour)]
    }
}

/// The places b1 and b2 of the reference row as seen from a0, where `None` is just before the first
/// pel, and a0's colour. b1 is the first changing element right of a0 and of the opposite colour,
/// b2 the next changing element right of b1; each is the width where there is none (T.4, section
/// 4.2.1.3.1). It is for other callers, as `Row::next_change` is.
// ensures first { result.0 ≡ Spec.b1 reference.now a0 colour }
// ensures second { result.1 ≡ Spec.b2 reference.now a0 colour }
// ensures within { result.1 ≤ length reference.now }
// ensures right { result.1 < length reference.now → Spec.is_right_of a0 result.1 ≡ true }
pub fn b1_b2(reference: &Row, a0: Option<u32>, colour: Colour) -> (u32, u32) {
    let row = reference.elements();
    let b1 = row.b1_from(a0, colour);
    (row.changes[b1], row.changes[b1 + 1])
}
