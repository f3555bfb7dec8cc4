// Made by tools/plain-rust of crates/fax_bits/src/verticals.rt: change that.
//! Vertical modes one after another, of which two to four are looked up at once.

use crate::vertical_indexes::VERTICALS;

/// Vertical modes one after another: the first `count` of four.
#[derive(Clone, Copy)]
pub struct Verticals {
    pub count: u32,
    /// How many pels right of the pel three left of b1 a1 is in each: 0 to 6.
    pub biased_offsets: [u8; 4],
}

/// The vertical modes whose codes begin thirteen bits, of which they take twelve at most, and how
/// many they take: two modes to four. `None` where fewer begin them.
#[inline(always)]
// requires { bits < 2 ^ LONGEST_CODE }
// ensures { IfSome result
//     (λ found. IsBegun AreVerticals (code_bits LONGEST_CODE bits) found.0 found.1) }
pub(crate) fn find_verticals(bits: u32) -> Option<(u32, Verticals)> {
    // Two modes at least are looked for: half the time of reading was mispredicted branches, one or
    // two a mode. The four of an entry stand in one number, as lanes take them, since an array of
    // arrays would have five thousand lines. `crates/fax_bits/make-indexes try_read_verticals`
    // prints them;
    // a computed proof goes through all 4,096 numbers.
    let at = (bits >> 1) as usize;
    let len = VERTICALS.lens[at];
    if len == 0 {
        return None;
    }
    let verticals = Verticals {
        count: u32::from(VERTICALS.counts[at]),
        biased_offsets: VERTICALS.biased_offsets[at].to_le_bytes(),
    };
    Some((u32::from(len), verticals))
}
