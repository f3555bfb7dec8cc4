// Made by tools/plain-rust of crates/fax_bits/src/mode_codes.rt: change that.
//! The modes of two-dimensional coding (ITU-T T.4, table 4).

use crate::codes::{CodeEntry, CodeTable, LONGEST_CODE, within};
use crate::indexes::{MODE_INDEXES, VERTICAL_MODES};

/// What a code of the mode table means (T.4, section 4.2.1.3.2).
#[derive(Clone, Copy, Debug, PartialEq, Eq)]
pub enum ModeCode {
    Pass,
    Horizontal,
    /// a1 is this many pels right of b1, -3 to 3.
    Vertical(i8),
    /// The prefix of codes that T.4 leaves to extensions.
    Extension,
}

/// The code of horizontal mode, and how many bits it has (T.4, table 4).
pub(crate) const HORIZONTAL_CODE: u32 = 0b001;

pub(crate) const HORIZONTAL_LEN: u32 = 3;

/// How many entries the mode table has: nine modes, and the extension prefix.
const MODE_ENTRIES: usize = 10;

/// An entry of the table.
macro_rules! entry {
    ($code:literal, $len:literal, $meaning:expr) => {
        CodeEntry {
            code: $code,
            len: $len,
            meaning: $meaning,
        }
    };
}

const MODES: [CodeEntry<ModeCode>; MODE_ENTRIES] = [
    entry!(0b0001, 4, ModeCode::Pass),
    entry!(0b001, 3, ModeCode::Horizontal),
    entry!(0b1, 1, ModeCode::Vertical(0)),
    entry!(0b011, 3, ModeCode::Vertical(1)),
    entry!(0b000011, 6, ModeCode::Vertical(2)),
    entry!(0b0000011, 7, ModeCode::Vertical(3)),
    entry!(0b010, 3, ModeCode::Vertical(-1)),
    entry!(0b000010, 6, ModeCode::Vertical(-2)),
    entry!(0b0000010, 7, ModeCode::Vertical(-3)),
    entry!(0b0000001, 7, ModeCode::Extension),
];

/// The codes of modes (T.4, table 4).
pub struct Modes;

impl CodeTable for Modes {
    type Meaning = ModeCode;

    const COUNT: usize = MODE_ENTRIES;

    #[inline(always)]
    fn entry(i: usize) -> CodeEntry<ModeCode> {
        MODES[i]
    }

    fn find(window: u32, n: u32) -> Option<(u32, ModeCode)> {
        let bits = window << (LONGEST_CODE - n);
        let index = usize::from(MODE_INDEXES[(bits >> 6) as usize]);
        if index < MODE_ENTRIES {
            within(Self::entry(index), n)
        } else {
            None
        }
    }
}

/// The length and the meaning of the code of a vertical mode that begins thirteen bits.
#[inline(always)]
// requires { bits < 2 ^ LONGEST_CODE }
// ensures { IfSome result
//     (λ found. HasCodeAhead modes (code_bits LONGEST_CODE bits) found.0 found.1) }
fn find_vertical(bits: u32) -> Option<(u32, ModeCode)> {
    // One look-up of seven bits, where nine compares in turn had to part the modes of a dithered
    // page. In most of them a1 is left of b1, which says alone that there is a code: the sign is
    // asked for anyway. `crates/fax_bits/make-indexes` prints the arrays, and a computed proof ties
    // them to `MODES`.
    let at = (bits >> 6) as usize;
    let (len, shift) = (VERTICAL_MODES.lens[at], VERTICAL_MODES.shifts[at]);
    let found = (u32::from(len), ModeCode::Vertical(shift));
    if shift < 0 {
        return Some(found);
    }
    if len > 0 { Some(found) } else { None }
}

/// The length and the meaning of the code of pass or horizontal mode that begins thirteen bits.
#[inline(always)]
// requires { bits < 2 ^ LONGEST_CODE }
// ensures { IfSome result
//     (λ found. HasCodeAhead modes (code_bits LONGEST_CODE bits) found.0 found.1) }
fn find_pass_or_horizontal(bits: u32) -> Option<(u32, ModeCode)> {
    match bits >> (LONGEST_CODE - 4) {
        0b0001 => Some((4, ModeCode::Pass)),
        0b0010 | 0b0011 => Some((3, ModeCode::Horizontal)),
        _ => None,
    }
}

/// The length and the meaning of the code of a mode that begins thirteen bits; of the extension it
/// says nothing. Vertical modes are looked for first, or with `SELDOM_VERTICAL` last.
#[inline(always)]
// requires { bits < 2 ^ LONGEST_CODE }
// ensures { IfSome result
//     (λ found. HasCodeAhead modes (code_bits LONGEST_CODE bits) found.0 found.1) }
pub(crate) fn find_mode<const SELDOM_VERTICAL: bool>(bits: u32) -> Option<(u32, ModeCode)> {
    if SELDOM_VERTICAL {
        find_pass_or_horizontal(bits).or_else(|| find_vertical(bits))
    } else {
        find_vertical(bits).or_else(|| find_pass_or_horizontal(bits))
    }
}
