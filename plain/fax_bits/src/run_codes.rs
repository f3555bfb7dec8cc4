// Made by tools/plain-rust of crates/fax_bits/src/run_codes.rt: change that.
//! The codes of runs (ITU-T T.4, tables 2, 3a and 3b).

use crate::Colour;
use crate::codes::{CodeEntry, CodeTable, LONGEST_CODE, within};
use crate::indexes::{BLACK_LONG, BLACK_SHORT, WHITE_LONG, WHITE_SHORT};

/// What a code of a run table means (T.4, section 4.1.1).
#[derive(Clone, Copy, Debug, PartialEq, Eq)]
pub enum RunCode {
    /// Ends a run: this many pels, 0 to 63.
    Terminating(u16),
    /// Continues with a run: this many pels, 64 to 2560.
    MakeUp(u16),
    /// The prefix of codes that T.4 leaves to extensions.
    Extension,
}

/// How many entries a run table has: 64 terminating codes, 27 make-up codes of its own, 13 that
/// both colours share, and the extension prefix.
const RUN_ENTRIES: usize = 105;

/// How many of them are terminating codes, which stand first.
pub(crate) const TERMINATING_CODES: u16 = 64;

/// Where the extension prefix stands, after all codes of runs.
const EXTENSION: usize = RUN_ENTRIES - 1;

/// The most pels that one make-up code means, 2560 (T.4, table 3b).
pub const LONGEST_MAKE_UP: u32 = 64 * (EXTENSION as u32 - TERMINATING_CODES as u32);

// The codes in the order of their meaning, which `meaning_at` gives, as numbers: without the zeros
// that they begin with. Then their lengths in bits.

const WHITE_CODES: [u16; RUN_ENTRIES] = [
    0b110101, 0b111, 0b111, 0b1000, 0b1011, 0b1100, 0b1110, 0b1111, 0b10011, 0b10100, 0b111,
    0b1000, 0b1000, 0b11, 0b110100, 0b110101, 0b101010, 0b101011, 0b100111, 0b1100, 0b1000,
    0b10111, 0b11, 0b100, 0b101000, 0b101011, 0b10011, 0b100100, 0b11000, 0b10, 0b11, 0b11010,
    0b11011, 0b10010, 0b10011, 0b10100, 0b10101, 0b10110, 0b10111, 0b101000, 0b101001, 0b101010,
    0b101011, 0b101100, 0b101101, 0b100, 0b101, 0b1010, 0b1011, 0b1010010, 0b1010011, 0b1010100,
    0b1010101, 0b100100, 0b100101, 0b1011000, 0b1011001, 0b1011010, 0b1011011, 0b1001010,
    0b1001011, 0b110010, 0b110011, 0b110100, 0b11011, 0b10010, 0b10111, 0b110111, 0b110110,
    0b110111, 0b1100100, 0b1100101, 0b1101000, 0b1100111, 0b11001100, 0b11001101, 0b11010010,
    0b11010011, 0b11010100, 0b11010101, 0b11010110, 0b11010111, 0b11011000, 0b11011001, 0b11011010,
    0b11011011, 0b10011000, 0b10011001, 0b10011010, 0b11000, 0b10011011, 0b1000, 0b1100, 0b1101,
    0b10010, 0b10011, 0b10100, 0b10101, 0b10110, 0b10111, 0b11100, 0b11101, 0b11110, 0b11111, 0b1,
];

const WHITE_LENS: [u8; RUN_ENTRIES] = [
    8, 6, 4, 4, 4, 4, 4, 4, 5, 5, 5, 5, 6, 6, 6, 6, 6, 6, 7, 7, 7, 7, 7, 7, 7, 7, 7, 7, 7, 8, 8, 8,
    8, 8, 8, 8, 8, 8, 8, 8, 8, 8, 8, 8, 8, 8, 8, 8, 8, 8, 8, 8, 8, 8, 8, 8, 8, 8, 8, 8, 8, 8, 8, 8,
    5, 5, 6, 7, 8, 8, 8, 8, 8, 8, 9, 9, 9, 9, 9, 9, 9, 9, 9, 9, 9, 9, 9, 9, 9, 6, 9, 11, 11, 11,
    12, 12, 12, 12, 12, 12, 12, 12, 12, 12, 9,
];

const BLACK_CODES: [u16; RUN_ENTRIES] = [
    0b110111, 0b10, 0b11, 0b10, 0b11, 0b11, 0b10, 0b11, 0b101, 0b100, 0b100, 0b101, 0b111, 0b100,
    0b111, 0b11000, 0b10111, 0b11000, 0b1000, 0b1100111, 0b1101000, 0b1101100, 0b110111, 0b101000,
    0b10111, 0b11000, 0b11001010, 0b11001011, 0b11001100, 0b11001101, 0b1101000, 0b1101001,
    0b1101010, 0b1101011, 0b11010010, 0b11010011, 0b11010100, 0b11010101, 0b11010110, 0b11010111,
    0b1101100, 0b1101101, 0b11011010, 0b11011011, 0b1010100, 0b1010101, 0b1010110, 0b1010111,
    0b1100100, 0b1100101, 0b1010010, 0b1010011, 0b100100, 0b110111, 0b111000, 0b100111, 0b101000,
    0b1011000, 0b1011001, 0b101011, 0b101100, 0b1011010, 0b1100110, 0b1100111, 0b1111, 0b11001000,
    0b11001001, 0b1011011, 0b110011, 0b110100, 0b110101, 0b1101100, 0b1101101, 0b1001010,
    0b1001011, 0b1001100, 0b1001101, 0b1110010, 0b1110011, 0b1110100, 0b1110101, 0b1110110,
    0b1110111, 0b1010010, 0b1010011, 0b1010100, 0b1010101, 0b1011010, 0b1011011, 0b1100100,
    0b1100101, 0b1000, 0b1100, 0b1101, 0b10010, 0b10011, 0b10100, 0b10101, 0b10110, 0b10111,
    0b11100, 0b11101, 0b11110, 0b11111, 0b1,
];

const BLACK_LENS: [u8; RUN_ENTRIES] = [
    10, 3, 2, 2, 3, 4, 4, 5, 6, 6, 7, 7, 7, 8, 8, 9, 10, 10, 10, 11, 11, 11, 11, 11, 11, 11, 12,
    12, 12, 12, 12, 12, 12, 12, 12, 12, 12, 12, 12, 12, 12, 12, 12, 12, 12, 12, 12, 12, 12, 12, 12,
    12, 12, 12, 12, 12, 12, 12, 12, 12, 12, 12, 12, 12, 10, 12, 12, 12, 12, 12, 12, 13, 13, 13, 13,
    13, 13, 13, 13, 13, 13, 13, 13, 13, 13, 13, 13, 13, 13, 13, 13, 11, 11, 11, 12, 12, 12, 12, 12,
    12, 12, 12, 12, 12, 9,
];

/// The codes of white runs.
pub struct WhiteRuns;

impl CodeTable for WhiteRuns {
    type Meaning = RunCode;

    const COUNT: usize = RUN_ENTRIES;

    fn entry(i: usize) -> CodeEntry<RunCode> {
        run_entry(Colour::White, i)
    }

    fn find(window: u32, n: u32) -> Option<(u32, RunCode)> {
        find_run(Colour::White, window, n)
    }
}

/// The codes of black runs.
pub struct BlackRuns;

impl CodeTable for BlackRuns {
    type Meaning = RunCode;

    const COUNT: usize = RUN_ENTRIES;

    fn entry(i: usize) -> CodeEntry<RunCode> {
        run_entry(Colour::Black, i)
    }

    fn find(window: u32, n: u32) -> Option<(u32, RunCode)> {
        find_run(Colour::Black, window, n)
    }
}

/// The entry at an index of the run table of a colour.
#[inline(always)]
// requires { i < 105 }
// ensures found { slice_get (run_table colour) i ≡ Some result }
pub(crate) fn run_entry(colour: Colour, i: usize) -> CodeEntry<RunCode> {
    let (code, len) = match colour {
        Colour::White => (WHITE_CODES[i], WHITE_LENS[i]),
        Colour::Black => (BLACK_CODES[i], BLACK_LENS[i]),
    };
    CodeEntry {
        code,
        len,
        meaning: meaning_at(i as u16),
    }
}

/// What `find` of the run table of a colour says.
// requires few { n ≤ LONGEST_CODE }
// requires fits { window < 2 ^ n }
// ensures { MatchOption result (HasNoCode (run_table colour) (code_bits n window))
//     (λ found. HasCodeAhead (run_table colour) (code_bits n window) found.0 found.1) }
fn find_run(colour: Colour, window: u32, n: u32) -> Option<(u32, RunCode)> {
    let index = run_index(colour, window << (LONGEST_CODE - n));
    if index < RUN_ENTRIES {
        within(run_entry(colour, index), n)
    } else {
        None
    }
}

/// The index of the code that begins thirteen bits in the run table of a colour, or the number of
/// codes where none does.
#[inline(always)]
// requires { bits < 2 ^ LONGEST_CODE }
// ensures { result ≡ index_of (run_table colour) LONGEST_CODE bits }
fn run_index(colour: Colour, bits: u32) -> usize {
    let at = bits as usize;
    match colour {
        Colour::White if at < 64 => usize::from(WHITE_LONG[at]),
        Colour::White => usize::from(WHITE_SHORT[at >> 4]),
        Colour::Black if at < 512 => usize::from(BLACK_LONG[at]),
        Colour::Black => usize::from(BLACK_SHORT[at >> 7]),
    }
}

/// The length and the meaning of the code for a run of the colour that begins thirteen bits, but
/// for the extension. `None` where no such code does. Short codes are looked up first.
#[inline(always)]
// requires { bits < 2 ^ LONGEST_CODE }
// ensures { IfSome result
//     (λ found. HasCodeAhead (run_table colour) (code_bits LONGEST_CODE bits) found.0 found.1) }
pub(crate) fn find_run_code(colour: Colour, bits: u32) -> Option<(u32, RunCode)> {
    // The array of the long codes has numbers of sixteen bits and that of the short ones of eight,
    // so that the compiler does not load from either by one address, which it would compute at each
    // code.
    let at = bits as usize;
    let short = match colour {
        Colour::White => WHITE_SHORT[at >> 4],
        Colour::Black => BLACK_SHORT[at >> 7],
    };
    let mut index = usize::from(short);
    if index >= EXTENSION {
        index = run_index(colour, bits);
        if index >= EXTENSION {
            return None;
        }
    }
    let entry = run_entry(colour, index);
    Some((u32::from(entry.len), entry.meaning))
}

/// What the code at an index of a run table means.
// requires { i < 105 }
// ensures { result ≡ run_meaning i }
fn meaning_at(i: u16) -> RunCode {
    if i < TERMINATING_CODES {
        RunCode::Terminating(i)
    } else if usize::from(i) < EXTENSION {
        RunCode::MakeUp(64 * (i - TERMINATING_CODES + 1))
    } else {
        RunCode::Extension
    }
}
