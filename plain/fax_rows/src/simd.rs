// Made by tools/plain-rust of crates/fax_rows/src/simd.rt: change that.
//! The first pel of packed bytes that is not of a colour, and whether bytes are white, found in
//! lanes.

use fax_bits::Colour;
use kit_std::simd::prelude::*;

/// How many bytes are looked at together for the first that is another one.
const LANES: usize = 16;

/// The byte of eight pels of the colour.
// ensures { result ≡ plain_byte colour }
pub(crate) fn plain_byte(colour: Colour) -> u8 {
    match colour {
        Colour::White => 0x00,
        Colour::Black => 0xFF,
    }
}

/// The bits of a byte that are not of the colour.
// ensures { result ≡ others byte colour }
fn others(byte: u8, colour: Colour) -> u8 {
    match colour {
        Colour::White => byte,
        Colour::Black => !byte,
    }
}

/// The least place from `from` on of a byte's bits, highest first, that is not of the colour, or 8.
// requires { from < 8 }
// ensures { result ≡ first_other_in_byte byte from colour }
fn first_other_in_byte(byte: u8, from: u32, colour: Colour) -> u32 {
    let ahead = others(byte, colour) << from;
    if ahead == 0 {
        8
    } else {
        from + ahead.leading_zeros()
    }
}

/// Whether the 64 bytes from a place on are white.
#[inline(always)]
// requires { at + 64 ≤ length bytes.now }
// ensures { IsTrue result → AreWhite (bits MsbFirst bytes.now) (8 * at) (8 * (at + 64)) }
pub(crate) fn are_white(bytes: &[u8], at: usize) -> bool {
    let lanes = u8x64::from_slice(&bytes[at..]);
    lanes.simd_ne(u8x64::splat(0)).to_bitmask() == 0
}

/// The first of the bytes from `from` on that is not `plain`, or the place after them all.
// requires { from ≤ length bytes.now }
// ensures { IsFirstOtherByte bytes.now from plain result }
fn first_other_of_rest(bytes: &[u8], from: usize, plain: u8) -> usize {
    for at in from..bytes.len() {
        if bytes[at] != plain {
            return at;
        }
    }
    bytes.len()
}

/// The first of the bytes from `from` on that is not `plain`, or the place after them all.
// requires { from ≤ length bytes.now }
// ensures { IsFirstOtherByte bytes.now from plain result }
fn first_other_byte(bytes: &[u8], from: usize, plain: u8) -> usize {
    let mut at = from;
    while bytes.len() - at >= LANES {
        let lanes = u8x16::from_slice(&bytes[at..]);
        let others = lanes.simd_ne(u8x16::splat(plain)).to_bitmask();
        if others != 0 {
            return at + others.trailing_zeros() as usize;
        }
        at += LANES;
    }
    first_other_of_rest(bytes, at, plain)
}

/// The least place at or after `from` whose bit, highest of each byte first, is not of the colour,
/// where 1 is black; where there is none, the place after the last bit. At most 4,294,967,295
/// bytes are given, and `from` is no further than the place after their bits. It takes no memory.
// requires count { length bytes.now ≤ 4294967295 }
// requires within { from ≤ 8 * length bytes.now }
// ensures { result ≡ Spec.first_other bytes.now from colour }
pub fn first_other(bytes: &[u8], from: u64, colour: Colour) -> u64 {
    let at = (from / 8) as usize;
    if at == bytes.len() {
        return from;
    }
    let here = first_other_in_byte(bytes[at], (from % 8) as u32, colour);
    if here < 8 {
        return 8 * at as u64 + u64::from(here);
    }
    let after = first_other_byte(bytes, at + 1, plain_byte(colour));
    if after == bytes.len() {
        return 8 * after as u64;
    }
    8 * after as u64 + u64::from(first_other_in_byte(bytes[after], 0, colour))
}
