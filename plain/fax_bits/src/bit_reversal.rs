// Made by tools/plain-rust of crates/fax_bits/src/bit_reversal.rt: change that.
//! The bits of bytes, turned round in lanes.

use kit_std::simd::prelude::*;

/// How many bytes are turned round at once.
const LANES: usize = 16;

/// The lanes, with the bits of each turned round.
#[inline(always)]
// ensures { result ≡ map (turned_round w8) lanes }
fn turned(lanes: u8x16) -> u8x16 {
    let halves = (lanes >> u8x16::splat(4)) | (lanes << u8x16::splat(4));
    let pairs = ((halves >> u8x16::splat(2)) & u8x16::splat(0x33))
        | ((halves & u8x16::splat(0x33)) << u8x16::splat(2));
    ((pairs >> u8x16::splat(1)) & u8x16::splat(0x55))
        | ((pairs & u8x16::splat(0x55)) << u8x16::splat(1))
}

/// Turns the bits of each byte round: its lowest becomes its highest (TIFF 6.0, FillOrder).
// ensures turned { bytes.new ≡ map (turned_round w8) bytes.old }
// The bits in one order are what they were in the other.
// ensures order { (order : FillOrder)
//     → bits order bytes.new ≡ bits (other_order order) bytes.old }
pub fn reverse_bits(bytes: &mut [u8]) {
    let len = bytes.len();
    let mut at = 0;
    while len - at >= LANES {
        let lanes = turned(u8x16::from_slice(&bytes[at..]));
        lanes.copy_to_slice(&mut bytes[at..]);
        at += LANES;
    }
    for i in at..len {
        bytes[i] = bytes[i].reverse_bits();
    }
}
