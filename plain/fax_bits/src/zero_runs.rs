// Made by tools/plain-rust of crates/fax_bits/src/zero_runs.rt: change that.
//! Where an EOL may begin: where eleven zeros stand one after another (T.4, section 4.1.2).

use crate::FillOrder;
use crate::window::word_at;

/// The bits of eight bytes as a number, the first bit highest.
#[inline(always)]
// requires { at + 8 ≤ length bytes.now }
// ensures { bits order (drop at bytes.now)
//     ≡ code_bits 64 result ++ bits order (drop (at + 8) bytes.now) }
fn long_word_at(bytes: &[u8], at: usize, order: FillOrder) -> u64 {
    let high = word_at(bytes, at, order);
    let low = word_at(bytes, at + 4, order);
    (u64::from(high) << 32) + u64::from(low)
}

/// Whether eleven zeros stand one after another in a word.
#[inline(always)]
// ensures { result ≡ false → (i : ℕ) → i + 11 ≤ 64 → HasElevenZeroBits word i → ⊥ }
fn has_eleven_zeros(word: u64) -> bool {
    // In `two` a 1 stands where two zeros do, with the bit above it, and so on.
    let one = !word;
    let two = one & (one >> 1);
    let four = two & (two >> 2);
    let eight = four & (four >> 4);
    eight & (eight >> 3) != 0
}

/// A byte from `from` on before which no eleven zeros begin, from that one on: where they may, or
/// near the end of the bytes.
// requires { from ≤ length bytes.now }
// ensures order { from ≤ result }
// ensures within { result ≤ length bytes.now }
// ensures none { (i : ℕ) → 8 * from ≤ i → i < 8 * result
//     → HasElevenZeros (drop i (bits order bytes.now)) → ⊥ }
pub(crate) fn skip_short_zeros(bytes: &[u8], from: usize, order: FillOrder) -> usize {
    // Of the zeros that begin in six bytes eleven stand in eight.
    let mut at = from;
    while bytes.len() - at >= 8 && !has_eleven_zeros(long_word_at(bytes, at, order)) {
        at += 6;
    }
    at
}
