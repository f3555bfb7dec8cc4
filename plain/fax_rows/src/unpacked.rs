// Made by tools/plain-rust of crates/fax_rows/src/unpacked.rt: change that.
//! The places of change of a row of packed bytes: eight pels in a byte, the leftmost in its highest
//! bit, where 1 is black.

use crate::changes_of_row::toggle_change;
use crate::ones::put_ones;
use crate::packed::WORD;
use crate::runs::other;
use crate::simd::{are_white, first_other};
use fax_bits::Colour;

/// The word of eight bytes from a place on, the highest first.
#[inline(always)]
// requires { at + 8 ≤ length bytes.now }
// ensures { (i : ℕ) → i < 64
//     → word_bit result i ≡ slice_index_or (bits MsbFirst bytes.now) (8 * at + i) false }
fn word_at(bytes: &[u8], at: usize) -> u64 {
    let mut word = [0; 8];
    word.copy_from_slice(&bytes[at..at + 8]);
    u64::from_be_bytes(word)
}

/// The colour of the last pel of a word.
// ensures { result ≡ Spec.colour_of_bit (word_bit word 63) }
fn last_colour(word: u64) -> Colour {
    if word % 2 == 1 {
        Colour::Black
    } else {
        Colour::White
    }
}

/// Puts the places of change of a word of 64 pels, the first of them at place `from`, after another
/// word, and returns where they end.
#[inline(always)]
// requires ascending { IsAscending changes.old end }
// requires left_hand { 1 < end → slice_index changes.old (end - 1) < from }
// requires room { from + 68 ≤ length changes.old }
// requires short { from + 64 < 2 ^ 32 }
// ensures ascending { IsAscending changes.new result }
// ensures left_hand { 1 < result → slice_index changes.new (result - 1) < from + 64 }
// ensures unpacked { (b : List Bool)
//     → IsUnpackedTo b (take end changes.old) from (Spec.colour_of_bit (word_bit before 63))
//     → ((i : ℕ) → i < 64 → word_bit word i ≡ slice_index_or b (from + i) false)
//     → IsUnpackedTo b (take result changes.new) (from + 64)
//     (Spec.colour_of_bit (word_bit word 63)) }
// ensures same_len { length changes.new ≡ length changes.old }
fn put_word(changes: &mut [u32], end: usize, from: u32, before: u64, word: u64) -> usize {
    // A bit is 1 where a pel has another colour than the one before it.
    let change_bits = word ^ (word >> 1) ^ (before << 63);
    put_ones(changes, end, from, change_bits)
}

/// Skips white words, by eights, from one on.
#[inline(always)]
// requires short { words < 1024 }
// requires whole { 8 * words ≤ length bytes.now }
// requires within { from ≤ words }
// ensures from { from ≤ result }
// ensures within { result ≤ words }
// ensures white { AreWhite (bits MsbFirst bytes.now) (64 * from) (64 * result) }
fn past_eights(bytes: &[u8], from: u32, words: u32) -> u32 {
    let mut k = from;
    while words - k >= 8 && are_white(bytes, 8 * k as usize) {
        k += 8;
    }
    k
}

/// Skips white words, from one on.
#[inline(always)]
// requires short { words < 1024 }
// requires whole { 8 * words ≤ length bytes.now }
// requires within { from ≤ words }
// ensures from { from ≤ result }
// ensures within { result ≤ words }
// ensures white { AreWhite (bits MsbFirst bytes.now) (64 * from) (64 * result) }
fn past_white(bytes: &[u8], from: u32, words: u32) -> u32 {
    let mut k = past_eights(bytes, from, words);
    while k < words && word_at(bytes, 8 * k as usize) == 0 {
        k += 1;
    }
    k
}

/// Puts the places of change of so many words of 64 pels, and returns where they end, and the
/// colour of the last pel: white where there is no word.
// requires short { words < 1024 }
// requires whole { 8 * words ≤ length bytes.now }
// requires room { 64 * words + 4 ≤ length changes.old }
// requires first { slice_index changes.old 0 ≡ 0 }
// ensures ascending { IsAscending changes.new result.0 }
// ensures left_hand { 1 < result.0 → slice_index changes.new (result.0 - 1) < 64 * words }
// ensures unpacked { IsUnpackedTo (bits MsbFirst bytes.now) (take result.0 changes.new)
//     (64 * words) result.1 }
// ensures same_len { length changes.new ≡ length changes.old }
fn changes_of_words(bytes: &[u8], changes: &mut [u32], words: u32) -> (usize, Colour) {
    // A bit of a word that is not the one before it is a change. At the row's beginning, and after
    // a white word, the white ones that follow are skipped: by eights, and then one by one.
    let mut end = 1;
    let mut before = 0;
    let mut k = past_white(bytes, 0, words);
    while k < words {
        let word = word_at(bytes, 8 * k as usize);
        end = put_word(changes, end, WORD * k, before, word);
        before = word;
        k += 1;
        if word == 0 {
            k = past_white(bytes, k, words);
        }
    }
    (end, last_colour(before))
}

/// Puts the places of change of the row of `width` pels that these bytes hold, and returns where
/// they end.
// requires some { 0 < width }
// requires short { width < 2 ^ 16 }
// requires whole { length bytes.now ≡ Spec.packed_len width }
// requires room { HasRoom width changes.old }
// ensures put { AreChangesPut width changes.new result width }
// ensures pels { row_of changes.new result width ≡ Spec.unpacked_row width bytes.now }
pub(crate) fn changes_of_bits(bytes: &[u8], changes: &mut [u32], width: u32) -> usize {
    let words = width / WORD;
    let (mut end, mut colour) = changes_of_words(bytes, changes, words);
    let mut at = first_other(bytes, u64::from(WORD * words), colour);
    while at < u64::from(width) {
        end = toggle_change(changes, end, at as u32);
        colour = other(colour);
        at = first_other(bytes, at + 1, colour);
    }
    end
}
