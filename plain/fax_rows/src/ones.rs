// Made by tools/plain-rust of crates/fax_rows/src/ones.rt: change that.
//! The places of the ones in a word, by a table of those in a byte, which the check proves right.

use kit_std::simd::prelude::*;

/// From so many ones in a word on, they are put by bytes and no longer one by one.
const MANY_ONES: u32 = 10;

/// Each of the eight bits doubles the list: first the bytes without it, then those with it, which
/// have one more.
macro_rules! counts {
    ([$($count:expr),*]) => { [$($count),*] };
    ([$($count:expr),*] $bit:tt $($more:tt)*) => {
        counts!([$($count,)* $($count + 1),*] $($more)*)
    };
}

/// Each of the eight bits doubles the list: first the bytes without it, then those with it, whose
/// places begin with its own.
macro_rules! changes {
    ([$($a:tt $b:tt $c:tt $d:tt $e:tt $f:tt $g:tt $h:tt),*]) => {
        [$($a, $b, $c, $d, $e, $f, $g, $h),*]
    };
    ([$($a:tt $b:tt $c:tt $d:tt $e:tt $f:tt $g:tt $h:tt),*] $column:tt $($more:tt)*) => {
        changes!([$($a $b $c $d $e $f $g $h,)* $($column $a $b $c $d $e $f $g),*] $($more)*)
    };
}

/// How many ones each byte has.
static COUNTS: [u8; 256] = counts!([0] 7 6 5 4 3 2 1 0);

/// Eight numbers for each byte: the places of its ones, from 0 for the highest bit, then zeros.
static PLACES: [u8; 2048] = changes!([0 0 0 0 0 0 0 0] 7 6 5 4 3 2 1 0);

/// Puts a place for each one in a byte, whose highest bit is at place `from`, and returns where
/// they end. Eight places are written: what stands after the end does not count.
#[inline(always)]
// requires room { end + 8 ≤ length changes.old }
// requires short { from + 8 < 2 ^ 32 }
// ensures put { take result changes.new ≡ take end changes.old ++ ones_among from 7 byte 8 }
// ensures within { result ≤ end + 8 }
// ensures same_len { length changes.new ≡ length changes.old }
fn put_ones_of_byte(changes: &mut [u32], end: usize, from: u32, byte: u8) -> usize {
    let at = usize::from(byte);
    let ones = u8x8::from_slice(&PLACES[8 * at..]).cast::<u32>();
    (ones + u32x8::splat(from)).copy_to_slice(&mut changes[end..]);
    end + usize::from(COUNTS[at])
}

/// Puts a place for each one in a word, whose highest bit is at place `from`, by bytes, and returns
/// where they end.
#[inline(always)]
// requires room { end + 64 ≤ length changes.old }
// requires short { from + 64 < 2 ^ 32 }
// ensures put { take result changes.new ≡ take end changes.old ++ ones_among from 63 word 64 }
// ensures within { result ≤ end + 64 }
// ensures same_len { length changes.new ≡ length changes.old }
fn put_ones_by_bytes(changes: &mut [u32], end: usize, from: u32, word: u64) -> usize {
    // Eight lanes are stored for each byte, of which the next byte's are put over those that do not
    // count. That needs no test for room, since a word has at most 64 changes. A word of fewer than
    // ten takes less one by one.
    let bytes = word.to_be_bytes();
    let mut end = end;
    for k in 0..8 {
        end = put_ones_of_byte(changes, end, from + 8 * k, bytes[k as usize]);
    }
    end
}

/// Puts a place for each one in a word, whose highest bit is at place `from`, one by one, and
/// returns where they end.
#[inline(always)]
// requires room { end + 64 ≤ length changes.old }
// requires short { from + 64 < 2 ^ 32 }
// ensures put { take result changes.new ≡ take end changes.old ++ ones_among from 63 word 64 }
// ensures within { result ≤ end + 64 }
// ensures same_len { length changes.new ≡ length changes.old }
fn put_ones_one_by_one(changes: &mut [u32], end: usize, from: u32, word: u64) -> usize {
    let mut end = end;
    let mut remaining = word;
    while remaining != 0 {
        let at = remaining.leading_zeros();
        changes[end] = from + at;
        end += 1;
        remaining ^= 1 << (63 - at);
    }
    end
}

/// Puts a place for each one in a word, whose highest bit is at place `from`, and returns where
/// they end.
#[inline(always)]
// requires room { end + 64 ≤ length changes.old }
// requires short { from + 64 < 2 ^ 32 }
// ensures put { take result changes.new ≡ take end changes.old ++ ones_among from 63 word 64 }
// ensures within { result ≤ end + 64 }
// ensures same_len { length changes.new ≡ length changes.old }
pub(crate) fn put_ones(changes: &mut [u32], end: usize, from: u32, word: u64) -> usize {
    if word == 0 {
        return end;
    }
    if word.count_ones() >= MANY_ONES {
        return put_ones_by_bytes(changes, end, from, word);
    }
    put_ones_one_by_one(changes, end, from, word)
}
