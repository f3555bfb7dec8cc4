// Made by tools/plain-rust of tools/plain/kit_std/src/portable.rs: change that.
//! Operations on lanes as any machine has them.

use std::array;

#[inline(always)]
pub fn differing(one: &[u8; 16], other: &[u8; 16]) -> u64 {
    (0..16).fold(0, |bits, lane| {
        bits | u64::from(one[lane] != other[lane]) << lane
    })
}

#[inline(always)]
pub fn less(one: &[i32; 4], other: &[i32; 4]) -> u64 {
    (0..4).fold(0, |bits, lane| {
        bits | u64::from(one[lane] < other[lane]) << lane
    })
}

#[inline(always)]
pub fn sums(one: &[u32; 4], other: &[u32; 4]) -> [u32; 4] {
    array::from_fn(|lane| one[lane].wrapping_add(other[lane]))
}

#[inline(always)]
pub fn differences(one: &[u32; 4], other: &[u32; 4]) -> [u32; 4] {
    array::from_fn(|lane| one[lane].wrapping_sub(other[lane]))
}

#[inline(always)]
pub fn widened(bytes: [u8; 4]) -> [u32; 4] {
    bytes.map(u32::from)
}
