// Made by tools/plain-rust of tools/plain/kit_std/src/sse2.rs: change that.
//! Operations on lanes by SSE2, which each x86-64 has.

use std::arch::x86_64::*;

#[inline(always)]
pub fn differing(one: &[u8; 16], other: &[u8; 16]) -> u64 {
    // SAFETY: each array has the 16 bytes that are loaded, and each x86-64 has SSE2.
    let same = unsafe {
        let one = _mm_loadu_si128(one.as_ptr().cast());
        _mm_movemask_epi8(_mm_cmpeq_epi8(one, _mm_loadu_si128(other.as_ptr().cast())))
    };
    u64::from(!same as u16)
}

#[inline(always)]
pub fn less(one: &[i32; 4], other: &[i32; 4]) -> u64 {
    // SAFETY: as in `differing`.
    let less = unsafe {
        let one = _mm_loadu_si128(one.as_ptr().cast());
        let other = _mm_loadu_si128(other.as_ptr().cast());
        _mm_movemask_ps(_mm_castsi128_ps(_mm_cmplt_epi32(one, other)))
    };
    less as u64
}

#[inline(always)]
pub fn sums(one: &[u32; 4], other: &[u32; 4]) -> [u32; 4] {
    let mut sums = [0; 4];
    // SAFETY: each array has the 16 bytes that are loaded or stored, and each x86-64 has SSE2.
    unsafe {
        let one = _mm_loadu_si128(one.as_ptr().cast());
        let sum = _mm_add_epi32(one, _mm_loadu_si128(other.as_ptr().cast()));
        _mm_storeu_si128(sums.as_mut_ptr().cast(), sum);
    }
    sums
}

#[inline(always)]
pub fn differences(one: &[u32; 4], other: &[u32; 4]) -> [u32; 4] {
    let mut differences = [0; 4];
    // SAFETY: as in `sums`.
    unsafe {
        let one = _mm_loadu_si128(one.as_ptr().cast());
        let difference = _mm_sub_epi32(one, _mm_loadu_si128(other.as_ptr().cast()));
        _mm_storeu_si128(differences.as_mut_ptr().cast(), difference);
    }
    differences
}

#[inline(always)]
pub fn widened(bytes: [u8; 4]) -> [u32; 4] {
    let mut wide = [0; 4];
    // SAFETY: as in `sums`.
    unsafe {
        let zero = _mm_setzero_si128();
        let four = _mm_cvtsi32_si128(i32::from_le_bytes(bytes));
        let four = _mm_unpacklo_epi16(_mm_unpacklo_epi8(four, zero), zero);
        _mm_storeu_si128(wide.as_mut_ptr().cast(), four);
    }
    wide
}
