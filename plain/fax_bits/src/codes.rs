// Made by tools/plain-rust of crates/fax_bits/src/codes.rt: change that.
//! Code tables, and the code that bits begin with.

use crate::BitSource;
use thiserror::Error;

/// How many bits the longest code has.
pub(crate) const LONGEST_CODE: u32 = 13;

/// A code of a table: the lowest `len` bits of `code`, the highest of them first.
#[derive(Clone, Copy, Debug, PartialEq, Eq)]
pub struct CodeEntry<M> {
    pub code: u16,
    /// How many bits the code has, 1 to 13.
    pub len: u8,
    pub meaning: M,
}

/// Why no code could be read.
#[derive(Clone, Copy, Debug, PartialEq, Eq, Error)]
pub enum CodeFault {
    /// The bits end within a code.
    #[error("the data ends within a code")]
    DataEnds,
    /// No code of the table begins so.
    #[error("no code begins so")]
    BadCode,
}

/// A table of codes of 1 to 13 bits, none of which begins another.
pub trait CodeTable {
    /// What its codes mean.
    type Meaning: Copy;

    /// How many entries it has.
    const COUNT: usize;

    /// The entry at an index below `COUNT`.
    // requires { i < COUNT }
    // ensures found { slice_get table i ≡ Some result }
    // ensures not_empty { 0 < result.len }
    // ensures short { result.len ≤ LONGEST_CODE }
    fn entry(i: usize) -> CodeEntry<Self::Meaning>;

    /// The length in bits and the meaning of the code that begins `n` bits, 0 to 13 of them: the
    /// lowest of `window`, the highest first. `None` where no code is the beginning of them. A
    /// table that has no quicker way goes through its entries.
    // requires few { n ≤ LONGEST_CODE }
    // requires fits { window < 2 ^ n }
    // ensures { MatchOption result (HasNoCode table (code_bits n window))
    //     (λ found. HasCodeAhead table (code_bits n window) found.0 found.1) }
    fn find(window: u32, n: u32) -> Option<(u32, Self::Meaning)> {
        for i in 0..Self::COUNT {
            let entry = Self::entry(i);
            let len = u32::from(entry.len);
            if len <= n && window >> (n - len) == u32::from(entry.code) {
                return Some((len, entry.meaning));
            }
        }
        None
    }
}

/// The length and the meaning of a code, where `n` bits are as many as it has.
#[inline(always)]
// ensures { MatchOption result (n < entry.len)
//     (λ found. (entry.len ≤ n) × (found.0 ≡ entry.len) × (found.1 ≡ entry.meaning)) }
pub(crate) fn within<M: Copy>(entry: CodeEntry<M>, n: u32) -> Option<(u32, M)> {
    let len = u32::from(entry.len);
    if len <= n {
        Some((len, entry.meaning))
    } else {
        None
    }
}

/// Reads a code of the table.
///
/// # Errors
///
/// `DataEnds` where the bits end within a code, `BadCode` where no code begins so. The source is
/// then as it was.
// ensures read { read_code_of T.table source.old.remaining
//     ≡ answered (λ meaning. meaning) result source.new.remaining }
// ensures unchanged { OnErr result (source.new ≡ source.old) }
// The source continues in the same bits, and a code takes at least one of them.
// ensures same_end { KeepsEnd source.old source.new }
// ensures shorter { OnOk result (length source.new.remaining < length source.old.remaining) }
pub fn read_code<T: CodeTable>(source: &mut BitSource) -> Result<T::Meaning, CodeFault> {
    // It looks at the next thirteen bits, or at all that are left: near the end of the bytes the
    // window loads single bytes, so that one function reads every code and names each fault. Each
    // table finds a code by its own `find`, those here by small arrays over these bits.
    let n = source.remaining().min(u64::from(LONGEST_CODE)) as u32;
    let window = source.peek(n);
    match T::find(window, n) {
        Some(found) => {
            source.skip(u64::from(found.0));
            Ok(found.1)
        }
        None if n < LONGEST_CODE => Err(fault_at_end::<T>(window, n)),
        None => Err(CodeFault::BadCode),
    }
}

/// Which fault it is that no code begins the last `n` bits, the lowest of `window`, by all entries:
/// they may end within a code.
#[inline(never)]
// requires fits { window < 2 ^ n }
// ensures { result ≡ code_fault T.table (code_bits n window) }
fn fault_at_end<T: CodeTable>(window: u32, n: u32) -> CodeFault {
    for i in 0..T::COUNT {
        let entry = T::entry(i);
        let len = u32::from(entry.len);
        if n < len && u32::from(entry.code) >> (len - n) == window {
            return CodeFault::DataEnds;
        }
    }
    CodeFault::BadCode
}
