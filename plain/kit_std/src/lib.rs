// Made by tools/plain-rust of tools/plain/kit_std/src/lib.rs: change that.
//! What `faxpages` names of the Rattle kit's std, over Rust's own.
//!
//! Growth of memory answers an error where it is refused. What the kit proves of a call's arguments
//! is tested here, by Rust's own bounds, and ends the program where it does not hold. The proofs are of
//! a `usize` of 64 bits: where it has fewer, build with overflow checks, as the workspace does.
#![cfg_attr(
    not(any(feature = "c", feature = "program", feature = "sse2")),
    forbid(unsafe_code)
)]

pub mod alloc;
#[cfg(feature = "c")]
pub mod c;
#[cfg(feature = "program")]
pub mod env;
#[cfg(feature = "program")]
pub mod fs;
#[cfg(feature = "program")]
pub mod io;
pub mod iter;
mod lanes;
pub mod marker;
#[cfg(not(all(feature = "sse2", target_arch = "x86_64")))]
mod portable;
#[cfg(feature = "program")]
pub mod process;
#[cfg(all(feature = "program", not(target_family = "wasm")))]
pub mod program;
#[cfg(feature = "program")]
pub mod refusing;
#[cfg(feature = "program")]
pub mod rt;
#[cfg(all(feature = "sse2", target_arch = "x86_64"))]
mod sse2;
#[cfg(feature = "program")]
mod streams;

pub use std::mem;

/// Lanes of numbers.
pub mod simd {
    pub use crate::lanes::{Mask, Simd};

    /// The kinds of lanes, by their names.
    pub mod prelude {
        pub use crate::lanes::{u16x4, u16x8, u32x4, u32x8, u8x16, u8x4, u8x64, u8x8};
    }
}

/// What each source sees without naming it.
pub mod prelude {
    pub use crate::alloc::{String, Vec};
    pub use crate::iter::CollectIn;
    #[cfg(feature = "program")]
    pub use crate::rt::HostRuntime;
    pub use crate::{prove, vec};
    pub use std::str;
}

/// What was proved to hold; a debug build tests it.
#[macro_export]
macro_rules! prove {
    ($condition:expr) => {
        ::std::debug_assert!($condition)
    };
}

/// `vec![in alloc; item; n]`: a vector of `n` times this item, or an error where it is refused.
#[macro_export]
macro_rules! vec {
    (in $alloc:expr; $item:expr; $n:expr) => {
        $crate::alloc::Vec::filled($alloc, $item, $n)
    };
}
