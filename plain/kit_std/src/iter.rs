// Made by tools/plain-rust of tools/plain/kit_std/src/iter.rs: change that.
//! Iterators.

use crate::alloc::{AllocError, Global, Vec};

/// The kit's `collect`, which names an allocator. Rust's iterators have a method of that name with no
/// argument, so it has another one here.
pub trait CollectIn: Iterator + Sized {
    /// All items, in order.
    ///
    /// # Errors
    ///
    /// `AllocError` where a growth was refused.
    fn collect_in(self, alloc: Global) -> Result<Vec<Self::Item>, AllocError> {
        let mut items = Vec::new(alloc);
        for item in self {
            items.push(item)?;
        }
        Ok(items)
    }
}

impl<I: Iterator> CollectIn for I {}
