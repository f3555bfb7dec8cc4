// Made by tools/plain-rust of tools/plain/kit_std/src/c.rs: change that.
//! Memory of a caller in C as slices. Where a length is 0 the pointer may be null.

use std::slice;

/// The items at a pointer.
///
/// # Safety
///
/// So many items stand there, and nothing changes them during `'a`.
pub unsafe fn items<'a, T>(first: *const T, len: usize) -> &'a [T] {
    match len {
        0 => &[],
        // SAFETY: the caller keeps what is said above.
        _ => unsafe { slice::from_raw_parts(first, len) },
    }
}

/// The items at a pointer, which may be changed.
///
/// # Safety
///
/// So many items stand there, and nothing else reads or changes them during `'a`.
pub unsafe fn items_mut<'a, T>(first: *mut T, len: usize) -> &'a mut [T] {
    match len {
        0 => &mut [],
        // SAFETY: the caller keeps what is said above.
        _ => unsafe { slice::from_raw_parts_mut(first, len) },
    }
}
