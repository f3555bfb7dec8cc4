// Made by tools/plain-rust of tools/plain/kit_std/src/refusing.rs: change that.
//! The allocator of the program. Crates that are not ours, clap above all, take memory that they
//! think they always get, and Rust ends the process with SIGABRT where it is refused. While such a
//! crate works the program ends here instead, as it does for any other want of memory.

use std::alloc::{GlobalAlloc, Layout, System};
use std::io::Write;
use std::sync::atomic::{AtomicBool, Ordering};

static IS_FINAL: AtomicBool = AtomicBool::new(false);

/// Says whether a refusal ends the program from now on. Nothing may have been written by then.
pub fn set_final(is_final: bool) {
    IS_FINAL.store(is_final, Ordering::Relaxed);
}

/// The system's allocator, which ends the program at a refusal that is final.
pub struct Refusing;

/// Ends the program where memory was refused and that is final.
fn seen(place: *mut u8) -> *mut u8 {
    if place.is_null() && IS_FINAL.load(Ordering::Relaxed) {
        // The status tells of it too, so that nothing is lost where the error stream takes nothing.
        let _ = std::io::stderr().write_all(b"fault: Memory\n");
        std::process::exit(3);
    }
    place
}

// SAFETY: each call is handed on to the system's allocator, and its answer handed back.
unsafe impl GlobalAlloc for Refusing {
    unsafe fn alloc(&self, layout: Layout) -> *mut u8 {
        seen(unsafe { System.alloc(layout) })
    }

    unsafe fn alloc_zeroed(&self, layout: Layout) -> *mut u8 {
        seen(unsafe { System.alloc_zeroed(layout) })
    }

    unsafe fn realloc(&self, place: *mut u8, layout: Layout, size: usize) -> *mut u8 {
        seen(unsafe { System.realloc(place, layout, size) })
    }

    unsafe fn dealloc(&self, place: *mut u8, layout: Layout) {
        unsafe { System.dealloc(place, layout) }
    }
}
