// Made by tools/plain-rust of tools/plain/kit_std/src/program.rs: change that.
//! How a program begins: by C's `main`. Before Rust's own the three streams are opened where they
//! were closed, on /dev/null, and what is written there is lost without an error.

use crate::alloc::{Global, String, Vec};
use crate::io;
use crate::process::ExitCode;
use crate::rt::{put_word, HostRuntime};
use std::os::raw::{c_char, c_int};

/// Runs a program, and answers its status.
///
/// # Safety
///
/// The count and the words are those that C hands to `main`.
pub unsafe fn run(
    count: c_int,
    words: *const *const c_char,
    program: fn(HostRuntime) -> ExitCode,
) -> c_int {
    see_closed_pipes();
    // SAFETY: the caller keeps what is said above.
    let words = unsafe { words_of(count, words) };
    program(HostRuntime::new(words)).number().into()
}

/// Has a write to a pipe that nobody reads answer an error, as Rust's own `main` does.
#[cfg(unix)]
fn see_closed_pipes() {
    extern "C" {
        fn signal(number: c_int, action: usize) -> usize;
    }
    const SIGPIPE: c_int = 13;
    const SIG_IGN: usize = 1;
    // SAFETY: both are the numbers of every Unix, and no other thread runs yet.
    unsafe { signal(SIGPIPE, SIG_IGN) };
}

#[cfg(not(unix))]
fn see_closed_pipes() {}

#[cfg(unix)]
unsafe fn words_of(count: c_int, words: *const *const c_char) -> io::Result<Vec<String>> {
    let mut texts = Vec::new(Global);
    for number in 0..usize::try_from(count).unwrap_or(0) {
        // SAFETY: C has so many words there, each with a 0 at its end.
        let word = unsafe { std::ffi::CStr::from_ptr(*words.add(number)) };
        let text = word.to_str().map_err(|_| io::ErrorKind::InvalidInput)?;
        put_word(&mut texts, text)?;
    }
    Ok(texts)
}

/// C's words are in the code page of the system there: Rust's are whole.
#[cfg(not(unix))]
unsafe fn words_of(_count: c_int, _words: *const *const c_char) -> io::Result<Vec<String>> {
    let mut texts = Vec::new(Global);
    for word in std::env::args_os() {
        let text = word.to_str().ok_or(io::ErrorKind::InvalidInput)?;
        put_word(&mut texts, text)?;
    }
    Ok(texts)
}

/// Makes C's `main` of a function that takes the system, and gives the program its allocator.
#[macro_export]
macro_rules! entry {
    ($program:path) => {
        #[allow(unsafe_code)]
        mod entry {
            use std::os::raw::{c_char, c_int};

            #[global_allocator]
            static MEMORY: $crate::refusing::Refusing = $crate::refusing::Refusing;

            /// # Safety
            ///
            /// C calls it, once.
            #[no_mangle]
            pub unsafe extern "C" fn main(count: c_int, words: *const *const c_char) -> c_int {
                // SAFETY: both are what C hands over.
                unsafe { $crate::program::run(count, words, $program) }
            }
        }
    };
}
