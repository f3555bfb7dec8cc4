// Made by tools/plain-rust of tools/plain/kit_std/src/env.rs: change that.
//! What a process was started with.

use crate::alloc::String;
use crate::io;
use crate::rt::HostRuntime;

/// The words of the command line, the program's name first.
///
/// # Errors
///
/// `InvalidInput` where a word is not UTF-8, `OutOfMemory` where a growth was refused.
pub fn args(rt: &HostRuntime) -> io::Result<impl Iterator<Item = String>> {
    Ok(rt.words()?.into_items())
}
