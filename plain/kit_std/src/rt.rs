// Made by tools/plain-rust of tools/plain/kit_std/src/rt.rs: change that.
//! What the kit hands to `main`.

use crate::alloc::{Global, String, Vec};
use crate::io;
use crate::streams::{Stream, Which};

/// The system, as a program sees it: its words, its streams and its memory.
pub struct HostRuntime {
    words: io::Result<Vec<String>>,
}

impl HostRuntime {
    /// A system whose command line has these words, or none where they could not be read.
    pub fn new(words: io::Result<Vec<String>>) -> Self {
        HostRuntime { words }
    }

    /// A copy of the words.
    pub(crate) fn words(&self) -> io::Result<Vec<String>> {
        let mut copy = Vec::new(Global);
        match &self.words {
            Ok(words) => words
                .iter()
                .try_for_each(|word| put_word(&mut copy, word))?,
            Err(error) => return Err(error.kind().into()),
        }
        Ok(copy)
    }

    pub fn alloc(&self) -> Global {
        Global
    }

    pub fn stdin(&self) -> Stream {
        Stream::of(Which::Input)
    }

    pub fn stdout(&self) -> Stream {
        Stream::of(Which::Output)
    }

    pub fn stderr(&self) -> Stream {
        Stream::of(Which::Error)
    }
}

/// Appends a copy of a word.
///
/// # Errors
///
/// `OutOfMemory` where a growth was refused.
pub(crate) fn put_word(words: &mut Vec<String>, word: &str) -> io::Result<()> {
    String::from_str(Global, word)
        .and_then(|word| words.push(word))
        .map_err(|_| io::ErrorKind::OutOfMemory.into())
}
