// Made by tools/plain-rust of crates/fax_tool/src/main.rt: change that.
//! `faxpages`: reads black-and-white fax pages in TIFF-F files.
//!
//! The program is `run_words`: `main` only gathers the words, and hands it the system's files and
//! streams.
#![deny(unsafe_code)]
#![no_main]

use kit_std::prelude::{CollectIn, HostRuntime, String, Vec};

mod args;
mod commands;
mod input;
mod program;
mod refusal;
mod run;
mod streams;
mod text;

pub use args::{Command, Job, Selection, WordsFault, parse_words};
pub use fax_bits::{FillOrder, Memory};
use fax_files::MAX_FILE;
pub use fax_walk::{
    Cause, Cursor, End, FileFault, LongCursor, NotACursor, Options, StripFault, Target, WalkStart,
};
pub use input::{Input, NotOpened};
pub use program::run_words;
pub use refusal::Refusal;
pub use run::run;
use kit_std::fs::File;
use kit_std::io::Stdin;
use kit_std::process::ExitCode;
use kit_std::{env, io};
pub use streams::{FromRead, Sink, Source, StreamFault, ToWrite};

/// The most bytes of an input that are read (TIFF 6.0 has no limit; this one is the program's).
const MOST_BYTES: u64 = MAX_FILE as u64;

/// The words of the command line, the program's name first. Words that are no text are refused.
fn given_words(rt: &HostRuntime) -> Result<Vec<String>, WordsFault> {
    match env::args(rt) {
        Ok(words) => Ok(words.collect_in(rt.alloc())?),
        Err(error) => match error.kind() {
            io::ErrorKind::OutOfMemory => Err(WordsFault::Memory),
            _ => Err(WordsFault::Usage),
        },
    }
}

/// What the system's standard input, or a file that was opened, gives.
enum SystemReader {
    Standard(Stdin),
    File(File),
    /// A file with more bytes than are read: no call for them is made, and each one fails.
    TooLarge,
}

/// What reads a file that was opened. Of one that is no regular file, as a pipe, nobody knows how
/// many bytes it has.
fn reader_of(file: File) -> SystemReader {
    match file.metadata() {
        Ok(found) if found.is_file() && found.len() > MOST_BYTES => SystemReader::TooLarge,
        _ => SystemReader::File(file),
    }
}

impl io::Read for SystemReader {
    fn read(&mut self, buf: &mut [u8]) -> io::Result<usize> {
        match self {
            SystemReader::Standard(standard) => standard.read(buf),
            SystemReader::File(file) => file.read(buf),
            SystemReader::TooLarge => Err(io::ErrorKind::InvalidInput.into()),
        }
    }
}

/// The system's standard input, or the file that was opened. Of their bytes nothing is known.
// Std says of no file what bytes it has, so that its clauses name none, and it may refuse any name.
struct SystemInput<'a> {
    rt: &'a HostRuntime,
    reader: FromRead<SystemReader>,
}

impl Source for SystemInput<'_> {
    fn take(&mut self, buffer: &mut [u8]) -> Result<usize, StreamFault> {
        self.reader.take(buffer)
    }
}

impl Input for SystemInput<'_> {
    fn open(&mut self, name: &str) -> Result<(), NotOpened> {
        match File::open(self.rt, name) {
            Ok(file) => {
                self.reader = FromRead::new(reader_of(file));
                Ok(())
            }
            Err(_) => {
                self.reader.count_unopened();
                Err(NotOpened)
            }
        }
    }
}

/// The program's status.
fn status_of(rt: &HostRuntime) -> Result<u8, WordsFault> {
    let words = given_words(rt)?;
    let texts: Vec<&str> = words.iter().map(|word| word.as_str()).collect_in(rt.alloc())?;
    let mut input = SystemInput {
        rt,
        reader: FromRead::new(SystemReader::Standard(rt.stdin())),
    };
    let mut out = ToWrite::new(rt.stdout());
    let mut err = ToWrite::new(rt.stderr());
    Ok(run_words(rt.alloc(), texts.as_slice(), &mut input, &mut out, &mut err))
}

fn main(rt: HostRuntime) -> ExitCode {
    match status_of(&rt) {
        Ok(status) => ExitCode::from(status),
        Err(fault) => ExitCode::from(fault.say(&[], &mut ToWrite::new(rt.stderr()))),
    }
}

kit_std::entry!(crate::main);
