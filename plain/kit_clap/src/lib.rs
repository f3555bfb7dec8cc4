// Made by tools/plain-rust of tools/plain/kit_clap/src/lib.rs: change that.
//! The calls of clap that `faxpages` makes as the Rattle kit has them, over clap 4.
//!
//! The kit's clap answers an error where memory is refused. Clap 4 has no way to: from the first
//! command that is made until the words are read the allocator ends the program at a refusal, with
//! the line and the status that such an answer has (`kit_std::refusing`).
#![forbid(unsafe_code)]

use kit_std::alloc::{AllocError, Global};
use kit_std::refusing::set_final;
use std::any::Any;
use std::marker::PhantomData;

pub use clap::ArgAction;

/// What the values of an argument may be.
pub mod builder {
    use std::marker::PhantomData;
    use std::ops::RangeBounds;

    /// A number of 32 bits within a range.
    pub struct ValueParser<'a>(
        pub(crate) clap::builder::RangedI64ValueParser<u32>,
        PhantomData<&'a str>,
    );

    impl ValueParser<'_> {
        /// Any number of 32 bits.
        pub fn of_u32() -> Self {
            ValueParser(clap::value_parser!(u32), PhantomData)
        }

        /// The numbers of a range.
        pub fn range(self, range: impl RangeBounds<i64>) -> Self {
            ValueParser(self.0.range(range), self.1)
        }
    }
}

/// `value_parser!(u32)`: what reads a number of 32 bits.
#[macro_export]
macro_rules! value_parser {
    (u32) => {
        $crate::builder::ValueParser::of_u32()
    };
}

/// Why words are refused.
pub mod error {
    #[derive(Clone, Copy, Debug, PartialEq, Eq)]
    pub enum ErrorKind {
        /// A growth was refused.
        OutOfMemory,
        /// They are not those of a command.
        Words,
    }
}

/// Words that were refused.
#[derive(Clone, Copy, Debug)]
pub struct Error(error::ErrorKind);

impl Error {
    pub fn kind(&self) -> error::ErrorKind {
        self.0
    }
}

impl From<AllocError> for Error {
    fn from(_error: AllocError) -> Self {
        Error(error::ErrorKind::OutOfMemory)
    }
}

/// An argument of a command.
pub struct Arg<'a>(clap::Arg, PhantomData<&'a str>);

impl<'a> Arg<'a> {
    /// An argument of this name. It has no option's name yet, and so is a word by its place.
    pub fn new(_alloc: Global, name: &'a str) -> Self {
        set_final(true);
        Arg(clap::Arg::new(name.to_owned()), PhantomData)
    }

    pub fn long(self, name: &'a str) -> Self {
        Arg(self.0.long(name.to_owned()), self.1)
    }

    pub fn short(self, name: char) -> Self {
        Arg(self.0.short(name), self.1)
    }

    pub fn required(self, is_required: bool) -> Self {
        Arg(self.0.required(is_required), self.1)
    }

    pub fn action(self, action: ArgAction) -> Self {
        Arg(self.0.action(action), self.1)
    }

    pub fn value_parser(self, parser: builder::ValueParser<'a>) -> Self {
        Arg(self.0.value_parser(parser.0), self.1)
    }
}

/// A command, with its arguments and the commands under it.
pub struct Command<'a>(clap::Command, PhantomData<&'a str>);

impl<'a> Command<'a> {
    pub fn new(_alloc: Global, name: &'a str) -> Self {
        set_final(true);
        Command(clap::Command::new(name.to_owned()), PhantomData)
    }

    /// # Errors
    ///
    /// None here: a refusal ends the program.
    pub fn arg(self, arg: Arg<'a>) -> Result<Self, AllocError> {
        Ok(Command(self.0.arg(arg.0), self.1))
    }

    /// # Errors
    ///
    /// None here: a refusal ends the program.
    pub fn subcommand(self, command: Command<'a>) -> Result<Self, AllocError> {
        Ok(Command(self.0.subcommand(command.0), self.1))
    }

    pub fn disable_help_flag(self, is_disabled: bool) -> Self {
        Command(self.0.disable_help_flag(is_disabled), self.1)
    }

    pub fn disable_help_subcommand(self, is_disabled: bool) -> Self {
        Command(self.0.disable_help_subcommand(is_disabled), self.1)
    }

    pub fn subcommand_required(self, is_required: bool) -> Self {
        Command(self.0.subcommand_required(is_required), self.1)
    }

    /// Reads words, the program's name first.
    ///
    /// # Errors
    ///
    /// `Words` where they are not those of the command.
    pub fn try_get_matches_from(self, words: &[&str]) -> Result<ArgMatches, Error> {
        let found = self
            .0
            .try_get_matches_from(words.iter().map(|word| word.to_string()));
        // What clap says of refused words is let go before memory may be refused again.
        let answer = found
            .map(ArgMatches::new)
            .map_err(|_| Error(error::ErrorKind::Words));
        set_final(false);
        answer
    }
}

/// What the words gave.
pub struct ArgMatches {
    found: clap::ArgMatches,
    command: Option<(String, Box<ArgMatches>)>,
}

impl ArgMatches {
    fn new(mut found: clap::ArgMatches) -> Self {
        let command = found.remove_subcommand();
        let command = command.map(|(name, found)| (name, Box::new(ArgMatches::new(found))));
        ArgMatches { found, command }
    }

    /// The command that was named, and what its words gave.
    pub fn subcommand(&self) -> Option<(&str, &ArgMatches)> {
        self.command
            .as_ref()
            .map(|(name, found)| (name.as_str(), &**found))
    }

    /// The text of an argument that has no parser.
    pub fn get_str(&self, name: &str) -> Option<&str> {
        self.found.get_one::<String>(name).map(String::as_str)
    }

    /// The value of an argument that has a parser.
    pub fn get_one<T: Any + Clone + Copy + Send + Sync>(&self, name: &str) -> Option<T> {
        self.found.get_one::<T>(name).copied()
    }

    /// Whether a flag was given.
    pub fn get_flag(&self, name: &str) -> bool {
        self.found.get_flag(name)
    }
}
