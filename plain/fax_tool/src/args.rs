// Made by tools/plain-rust of crates/fax_tool/src/args.rt: change that.
//! The words of a command line.

use kit_std::prelude::String;

use crate::streams::Sink;
use crate::streams::transfer::{RetryCount, write_all};
use clap::builder::ValueParser;
use clap::error::ErrorKind;
use clap::{Arg, ArgAction, ArgMatches, value_parser};
use fax_bits::{FillOrder, Memory};
use fax_walk::{Cursor, LongCursor, LongFault, NotACursor, Options, Target, WalkStart};
use kit_std::alloc::{AllocError, Global};
use thiserror::Error;

/// What is to be done, and with which file.
#[derive(Debug)]
pub struct Job {
    pub command: Command,
    /// The file to read, or `None` for standard input.
    pub file: Option<String>,
}

#[derive(Debug)]
pub enum Command {
    /// Prints the form of each page.
    List(Selection),
    /// Prints the runs of each row.
    Rows(Selection),
    /// Writes the pages in another form.
    Convert(Options),
    /// Prints what is worth a note.
    Check {
        /// Whether what receivers counted of bad rows is among it.
        received: bool,
    },
    /// Prints the rows that stand between their EOLs, and which are lost.
    Salvage,
    /// Writes the pages that are left in another form, with white paper in place of lost rows.
    SalvageFile(Options),
    /// Prints the version, and reads nothing.
    Version,
}

/// The part of a file's pages or rows that is printed.
// It is lent and not copied, since it may hold a long cursor. What the walk needs of it is copied
// before the input is read.
#[derive(Debug)]
pub struct Selection {
    /// Where to begin: at page 0, row 0 where no cursor is named; where a long one is, at its row.
    pub cursor: Cursor,
    /// The most lines of pages or rows, or `None` for all.
    pub max: Option<u32>,
    /// Whether `next` names a long cursor where there is one. `list` has none.
    pub long: bool,
    /// The long cursor to begin at in its strip, if one is named, in place of `cursor`. `list` has
    /// none.
    pub from: Option<LongCursor>,
}

impl Selection {
    /// The cursor to begin at, of the long cursor where one is named.
    // ensures { result ≡ start_cursor (origin_of self.now) }
    pub fn begin(&self) -> Cursor {
        match &self.from {
            Some(from) => from.at,
            None => self.cursor,
        }
    }

    /// What the rows begin with.
    ///
    /// # Errors
    ///
    /// `Memory` where a growth was refused.
    // ensures { IfOk result (λ origin. origin ≡ origin_of self.now) }
    pub fn origin(&self) -> Result<WalkStart, Memory> {
        match &self.from {
            Some(from) => Ok(WalkStart::AtLongCursor(LongCursor {
                at: from.at,
                bits: from.bits,
                runs: from.runs.clone().map_err(|_| Memory)?,
            })),
            None => Ok(WalkStart::AtCursor(self.cursor)),
        }
    }
}

/// Why no job was made of the words.
#[derive(Clone, Copy, Debug, PartialEq, Eq, Error)]
pub enum WordsFault {
    /// The words are not those of a command, or ask for help.
    #[error("not the words of a command")]
    Usage,
    /// The text of `--cursor` is not a cursor's.
    #[error("not a cursor")]
    NotACursor,
    /// A growth was refused.
    #[error("out of memory")]
    Memory,
}

/// The most rows of a strip, and the greatest K.
const MOST_ROWS: i64 = 1_000_000;

/// K where none is given.
const USUAL_K: u32 = 4;

/// The four lines of the usage, which has the commands that were there first.
const USAGE: &str = "\
usage: faxpages list [--cursor C] [--max N] [FILE]
       faxpages rows [--cursor C] [--max N] [--long] [FILE]
       faxpages convert -o pbm|mh|mr|mmr [--order 1|2] [--k K] [--strip ROWS] [--align] [FILE]
       faxpages check [FILE]
";

/// The usage of `salvage`.
const SALVAGE_USAGE: &str = "\
usage: faxpages salvage [-o pbm|mh|mr|mmr [--order 1|2] [--k K] [--strip ROWS] [--align]] [FILE]
";

/// Whether words name `salvage`.
// ensures { result ≡ names_salvage (texts words.now) }
fn name_salvage(words: &[&str]) -> bool {
    match words {
        [_, name, ..] => *name == "salvage",
        _ => false,
    }
}

/// The usage for words: that of `salvage` where they name it.
// ensures { result.now ≡ usage_for (texts words.now) }
fn usage_for(words: &[&str]) -> &'static str {
    // The four lines were asked for before there was `salvage`, and stay for all other words. Words
    // that are not UTF-8 have the four lines, since nothing is read of them.
    if name_salvage(words) {
        SALVAGE_USAGE
    } else {
        USAGE
    }
}

impl WordsFault {
    /// The text for the error stream, with its line ends, and the program's status, for these
    /// words.
    // ensures text { result.0.now ≡ words_text (texts words.now) self.now }
    // ensures status { result.1 ≡ words_status self.now }
    pub fn text(&self, words: &[&str]) -> (&'static str, u8) {
        match self {
            WordsFault::Usage => (usage_for(words), 2),
            WordsFault::NotACursor => ("fault cursor: NotACursor\n", 2),
            WordsFault::Memory => ("fault: Memory\n", 3),
        }
    }

    /// Says the text for these words on the error stream, and answers the status, also where the
    /// stream fails.
    // requires { E.counts err.old ≡ no_faults }
    // ensures status { result ≡ words_status self.now }
    // ensures said { HasFailed (E.counts err.new)
    //     ⊎ Appends (E.written err.old) (E.written err.new)
    //     (words_text (texts words.now) self.now) }
    pub fn say<E: Sink>(&self, words: &[&str], err: &mut E) -> u8 {
        let (text, status) = self.text(words);
        let mut interruptions = RetryCount::NONE;
        match write_all(err, &mut interruptions, text.as_bytes()) {
            Ok(()) | Err(_) => status,
        }
    }
}

impl From<AllocError> for WordsFault {
    fn from(_error: AllocError) -> Self {
        WordsFault::Memory
    }
}

impl From<clap::Error> for WordsFault {
    fn from(error: clap::Error) -> Self {
        match error.kind() {
            ErrorKind::OutOfMemory => WordsFault::Memory,
            _ => WordsFault::Usage,
        }
    }
}

impl From<NotACursor> for WordsFault {
    fn from(_fault: NotACursor) -> Self {
        WordsFault::NotACursor
    }
}

impl From<LongFault> for WordsFault {
    fn from(fault: LongFault) -> Self {
        match fault {
            LongFault::NotACursor => WordsFault::NotACursor,
            LongFault::Memory => WordsFault::Memory,
        }
    }
}

/// A command that prints a part of a file, line by line.
// ensures { IfOk result (λ c. IsApp c (printing_app name.entry.now)) }
fn printing<'a>(alloc: Global, name: &'a str) -> Result<clap::Command<'a>, AllocError> {
    let max = number(alloc, "max", value_parser!(u32).range(1..));
    clap::Command::new(alloc, name)
        .disable_help_flag(true)
        .arg(Arg::new(alloc, "cursor").long("cursor"))?
        .arg(max)?
        .arg(Arg::new(alloc, "FILE"))
}

/// The command that prints rows.
// ensures { IfOk result (λ c. IsApp c rows_app) }
fn printing_rows<'a>(alloc: Global) -> Result<clap::Command<'a>, AllocError> {
    let long = Arg::new(alloc, "long")
        .long("long")
        .action(ArgAction::SetTrue);
    printing(alloc, "rows")?.arg(long)
}

/// An option with a number that the parser takes.
// ensures rule { rule_of result ≡ value_rule name.entry.now parser.entry }
// ensures local { result.global ≡ false }
fn number<'a>(alloc: Global, name: &'a str, parser: ValueParser<'a>) -> Arg<'a> {
    Arg::new(alloc, name).long(name).value_parser(parser)
}

/// A command that writes pages, with the options that say how rows are coded.
// ensures { IfOk result (λ c. IsApp c (coding_app name.entry.now)) }
fn coding<'a>(alloc: Global, name: &'a str) -> Result<clap::Command<'a>, AllocError> {
    let target = Arg::new(alloc, "o").short('o');
    clap::Command::new(alloc, name)
        .disable_help_flag(true)
        .arg(target)?
        .arg(number(alloc, "order", value_parser!(u32).range(1..=2)))?
        .arg(number(alloc, "k", value_parser!(u32).range(1..=MOST_ROWS)))
}

/// A command that writes pages in another form.
// ensures { IfOk result (λ c. IsApp c (writing_app name.entry.now)) }
fn writing<'a>(alloc: Global, name: &'a str) -> Result<clap::Command<'a>, AllocError> {
    let align = Arg::new(alloc, "align")
        .long("align")
        .action(ArgAction::SetTrue);
    coding(alloc, name)?
        .arg(number(alloc, "strip", value_parser!(u32).range(1..=MOST_ROWS)))?
        .arg(align)?
        .arg(Arg::new(alloc, "FILE"))
}

/// A command whose words name a file alone.
// ensures { IfOk result (λ c. IsApp c (file_app name.entry.now)) }
fn reading<'a>(alloc: Global, name: &'a str) -> Result<clap::Command<'a>, AllocError> {
    clap::Command::new(alloc, name)
        .disable_help_flag(true)
        .arg(Arg::new(alloc, "FILE"))
}

/// The command that prints what is worth a note.
// ensures { IfOk result (λ c. IsApp c check_app) }
fn checking<'a>(alloc: Global) -> Result<clap::Command<'a>, AllocError> {
    let received = Arg::new(alloc, "received")
        .long("received")
        .action(ArgAction::SetTrue);
    reading(alloc, "check")?.arg(received)
}

/// The program, with the commands that print a part of a file.
// ensures { IfOk result (λ c. IsApp c printers_app) }
fn printers<'a>(alloc: Global) -> Result<clap::Command<'a>, AllocError> {
    clap::Command::new(alloc, "faxpages")
        .disable_help_flag(true)
        .disable_help_subcommand(true)
        .subcommand_required(true)
        .subcommand(printing(alloc, "list")?)?
        .subcommand(printing_rows(alloc)?)
}

/// The command line of the program.
// ensures { IfOk result (λ c. IsApp c faxpages_app) }
fn command_line<'a>(alloc: Global) -> Result<clap::Command<'a>, AllocError> {
    printers(alloc)?
        .subcommand(writing(alloc, "convert")?)?
        .subcommand(checking(alloc)?)?
        .subcommand(writing(alloc, "salvage")?)
}

/// The file among the words after a command.
// ensures { IfOk result (λ file. option_map string_bytes file
//     ≡ first_of (codes "FILE") (entries_of matches.now)) }
fn file_of(alloc: Global, matches: &ArgMatches) -> Result<Option<String>, AllocError> {
    match matches.get_str("FILE") {
        Some(name) => Ok(Some(String::from_str(alloc, name)?)),
        None => Ok(None),
    }
}

/// The part of a file's pages that the words after `list` name.
// requires { HasNumber (codes "max") most_lines (entries_of matches.now) }
// ensures ok { IfOk result (λ part. IsPart (given_by (entries_of matches.now)) false part
//     × (part.from ≡ None)) }
// ensures cursor { IfOk result (λ part. IsCursor part.cursor) }
// ensures err { OnErr result ((text : Text)
//     × (first_of (codes "cursor") (entries_of matches.now) ≡ Some text) × IsNoCursor text) }
fn pages_of(matches: &ArgMatches) -> Result<Selection, NotACursor> {
    let cursor = match matches.get_str("cursor") {
        Some(text) => Cursor::parse(text)?,
        None => Cursor { page: 0, row: 0 },
    };
    Ok(Selection {
        cursor,
        max: matches.get_one::<u32>("max"),
        long: false,
        from: None,
    })
}

/// The part of a file's rows that the words after `rows` name, where the cursor may be a long one.
// requires max { HasNumber (codes "max") most_lines (entries_of matches.now) }
// requires long { HasFlag (codes "long") (entries_of matches.now) }
// ensures ok { IfOk result (λ part. IsPart (given_by (entries_of matches.now))
//     (is_set (codes "long") (given_by (entries_of matches.now))) part) }
// ensures cursor { IfOk result (λ part. IsCursor part.cursor) }
// ensures from { IfOk result (λ part. IfSome part.from IsLongCursor) }
// ensures err { IfErr result (λ fault. (fault ≢ BadWords)
//     × (fault ≡ WordsFault.NotACursor → (text : Text)
//     × (first_of (codes "cursor") (entries_of matches.now) ≡ Some text)
//     × IsNoCursor text × IsNoLongCursor text)) }
fn rows_of(alloc: Global, matches: &ArgMatches) -> Result<Selection, WordsFault> {
    let (cursor, from) = match matches.get_str("cursor") {
        Some(text) => match Cursor::parse(text) {
            Ok(cursor) => (cursor, None),
            Err(NotACursor) => {
                let from = LongCursor::parse(alloc, text)?;
                (from.at, Some(from))
            }
        },
        None => (Cursor { page: 0, row: 0 }, None),
    };
    Ok(Selection {
        cursor,
        max: matches.get_one::<u32>("max"),
        long: matches.get_flag("long"),
        from,
    })
}

/// What the word after `-o` names, if it names a target.
// ensures { result ≡ target_in (given_by (entries_of matches.now)) }
fn target_of(matches: &ArgMatches) -> Option<Target> {
    // To clap that word is any text: a list of values would be a borrowed slice there, and the
    // command would equal no written-out one. The answer is `Usage` in both cases.
    match matches.get_str("o")? {
        "pbm" => Some(Target::Pbm),
        "mh" => Some(Target::Mh),
        "mr" => Some(Target::Mr),
        "mmr" => Some(Target::Mmr),
        _ => None,
    }
}

/// Which bit of a byte is to be first.
// requires { HasNumber (codes "order") 2 (entries_of matches.now) }
// ensures { result ≡ order_by (number_in (codes "order") (given_by (entries_of matches.now))) }
fn order_of(matches: &ArgMatches) -> FillOrder {
    let order = matches.get_one::<u32>("order").unwrap_or(1);
    if order == 2 {
        FillOrder::LsbFirst
    } else {
        FillOrder::MsbFirst
    }
}

/// Whether rows of this target have EOLs.
// ensures some { result ≡ true → (target ≢ Pbm) × (target ≢ Mmr) }
// ensures none { result ≡ false → (target ≡ Pbm) ⊎ (target ≡ Mmr) }
fn has_eols(target: Target) -> bool {
    match target {
        Target::Mh | Target::Mr => true,
        Target::Pbm | Target::Mmr => false,
    }
}

/// How the words after a command want the pages written, unless they name no target, or one that
/// has no EOLs where these are to be aligned.
// requires { HasOptions (entries_of matches.now) }
// ensures some { IfSome result (λ options.
//     AreOptions (given_by (entries_of matches.now)) options) }
// ensures none { result ≡ None → HasNoTarget (given_by (entries_of matches.now)) }
fn options_of(matches: &ArgMatches) -> Option<Options> {
    let target = target_of(matches)?;
    let aligned = matches.get_flag("align");
    if aligned && !has_eols(target) {
        return None;
    }
    Some(Options {
        target,
        order: order_of(matches),
        k: matches.get_one::<u32>("k").unwrap_or(USUAL_K),
        strip: matches.get_one::<u32>("strip"),
        aligned,
    })
}

/// Whether the words say how pages are to be written, but for the target.
// requires { HasOptions (entries_of matches.now) }
// ensures { result ≡ says_how (given_by (entries_of matches.now)) }
fn have_options(matches: &ArgMatches) -> bool {
    let order = matches.get_one::<u32>("order");
    let k = matches.get_one::<u32>("k");
    let strip = matches.get_one::<u32>("strip");
    let aligned = matches.get_flag("align");
    order.is_some() || k.is_some() || strip.is_some() || aligned
}

/// What the words after `salvage` ask for: the lines of what is left, where they say nothing of how
/// pages are to be written, or the pages in a form.
// requires { HasOptions (entries_of matches.now) }
// ensures some { IfSome result (λ command.
//     IsCommand (codes "salvage") (given_by (entries_of matches.now)) command) }
// ensures cursors { IfSome result HasCursors }
// ensures none { result ≡ None → IsNoUse (codes "salvage") (given_by (entries_of matches.now)) }
fn salvage_of(matches: &ArgMatches) -> Option<Command> {
    if matches.get_str("o").is_none() && !have_options(matches) {
        return Some(Command::Salvage);
    }
    Some(Command::SalvageFile(options_of(matches)?))
}

/// Whether the words after `check` ask for what receivers counted.
// requires { HasFlag (codes "received") (entries_of matches.now) }
// ensures { result ≡ is_set (codes "received") (given_by (entries_of matches.now)) }
fn ask_for_received(matches: &ArgMatches) -> bool {
    matches.get_flag("received")
}

/// The command of this name, as the words after it want it.
// requires { HasEntries name.now (entries_of matches.now) }
// ensures command { IfOk result (λ command.
//     IsCommand name.now (given_by (entries_of matches.now)) command) }
// ensures cursors { IfOk result (λ command. HasCursors command) }
// ensures fault { IfErr result (λ fault.
//     IsCommandFault name.now (given_by (entries_of matches.now)) fault) }
fn command_of(alloc: Global, name: &str, matches: &ArgMatches) -> Result<Command, WordsFault> {
    match name {
        "list" => Ok(Command::List(pages_of(matches)?)),
        "rows" => Ok(Command::Rows(rows_of(alloc, matches)?)),
        "convert" => match options_of(matches) {
            Some(options) => Ok(Command::Convert(options)),
            None => Err(WordsFault::Usage),
        },
        "check" => Ok(Command::Check {
            received: ask_for_received(matches),
        }),
        "salvage" => match salvage_of(matches) {
            Some(command) => Ok(command),
            None => Err(WordsFault::Usage),
        },
        _ => Err(WordsFault::Usage),
    }
}

/// Whether the words ask for the version: `--version`, alone.
// ensures some { result ≡ true → AskForVersion (texts words.now) }
// ensures none { result ≡ false → ¬ AskForVersion (texts words.now) }
fn ask_for_version(words: &[&str]) -> bool {
    // Beside any other word, and after a command's name, it is refused. It is no command of the
    // grammar, and clap is not asked.
    match words {
        [_, word] => *word == "--version",
        _ => false,
    }
}

/// Looks at each word, and so sees that it is UTF-8, as the grammar has it.
// ensures { All IsUtf8 (texts words.now) }
fn see_texts(words: &[&str]) {
    for word in words {
        let _seen = word.as_bytes();
    }
}

/// The job of a command that the words name, the program's own name first.
// ensures job { IfOk result (λ job. IsJobOfCommand (texts words.now) job) }
// ensures fault { IfErr result (λ fault. IsJobFault (texts words.now) fault) }
fn job_of(alloc: Global, words: &[&str]) -> Result<Job, WordsFault> {
    see_texts(words);
    let matches = command_line(alloc)?.try_get_matches_from(words)?;
    let Some((name, of_command)) = matches.subcommand() else {
        return Err(WordsFault::Usage);
    };
    Ok(Job {
        command: command_of(alloc, name, of_command)?,
        file: file_of(alloc, of_command)?,
    })
}

/// The job that the words name, the program's own name first.
///
/// # Errors
///
/// `Usage` where the words are not those of a command, a request for help included, nor ask for the
/// version, or `-o` names no target, or `--align` meets one that has no EOLs, or `salvage` has an
/// option without `-o`. `NotACursor` where
/// the words are those of a command, but for the text of `--cursor`. `Memory` where a growth was
/// refused.
// ensures job { IfOk result (λ job. IsJob (texts words.now) job) }
// ensures fault { IfErr result (λ fault. IsFault (texts words.now) fault) }
pub fn parse_words(alloc: Global, words: &[&str]) -> Result<Job, WordsFault> {
    if ask_for_version(words) {
        return Ok(Job {
            command: Command::Version,
            file: None,
        });
    }
    job_of(alloc, words)
}
