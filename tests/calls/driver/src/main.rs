//! Reads a table of calls on standard input, one call a line, makes each call, and compares its
//! answer with the one that the line says. It prints each line that is wrong, and how many were
//! right. `tests/calls/README.md` says how a line is written.
#![forbid(unsafe_code)]

mod codes;
mod files;
mod images;
mod left;
mod rows;
mod strips;
mod table;
mod text;
mod walks;
mod words;

use std::any::Any;
use std::io::{self, BufRead};
use std::panic;
use std::process::ExitCode;
use table::{Line, WrongLine};

/// Makes the call of these words, or answers `None` where it has none of that name.
type Subject = fn(&[&str]) -> Result<Option<String>, WrongLine>;

/// The calls of each subject.
const SUBJECTS: [Subject; 7] = [
    codes::answer,
    rows::answer,
    images::answer,
    strips::answer,
    left::answer,
    files::answer,
    walks::answer,
];

/// What a call answers.
fn answer(words: &[&str]) -> Result<String, WrongLine> {
    for subject in SUBJECTS {
        if let Some(answer) = subject(words)? {
            return Ok(answer);
        }
    }
    Err(WrongLine::UnknownCall)
}

/// What a panic says.
fn said(panic: &(dyn Any + Send)) -> &str {
    match panic.downcast_ref::<String>() {
        Some(text) => text,
        None => panic.downcast_ref::<&str>().unwrap_or(&"nothing"),
    }
}

/// Makes the call of a line, and says what is wrong with it, if anything is. A call that panics is
/// one line that is wrong.
fn wrong(line: &Line) -> Option<String> {
    match panic::catch_unwind(|| answer(&line.words)) {
        Ok(Ok(came)) if came.trim() == line.wanted => None,
        Ok(Ok(came)) => Some(format!("{} answers {came}", line.call)),
        Ok(Err(why)) => Some(format!("{} is no call: {why}", line.call)),
        Err(panic) => Some(format!("{} panics: {}", line.call, said(&*panic))),
    }
}

/// How many lines are right and how many wrong; each that is wrong is printed.
fn count_lines() -> io::Result<(u64, u64)> {
    let (mut passed, mut failed) = (0, 0);
    for (number, text) in (1..).zip(io::stdin().lock().lines()) {
        let text = text?;
        let said = match Line::read(&text) {
            Ok(None) => continue,
            Ok(Some(line)) => wrong(&line),
            Err(why) => Some(format!("is no call: {why}")),
        };
        match said {
            None => passed += 1,
            Some(said) => {
                println!("line {number}: {said}");
                failed += 1;
            }
        }
    }
    Ok((passed, failed))
}

fn main() -> io::Result<ExitCode> {
    // What a call that panics says stands in its line.
    panic::set_hook(Box::new(|_| {}));
    let (passed, failed) = count_lines()?;
    println!("calls: {passed} passed, {failed} failed");
    Ok(ExitCode::from(u8::from(failed != 0)))
}
