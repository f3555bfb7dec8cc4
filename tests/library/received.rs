//! Reads what receivers.py prints, and sees that the crate for Rust tells the same of what the receiver of each page
//! counted: received <LINES
//!
//! Prints how many pages were tried, how many of them are there, and how many numbers these have.
use faxpages::{Error, Fax};
use std::io::BufRead;
use std::str::SplitWhitespace;

/// The statuses of a page that is there, and of a fault.
const DONE: u32 = 0;
const FAULT: u32 = 2;

fn number(words: &mut SplitWhitespace<'_>) -> u32 {
    words.next().unwrap().parse().unwrap()
}

/// A number that a page may have, or `-`.
fn some_number(words: &mut SplitWhitespace<'_>) -> Option<u32> {
    words.next().unwrap().parse().ok()
}

fn bytes(words: &mut SplitWhitespace<'_>) -> Vec<u8> {
    let digits = words.next().unwrap().trim_matches('-').as_bytes();
    digits.chunks(2).map(|two| u8::from_str_radix(std::str::from_utf8(two).unwrap(), 16).unwrap()).collect()
}

/// The page of a line: how many numbers it has, or none where there is no page.
fn see(words: &mut SplitWhitespace<'_>) -> Option<usize> {
    let (page, status, fault, tag) = (number(words), number(words), number(words), number(words));
    let wanted = [some_number(words), some_number(words), some_number(words)];
    let file = bytes(words);
    match Fax::new(&file).received(page) {
        Ok(found) => {
            assert_eq!((status, [found.bad_rows, found.clean, found.consecutive]), (DONE, wanted));
            Some(wanted.iter().flatten().count())
        }
        Err(Error::Fault { page: at, row: 0, fault: found, .. }) => {
            assert!(at <= page);
            assert_eq!((status, found.number(), found.tag().unwrap_or(0)), (FAULT, fault, tag));
            None
        }
        Err(error) => {
            assert_eq!(error, Error::Outside);
            assert!(status != DONE && status != FAULT);
            None
        }
    }
}

fn main() {
    let lines = std::io::stdin().lock().lines().map(Result::unwrap);
    let found: Vec<_> = lines.map(|line| see(&mut line.split_whitespace())).collect();
    let there: Vec<_> = found.iter().flatten().collect();
    println!("{} pages, {} there, {} numbers", found.len(), there.len(), there.iter().copied().sum::<usize>());
}
