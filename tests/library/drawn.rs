//! Reads, checks and codes the strips that drawn.py draws, by the crate for Rust: drawn <LINES
//!
//! Prints how many strips were read, checked and coded, each as the plain readers and the plain coder do.
use faxpages::{code_strip, Coding, Error, FillOrder, Row, Strip, StripForm, StripReader};
use std::io::BufRead;
use std::str::SplitWhitespace;

/// The next word, as a number.
fn number(words: &mut SplitWhitespace<'_>) -> u32 {
    words.next().unwrap().parse().unwrap()
}

/// The next word, as bytes.
fn bytes(words: &mut SplitWhitespace<'_>) -> Vec<u8> {
    let digits = words.next().unwrap().trim_matches('-').as_bytes();
    digits.chunks(2).map(|two| u8::from_str_radix(std::str::from_utf8(two).unwrap(), 16).unwrap()).collect()
}

/// The coding and the fill order that begin a line.
fn form(words: &mut SplitWhitespace<'_>) -> StripForm {
    let mut form = StripForm::new(0, [Coding::Mh, Coding::Mr, Coding::Mmr][number(words) as usize - 1]);
    form.order = [FillOrder::MsbFirst, FillOrder::LsbFirst][number(words) as usize - 1];
    form
}

/// The packed rows of an iterator, and the number of the fault that ends them, or 0.
fn until_fault(rows: impl Iterator<Item = Result<Row, Error>>) -> (Vec<Vec<u8>>, u32) {
    let mut found = Vec::new();
    for row in rows {
        match row {
            Ok(row) => {
                assert_eq!((row.page, row.number as usize), (0, found.len()));
                found.push(row.packed);
            }
            Err(Error::Fault { fault, row, .. }) => {
                assert_eq!(row as usize, found.len());
                return (found, fault.number());
            }
            Err(error) => panic!("{error}"),
        }
    }
    (found, 0)
}

/// The same of a strip that comes in pieces of some bytes.
fn in_pieces(strip: &[u8], form: StripForm, size: usize) -> (Vec<Vec<u8>>, u32) {
    let mut reader = StripReader::new(form);
    let mut pieces = strip.chunks(size);
    let (found, fault) = until_fault(std::iter::from_fn(|| loop {
        match (reader.next_row(), reader.is_ended()) {
            (Some(row), _) => return Some(row),
            (None, true) => return None,
            (None, false) => match pieces.next() {
                Some(piece) => reader.feed(piece),
                None => reader.close(),
            },
        }
    }));
    assert_eq!((reader.rows() as usize, reader.is_ended(), reader.next_row()), (found.len(), true, None));
    assert_eq!(reader.error().is_none(), fault == 0);
    assert_eq!(reader.lost(), form.rows.map(|rows| rows - reader.rows()));
    (found, fault)
}

/// A strip that is read from its beginning; another one is left out.
fn read(words: &mut SplitWhitespace<'_>) -> bool {
    let mut form = form(words);
    (form.width, form.rows) = (number(words), Some(number(words)));
    let strip = bytes(words);
    if (number(words), number(words), words.next()) != (0, 0, Some("-")) {
        return false;
    }
    let (fault, count) = (number(words), number(words));
    let rows: Vec<_> = (0..count).map(|_| (bytes(words), words.next()).0).collect();
    assert_eq!(until_fault(Strip::new(&strip, form).rows()), (rows.clone(), fault));
    for size in [1, 7, strip.len() + 1] {
        assert_eq!(in_pieces(&strip, form, size), (rows.clone(), fault));
    }
    true
}

/// A strip that is checked, and read in pieces of one byte.
fn check(words: &mut SplitWhitespace<'_>) {
    let mut form = form(words);
    (form.width, form.rows) = (number(words), Some(number(words)));
    let (strip, rows, fault) = (bytes(words), number(words), number(words));
    let notes: Vec<_> = (1..=4).filter(|_| number(words) == 1).collect();
    let report = Strip::new(&strip, form).check().unwrap();
    let told = report.fault.map(|fault| match fault {
        Error::Fault { fault, .. } => fault.number(),
        other => panic!("{other}"),
    });
    assert_eq!((report.rows, told.unwrap_or(0)), (rows, fault));
    assert_eq!(report.notes.iter().map(|note| note.kind.number()).collect::<Vec<_>>(), notes);
    let (found, number) = in_pieces(&strip, form, 1);
    assert_eq!((found.len() as u32, number), (rows, fault));
}

/// A strip that is coded.
fn code(words: &mut SplitWhitespace<'_>) {
    let mut form = form(words);
    form.aligned = number(words) == 1;
    let k = number(words);
    form.width = number(words);
    let (strip, count) = (bytes(words), number(words));
    let rows: Vec<_> = (0..count).map(|_| bytes(words)).collect();
    let stride = form.width.div_ceil(8) as usize;
    assert_eq!(code_strip(&form, k, &rows.concat(), stride).unwrap(), strip);
    assert_eq!(until_fault(Strip::new(&strip, form).rows()), (rows, 0));
}

fn main() {
    let mut counts = [0; 3];
    for line in std::io::stdin().lock().lines() {
        let line = line.unwrap();
        let mut words = line.split_whitespace();
        match words.next() {
            Some("read") => counts[0] += usize::from(read(&mut words)),
            Some("notes") => (check(&mut words), counts[1] += 1).1,
            _ => (code(&mut words), counts[2] += 1).1,
        }
    }
    println!("{} read, {} checked, {} coded", counts[0], counts[1], counts[2]);
}
