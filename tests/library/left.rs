//! Reads what damaged.py prints, and sees that the crate for Rust finds the same of each strip and page: left <LINES
//!
//! Prints how many strips and pages were tried, and how many pages are refused.
use faxpages::{Coding, Error, Fax, FillOrder, Left, Salvaged, Strip, StripForm};
use std::io::BufRead;
use std::str::SplitWhitespace;

/// The status of rows after which an end mark stands.
const END: u32 = 1;

fn number(words: &mut SplitWhitespace<'_>) -> u32 {
    words.next().unwrap().parse().unwrap()
}

fn bytes(words: &mut SplitWhitespace<'_>) -> Vec<u8> {
    let digits = words.next().unwrap().trim_matches('-').as_bytes();
    digits.chunks(2).map(|two| u8::from_str_radix(std::str::from_utf8(two).unwrap(), 16).unwrap()).collect()
}

/// The rows and the stretches of a line are those that were found.
fn see(left: &Salvaged, rows: u32, words: &mut SplitWhitespace<'_>) {
    let packed: Vec<_> = (0..rows).flat_map(|_| bytes(words)).collect();
    assert_eq!(left.packed, packed);
    let count = number(words);
    let lost: Vec<_> = (0..count).map(|_| (number(words), number(words), number(words))).collect();
    let found: Vec<_> = left.lost.iter().map(|it| (it.first, it.rows, it.fault.number())).collect();
    assert_eq!(found, lost);
    let is_lost = |row: &u32| lost.iter().any(|(first, rows, _)| (*first..first + rows).contains(row));
    assert!((0..rows).all(|row| left.is_lost(row) == is_lost(&row)));
    assert_eq!((left.rows().len(), left.found()), (rows as usize, (0..rows).filter(|row| !is_lost(row)).count()));
}

fn strip(words: &mut SplitWhitespace<'_>) {
    let coding = [Coding::Mh, Coding::Mr, Coding::Mmr][number(words) as usize - 1];
    let order = [FillOrder::MsbFirst, FillOrder::LsbFirst][number(words) as usize - 1];
    let mut form = StripForm::new(number(words), coding);
    let rows = number(words);
    (form.order, form.rows) = (order, Some(rows));
    let left = Strip::new(&bytes(words), form).salvaged().unwrap();
    assert_eq!(left.width, form.width);
    see(&left, rows, words);
}

/// A strip whose rows nobody counted, and how they end.
fn uncounted(words: &mut SplitWhitespace<'_>) {
    let coding = [Coding::Mh, Coding::Mr, Coding::Mmr][number(words) as usize - 1];
    let order = [FillOrder::MsbFirst, FillOrder::LsbFirst][number(words) as usize - 1];
    let form = StripForm { order, ..StripForm::new(number(words), coding) };
    let left = Strip::new(&bytes(words), form).salvaged().unwrap();
    let (status, fault, rows) = (number(words), number(words), number(words));
    assert_eq!(left.width, form.width);
    assert_eq!((left.end_mark, left.fault.map_or(0, |fault| fault.number())), (status == END, fault));
    see(&left, rows, words);
}

fn page(words: &mut SplitWhitespace<'_>) {
    let (page, width, rows, file) = (number(words), number(words), number(words), bytes(words));
    let left = Fax::new(&file).salvaged(page).unwrap();
    assert_eq!(left.width, width);
    see_pieces(&file, page, &left);
    see(&left, rows, words);
}

/// The same is left of a page row by row.
fn see_pieces(file: &[u8], page: u32, left: &Salvaged) {
    let (mut row, mut lost) = (0, left.lost.iter());
    for found in Fax::new(file).salvaged_rows(page).unwrap() {
        match found.unwrap() {
            Left::Row(found) => {
                assert_eq!((found.page, found.number, found.width), (page, row, left.width));
                assert_eq!(Some(&found.packed[..]), left.rows().nth(row as usize));
                row += 1;
            }
            Left::Lost(found) => {
                assert_eq!((found.first, Some(&found)), (row, lost.next()));
                row += found.rows;
            }
        }
    }
    assert_eq!((row as usize, lost.next()), (left.rows().len(), None));
}

fn refused(words: &mut SplitWhitespace<'_>) {
    let (number, wanted, file) = (number(words), number(words), bytes(words));
    match Fax::new(&file).salvaged(number) {
        Err(Error::Fault { page, row: 0, fault, .. }) => assert_eq!((page, fault.number()), (number, wanted)),
        other => panic!("{other:?}"),
    }
}

fn main() {
    let mut counts = [0; 3];
    for line in std::io::stdin().lock().lines().map(Result::unwrap) {
        let words = &mut line.split_whitespace();
        match words.next() {
            Some("strip") => (strip(words), counts[0] += 1).1,
            Some("uncounted") => (uncounted(words), counts[0] += 1).1,
            Some("page") => (page(words), counts[1] += 1).1,
            _ => (refused(words), counts[2] += 1).1,
        }
    }
    println!("{} strips, {} pages, {} refused", counts[0], counts[1], counts[2]);
}
