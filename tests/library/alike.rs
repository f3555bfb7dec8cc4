//! Reads what ends.py prints, and sees that the crate for Rust tells the same of strips whose rows nobody counted: in one
//! piece, by a check, and as their bytes come in: alike <LINES
//!
//! Prints how many strips, and how many beginnings of them, were tried.
use faxpages::{Coding, Error, FillOrder, NoteKind, Row, Strip, StripForm, StripReader};
use std::io::BufRead;
use std::str::SplitWhitespace;

const END: u32 = 1;

fn number(words: &mut SplitWhitespace<'_>) -> u32 {
    words.next().unwrap().parse().unwrap()
}

fn bytes(words: &mut SplitWhitespace<'_>) -> Vec<u8> {
    let digits = words.next().unwrap().trim_matches('-').as_bytes();
    digits.chunks(2).map(|two| u8::from_str_radix(std::str::from_utf8(two).unwrap(), 16).unwrap()).collect()
}

/// A strip of a line, and its rows.
struct Whole {
    form: StripForm,
    data: Vec<u8>,
    rows: Vec<Vec<u8>>,
}

/// How rows are wanted to end: the status, the number of a fault or 0, and the number of rows.
#[derive(Clone, Copy)]
struct Wanted {
    status: u32,
    fault: u32,
    rows: usize,
}

impl Wanted {
    fn of(words: &mut SplitWhitespace<'_>) -> Self {
        Wanted { status: number(words), fault: number(words), rows: number(words) as usize }
    }
}

fn fault_number(error: Option<&Error>) -> u32 {
    match error {
        None => 0,
        Some(Error::Fault { fault, page: 0, .. }) => fault.number(),
        Some(error) => panic!("{error}"),
    }
}

fn whole(words: &mut SplitWhitespace<'_>) -> Whole {
    let mut form = StripForm::new(0, [Coding::Mh, Coding::Mr, Coding::Mmr][number(words) as usize - 1]);
    form.order = [FillOrder::MsbFirst, FillOrder::LsbFirst][number(words) as usize - 1];
    form.width = number(words);
    let (data, wanted) = (bytes(words), Wanted::of(words));
    let rows: Vec<_> = (0..wanted.rows).map(|_| (bytes(words), words.next()).0).collect();
    let (read, errors): (Vec<_>, Vec<_>) = Strip::new(&data, form).rows().partition(Result::is_ok);
    let read: Vec<Row> = read.into_iter().map(Result::unwrap).collect();
    assert!(read.iter().map(|row| &row.packed).eq(&rows), "{data:?}: rows are others");
    let error = errors.into_iter().map(Result::unwrap_err).next();
    assert_eq!(fault_number(error.as_ref()), wanted.fault, "{data:?}");
    Whole { form, data, rows }
}

fn see_report(strip: &Whole, words: &mut SplitWhitespace<'_>) {
    let (status, rows, fault) = (number(words), number(words), number(words));
    let kinds = [NoteKind::NoEndOfBlock, NoteKind::ReturnToControl, NoteKind::DataAfterEnd, NoteKind::NotT4Choice];
    let noted: Vec<_> = kinds.into_iter().filter(|_| number(words) == 1).collect();
    let report = Strip::new(&strip.data, strip.form).check().unwrap();
    assert_eq!((report.rows, fault_number(report.fault.as_ref())), (rows, fault), "{:?}", strip.data);
    assert!(report.notes.iter().map(|note| note.kind).eq(noted), "{:?}", strip.data);
    assert_eq!(report.end_mark, status == END, "{:?}", strip.data);
}

/// A reader that is fed a byte at a time.
struct Growing {
    rows: u32,
    reader: StripReader,
    found: usize,
    length: usize,
}

impl Growing {
    fn new(strip: &Whole, rows: u32) -> Self {
        let form = StripForm { rows: (rows > 0).then_some(rows), ..strip.form };
        Growing { rows, reader: StripReader::new(form), found: 0, length: 0 }
    }

    /// What is there by the first bytes, of which the last is fed now.
    fn see(&mut self, strip: &Whole, wanted: Wanted) {
        self.reader.feed(&strip.data[self.length.saturating_sub(1)..self.length]);
        self.length += 1;
        while let Some(Ok(row)) = self.reader.next_row() {
            assert_eq!(row.packed, strip.rows[self.found]);
            self.found += 1;
        }
        let told = (self.found, fault_number(self.reader.error()));
        assert_eq!(told, (wanted.rows, wanted.fault), "{:?}", &strip.data[..self.length - 1]);
        assert_eq!(self.reader.is_ended(), wanted.status == END || wanted.fault != 0);
    }
}

fn main() {
    let (mut strips, mut beginnings) = (0, 0);
    let mut strip: Option<Whole> = None;
    let mut growing: Option<Growing> = None;
    for line in std::io::stdin().lock().lines().map(Result::unwrap) {
        let words = &mut line.split_whitespace();
        match (words.next(), &strip) {
            (Some("whole"), _) => {
                (strip, growing) = (Some(whole(words)), None);
                strips += 1;
            }
            (Some("notes"), Some(strip)) => see_report(strip, words),
            (Some("part"), Some(strip)) => {
                let rows = number(words);
                let current = growing.take().filter(|growing| growing.rows == rows);
                let mut current = current.unwrap_or_else(|| Growing::new(strip, rows));
                current.see(strip, Wanted::of(words));
                growing = Some(current);
                beginnings += 1;
            }
            _ => {}
        }
    }
    println!("{strips} strips, {beginnings} beginnings of them");
}
