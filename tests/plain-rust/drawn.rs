//! Reads files as drawn.c does, and prints the same lines, by the crate for Rust. It has no place inside a strip: of
//! that nothing is in the sum, as drawn.c leaves it out with STRIPS_WITHOUT_PLACES. See tests/plain-rust/drawn.
use faxpages::{
    convert, Coding, Cursor, Error, Fax, FillOrder, Form, LentRow, LentRows, Options, Strip, StripForm, Target,
};
use std::io::{self, Read, Write};

const DONE: u32 = 0;
const END: u32 = 1;
const FAULT: u32 = 2;
const OUTSIDE: u32 = 3;
const NO_ROOM: u32 = 5;
const DATA_END: u32 = 9;
/// The rooms that drawn.c has.
const ROWS: usize = 7;
const OUT: usize = 1 << 18;
const PACKED: usize = 20_000;
const NUMBERS: usize = 2 * 65_536;
const NO_FAULT: [u32; 4] = [0; 4];

struct Sum(u32);

impl Sum {
    fn small(&mut self, number: u32) {
        self.0 = (self.0 ^ number).wrapping_mul(16_777_619);
    }

    fn add(&mut self, number: u64) {
        self.small(number as u32);
        self.small((number >> 32) as u32);
    }

    fn bytes(&mut self, bytes: &[u8]) {
        bytes.iter().for_each(|byte| self.small((*byte).into()));
    }

    fn numbers(&mut self, numbers: &[u32]) {
        numbers.iter().for_each(|number| self.small(*number));
    }

    fn told(&mut self, status: u32, count: usize, used: usize, at: (u32, u32), fault: [u32; 4]) {
        self.add(status.into());
        self.add(count as u64);
        self.add(used as u64);
        self.numbers(&[at.0, at.1]);
        self.numbers(&fault);
    }
}

/// The status of an error, and the numbers of its fault.
fn status_of(error: &Error) -> (u32, [u32; 4]) {
    match error {
        Error::Fault { page, row, fault } => (FAULT, [fault.number(), fault.tag().unwrap_or(0), *page, *row]),
        Error::Pbm { fault, .. } => (FAULT, [fault.number(), 0, 0, 0]),
        Error::UnknownInput => (FAULT, [301, 0, 0, 0]),
        Error::OutputTooLarge => (FAULT, [302, 0, 0, 0]),
        Error::Outside => (OUTSIDE, NO_FAULT),
        Error::NoRoom => (NO_ROOM, NO_FAULT),
        error => panic!("{error}"),
    }
}

/// What a call for rows tells: how it ended, how many rows were read, of how many numbers, and the cursor after them.
struct Told {
    status: u32,
    fault: [u32; 4],
    count: usize,
    used: usize,
    cursor: Cursor,
}

/// Reads rows from a cursor on, at most seven, as many as have room.
fn read(
    fax: Fax<'_>,
    from: Cursor,
    room: usize,
    len: fn(&LentRow<'_>) -> usize,
    mut see: impl FnMut(usize, LentRow<'_>),
) -> Told {
    let mut rows: LentRows<'_> = fax.lend_rows_at(&from);
    let mut told = Told { status: DONE, fault: NO_FAULT, count: 0, used: 0, cursor: from };
    while told.count < ROWS {
        match rows.next() {
            Ok(None) => told.status = END,
            Err(error) => (told.status, told.fault) = status_of(&error),
            Ok(Some(row)) if room - told.used < len(&row) => told.status = NO_ROOM,
            Ok(Some(row)) => {
                see(told.used, row);
                (told.count, told.used) = (told.count + 1, told.used + len(&row));
                told.cursor = rows.cursor();
                continue;
            }
        }
        break;
    }
    told
}

fn add_told(sum: &mut Sum, told: &Told) -> bool {
    sum.told(told.status, told.count, told.used, (told.cursor.page(), told.cursor.row()), told.fault);
    (told.status == DONE || told.status == NO_ROOM) && told.count > 0
}

/// All rows as bytes, some at a time, each time from the cursor after the ones before. Answers how they ended.
fn read_rows(sum: &mut Sum, fax: Fax<'_>) -> u32 {
    let mut cursor = Cursor::new(1, 0);
    loop {
        let mut seen = Vec::new();
        let told = read(fax, cursor, PACKED, |row| row.stride(), |at, row| seen.push((at, row.to_row())));
        let goes_on = add_told(sum, &told);
        for (at, row) in seen {
            sum.add(at as u64);
            sum.numbers(&[row.packed.len() as u32, row.page, row.number, row.width]);
            sum.bytes(&row.packed);
        }
        cursor = told.cursor;
        sum.numbers(&[cursor.page(), cursor.row(), cursor.bits(), cursor.runs().len() as u32]);
        sum.numbers(cursor.runs());
        if !goes_on {
            return told.status;
        }
    }
}

/// All rows as runs, and those of the first call as changing elements.
fn read_numbers(sum: &mut Sum, fax: Fax<'_>) {
    let mut at = (1, 0);
    loop {
        let mut runs = Vec::new();
        let see = |_, row: LentRow<'_>| runs.extend(row.runs());
        let told = read(fax, Cursor::new(at.0, at.1), NUMBERS, |row| row.runs().len(), see);
        at = (told.cursor.page(), told.cursor.row());
        let goes_on = add_told(sum, &told);
        sum.numbers(&runs);
        if !goes_on {
            break;
        }
    }
    let mut changes = Vec::new();
    let see = |_, row: LentRow<'_>| changes.extend_from_slice(row.changes());
    let told = read(fax, Cursor::new(1, 0), NUMBERS, |row| row.changes().len(), see);
    add_told(sum, &told);
    sum.numbers(&changes);
}

fn add_form(sum: &mut Sum, form: &Form) {
    let coding = 1 + [Coding::Mh, Coding::Mr, Coding::Mmr].iter().position(|coding| *coding == form.coding).unwrap();
    let order = 1 + u32::from(form.order == FillOrder::LsbFirst);
    sum.numbers(&[form.width, form.rows, coding as u32, order, form.aligned.into(), form.exchanged.into()]);
    sum.numbers(&[form.rows_per_strip, form.strips, form.x.0, form.x.1, form.y.0, form.y.1, form.unit as u32]);
}

/// The pages, the raster of the first, and what a check says.
fn read_pages(sum: &mut Sum, fax: Fax<'_>) {
    let (mut forms, mut all, mut ended) = (Vec::new(), fax.forms_from(1), (DONE, NO_FAULT));
    while forms.len() < 3 && ended.0 == DONE {
        match all.next() {
            None => ended.0 = END,
            Some(Err(error)) => ended = status_of(&error),
            Some(Ok(form)) => forms.push(form),
        }
    }
    sum.told(ended.0, forms.len(), 0, (1 + forms.len() as u32, 0), ended.1);
    forms.iter().for_each(|form| add_form(sum, form));
    let mut out = vec![0; 1 << 16];
    match fax.page_into(1, &mut out, 8192) {
        Ok(filled) => {
            let (status, fault) = filled.stopped.as_ref().map_or((DONE, NO_FAULT), status_of);
            sum.told(status, filled.rows, 8192 * filled.rows, (1, filled.rows as u32), fault);
        }
        // The first page is read, so there is no other.
        Err(Error::Outside) => sum.told(END, 0, 0, (1, 0), NO_FAULT),
        Err(error) => sum.told(status_of(&error).0, 0, 0, (1, 0), status_of(&error).1),
    }
    sum.bytes(&out[..1 << 10]);
    let report = fax.check().unwrap();
    let (status, fault) = report.fault.as_ref().map_or((END, NO_FAULT), status_of);
    sum.add(status.into());
    sum.add(report.pages);
    sum.add(report.rows);
    sum.add(report.notes.len() as u64);
    sum.numbers(&fault);
    for note in report.notes.iter().take(8) {
        sum.numbers(&[note.page, note.strip.unwrap_or(u32::MAX), note.kind.number()]);
    }
}

/// The file converted to images and to each coding, with options by its number.
fn convert_all(sum: &mut Sum, file: &[u8], number: u32) {
    for (target, place) in [Target::Pbm, Target::Mh, Target::Mr, Target::Mmr].into_iter().zip(0..) {
        let order = [FillOrder::MsbFirst, FillOrder::LsbFirst][number as usize % 2];
        let strip = (number % 3 > 0).then_some(number % 3);
        let aligned = place % 3 > 0 && number / 2 % 2 == 1;
        let options = Options { order, k: 1 + number % 4, strip, aligned, ..Options::new(target) };
        let (status, out, image, fault) = match convert(file, &options) {
            Ok(out) => (if out.len() > OUT { NO_ROOM } else { DONE }, out, 0, NO_FAULT),
            Err(error) => {
                let image = if let Error::Pbm { image, .. } = error { image } else { 0 };
                (status_of(&error).0, Vec::new(), image, status_of(&error).1)
            }
        };
        sum.add(status.into());
        sum.add(out.len() as u64);
        sum.add(image);
        sum.numbers(&fault);
        if status == DONE {
            sum.bytes(&out);
        }
        let (status, out, fault) = match Fax::new(file).salvaged_file(&options) {
            Ok(Some(out)) => (if out.len() > OUT { NO_ROOM } else { DONE }, out, NO_FAULT),
            Ok(None) => (END, Vec::new(), NO_FAULT),
            Err(error) => (status_of(&error).0, Vec::new(), status_of(&error).1),
        };
        sum.add(status.into());
        sum.add(out.len() as u64);
        sum.numbers(&fault);
        if status == DONE {
            sum.bytes(&out);
        }
    }
}

/// The bytes after the header as those of a strip, whose form is by the file's number.
fn read_strip(sum: &mut Sum, file: &[u8], number: u32) {
    let coding = [Coding::Mh, Coding::Mr, Coding::Mmr][number as usize % 3];
    let order = [FillOrder::MsbFirst, FillOrder::LsbFirst][number as usize / 3 % 2];
    let rows = (number % 5 > 0).then_some(number % 5);
    let form = StripForm { rows, order, ..StripForm::new(1 + number % 97, coding) };
    let strip = Strip::new(&file[file.len().min(8)..], form);
    let report = strip.check().unwrap();
    let (mut lent, mut packed, mut count) = (strip.lend_rows(), Vec::new(), 0);
    let (mut status, mut fault) = (DONE, NO_FAULT);
    while count < 4096 / 13 && status == DONE {
        match lent.next() {
            Ok(None) => status = if rows.is_some() || report.end_mark { END } else { DATA_END },
            Err(error) => (status, fault) = status_of(&error),
            Ok(Some(row)) => {
                count += 1;
                packed.resize(13 * count, 0);
                row.pack_into(&mut packed[13 * (count - 1)..][..row.stride()]);
            }
        }
    }
    sum.told(status, count, 13 * count, (0, count as u32), fault);
    sum.bytes(&packed);
    let ended = report.fault.as_ref().map_or((NO_FAULT, END), |error| (status_of(error).1, FAULT));
    let is_marked = rows.is_some() || report.end_mark;
    sum.add(if ended.1 == END && !is_marked { DATA_END } else { ended.1 }.into());
    let noted = (1..=4).map(|kind| report.notes.iter().any(|note| note.kind.number() == kind).into());
    sum.numbers(&[report.rows]);
    sum.numbers(&noted.collect::<Vec<u32>>());
    sum.numbers(&ended.0);
}

fn main() -> io::Result<()> {
    let (mut input, mut out, mut head) = (io::stdin().lock(), io::stdout().lock(), [0; 4]);
    for number in 0.. {
        if input.read_exact(&mut head).is_err() {
            break;
        }
        let mut file = vec![0; u32::from_le_bytes(head) as usize];
        input.read_exact(&mut file)?;
        let (mut sum, fax) = (Sum(2_166_136_261), Fax::new(&file));
        let status = read_rows(&mut sum, fax);
        read_numbers(&mut sum, fax);
        read_pages(&mut sum, fax);
        convert_all(&mut sum, &file, number);
        read_strip(&mut sum, &file, number);
        writeln!(out, "{status} {:08x}", sum.0)?;
    }
    Ok(())
}
