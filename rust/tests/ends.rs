//! How iterators end: an error is the last item, once, and each says how many rows are lacking.
use faxpages::{Coding, Error, Fault, Fax, Form, Invalid, Strip, StripForm, StripReader, Writer};

/// A file of two pages, the second of which has eight of its twenty rows, and then a fault.
fn damaged() -> Vec<u8> {
    let mut writer = Writer::new(2).unwrap();
    writer.add(&Form::new(8, 2, Coding::Mmr), 1, &[0x18, 0xFC], 1).unwrap();
    let at = writer.bytes().len();
    writer.add(&Form::new(8, 20, Coding::Mmr), 1, &[0; 20], 1).unwrap();
    let mut file = writer.finish().unwrap();
    let strip = (at..).find(|at| file[*at..].starts_with(&[0xFF, 0xFF])).unwrap();
    file[strip + 1..strip + 6].fill(0);
    file
}

const FAULT: Error = Error::Fault { page: 1, row: 8, fault: Fault::EndMarker };

/// So many items, then this error, and then none for ever.
fn ends<T: std::fmt::Debug>(name: &str, items: impl Iterator<Item = Result<T, Error>>, count: usize, error: Error) {
    let mut items = items;
    for number in 0..count {
        assert!(matches!(items.next(), Some(Ok(_))), "{name}: item {number}");
    }
    assert_eq!(items.next().map(Result::err), Some(Some(error)), "{name}");
    for _ in 0..3 {
        assert!(items.next().is_none(), "{name}");
    }
}

#[test]
fn iterators_of_a_file_end_after_their_error() {
    let file = damaged();
    let fax = Fax::new(&file);
    ends("rows", fax.rows(), 10, FAULT);
    ends("runs", fax.runs(), 10, FAULT);
    ends("changes", fax.changes(), 10, FAULT);
    ends("rows from a page", fax.rows_from(1, 3), 5, FAULT);
    ends("pages", fax.pages(), 1, FAULT);
    ends("forms", fax.forms_from(3), 0, Error::Outside);
    let strip = file.windows(4).rposition(|bytes| bytes == [0xFF, 0, 0, 0]).unwrap();
    let outside = Error::Fault { page: 1, row: 0, fault: Fault::DirectoryOutside };
    ends("forms of a cut file", Fax::new(&file[..strip + 4]).forms(), 1, outside);
    assert_eq!(fax.partial_page(1).unwrap().lost(), 12);
}

#[test]
fn rows_of_a_strip_end_after_their_error() {
    let form = StripForm { rows: Some(20), ..StripForm::new(8, Coding::Mmr) };
    let fault = |row| Error::Fault { page: 0, row, fault: Fault::EndMarker };
    let mut rows = Strip::new(&[0xFF, 0, 0, 0], form).rows();
    assert_eq!(rows.lost(), Some(20));
    ends("rows of a strip", rows.by_ref(), 8, fault(8));
    assert_eq!(rows.lost(), Some(12));
    let report = Strip::new(&[0xFF, 0, 0, 0], form).check().unwrap();
    assert_eq!((report.rows, report.lost, report.fault), (8, Some(12), Some(fault(8))));
    let unknown = StripForm::new(8, Coding::Mmr);
    assert_eq!(Strip::new(&[0xFF, 0, 0, 0], unknown).check().unwrap().lost, None);
    assert_eq!(Strip::new(&[0xFF, 0, 0, 0], unknown).rows().lost(), None);
}

#[test]
fn a_reader_of_a_strip_ends_after_its_error() {
    let form = StripForm { rows: Some(20), ..StripForm::new(8, Coding::Mmr) };
    let mut reader = StripReader::new(form);
    reader.feed(&[0xFF, 0, 0, 0]);
    assert_eq!((reader.error(), reader.is_ended()), (None, false));
    let wanted = Error::Fault { page: 0, row: 8, fault: Fault::EndMarker };
    ends("a reader", std::iter::from_fn(|| reader.next_row()), 8, wanted.clone());
    assert_eq!((reader.error(), reader.is_ended()), (Some(&wanted), true));
    assert_eq!((reader.rows(), reader.lost()), (8, Some(12)));
    reader.feed(&[0xFF]);
    reader.close();
    assert_eq!((reader.next_row(), reader.is_ended()), (None, true));
    assert_eq!(StripReader::new(StripForm::new(8, Coding::Mmr)).lost(), None);
}

/// A loop that only notes errors ends.
#[test]
fn a_loop_that_notes_errors_ends() {
    for bytes in [&[0xFF, 0, 0, 0][..], &[0xFF, 0x80], &[]] {
        let mut reader = StripReader::new(StripForm { rows: Some(20), ..StripForm::new(8, Coding::Mmr) });
        let (mut pieces, mut errors, mut turns) = (bytes.chunks(1), Vec::new(), 0);
        while !reader.is_ended() {
            match pieces.next() {
                Some(piece) => reader.feed(piece),
                None => reader.close(),
            }
            while let Some(row) = reader.next_row() {
                errors.extend(row.err());
            }
            turns += 1;
            assert!(turns < 10);
        }
        assert_eq!((errors.len(), reader.error()), (1, errors.first()));
        assert_eq!(reader.lost(), Some(20 - reader.rows()));
    }
}

#[test]
fn a_reader_ends_without_an_error_too() {
    let mut reader = StripReader::new(StripForm { rows: Some(2), ..StripForm::new(8, Coding::Mmr) });
    reader.feed(&[0xC0]);
    assert_eq!(std::iter::from_fn(|| reader.next_row()).filter_map(Result::ok).count(), 2);
    assert_eq!((reader.is_ended(), reader.error(), reader.lost()), (true, None, Some(0)));
    let mut wrong = StripReader::new(StripForm::new(0, Coding::Mmr));
    wrong.close();
    ends("a form that is none", std::iter::from_fn(|| wrong.next_row()), 0, Invalid::Width(0).into());
    assert!(wrong.is_ended());
}

/// An MH row of a width, of runs of one pel, and its strip.
fn long_row(width: u32) -> (StripForm, Vec<u8>) {
    let form = StripForm { rows: Some(1), ..StripForm::new(width, Coding::Mh) };
    let packed = vec![0x55; width.div_ceil(8) as usize];
    let strip = faxpages::code_strip(&form, 1, &packed, packed.len()).unwrap();
    (StripForm { rows: None, ..form }, strip)
}

#[test]
fn a_row_is_handed_out_when_its_last_byte_was_fed() {
    for (width, piece, fill) in [(9600, 1000, 5000), (9600, 200, 5000), (65_528, 1000, 9000), (65_528, 256, 5000), (4000, 1, 99)] {
        let (form, strip) = long_row(width);
        assert!(strip.len() > width as usize / 2);
        let mut reader = StripReader::new(form);
        for bytes in strip.chunks(piece) {
            assert_eq!(reader.next_row(), None);
            reader.feed(bytes);
        }
        assert_eq!(reader.next_row().unwrap().unwrap().runs().len(), width as usize, "{width} by {piece}");
        // An end mark with fill before each of its EOLs.
        let mark = [&vec![0; fill][..], &[0x01]].concat().repeat(6);
        for bytes in mark.chunks(piece) {
            assert!(!reader.is_ended());
            reader.feed(bytes);
        }
        assert!(reader.is_ended() && reader.next_row().is_none(), "{width} by {piece}");
    }
}

#[test]
fn a_closed_reader_says_whether_it_has_ended() {
    let form = StripForm::new(8, Coding::Mh);
    // A white row of eight pels, and one that is cut.
    let mut reader = StripReader::new(form);
    reader.feed(&[0x98]);
    assert!(reader.next_row().is_some() && !reader.is_ended());
    reader.close();
    assert!(reader.is_ended());
    let mut reader = StripReader::new(form);
    reader.feed(&[0x98, 0x01]);
    assert!(reader.next_row().is_some());
    reader.close();
    assert!(!reader.is_ended(), "its error was not handed out");
    assert!(matches!(reader.next_row(), Some(Err(_))) && reader.is_ended());
    let mut reader = StripReader::new(form);
    reader.feed(&[0x98]);
    reader.close();
    assert!(!reader.is_ended(), "its row was not handed out");
    assert!(matches!(reader.next_row(), Some(Ok(_))) && reader.is_ended());
}
