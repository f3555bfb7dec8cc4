//! Writes the pages of files anew by the crate for Rust, codes them as bare strips, and reads these whole and in
//! pieces: written FILE..
//!
//! Prints how many strips were tried. A file that is written page by page has to be the one that the crate converts, and
//! a strip to have the rows that were coded.
use faxpages::{
    code_strip, code_strip_runs, Coding, Error, Fault, Fax, FillOrder, Form, Invalid, Options, Page, Row, Strip, StripForm,
    StripReader, StripReport, StripRows, Target, Writer,
};

/// Each way to code a page.
fn ways() -> impl Iterator<Item = Options> {
    let codings = [Target::Mh, Target::Mr, Target::Mmr].into_iter();
    let orders = codings.flat_map(|target| [FillOrder::MsbFirst, FillOrder::LsbFirst].map(|order| (target, order)));
    let heights =
        orders.flat_map(|(target, order)| [(1, None), (3, Some(2))].map(|(k, strip)| (target, order, k, strip)));
    heights.flat_map(|(target, order, k, strip)| {
        let aligned = [false, true].into_iter().filter(move |aligned| !aligned || target != Target::Mmr);
        aligned.map(move |aligned| {
            let mut options = Options::new(target);
            (options.order, options.k, options.strip, options.aligned) = (order, k, strip, aligned);
            options
        })
    })
}

fn coding(target: Target) -> Coding {
    match target {
        Target::Mh => Coding::Mh,
        Target::Mr => Coding::Mr,
        _ => Coding::Mmr,
    }
}

/// The file of pages, written one by one, each from a raster with bytes after its rows.
fn anew(pages: &[Page], way: &Options, mut writer: Writer) -> Vec<u8> {
    for (page, added) in pages.iter().zip(0..) {
        let mut form = page.form;
        (form.coding, form.order, form.aligned) = (coding(way.target), way.order, way.aligned);
        form.rows_per_strip = way.strip.unwrap_or(0);
        let raster: Vec<u8> = page.rows().flat_map(|row| [row, &[0xA5; 5]].concat()).collect();
        assert_eq!(writer.pages(), added);
        writer.add(&form, way.k, &raster, form.stride() + 5).unwrap();
        assert_eq!(Fax::new(writer.bytes()).pages().map(Result::unwrap).count(), added as usize + 1);
    }
    writer.finish().unwrap()
}

fn rows_of(page: &Page) -> Vec<Row> {
    let width = page.form.width;
    page.rows().zip(0..).map(|(packed, number)| Row { page: 0, number, width, packed: packed.to_vec() }).collect()
}

/// Reads a strip whole and in pieces of some bytes: the rows are those of the page.
fn read_back(strip: &[u8], form: StripForm, page: &Page) {
    let wanted = rows_of(page);
    for rows in [None, Some(page.form.rows)] {
        let form = StripForm { rows, ..form };
        assert_eq!(Strip::new(strip, form).rows().collect::<Result<Vec<_>, _>>(), Ok(wanted.clone()));
        let report = Strip::new(strip, form).check().unwrap();
        assert_eq!((report.rows, report.end_mark, report.fault), (page.form.rows, form.coding == Coding::Mmr, None));
        for size in [1, 3, 1000] {
            let (mut reader, mut found) = (StripReader::new(form), Vec::new());
            for piece in strip.chunks(size) {
                reader.feed(piece);
                found.extend(std::iter::from_fn(|| reader.next_row()).map(Result::unwrap));
            }
            reader.close();
            found.extend(std::iter::from_fn(|| reader.next_row()).map(Result::unwrap));
            assert_eq!((found, reader.is_ended(), reader.rows()), (wanted.clone(), true, page.form.rows));
        }
    }
    let more = StripForm { rows: Some(page.form.rows + 1), ..form };
    let last = Strip::new(strip, more).rows().last().unwrap();
    assert!(matches!(last, Err(Error::Fault { row, .. }) if row == page.form.rows), "{last:?}");
}

/// A page of which few rows stand in the file takes little memory, whatever its form says.
fn small_room() {
    let mut writer = Writer::new(1).unwrap();
    writer.add(&Form::new(65_535, 50_000, Coding::Mmr), 1, &[0; 8192], 0).unwrap();
    let mut file = writer.finish().unwrap();
    // After eight rows stand zeros.
    file[9..1000].fill(0);
    let page = Fax::new(&file).partial_page(0).unwrap();
    assert_eq!((page.rows().len(), page.lost()), (8, 49_992));
    assert!(page.packed.capacity() < 1 << 20);
    assert_eq!(Fax::new(&file).page(0).err(), page.fault);
    assert_eq!(Fax::new(&file).pages().last().unwrap().err(), page.fault);
}

/// Strides that are strange, and strips that are cut.
fn strange() {
    let mut writer = Writer::new(1).unwrap();
    let form = Form::new(8, 2, Coding::Mmr);
    assert!(matches!(writer.add(&form, 1, &[0; 2], usize::MAX), Err(Error::Invalid(Invalid::Raster { len: 2, .. }))));
    writer.add(&form, 1, &[0], 0).unwrap();
    assert_eq!(writer.clone().add(&form, 1, &[0], 0), Err(Invalid::AllPages(1).into()));
    assert_eq!(Fax::new(&writer.finish().unwrap()).page(0).unwrap().packed, [0, 0]);
    let mut writer = Writer::uncounted().unwrap();
    assert_eq!(writer.add(&form, 0, &[0], 0), Err(Invalid::K.into()));
    assert_eq!(writer.finish(), Err(Invalid::NoPage.into()));
    let form = StripForm::new(8, Coding::Mmr);
    let wide = StripForm { width: 65_536, ..form };
    assert_eq!(code_strip(&wide, 1, &[0; 10_000], 9000), Err(Invalid::Width(65_536).into()));
    let mut reader = StripReader::new(form);
    reader.feed(b"\xB0");
    assert!(matches!(reader.next_row(), Some(Ok(Row { number: 0, .. }))));
    assert!(matches!(reader.next_row(), Some(Err(Error::Fault { fault: Fault::OutOfRow, row: 1, .. }))));
    assert!(reader.is_ended() && reader.rows() == 1);
    let mut reader = StripReader::new(form);
    assert_eq!(reader.next_row(), None);
    reader.close();
    reader.feed(b"\xFF");
    assert!(matches!(reader.next_row(), Some(Err(Error::Fault { fault: Fault::DataEnds, row: 0, .. }))));
    let cut = Strip::new(b"\x82", form).check().unwrap();
    assert!(matches!((cut.rows, cut.fault), (1, Some(Error::Fault { fault: Fault::DataEnds, row: 1, .. }))));
    many_pieces();
}

/// Bytes that come one by one: a long fill, and then a row.
fn many_pieces() {
    let mut reader = StripReader::new(StripForm::new(8, Coding::Mh));
    for byte in [0; 60_000].iter().chain(b"\x01\x98") {
        reader.feed(&[*byte]);
        assert!(matches!(reader.next_row(), None | Some(Ok(_))));
    }
    reader.close();
    assert!(reader.rows() == 1 || matches!(reader.next_row(), Some(Ok(_))));
    assert!(reader.next_row().is_none() && reader.is_ended());
}

fn shared<T: Send + Sync>() {}

/// Tries a file in each way, and answers how many strips were tried.
fn try_file(file: &[u8]) -> usize {
    let pages: Vec<_> = Fax::new(file).pages().map_while(Result::ok).collect();
    let mut tried = 0;
    for way in ways() {
        if !pages.is_empty() && Fax::new(file).check().unwrap().fault.is_none() {
            let counted = Writer::new(pages.len() as u32).unwrap();
            for writer in [counted, Writer::uncounted().unwrap()] {
                assert_eq!(anew(&pages, &way, writer), Fax::new(file).convert(&way).unwrap());
            }
        }
        for page in &pages {
            let mut form = StripForm::new(page.form.width, coding(way.target));
            (form.order, form.aligned) = (way.order, way.aligned);
            let strip = code_strip(&form, way.k, &page.packed, form.width.div_ceil(8) as usize).unwrap();
            read_back(&strip, form, page);
            let runs: Vec<_> = rows_of(page).iter().map(Row::runs).collect();
            assert_eq!(code_strip_runs(&form, way.k, &runs), Ok(strip));
            tried += 1;
        }
    }
    tried
}

fn main() {
    shared::<(Strip<'_>, StripForm, StripReader, StripReport, StripRows<'_>, Writer)>();
    let tried: usize = std::env::args().skip(1).map(|name| try_file(&std::fs::read(name).unwrap())).sum();
    strange();
    small_room();
    println!("{tried} strips");
    assert!(tried > 0);
}
