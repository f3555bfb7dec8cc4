//! Rows as runs and as changing elements, beside a reading pel by pel; and rows that are lent, beside those that are owned.
use faxpages::{code_strip, Coding, Fax, Form, Row, Strip, StripForm, StripReader, Writer};

/// Numbers that look drawn: the same each time.
struct Drawn(u64);

impl Drawn {
    fn below(&mut self, most: u64) -> u64 {
        self.0 = self.0.wrapping_mul(6_364_136_223_846_793_005).wrapping_add(1_442_695_040_888_963_407);
        (self.0 >> 33) % most
    }

    /// A row of a width, whose runs are short or long; what stands after its pels is drawn too.
    fn packed(&mut self, width: u32, bytes: usize) -> Vec<u8> {
        let (most, mut black, mut left) = ([2, 5, 70, 400][self.below(4) as usize], self.below(2), 0);
        let mut packed = vec![0; bytes];
        for pel in 0..bytes * 8 {
            if left == 0 {
                (black, left) = (1 - black, 1 + self.below(most));
            }
            left -= 1;
            packed[pel / 8] |= (black as u8) << (7 - pel % 8);
        }
        assert!(width > 0);
        packed
    }
}

/// The runs of a row, pel by pel.
fn slowly(row: &Row) -> Vec<u32> {
    let (mut runs, mut colour, mut begin) = (Vec::new(), false, 0);
    for (pel, black) in (0..row.width).map_while(|pel| Some((pel, row.pel(pel)?))) {
        if black != colour {
            runs.push(pel - begin);
            (colour, begin) = (!colour, pel);
        }
    }
    runs.push(row.width - begin);
    runs
}

#[test]
fn runs_are_those_of_the_pels() {
    let mut drawn = Drawn(1);
    for width in (1u32..300).chain([1728, 2048, 2432, 4864, 65_535]) {
        for _ in 0..8 {
            let whole = width.div_ceil(8) as usize;
            let bytes = [whole, whole, whole + 9, whole / 2, whole - 1, 0][drawn.below(6) as usize];
            let row = Row { page: 0, number: 0, width, packed: drawn.packed(width, bytes) };
            assert_eq!(row.runs(), slowly(&row), "{row:?}");
        }
    }
    let none = Row { page: 0, number: 0, width: u32::MAX, packed: vec![0xFF; 3] };
    assert_eq!(none.runs(), [0, u32::MAX]);
}

/// Drawn rows as a strip, as a file, and as they are.
fn coded(coding: Coding, width: u32, rows: u32) -> (Vec<u8>, Vec<u8>, Vec<Vec<u32>>) {
    let (mut drawn, stride) = (Drawn(u64::from(width)), width.div_ceil(8) as usize);
    let raster: Vec<u8> = (0..rows).flat_map(|_| drawn.packed(width, stride)).collect();
    let form = StripForm { rows: Some(rows), ..StripForm::new(width, coding) };
    let strip = code_strip(&form, 4, &raster, stride).unwrap();
    let mut writer = Writer::new(1).unwrap();
    writer.add(&Form::new(width, rows, coding), 4, &raster, stride).unwrap();
    let file = writer.finish().unwrap();
    let wanted = raster.chunks(stride).map(|packed| slowly(&Row { page: 0, number: 0, width, packed: packed.to_vec() }));
    (strip, file, wanted.collect())
}

#[test]
fn each_way_has_the_same_runs() {
    for (coding, width) in [(Coding::Mh, 64), (Coding::Mr, 131), (Coding::Mmr, 1728), (Coding::Mh, 2432)] {
        let (strip, file, wanted) = coded(coding, width, 40);
        let form = StripForm { rows: Some(40), ..StripForm::new(width, coding) };
        let (fax, strip) = (Fax::new(&file), Strip::new(&strip, form));
        let numbers = |runs: &[u32]| -> Vec<u32> {
            let all = runs.iter().scan(0, |pel, run| { *pel += run; Some(*pel) });
            all.take(runs.len() - 1).collect()
        };
        let changes: Vec<Vec<u32>> = wanted.iter().map(|runs| numbers(runs)).collect();
        assert_eq!(fax.rows().map(|row| row.unwrap().runs()).collect::<Vec<_>>(), wanted);
        assert_eq!(fax.runs().map(|row| row.unwrap().runs).collect::<Vec<_>>(), wanted);
        assert_eq!(strip.rows().map(|row| row.unwrap().runs()).collect::<Vec<_>>(), wanted);
        assert_eq!(strip.runs().map(|row| row.unwrap().runs).collect::<Vec<_>>(), wanted);
        assert_eq!(strip.changes().map(|row| row.unwrap().changes).collect::<Vec<_>>(), changes);
        assert_eq!(fax.changes().map(|row| row.unwrap().changes).collect::<Vec<_>>(), changes);
    }
}

/// The packed rows of these runs, pel by pel.
fn packed(rows: &[Vec<u32>], width: u32) -> Vec<u8> {
    let stride = width.div_ceil(8) as usize;
    let mut packed = vec![0; rows.len() * stride];
    for (runs, row) in rows.iter().zip(packed.chunks_mut(stride)) {
        let colours = runs.iter().zip([0, 1].into_iter().cycle()).flat_map(|(run, colour)| (0..*run).map(move |_| colour));
        colours.enumerate().for_each(|(pel, colour)| row[pel / 8] |= colour << (7 - pel % 8));
    }
    packed
}

#[test]
fn rows_are_packed_as_they_were_coded() {
    for width in (1u32..200).chain([448, 449, 520, 1728, 1735, 2432, 65_535]) {
        let (coding, rows) = ([Coding::Mh, Coding::Mr, Coding::Mmr][width as usize % 3], if width < 999 { 24 } else { 9 });
        let (strip, file, runs) = coded(coding, width, rows);
        let (fax, wanted) = (Fax::new(&file), packed(&runs, width));
        assert_eq!(fax.rows().flat_map(|row| row.unwrap().packed).collect::<Vec<u8>>(), wanted, "{width} pels");
        assert_eq!(fax.page(0).unwrap().packed, wanted, "{width} pels");
        let form = StripForm { rows: Some(rows), ..StripForm::new(width, coding) };
        let (mut lent, mut of_strip) = (Strip::new(&strip, form).rows(), Vec::new());
        while let Some(row) = lent.next_row() {
            of_strip.extend_from_slice(&row.unwrap().packed);
        }
        assert_eq!(of_strip, wanted, "{width} pels");
    }
}

#[test]
fn what_is_lent_is_what_is_owned() {
    let (bytes, file, wanted) = coded(Coding::Mr, 1728, 30);
    let form = StripForm { rows: Some(31), ..StripForm::new(1728, Coding::Mr) };
    let (fax, strip) = (Fax::new(&file), Strip::new(&bytes, form));
    let (mut lent, mut owned) = (fax.rows(), fax.rows());
    while let Some(row) = lent.next_row() {
        assert_eq!(row.unwrap(), &owned.next().unwrap().unwrap());
        assert_eq!(lent.cursor(), owned.cursor());
    }
    assert!(owned.next().is_none());
    let (mut lent, mut owned) = (fax.lend_rows(), fax.runs());
    while let Some(row) = lent.next().unwrap() {
        let wanted = owned.next().unwrap().unwrap();
        assert_eq!((row.page, row.number, row.width()), (wanted.page, wanted.number, wanted.width));
        assert_eq!(row.runs().collect::<Vec<_>>(), wanted.runs);
        assert_eq!(row.runs().len(), row.changes().len() + 1);
        assert_eq!(lent.cursor(), owned.cursor());
    }
    assert!(owned.next().is_none() && lent.next().unwrap().is_none());
    let (mut lent, mut owned, mut count) = (strip.runs(), strip.runs(), 0);
    while let Some(row) = lent.next_row() {
        assert_eq!(row.cloned(), owned.next().unwrap());
        (count, _) = (count + 1, assert_eq!(lent.lost(), owned.lost()));
    }
    assert_eq!((count, owned.next()), (31, None));
    let (mut reader, mut read) = (StripReader::new(form), Vec::new());
    for piece in bytes.chunks(7) {
        reader.feed(piece);
        while let Some(row) = if read.len() % 2 == 0 { reader.lend_row().map(|row| row.cloned()) } else { reader.next_row() } {
            read.push(row.unwrap().runs());
        }
    }
    assert_eq!(read, wanted);
    let (mut reader, mut read) = (StripReader::new(form), Vec::new());
    for piece in bytes.chunks(7) {
        reader.feed(piece);
        while let Some(row) = reader.next().unwrap() {
            read.push(row.runs().collect::<Vec<_>>());
        }
    }
    reader.close();
    assert_eq!(read, wanted);
    assert!(reader.next().is_err() && reader.next().unwrap().is_none() && reader.is_ended());
}
