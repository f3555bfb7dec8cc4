//! Pages, and what is left of pages and strips, are written as they are.
use faxpages::{Coding, Fax, Form, Invalid, Strip, StripForm, Writer};

#[test]
fn pages_and_what_is_left_are_written_as_they_are() {
    let form = Form { aligned: true, x: (300, 1), ..Form::new(9, 2, Coding::Mh) };
    let packed = vec![0xFF, 0x80, 0, 0];
    let mut writer = Writer::new(1).unwrap();
    writer.add(&form, None, &packed, 2).unwrap();
    let file = writer.finish().unwrap();
    let (page, left) = (Fax::new(&file).page(0).unwrap(), Fax::new(&file).salvaged(0).unwrap());
    let form = StripForm { rows: Some(1), ..StripForm::new(8, Coding::Mh) };
    let strip = Strip::new(&[0b1001_1000], form).salvaged().unwrap();
    assert_eq!((left.form, strip.form), (Some(page.form), None));
    let mut copy = Writer::uncounted().unwrap();
    copy.add_page(&page, None).unwrap();
    copy.add_salvaged(&left, Coding::Mmr).unwrap();
    copy.add_salvaged(&strip, None).unwrap();
    let copy = copy.finish().unwrap();
    let pages: Vec<_> = Fax::new(&copy).pages().map(Result::unwrap).collect();
    let found: Vec<_> = pages.iter().map(|page| (page.form.coding, page.form.aligned, page.form.x, &page.packed)).collect();
    assert_eq!(
        found,
        [
            (Coding::Mh, true, (300, 1), &packed),
            (Coding::Mmr, false, (300, 1), &packed),
            (Coding::Mmr, false, (204, 1), &vec![0]),
        ]
    );
}

#[test]
fn a_page_that_lacks_rows_is_refused() {
    let mut writer = Writer::new(1).unwrap();
    writer.add(&Form::new(8, 2, Coding::Mmr), None, &[0x18, 0xFC], 1).unwrap();
    let file = writer.finish().unwrap();
    let mut page = Fax::new(&file).page(0).unwrap();
    page.packed.truncate(1);
    let mut copy = Writer::uncounted().unwrap();
    assert_eq!(copy.add_page(&page, None), Err(Invalid::Raster { len: 1, needed: 2 }.into()));
    assert_eq!(copy.bytes(), b"");
}
