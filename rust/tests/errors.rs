//! Errors say what is wrong: what of that which was given is out of range, and what a file's fault is.
use faxpages::{
    code_strip, code_strip_runs, convert, Coding, Cursor, Error, Fault, Fax, FillOrder, Form, Invalid, NoteKind, Options,
    PbmFault, Strip, StripForm, Target, Unit, Writer,
};

#[test]
fn what_is_wrong_with_a_page_is_said() {
    let form = Form::new(8, 2, Coding::Mmr);
    for (form, k, len, wanted) in [
        (form, 0, 2, Invalid::K),
        (form, 1, 1, Invalid::Raster { len: 1, needed: 2 }),
        (Form { width: 0, ..form }, 1, 2, Invalid::Width(0)),
        (Form { width: 65_536, ..form }, 1, 20_000, Invalid::Width(65_536)),
        (Form { rows: 0, ..form }, 1, 2, Invalid::Rows(0)),
        (Form { rows: 1_000_001, ..form }, 1, 2_000_000, Invalid::Rows(1_000_001)),
        (Form { aligned: true, ..form }, 1, 2, Invalid::Aligned),
        (Form { x: (0, 1), ..form }, 1, 2, Invalid::Resolution(0, 1)),
        (Form { y: (1, 0), ..form }, 1, 2, Invalid::Resolution(1, 0)),
    ] {
        let mut writer = Writer::new(1).unwrap();
        assert_eq!(writer.add(&form, k, &vec![0; len], 1), Err(Error::Invalid(wanted)), "{form:?}");
        assert_eq!(writer.bytes(), b"");
    }
    assert_eq!(Writer::new(0).unwrap_err(), Error::Invalid(Invalid::NoPage));
    assert_eq!(Writer::new(65_536).unwrap_err(), Error::OutputTooLarge);
    let mut writer = Writer::new(1).unwrap();
    assert_eq!(writer.clone().finish(), Err(Invalid::FewPages { added: 0, total: 1 }.into()));
    writer.add(&form, 1, &[0, 0], 1).unwrap();
    assert_eq!(writer.add(&form, 1, &[0, 0], 1), Err(Invalid::AllPages(1).into()));
}

#[test]
fn what_is_wrong_with_a_strip_is_said() {
    let form = StripForm::new(8, Coding::Mmr);
    for (form, wanted) in [
        (StripForm { width: 0, ..form }, Invalid::Width(0)),
        (StripForm { width: 65_536, ..form }, Invalid::Width(65_536)),
        (StripForm { rows: Some(0), ..form }, Invalid::Rows(0)),
        (StripForm { rows: Some(1_000_001), ..form }, Invalid::Rows(1_000_001)),
        (StripForm { rows: Some(1), aligned: true, ..form }, Invalid::Aligned),
    ] {
        let wanted = Error::Invalid(wanted);
        assert_eq!(Strip::new(b"\xFF", form).rows().next(), Some(Err(wanted.clone())));
        assert_eq!(Strip::new(b"\xFF", form).check(), Err(wanted.clone()));
        assert_eq!(code_strip(&form, 1, &vec![0; 1_000_002], 1), Err(wanted));
    }
    assert_eq!(code_strip(&form, 0, &[0; 4], 1), Err(Invalid::K.into()));
    assert_eq!(code_strip(&form, 1, &[], 1), Err(Invalid::Raster { len: 0, needed: 1 }.into()));
    let five = StripForm { rows: Some(5), ..form };
    assert_eq!(code_strip(&five, 1, &[0; 4], 1), Err(Invalid::Raster { len: 4, needed: 5 }.into()));
    assert_eq!(code_strip_runs(&five, 1, &[[8]]), Err(Invalid::FewRows { given: 1, wanted: 5 }.into()));
    assert_eq!(code_strip_runs(&form, 0, &[[8]]), Err(Invalid::K.into()));
    assert_eq!(code_strip_runs::<[u32; 1]>(&form, 1, &[]), Err(Invalid::Rows(0).into()));
    for runs in [&[][..], &[7], &[9], &[4, 0, 4], &[4, 4, 0], &[u32::MAX, 9]] {
        assert_eq!(code_strip_runs(&form, 1, &[&[8], runs]), Err(Invalid::Runs(1).into()), "{runs:?}");
    }
}

#[test]
fn what_is_wrong_with_options_is_said() {
    let options = Options::new(Target::Mmr);
    for (options, wanted) in [
        (Options { k: 0, ..options }, Invalid::K),
        (Options { aligned: true, ..options }, Invalid::Aligned),
        (Options { strip: Some(0), ..options }, Invalid::StripRows),
    ] {
        assert_eq!(convert(b"P4\n8 1\n\0", &options), Err(wanted.into()));
    }
    assert_eq!("1:0".parse::<Cursor>(), Err(Error::NotACursor));
}

#[test]
fn faults_are_named() {
    let told = |bytes: &[u8]| Fax::new(bytes).rows().next().unwrap().unwrap_err();
    assert_eq!(told(b"II"), Error::Fault { page: 0, row: 0, fault: Fault::ShortHeader });
    assert_eq!(told(b"XX*\0\x08\0\0\0").to_string(), "page 0 row 0: ByteOrder");
    let no_width = told(b"II*\0\x08\0\0\0\x01\0\x03\x01\x03\0\x01\0\0\0\x04\0\0\0\0\0\0\0");
    let Error::Fault { fault, .. } = &no_width else { panic!("{no_width}") };
    assert_eq!((fault.name(), fault.number(), fault.tag()), ("MissingField", 7, Some(256)));
    assert_eq!(no_width.to_string(), "page 0 row 0: MissingField 256");
    let short = convert(b"P4\n8 2\n\0", &Options::new(Target::Mmr)).unwrap_err();
    assert_eq!(short, Error::Pbm { image: 0, fault: PbmFault::ShortRaster });
    assert_eq!(short.to_string(), "image 0: ShortRaster");
    assert_eq!(convert(b"GIF", &Options::new(Target::Pbm)), Err(Error::UnknownInput));
    let source: &dyn std::error::Error = &short;
    assert!(source.source().is_none());
}

#[test]
fn messages_say_what_is_wrong() {
    for (error, text) in [
        (Invalid::Width(0), "a row has 1 to 65,535 pels, and not 0"),
        (Invalid::Raster { len: 1, needed: 2 }, "a raster of 1 bytes is too short: its rows take 2"),
        (Invalid::Runs(3), "the runs of row 3 are not the longest ones of a row of the width"),
        (Invalid::FewPages { added: 1, total: 2 }, "the file has 1 of 2 pages"),
    ] {
        assert_eq!(Error::from(error).to_string(), text);
    }
}

#[test]
fn notes_and_units_have_names() {
    let mut writer = Writer::new(1).unwrap();
    let form = Form { unit: Unit::Centimetre, order: FillOrder::LsbFirst, ..Form::new(8, 2, Coding::Mmr) };
    writer.add(&form, 1, &[0x18, 0xFC], 1).unwrap();
    let mut file = writer.finish().unwrap();
    assert_eq!(Fax::new(&file).form(0).unwrap().unit, Unit::Centimetre);
    // The end of the block stands in the last three bytes of the strip, and then a byte or none of fill.
    let strip = code_strip(&StripForm { order: form.order, ..StripForm::new(8, Coding::Mmr) }, 1, &[0x18, 0xFC], 1).unwrap();
    let at = file.windows(strip.len()).position(|bytes| bytes == strip).unwrap();
    file[at + strip.len() - 1] = 0xFF;
    let report = Fax::new(&file).check().unwrap();
    assert_eq!((report.pages, report.rows, report.fault), (1, 2, None));
    let kinds: Vec<_> = report.notes.iter().map(|note| note.kind).collect();
    assert!(kinds.contains(&NoteKind::DataAfterEnd), "{kinds:?}");
    assert_eq!(NoteKind::DataAfterEnd.to_string(), "N3 DataAfterEnd");
}
