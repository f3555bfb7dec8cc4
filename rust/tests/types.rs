//! What users of a library expect of its types.

use faxpages::{
    Coding, Cursor, Error, Fault, FillOrder, Filled, Form, Invalid, Left, Note, NoteKind, Options, Page, PbmFault, Received,
    Report, Row, RowChanges, RowRuns, Salvaged, Stretch, StripForm, StripReport, Target, Unit, Writer,
};
use std::fmt::Debug;
use std::hash::Hash;

/// All that is handed out, or handed in, can be compared, kept in a set, shown and sent to another thread.
#[test]
fn data_have_the_usual_traits() {
    fn data<T: Clone + Debug + Eq + Hash + Send + Sync + 'static>() -> usize {
        usize::from(std::mem::size_of::<T>() > 0)
    }
    let of_pages = data::<Form>() + data::<Page>() + data::<Filled>() + data::<Report>() + data::<Note>() + data::<NoteKind>();
    let of_rows = data::<Row>() + data::<RowRuns>() + data::<RowChanges>() + data::<Cursor>() + data::<Left>();
    let of_strips = data::<StripForm>() + data::<StripReport>() + data::<Salvaged>() + data::<Stretch>() + data::<Received>();
    let words = data::<Coding>() + data::<FillOrder>() + data::<Target>() + data::<Unit>() + data::<Options>();
    let faults = data::<Error>() + data::<Fault>() + data::<PbmFault>() + data::<Invalid>();
    assert_eq!(of_pages + of_rows + of_strips + words + faults, 25);
}

/// MMR and MH have no k, and in MR it is 4 where nothing is said.
#[test]
fn k_may_be_none() {
    let raster = [0x18; 9];
    let coded = |coding, k: Option<u32>| {
        let mut writer = Writer::new(1).unwrap();
        writer.add(&Form::new(8, 9, coding), k, &raster, 1).unwrap();
        let strip = faxpages::code_strip(&StripForm::new(8, coding), k, &raster, 1).unwrap();
        let runs = faxpages::code_strip_runs(&StripForm::new(8, coding), k, &[[3, 2, 3]; 9]).unwrap();
        assert_eq!(strip, runs);
        (writer.finish().unwrap(), strip)
    };
    for coding in [Coding::Mh, Coding::Mr, Coding::Mmr] {
        assert_eq!(coded(coding, None), coded(coding, Some(4)));
        assert_eq!(coded(coding, None) == coded(coding, Some(1)), coding != Coding::Mr);
    }
}
