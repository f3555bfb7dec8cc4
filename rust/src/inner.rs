//! What this crate takes from the plain crates, whose text is proved: no other file names one of them.

pub(crate) use fax_files::{put_totals, write_page, WriteFault};
pub(crate) use fax_page::{
    classify_end, may_be_end_mark, Coding, NotesFault, NotesReader, RowsEnd, StripForm, StripNotes,
    StripReader, StripWriter, MOST_ROWS,
};
pub(crate) use fax_rows::{BitSource, LongestRuns};
pub(crate) use fax_walk::{
    check, convert_sparse, salvage_file, Cause, ConvertFault, Cursor, DamagedPage, End, FileFault, FillOrder,
    LongCursor, LongFault, Note, NoteKind, Options, PageForm, Pages, PbmFault, Report, Row, SalvagedPart, SalvagedRows,
    SparseBytes, StripFault, Target, Walk, WalkFault, WalkStart,
};
pub(crate) use kit_std::alloc::{Global, Vec as Items};
