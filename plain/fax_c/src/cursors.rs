// Made by tools/plain-rust of crates/fax_c/src/cursors.rt: change that.
//! Places as text and back.

use kit_std::prelude::{str, String};

use crate::caller_text::put_text;
use crate::places::{FaxPlace, started_at, tell_place};
use crate::status;
use fax_walk::{Cursor, LongCursor, LongFault, WalkStart};
use kit_std::alloc::Global;

/// Writes a text where it has room, says how many bytes it has, and returns whether it had room.
// ensures { Spec.IsTextTold text.now out.old out.new len.new result }
pub(crate) fn put_counted(text: &[u8], out: &mut [u8], len: &mut usize) -> u32 {
    *len = put_text(text, out);
    if *len <= out.len() {
        status::DONE
    } else {
        status::NO_ROOM
    }
}

/// Writes a place as text where it has room: as `1:P:R`, or inside a strip as `2:P:R:B:n,n,..`; and
/// says how many bytes it has.
// ensures { Spec.TellsPlaceText place.now runs.now text.old text.new len.new result }
pub fn faxpages_place_text(
    alloc: Global,
    place: &FaxPlace,
    runs: &[u32],
    text: &mut [u8],
    len: &mut usize,
) -> u32 {
    *len = 0;
    if place.lacks_runs(runs) {
        return status::OUTSIDE;
    }
    let mut written = String::new(alloc);
    let made = match started_at(alloc, place, runs) {
        Some(WalkStart::AtCursor(cursor)) => cursor.put_text(&mut written),
        Some(WalkStart::AtLongCursor(found)) => found.put_text(&mut written),
        None => return status::MEMORY,
    };
    match made {
        Ok(()) => put_counted(written.as_bytes(), text, len),
        Err(_) => status::MEMORY,
    }
}

/// Reads a place from its text.
// ensures { Spec.ReadsPlace text.now place.old runs.old place.new runs.new result }
pub fn faxpages_place_parse(
    alloc: Global,
    text: &[u8],
    place: &mut FaxPlace,
    runs: &mut [u32],
) -> u32 {
    // A text of more than 65,536 runs is NO_PLACE: NO_ROOM would have a caller grow `runs` for
    // ever.
    let Ok(text) = str::from_utf8(text) else {
        return status::NO_PLACE;
    };
    if let Ok(cursor) = Cursor::parse(text) {
        *place = FaxPlace::at(cursor);
        return status::DONE;
    }
    match LongCursor::parse(alloc, text) {
        Ok(found) => tell_place(&found, place, runs),
        Err(LongFault::NotACursor) => status::NO_PLACE,
        Err(LongFault::Memory) => status::MEMORY,
    }
}
