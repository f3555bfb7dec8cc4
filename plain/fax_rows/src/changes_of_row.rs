// Made by tools/plain-rust of crates/fax_rows/src/changes_of_row.rt: change that.
//! Places of change: each of them turns the colour of the pels from there on (ITU-T T.4, section
//! 4.2.1.3.1).

use fax_bits::Colour;

/// The colour after so many places, the first of which turns black to white.
#[inline(always)]
// ensures { result ≡ Spec.alternate Colour.Black changes }
pub(crate) fn colour_after(changes: usize) -> Colour {
    if changes % 2 == 1 {
        Colour::White
    } else {
        Colour::Black
    }
}

/// How many of the places before `end` are not right of `i`.
// requires started { 0 < end }
// requires within { end ≤ length changes.now }
// requires first { slice_index changes.now 0 ≡ 0 }
// ensures { Spec.AreChangesUpTo changes.now end i result }
pub(crate) fn changes_up_to(changes: &[u32], end: usize, i: u32) -> usize {
    let mut low = 1;
    let mut high = end;
    while low < high {
        let middle = low + (high - low) / 2;
        if changes[middle] <= i {
            low = middle + 1;
        } else {
            high = middle;
        }
    }
    low
}

/// Turns the colour from a place on, and returns where the places end: it puts the place after the
/// last one, or takes the last one away where it is the same.
// requires ascending { Spec.IsAscending changes.old end }
// requires last { slice_index changes.old (end - 1) ≤ column }
// requires room { end < length changes.old }
// ensures { Spec.TogglesAt changes.old changes.new end result column }
pub(crate) fn toggle_change(changes: &mut [u32], end: usize, column: u32) -> usize {
    if end > 1 && changes[end - 1] == column {
        return end - 1;
    }
    changes[end] = column;
    end + 1
}

/// What `toggle_change` does, after a run of pels that ends at the place: where it has some, the
/// last place
/// is another one.
#[inline(always)]
// requires ascending { Spec.IsAscending changes.old end }
// requires last { slice_index changes.old (end - 1) + run ≤ column }
// requires room { end < length changes.old }
// ensures { Spec.TogglesAt changes.old changes.new end result column }
pub(crate) fn toggle_change_after(changes: &mut [u32], end: usize, column: u32, run: u32) -> usize {
    if run == 0 {
        return toggle_change(changes, end, column);
    }
    push_change(changes, end, column)
}

/// Turns the colour from a place on that is right of the last one, and returns where the places
/// end.
#[inline(always)]
// requires ascending { Spec.IsAscending changes.old end }
// requires right { 1 < end → slice_index changes.old (end - 1) < column }
// requires room { end < length changes.old }
// ensures { Spec.TogglesAt changes.old changes.new end result column }
pub(crate) fn push_change(changes: &mut [u32], end: usize, column: u32) -> usize {
    changes[end] = column;
    end + 1
}

/// Where the places below the width end: the last of them may be the width, where no row changes.
// requires { AreChangesPut width changes.now end width }
// ensures ascending { Spec.IsAscending changes.now result }
// ensures below { (i : ℕ) → 0 < i → i < result → slice_index changes.now i < width }
// ensures within { result ≤ width + 1 }
// ensures pels { Spec.row_of changes.now result width ≡ Spec.row_of changes.now end width }
fn end_below(changes: &[u32], end: usize, width: u32) -> usize {
    if end > 1 && changes[end - 1] == width {
        end - 1
    } else {
        end
    }
}

/// Puts the width after the places of a row, and returns where its changes end.
// requires some { 0 < width }
// requires short { width < 2 ^ 16 }
// requires put { AreChangesPut width changes.old end width }
// ensures elements { Spec.AreChanges changes.new result width }
// ensures pels { Spec.row_of changes.new result width ≡ Spec.row_of changes.old end width }
pub(crate) fn put_sentinels(changes: &mut [u32], end: usize, width: u32) -> usize {
    let end = end_below(changes, end, width);
    changes[end] = width;
    changes[end + 1] = width;
    changes[end + 2] = width;
    end
}

/// Turns the colours of all pels, and returns where the places end then: a change at the first pel
/// is put, or taken away.
// requires { Spec.AreChanges changes.old end width }
// ensures elements { Spec.AreChanges changes.new result width }
// ensures toggled { Spec.IsToggledFrom (take end changes.old) (take result changes.new) 0 }
pub(crate) fn invert(changes: &mut [u32], end: usize, _width: u32) -> usize {
    if changes[1] == 0 {
        changes.rotate_left(1);
        return end - 1;
    }
    changes.rotate_right(1);
    changes[0] = 0;
    end + 1
}

/// Takes the places of another row of the same width.
// requires row { Spec.AreChanges other.now end width }
// requires room { length changes.old ≡ width + 4 }
// ensures elements { Spec.AreChanges changes.new end width }
// ensures pels { Spec.row_of changes.new end width ≡ Spec.row_of other.now end width }
pub(crate) fn copy_changes(changes: &mut [u32], other: &[u32], end: usize, _width: u32) {
    changes[..end + 3].copy_from_slice(&other[..end + 3]);
}
