// Made by tools/plain-rust of crates/fax_page/src/writer.rt: change that.
//! A writer of strips.

use kit_std::prelude::Vec;

use crate::{Coding, Dimension, StripForm};
use fax_bits::put_run;
use fax_rows::{BitSink, Colour, Memory, Row, put_1d, put_2d};
use kit_std::alloc::Global;
use kit_std::marker::Model;

/// An EOL as a number: eleven zeros and a 1 (T.4, section 4.1.2).
const EOL: u32 = 1;

/// How many bits an EOL has.
const EOL_BITS: u32 = 12;

/// How many rows a group has at least that can be put again, where each is not of more.
const LEAST_GROUP: u32 = 64;

/// How many groups are put at least by putting one again.
const LEAST_GROUPS: u32 = 4;

/// How row `i` of a strip is written: in MR one-dimensional exactly where `i` is a multiple of `k`
/// (T.4, section 4.2.1.1).
// requires { 0 < k }
// ensures { result ≡ Coded.written_dimension coding k i }
fn written_dimension(coding: Coding, k: u32, i: u32) -> Dimension {
    match coding {
        Coding::Mh => Dimension::OneDimensional,
        Coding::Mr if i % k == 0 => Dimension::OneDimensional,
        Coding::Mr | Coding::Mmr => Dimension::TwoDimensional,
    }
}

/// How many zeros of fill stand before an EOL after so many bits of a strip: where EOLs are
/// aligned the fewest that make it end on a byte boundary, and else none (T.4, section 4.1.3; TIFF
/// 6.0, T4Options).
// ensures exact { result ≡ Coded.fill_zeros aligned before }
// ensures few { result < 8 }
fn fill_zeros(aligned: bool, before: u128) -> u32 {
    // The first EOL of a strip is aligned too, to the strip's own bytes: four zeros stand before
    // it.
    if aligned {
        let in_byte = (before % 8) as u32;
        (EOL_BITS - in_byte) % 8
    } else {
        0
    }
}

/// Puts what stands before a row's codes: an EOL in MH, an EOL and a tag bit in MR, both after
/// fill where EOLs are aligned, nothing in MMR (T.4, sections 4.1.2, 4.1.3 and 4.2.2; T.6, section
/// 2.2.1).
// ensures ok { OnOk result (Appends sink.old
//     (Coded.start_bits form.coding form.aligned (length sink.old.bits) dimension) sink.new) }
// ensures same_order { sink.new.order ≡ sink.old.order }
fn put_start(sink: &mut BitSink, form: StripForm, dimension: Dimension) -> Result<(), Memory> {
    // Fill is put with its EOL in one call, so that MMR, which has no EOLs, has no fill.
    let fill = fill_zeros(form.aligned, sink.len());
    match (form.coding, dimension) {
        (Coding::Mh, _) => sink.put(EOL, EOL_BITS + fill),
        (Coding::Mr, Dimension::OneDimensional) => sink.put(2 * EOL + 1, EOL_BITS + 1 + fill),
        (Coding::Mr, Dimension::TwoDimensional) => sink.put(2 * EOL, EOL_BITS + 1 + fill),
        (Coding::Mmr, _) => Ok(()),
    }
}

/// Puts the codes of a row that T.4 chooses where it is coded so.
// requires same_width { length reference.now ≡ length row.now }
// ensures ok { OnOk result
//     (Appends sink.old (Coded.row_bits dimension reference.now row.now) sink.new) }
// ensures same_order { sink.new.order ≡ sink.old.order }
pub(crate) fn put_codes(
    sink: &mut BitSink,
    dimension: Dimension,
    reference: &Row,
    row: &Row,
) -> Result<(), Memory> {
    match dimension {
        Dimension::OneDimensional => put_1d(row, sink),
        Dimension::TwoDimensional => put_2d(reference, row, sink),
    }
}

/// Puts a row that is coded so over the row before it: what stands before its codes, and its codes
/// in T.4's own choice.
// requires same_width { length reference.now ≡ length row.now }
// ensures ok { OnOk result (Appends sink.old
//     (Coded.start_bits form.coding form.aligned (length sink.old.bits) dimension
//     ++ Coded.row_bits dimension reference.now row.now) sink.new) }
// ensures same_order { sink.new.order ≡ sink.old.order }
fn put_line(
    sink: &mut BitSink,
    form: StripForm,
    dimension: Dimension,
    reference: &Row,
    row: &Row,
) -> Result<(), Memory> {
    put_start(sink, form, dimension)?;
    put_codes(sink, dimension, reference, row)
}

/// Puts so many ones.
// ensures ok { OnOk result (Appends sink.old (replicate count true) sink.new) }
// ensures same_order { sink.new.order ≡ sink.old.order }
fn put_ones(sink: &mut BitSink, count: u32) -> Result<(), Memory> {
    for _ in 0..count / 32 {
        sink.put(u32::MAX, 32)?;
    }
    let len = count % 32;
    sink.put((1 << len) - 1, len)
}

/// Puts a white row that is coded so over another: what stands before its codes, and its codes
/// (T.4, sections 4.1.1 and 4.2.1.3.3).
// requires limits { IsStripForm form }
// ensures ok { let white = white_row form.width in OnOk result (Appends sink.old
//     (Coded.start_bits form.coding form.aligned (length sink.old.bits) dimension
//     ++ Coded.row_bits dimension white white) sink.new) }
// ensures same_order { sink.new.order ≡ sink.old.order }
fn put_white_line(sink: &mut BitSink, form: StripForm, dimension: Dimension) -> Result<(), Memory> {
    put_start(sink, form, dimension)?;
    match dimension {
        Dimension::OneDimensional => put_run(sink, Colour::White, form.width),
        // Its a1 is under b1, where the rows end.
        Dimension::TwoDimensional => sink.put(1, 1),
    }
}

/// How a row is written that is so far after the last multiple of `k`.
// ensures { (k i : ℕ) → place ≡ i % k → result ≡ Coded.written_dimension coding k i }
fn dimension_at(coding: Coding, place: u32) -> Dimension {
    match coding {
        Coding::Mh => Dimension::OneDimensional,
        Coding::Mr if place == 0 => Dimension::OneDimensional,
        Coding::Mr | Coding::Mmr => Dimension::TwoDimensional,
    }
}

/// How far the row after one that is so far after the last multiple of `k` is after the last of
/// them.
// requires { place < k }
// ensures { (i : ℕ) → place ≡ i % k → result ≡ (i + 1) % k }
fn next_place(place: u32, k: u32) -> u32 {
    if place + 1 == k { 0 } else { place + 1 }
}

/// Puts so many white rows from row `first` on over a white row, each as it is coded.
// requires limits { IsStripForm form }
// requires some_k { 0 < k }
// ensures ok { let white = white_row form.width in OnOk result (Appends sink.old
//     (Coded.coded_lines form k (length sink.old.bits) first white (replicate count white))
//     sink.new) }
// ensures same_order { sink.new.order ≡ sink.old.order }
fn put_each_white_line(
    sink: &mut BitSink,
    form: StripForm,
    k: u32,
    first: u32,
    count: u32,
) -> Result<(), Memory> {
    // A remainder at each row would cost more than the row.
    let mut place = first % k;
    for _ in 0..count {
        put_white_line(sink, form, dimension_at(form.coding, place))?;
        place = next_place(place, k);
    }
    Ok(())
}

/// How many rows a group has that can be put again: in MR a multiple of `k`.
// requires { 0 < k }
// ensures some { 0 < result }
// ensures same_place { coding ≡ Coding.Mr → result % k ≡ 0 }
fn group_rows(coding: Coding, k: u32) -> u32 {
    match coding {
        Coding::Mr if k < LEAST_GROUP => LEAST_GROUP - LEAST_GROUP % k,
        Coding::Mr => k,
        Coding::Mh | Coding::Mmr => LEAST_GROUP,
    }
}

/// Puts a group of white rows so often, from row `first` on over a white row.
// requires unaligned { form.aligned ≡ false }
// requires some_k { 0 < k }
// requires same_place { form.coding ≡ Coding.Mr → rows % k ≡ 0 }
// requires group { let white = white_row form.width in
//     group.now.bits ≡ Coded.coded_lines form k 0 first white (replicate rows white) }
// ensures ok { let white = white_row form.width in OnOk result (Appends sink.old
//     (Coded.coded_lines form k (length sink.old.bits) first white
//     (replicate (count * rows) white)) sink.new) }
// ensures same_order { sink.new.order ≡ sink.old.order }
fn put_groups(
    sink: &mut BitSink,
    _form: StripForm,
    _k: u32,
    _first: u32,
    group: &BitSink,
    _rows: u32,
    count: u32,
) -> Result<(), Memory> {
    for _ in 0..count {
        sink.put_bits_of(group)?;
    }
    Ok(())
}

/// Puts so many white rows from row `first` on over a white row: where they are many, a group of
/// them again and again.
// requires limits { IsStripForm form }
// requires some_k { 0 < k }
// requires upcoming { first + count ≤ form.rows }
// ensures ok { let white = white_row form.width in OnOk result (Appends sink.old
//     (Coded.coded_lines form k (length sink.old.bits) first white (replicate count white))
//     sink.new) }
// ensures same_order { sink.new.order ≡ sink.old.order }
fn put_many_white_lines(
    alloc: Global,
    sink: &mut BitSink,
    form: StripForm,
    k: u32,
    first: u32,
    count: u32,
) -> Result<(), Memory> {
    let rows = group_rows(form.coding, k);
    let groups = count / rows;
    if form.aligned || groups < LEAST_GROUPS {
        return put_each_white_line(sink, form, k, first, count);
    }
    let mut group = BitSink::new(alloc, form.order);
    put_each_white_line(&mut group, form, k, first, rows)?;
    put_groups(sink, form, k, first, &group, rows, groups)?;
    let done = groups * rows;
    put_each_white_line(sink, form, k, first + done, count - done)
}

/// Puts so many white rows from row `first` on over a white row, in time by the bytes that they
/// take.
// requires limits { IsStripForm form }
// requires some_k { 0 < k }
// requires upcoming { first + count ≤ form.rows }
// ensures ok { let white = white_row form.width in OnOk result (Appends sink.old
//     (Coded.coded_lines form k (length sink.old.bits) first white (replicate count white))
//     sink.new) }
// ensures same_order { sink.new.order ≡ sink.old.order }
fn put_white_lines(
    alloc: Global,
    sink: &mut BitSink,
    form: StripForm,
    k: u32,
    first: u32,
    count: u32,
) -> Result<(), Memory> {
    match form.coding {
        Coding::Mh | Coding::Mr => put_many_white_lines(alloc, sink, form, k, first, count),
        // Each is a 1 and nothing else.
        Coding::Mmr => put_ones(sink, count),
    }
}

/// Puts what stands after a strip's last row: the end of the facsimile block in MMR, two EOLs
/// (T.6, End-of-facsimile block).
// ensures ok { OnOk result (Appends sink.old (Coded.end_bits coding) sink.new) }
// ensures same_order { sink.new.order ≡ sink.old.order }
fn put_end(sink: &mut BitSink, coding: Coding) -> Result<(), Memory> {
    match coding {
        Coding::Mh | Coding::Mr => Ok(()),
        Coding::Mmr => sink.put((EOL << EOL_BITS) | EOL, 2 * EOL_BITS),
    }
}

/// Each byte is below 256, which is said for the proof of `finish` and does nothing.
// ensures { All (λ byte. byte < 256) bytes.now }
fn are_bytes(_bytes: &[u8]) {}

/// Writes a strip row by row. Contracts see how far it is written: its form and k, its bits, how
/// many rows were put, the last of them, and whether memory was refused.
// The last row is kept in MH too, where no row is coded over another: the contract says the last
// row, and to keep it costs no more than to write it.
pub struct StripWriter {
    alloc: Global,
    form: StripForm,
    k: u32,
    sink: BitSink,
    row: u32,
    last: Row,
    refused: bool,
}

impl Model for StripWriter {}

impl StripWriter {
    /// A strip of this form, before its first row. In MR every `k`-th row is one-dimensional, from
    /// the first on (T.4, section 4.2.1.1); in MH and MMR `k` is not looked at.
    ///
    /// # Errors
    ///
    /// `Memory` where a growth was refused.
    // requires limits { IsStripForm form }
    // requires some_k { 0 < k }
    // ensures { IfOk result (λ writer. writer ≡ writer_beginning form k) }
    pub fn new(alloc: Global, form: StripForm, k: u32) -> Result<Self, Memory> {
        let last = Row::white(alloc, form.width)?;
        Ok(StripWriter {
            alloc,
            form,
            k,
            sink: BitSink::new(alloc, form.order),
            row: 0,
            last,
            refused: false,
        })
    }

    /// Puts the next row: in T.4's own choice of codes, in MR and MMR over the row before it, and
    /// without fill but for what aligns its EOL where the form says so (T.4, section 4.1.3).
    ///
    /// # Errors
    ///
    /// `Memory` where a growth was refused, and at each later call.
    // requires upcoming { self.old.row < self.old.form.rows }
    // requires width { length row.now ≡ self.old.form.width }
    // ensures { IsPutRow self.old row.now result self.new }
    pub fn put_row(&mut self, row: &Row) -> Result<(), Memory> {
        if self.refused {
            return Err(Memory);
        }
        let dimension = written_dimension(self.form.coding, self.k, self.row);
        match put_line(&mut self.sink, self.form, dimension, &self.last, row) {
            Ok(()) => {
                self.last.set_from(row);
                self.row += 1;
                Ok(())
            }
            Err(Memory) => {
                self.refused = true;
                Err(Memory)
            }
        }
    }

    /// Puts the codes of so many white rows, one or more: the first over the last row, and the
    /// others over a white one.
    // requires some { 0 < count }
    // requires upcoming { self.old.row + count ≤ self.old.form.rows }
    // ensures ok { OnOk result (self.new ≡ with_rows self.old
    //     (replicate count (white_row self.old.form.width))) }
    // ensures same_but_bits { self.new ≡ with_bits self.old self.new.bits }
    fn put_white_codes(&mut self, count: u32) -> Result<(), Memory> {
        if self.last.is_white() {
            return put_white_lines(
                self.alloc,
                &mut self.sink,
                self.form,
                self.k,
                self.row,
                count,
            );
        }
        let white = Row::white(self.alloc, self.form.width)?;
        let dimension = written_dimension(self.form.coding, self.k, self.row);
        put_line(&mut self.sink, self.form, dimension, &self.last, &white)?;
        put_white_lines(
            self.alloc,
            &mut self.sink,
            self.form,
            self.k,
            self.row + 1,
            count - 1,
        )
    }

    /// Puts so many white rows next, as `put_row` puts them, in time by the bytes that they take:
    /// in MMR a row takes a bit.
    ///
    /// # Errors
    ///
    /// `Memory` where a growth was refused, and at each later call.
    // requires { self.old.row + count ≤ self.old.form.rows }
    // ensures { IsPutRows self.old (replicate count (white_row self.old.form.width)) result
    //     self.new }
    pub fn put_white_rows(&mut self, count: u32) -> Result<(), Memory> {
        if self.refused {
            return Err(Memory);
        }
        if count == 0 {
            return Ok(());
        }
        match self.put_white_codes(count) {
            Ok(()) => {
                self.last.whiten();
                self.row += count;
                Ok(())
            }
            Err(Memory) => {
                self.refused = true;
                Err(Memory)
            }
        }
    }

    /// The bytes of the strip once all its rows were put, its last byte filled with zeros. MMR has
    /// the end of a facsimile block after its last row (T.6, End-of-facsimile block).
    ///
    /// # Errors
    ///
    /// `Memory` where a growth was refused, here or before.
    // requires all_put { self.refused ≡ false → self.row ≡ self.form.rows }
    // ensures { IfOk result (λ bytes. FinishesAs self bytes.items) }
    pub fn finish(self) -> Result<Vec<u8>, Memory> {
        if self.refused {
            return Err(Memory);
        }
        let mut sink = self.sink;
        put_end(&mut sink, self.form.coding)?;
        sink.pad();
        let bytes = sink.into_bytes();
        are_bytes(&bytes);
        Ok(bytes)
    }
}
