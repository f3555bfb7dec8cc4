// Made by tools/plain-rust of crates/fax_files/src/written.rt: change that.
//! The parts of a written page (TIFF 6.0; RFC 2306), all numbers with their lowest byte first.

use kit_std::prelude::Vec;

use crate::{BadRows, PageForm, tags};
use byteorder::{ByteOrder, LittleEndian};
use fax_bits::FillOrder;
use fax_page::Coding;
use kit_std::alloc::{AllocError, Global};
use kit_std::marker::Model;

/// The most bytes of a file that is written.
pub const MAX_FILE: u32 = 268_435_456;

/// The number of fields that the directory of each page has.
pub(crate) const FORM_FIELDS: u16 = 16;
/// The number of fields that say a page's bad rows.
const BAD_FIELDS: u16 = 3;

/// The number of fields of a page that says these bad rows.
// ensures { result ≡ Spec.field_count bad }
fn field_count(bad: Option<BadRows>) -> u16 {
    if bad.is_some() {
        FORM_FIELDS + BAD_FIELDS
    } else {
        FORM_FIELDS
    }
}

/// How far after a directory's first byte the bytes after so many fields stand: after their number,
/// and twelve bytes of each (TIFF 6.0, section 2).
// ensures { result ≡ Spec.after_fields count }
pub(crate) fn after_fields(count: u16) -> u32 {
    2 + 12 * u32::from(count)
}

/// How far after a directory's first byte its next offset stands.
// ensures exact { result ≡ Spec.to_link bad }
// ensures near { result ≤ 230 }
pub(crate) fn to_next_offset(bad: Option<BadRows>) -> u32 {
    after_fields(field_count(bad))
}

/// How far after a directory's next offset the fraction of XResolution stands.
const LINK_TO_X_RESOLUTION: u32 = 4;
/// How far after it the fraction of YResolution stands.
const LINK_TO_Y_RESOLUTION: u32 = LINK_TO_X_RESOLUTION + 8;
/// How far after it the strips' offsets stand, where there are more than one.
const LINK_TO_STRIP_OFFSETS: u32 = LINK_TO_Y_RESOLUTION + 8;

/// The four bytes of a number.
// ensures { result ≡ Spec.four n }
pub(crate) fn u32_bytes(n: u32) -> [u8; 4] {
    let mut bytes = [0; 4];
    LittleEndian::write_u32(&mut bytes, n);
    bytes
}

/// The two bytes of one number, and then those of another.
// ensures { result ≡ Spec.two first ++ Spec.two second }
fn u16_pair_bytes(first: u16, second: u16) -> [u8; 4] {
    let mut bytes = [0; 4];
    LittleEndian::write_u16(&mut bytes, first);
    LittleEndian::write_u16(&mut bytes[2..], second);
    bytes
}

/// Appends a number of two bytes.
// ensures { OnOk result (out.new.items ≡ out.old.items ++ Spec.two n) }
fn push_u16(out: &mut Vec<u8>, n: u16) -> Result<(), AllocError> {
    let mut bytes = [0; 2];
    LittleEndian::write_u16(&mut bytes, n);
    out.extend_from_slice(&bytes)
}

/// Appends a number of four bytes.
// ensures { OnOk result (out.new.items ≡ out.old.items ++ Spec.four n) }
fn push_u32(out: &mut Vec<u8>, n: u32) -> Result<(), AllocError> {
    out.extend_from_slice(&u32_bytes(n))
}

/// A field as it is written.
struct Field {
    tag: u16,
    kind: u16,
    count: u32,
    value: [u8; 4],
}

impl Model for Field {}

/// A field of one SHORT.
// ensures { result ≡ SparseBytes.short_field tag n }
fn short_field(tag: u16, n: u16) -> Field {
    Field {
        tag,
        kind: tags::SHORT,
        count: 1,
        value: u16_pair_bytes(n, 0),
    }
}

/// A field of LONGs: the one that there is, or the offset of the first.
// ensures { result ≡ SparseBytes.long_field tag count n }
fn long_field(tag: u16, count: u32, n: u32) -> Field {
    Field {
        tag,
        kind: tags::LONG,
        count,
        value: u32_bytes(n),
    }
}

/// A field of one fraction, which stands at an offset.
// ensures { result ≡ SparseBytes.rational_field tag offset }
fn rational_field(tag: u16, offset: u32) -> Field {
    Field {
        tag,
        kind: tags::RATIONAL,
        count: 1,
        value: u32_bytes(offset),
    }
}

/// T4Options for MH and MR, with bit 2 where EOLs are aligned, T6Options for MMR.
// ensures { result ≡ Spec.options_field coding aligned }
fn options_field(coding: Coding, aligned: bool) -> Field {
    match coding {
        Coding::Mh => long_field(tags::T4_OPTIONS, 1, if aligned { 4 } else { 0 }),
        Coding::Mr => long_field(tags::T4_OPTIONS, 1, if aligned { 5 } else { 1 }),
        Coding::Mmr => long_field(tags::T6_OPTIONS, 1, 0),
    }
}

/// The number of a coding in Compression.
// ensures { result ≡ Spec.compression_of coding }
fn compression(coding: Coding) -> u16 {
    match coding {
        Coding::Mh | Coding::Mr => 3,
        Coding::Mmr => 4,
    }
}

/// The number of a fill order in FillOrder.
// ensures { result ≡ fill_order_of order }
fn fill_order(order: FillOrder) -> u16 {
    match order {
        FillOrder::MsbFirst => 1,
        FillOrder::LsbFirst => 2,
    }
}

/// Where a page is written: its number of how many, the offset of its directory, and its strips.
#[derive(Clone, Copy)]
pub(crate) struct Layout {
    /// The number of pages.
    pub total: u16,
    /// The number of this page, from 0.
    pub number: u16,
    /// The offset of the directory.
    pub directory: u32,
    /// The number of strips.
    pub strips: u32,
    /// The value of StripOffsets: the one offset, or the offset of the first.
    pub offsets: u32,
    /// The value of StripByteCounts: the one byte count, or the offset of the first.
    pub byte_counts: u32,
    /// The bad rows that the page says.
    pub bad: Option<BadRows>,
}

/// Appends the entry of a field.
// ensures { OnOk result (out.new.items ≡ out.old.items ++ Spec.field_bytes field.now) }
fn put_field(out: &mut Vec<u8>, field: &Field) -> Result<(), AllocError> {
    push_u16(out, field.tag)?;
    push_u16(out, field.kind)?;
    push_u32(out, field.count)?;
    out.extend_from_slice(&field.value)
}

/// Appends a fraction.
// ensures { OnOk result (out.new.items ≡ out.old.items ++ SparseBytes.rational_bytes value) }
fn put_rational(out: &mut Vec<u8>, value: (u32, u32)) -> Result<(), AllocError> {
    push_u32(out, value.0)?;
    push_u32(out, value.1)
}

/// The fields that the directory of each page has.
// requires { at.now.directory ≤ max_file }
// ensures { result ++ Spec.bad_fields at.now.bad ≡ laid_out_fields at.now form.now }
fn form_fields(form: &PageForm, at: &Layout) -> [Field; FORM_FIELDS as usize] {
    let link = at.directory + to_next_offset(at.bad);
    [
        long_field(tags::NEW_SUBFILE_TYPE, 1, 2),
        long_field(tags::IMAGE_WIDTH, 1, form.width),
        long_field(tags::IMAGE_LENGTH, 1, form.rows),
        short_field(tags::BITS_PER_SAMPLE, 1),
        short_field(tags::COMPRESSION, compression(form.coding)),
        short_field(tags::PHOTOMETRIC_INTERPRETATION, 0),
        short_field(tags::FILL_ORDER, fill_order(form.order)),
        long_field(tags::STRIP_OFFSETS, at.strips, at.offsets),
        short_field(tags::SAMPLES_PER_PIXEL, 1),
        long_field(tags::ROWS_PER_STRIP, 1, form.rows_per_strip),
        long_field(tags::STRIP_BYTE_COUNTS, at.strips, at.byte_counts),
        rational_field(tags::X_RESOLUTION, link + LINK_TO_X_RESOLUTION),
        rational_field(tags::Y_RESOLUTION, link + LINK_TO_Y_RESOLUTION),
        options_field(form.coding, form.aligned),
        short_field(tags::RESOLUTION_UNIT, form.unit),
        Field {
            tag: tags::PAGE_NUMBER,
            kind: tags::SHORT,
            count: 2,
            value: u16_pair_bytes(at.number, at.total),
        },
    ]
}

/// Appends the entries of fields.
// ensures { OnOk result (out.new.items ≡ out.old.items ++ flat_map Spec.field_bytes fields.now) }
fn put_fields(out: &mut Vec<u8>, fields: &[Field]) -> Result<(), AllocError> {
    for field in fields {
        put_field(out, field)?;
    }
    Ok(())
}

/// Appends the entries of the fields that say bad rows, if they are to be said.
// ensures { OnOk result (out.new.items
//     ≡ out.old.items ++ flat_map Spec.field_bytes (Spec.bad_fields bad)) }
fn put_bad_fields(out: &mut Vec<u8>, bad: Option<BadRows>) -> Result<(), AllocError> {
    let Some(bad) = bad else {
        return Ok(());
    };
    put_field(out, &long_field(tags::BAD_FAX_LINES, 1, bad.count))?;
    put_field(out, &short_field(tags::CLEAN_FAX_DATA, 1))?;
    put_field(
        out,
        &long_field(tags::CONSECUTIVE_BAD_FAX_LINES, 1, bad.consecutive),
    )
}

/// Appends a page's directory, with the next offset 0.
// requires { at.now.directory ≤ max_file }
// ensures { OnOk result (out.new.items
//     ≡ out.old.items ++ SparseBytes.fields_bytes (laid_out_fields at.now form.now)
//     ++ Spec.four 0) }
fn put_directory(out: &mut Vec<u8>, form: &PageForm, at: &Layout) -> Result<(), AllocError> {
    push_u16(out, field_count(at.bad))?;
    put_fields(out, &form_fields(form, at))?;
    put_bad_fields(out, at.bad)?;
    push_u32(out, 0)
}

/// Appends the offsets of strips that begin at an offset.
// requires { start + length (SparseBytes.joined_strips (contents strips.now)) < 4294967296 }
// ensures { OnOk result (out.new.items
//     ≡ out.old.items ++ SparseBytes.longs (Spec.offsets_from start (contents strips.now))) }
fn put_offsets(out: &mut Vec<u8>, start: u32, strips: &[Vec<u8>]) -> Result<(), AllocError> {
    let mut offset = start;
    for strip in strips {
        push_u32(out, offset)?;
        offset += strip.len() as u32;
    }
    Ok(())
}

/// Appends the byte counts of strips.
// requires { length (SparseBytes.joined_strips (contents strips.now)) < 4294967296 }
// ensures { OnOk result (out.new.items
//     ≡ out.old.items ++ SparseBytes.longs (SparseBytes.lengths_of (contents strips.now))) }
fn put_byte_counts(out: &mut Vec<u8>, strips: &[Vec<u8>]) -> Result<(), AllocError> {
    for strip in strips {
        push_u32(out, strip.len() as u32)?;
    }
    Ok(())
}

/// Appends the bytes of strips. Where a growth is refused, what stood there stays in front.
// ensures ok { OnOk result (out.new.items
//     ≡ out.old.items ++ SparseBytes.joined_strips (contents strips.now)) }
// ensures err { OnErr result (take (length out.old.items) out.new.items ≡ out.old.items) }
fn put_strips(out: &mut Vec<u8>, strips: &[Vec<u8>]) -> Result<(), AllocError> {
    for strip in strips {
        out.extend_from_slice(strip)?;
    }
    Ok(())
}

/// The strips of a page that is written, which begin and end at these offsets of the file.
#[derive(Clone, Copy)]
pub(crate) struct StripsAt<'a> {
    pub strips: &'a [Vec<u8>],
    pub start: u32,
    pub end: u32,
}

/// The bytes of a page that stand after its strips: a zero byte to an even offset, the directory,
/// and the values that do not fit it.
// requires end { placed.end
//     ≡ placed.start + length (SparseBytes.joined_strips (contents placed.strips.now)) }
// requires limit { at.now.directory ≤ max_file }
// requires strips { at.now.strips ≡ length placed.strips.now }
// ensures { IfOk result (λ tail. tail.items
//     ≡ tail_bytes placed.entry.end (laid_out_fields at.now form.now) form.now
//     placed.entry.start (contents placed.entry.strips.now)) }
pub(crate) fn page_tail(
    alloc: Global,
    form: &PageForm,
    placed: StripsAt,
    at: &Layout,
) -> Result<Vec<u8>, AllocError> {
    let StripsAt { strips, start, end } = placed;
    let mut tail = Vec::new(alloc);
    if end % 2 == 1 {
        tail.extend_from_slice(&[0])?;
    }
    put_directory(&mut tail, form, at)?;
    put_rational(&mut tail, form.x)?;
    put_rational(&mut tail, form.y)?;
    if at.strips != 1 {
        put_offsets(&mut tail, start, strips)?;
        put_byte_counts(&mut tail, strips)?;
    }
    Ok(tail)
}

/// How many bytes a file has whose last page has its directory at this offset, so many strips, and
/// these bad rows.
// ensures { result ≡ end_of_page directory strips bad }
pub(crate) fn page_end(directory: u32, strips: u32, bad: Option<BadRows>) -> u64 {
    let arrays = if strips == 1 {
        0
    } else {
        8 * u64::from(strips)
    };
    u64::from(directory) + u64::from(to_next_offset(bad) + LINK_TO_STRIP_OFFSETS) + arrays
}

/// How a page is laid out whose strips begin at `start` and end at `end`.
// requires order { start ≤ end }
// requires limit { end_of_page (end + end % 2) strips bad ≤ max_file }
// ensures { IsLayout result strips start end number total bad }
pub(crate) fn page_layout(
    strips: u32,
    start: u32,
    end: u32,
    number: u16,
    total: u16,
    bad: Option<BadRows>,
) -> Layout {
    let directory = end + end % 2;
    let (offsets, byte_counts) = if strips == 1 {
        (start, end - start)
    } else {
        let offsets = directory + to_next_offset(bad) + LINK_TO_STRIP_OFFSETS;
        (offsets, offsets + 4 * strips)
    };
    Layout {
        total,
        number,
        directory,
        strips,
        offsets,
        byte_counts,
        bad,
    }
}

/// Appends strips and what stands after them, for which memory is reserved at once. Where it is
/// refused, what stood there stays in front.
// ensures ok { OnOk result (bytes.new.items
//     ≡ bytes.old.items ++ (SparseBytes.joined_strips (contents strips.now) ++ tail.now)) }
// ensures err { OnErr result (take (length bytes.old.items) bytes.new.items ≡ bytes.old.items) }
pub(crate) fn append(bytes: &mut Vec<u8>, strips: &[Vec<u8>], tail: &[u8]) -> Result<(), AllocError> {
    put_strips(bytes, strips)?;
    bytes.extend_from_slice(tail)
}

/// Sets the four bytes at an offset.
// requires { offset + 4 ≤ length bytes.old }
// ensures { bytes.new ≡ SparseBytes.with_four_at bytes.old offset n }
fn set_u32(bytes: &mut [u8], offset: usize, n: u32) {
    bytes[offset..offset + 4].copy_from_slice(&u32_bytes(n));
}

/// The offset after strips that begin at an offset, if it is within the limit of a file.
// requires { start ≤ max_file }
// ensures found { IfSome result (λ end. end
//     ≡ start + length (SparseBytes.joined_strips (contents strips.now))) }
// ensures limit { IfSome result (λ end. end ≤ max_file) }
// ensures none { IfNone result (max_file
//     < start + length (SparseBytes.joined_strips (contents strips.now))) }
pub(crate) fn strips_end(start: u32, strips: &[Vec<u8>]) -> Option<u32> {
    let mut end = start;
    for strip in strips {
        if strip.len() > (MAX_FILE - end) as usize {
            return None;
        }
        end += strip.len() as u32;
    }
    Some(end)
}

/// Sets the four bytes at an offset of a file.
// requires { offset + 4 ≤ length bytes.old.items }
// ensures { bytes.new.items ≡ SparseBytes.with_four_at bytes.old.items offset n }
pub(crate) fn set_link(bytes: &mut Vec<u8>, offset: usize, n: u32) {
    set_u32(bytes, offset, n);
}
