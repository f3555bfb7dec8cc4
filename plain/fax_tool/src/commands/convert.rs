// Made by tools/plain-rust of crates/fax_tool/src/commands/convert.rt: change that.
//! `convert`: the pages in another form.

use crate::refusal::Refusal;
use crate::streams::input_buffer::InputBuffer;
use crate::streams::transfer::{CHUNK, RetryCount, read_rest, write_all, zero_bytes};
use crate::streams::{Sink, Source};
use crate::text::fault::{ErrorLine, conversion_line};
use fax_walk::{ConvertFault, ImageConversion, Options, Part, SparseBytes};
use kit_std::alloc::Global;

/// How many zeros are written at once.
pub(crate) const BLOCK: usize = 65_536;

/// Writes so many zeros, from a block of them.
// requires block { block.now ≡ replicate (length block.now) 0 }
// requires some { 0 < length block.now }
// requires counts { W.counts out.old ≡ counted interruptions.old }
// ensures ok { OnOk result (Appends (W.written out.old) (W.written out.new) (replicate zeros 0)) }
// ensures counts { OnOk result (W.counts out.new ≡ counted interruptions.new) }
// ensures err { IfErr result (IsGivenInPart (W.written out.old) (W.written out.new)
//     (replicate zeros 0) (W.counts out.new)) }
fn give_zeros<W: Sink>(
    out: &mut W,
    interruptions: &mut RetryCount,
    block: &[u8],
    zeros: usize,
) -> Result<(), Refusal> {
    let mut remaining = zeros;
    while remaining > 0 {
        let count = remaining.min(block.len());
        write_all(out, interruptions, &block[..count])?;
        remaining -= count;
    }
    Ok(())
}

/// Writes a part of an output, with its zeros from a block.
// requires block { block.now ≡ replicate (length block.now) 0 }
// requires some { 0 < length block.now }
// requires counts { W.counts out.old ≡ counted interruptions.old }
// ensures ok { OnOk result (Appends (W.written out.old) (W.written out.new)
//     (part_bytes part.entry)) }
// ensures counts { OnOk result (W.counts out.new ≡ counted interruptions.new) }
// ensures err { IfErr result (IsGivenInPart (W.written out.old) (W.written out.new)
//     (part_bytes part.entry) (W.counts out.new)) }
fn give_part<W: Sink>(
    out: &mut W,
    interruptions: &mut RetryCount,
    block: &[u8],
    part: Part,
) -> Result<(), Refusal> {
    write_all(out, interruptions, part.held)?;
    give_zeros(out, interruptions, block, part.zeros)
}

/// Writes an output part by part, with zeros from a block.
// requires block { block.now ≡ replicate (length block.now) 0 }
// requires some { 0 < length block.now }
// requires counts { W.counts out.old ≡ no_faults }
// ensures ok { OnOk result (Appends (W.written out.old) (W.written out.new) output.now) }
// ensures worked { OnOk result (HasWorked (W.counts out.new)) }
// ensures err { IfErr result (IsGivenInPart (W.written out.old) (W.written out.new) output.now
//     (W.counts out.new)) }
pub(crate) fn write_parts<W: Sink>(
    out: &mut W,
    block: &[u8],
    output: &SparseBytes,
) -> Result<(), Refusal> {
    let mut interruptions = RetryCount::NONE;
    let mut remaining = output.parts();
    while let Some(part) = remaining.next_part() {
        give_part(out, &mut interruptions, block, part)?;
    }
    interruptions.lemma_few();
    Ok(())
}

/// What the input becomes by the options. Raw PBM is converted as its bytes come, of which whole
/// images are not held; any other input is read whole.
// requires counts { R.counts input.old ≡ no_faults }
// requires taken { R.taken input.old ≡ 0 }
// ensures converts { IfOk result (λ answer. (file : List ℕ)
//     × IfSome (R.remaining input.old) (λ bytes. file ≡ bytes)
//     × IfOk answer (λ output. IsConverted file options output)
//     × IfErr answer (λ fault. fault ≢ ConvertFault.Memory → IsNotConverted file options fault)) }
// ensures read { OnOk result (IsRead
//     (input_after (R.remaining input.old) (R.taken input.new) (R.counts input.new))) }
// ensures reason { IfErr result (λ refusal. HasReadReason refusal
//     (input_after (R.remaining input.old) (R.taken input.new) (R.counts input.new))) }
fn read_conversion<R: Source>(
    alloc: Global,
    options: Options,
    input: &mut R,
) -> Result<Result<SparseBytes, ConvertFault>, Refusal> {
    let mut interruptions = RetryCount::NONE;
    let mut held = InputBuffer::new(alloc, CHUNK)?;
    let mut ended = held.fill(input, &mut interruptions)?;
    if !held.bytes().starts_with(b"P4") {
        let file = read_rest(alloc, input, &mut interruptions, held, ended)?;
        return Ok(fax_walk::convert_sparse(alloc, &file, &options));
    }
    interruptions.lemma_few();
    let Ok(mut conversion) = ImageConversion::new(alloc, options) else {
        return Err(Refusal::Memory);
    };
    while !ended {
        interruptions.lemma_few();
        let Ok(taken) = conversion.take_images(held.bytes()) else {
            return Err(Refusal::Memory);
        };
        held.drop_front(taken);
        ended = held.fill(input, &mut interruptions)?;
    }
    interruptions.lemma_few();
    Ok(conversion.finish(held.bytes()))
}

/// Reads the input and writes its pages as the options say. Where it is refused nothing is written.
// requires input_counts { R.counts input.old ≡ no_faults }
// requires taken { R.taken input.old ≡ 0 }
// requires counts { W.counts out.old ≡ no_faults }
// ensures ok { IfOk result (IsDone (Convert options)
//     (input_after (R.remaining input.old) (R.taken input.new) (R.counts input.new))
//     (output_after (W.written out.old) (W.written out.new) (W.counts out.new))) }
// ensures err { IfErr result (λ refusal. IsStopped (Convert options) refusal
//     (input_after (R.remaining input.old) (R.taken input.new) (R.counts input.new))
//     (output_after (W.written out.old) (W.written out.new) (W.counts out.new))) }
pub fn write_conversion<R: Source, W: Sink>(
    alloc: Global,
    options: Options,
    input: &mut R,
    out: &mut W,
) -> Result<Option<ErrorLine>, Refusal> {
    let answer = read_conversion(alloc, options, input)?;
    match answer {
        Ok(output) => {
            let block = zero_bytes(alloc, BLOCK)?;
            write_parts(out, &block, &output)?;
            Ok(None)
        }
        Err(fault) => Ok(Some(conversion_line(fault)?)),
    }
}
