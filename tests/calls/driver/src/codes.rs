//! Calls of `fax_bits`: codes, and bits in bytes.

use crate::table::WrongLine;
use crate::{text, words};
use fax_bits::{
    put_mode, put_run, read_code, reverse_bits, BitSink, BitSource, BlackRuns, CodeFault,
    CodeTable, FillOrder, Memory, ModeCode, Modes, PendingBits, RunPair, WhiteRuns, SHORT_RUN,
};
use kit_std::alloc::Global;

/// What a call of this file answers, or `None` where it has none of that name.
pub fn answer(words: &[&str]) -> Result<Option<String>, WrongLine> {
    let answer = match *words {
        ["read_code", table, bits] => code(table, bits)?,
        ["find", table, bits] => found(table, bits)?,
        ["pairs", skip, bits, most] => pairs(skip, bits, most)?,
        ["try_read_run_pair", total, width, bits] => try_read_run_pair(total, width, bits)?,
        ["try_read_horizontal", total, width, bits] => try_read_horizontal(total, width, bits)?,
        ["try_read_run", colour, bits, most] => try_read_run(colour, bits, most)?,
        ["mode", bits] => looked_up_mode(bits)?,
        ["verticals", bits] => verticals(bits)?,
        ["skip_ones", bits, most] => skip_ones(bits, most)?,
        ["skip_short_zeros", order, bits, place] => skip_short_zeros(order, bits, place)?,
        ["skip_run_if_next", colour, bits, pels] => skip_run_if_next(colour, bits, pels)?,
        ["skip_zeros_and_one", bits, least] => past_zeros(bits, least)?,
        ["put_run", colour, pels] => run(colour, pels)?,
        ["put_short_pair", colour, first, second] => short_pair(colour, first, second)?,
        ["put_mode", mode] => mode_bits(mode)?,
        ["put", order, first, second, third] => three_puts(order, first, second, third)?,
        ["peek", order, bits, count] => peeked(order, bits, count)?,
        ["reverse_bits", bytes] => reversed(bytes)?,
        ["says", fault] => said(fault)?,
        _ => return Ok(None),
    };
    Ok(Some(answer))
}

/// The code that bits begin with, and the place after it.
fn code(table: &str, bits: &str) -> Result<String, WrongLine> {
    let bytes = words::bytes(bits)?;
    let mut source = BitSource::new(&bytes, FillOrder::MsbFirst);
    let read = match table {
        "white" => format!("{:?}", read_code::<WhiteRuns>(&mut source)),
        "black" => format!("{:?}", read_code::<BlackRuns>(&mut source)),
        "modes" => format!("{:?}", read_code::<Modes>(&mut source)),
        _ => return Err(WrongLine::BadWord),
    };
    Ok(format!("{read} {}", source.place()))
}

/// The length and the meaning of the code that few bits begin with.
fn found(table: &str, bits: &str) -> Result<String, WrongLine> {
    let (window, count) = words::short_bits(bits)?;
    if count > 13 {
        return Err(WrongLine::OutOfLimits);
    }
    match table {
        "white" => Ok(format!("{:?}", WhiteRuns::find(window, count))),
        "black" => Ok(format!("{:?}", BlackRuns::find(window, count))),
        "modes" => Ok(format!("{:?}", Modes::find(window, count))),
        _ => Err(WrongLine::BadWord),
    }
}

/// The pairs of a white run and a black one that are read one after another, and the place after
/// them.
fn pairs(skip: &str, bits: &str, most: &str) -> Result<String, WrongLine> {
    let most = words::number(most)?;
    let bytes = words::bytes(bits)?;
    let mut source = BitSource::new(&bytes, FillOrder::MsbFirst);
    let skip = u64::from(words::number(skip)?);
    if skip > source.remaining() {
        return Err(WrongLine::OutOfLimits);
    }
    source.skip(skip);
    let mut text = String::new();
    for _ in 0..8 {
        match source.try_read_run_pair(0, most) {
            Some(pair) => text.push_str(&format!("{},{} ", pair.white, pair.black)),
            None => {
                text.push_str(&format!("{}", source.place()));
                return Ok(text);
            }
        }
    }
    Err(WrongLine::OutOfLimits)
}

/// A pair that is read where so many pels of the row's width stand before it, and the place then.
fn pair(
    total: &str,
    width: &str,
    bits: &str,
    read: impl FnOnce(&mut BitSource, u32, u32) -> Option<RunPair>,
) -> Result<String, WrongLine> {
    let total = words::number(total)?;
    let width = words::number(width)?;
    let bytes = words::bytes(bits)?;
    let mut source = BitSource::new(&bytes, FillOrder::MsbFirst);
    if total >= 0x8000_0000 {
        return Err(WrongLine::OutOfLimits);
    }
    match read(&mut source, total, width) {
        Some(pair) => Ok(format!("{},{} {}", pair.white, pair.black, source.place())),
        None => Ok(format!("none {}", source.place())),
    }
}

/// The pair at the front of the bits.
fn try_read_run_pair(total: &str, width: &str, bits: &str) -> Result<String, WrongLine> {
    pair(total, width, bits, |source, total, width| {
        source.try_read_run_pair(total, width)
    })
}

/// The pair after horizontal mode.
fn try_read_horizontal(total: &str, width: &str, bits: &str) -> Result<String, WrongLine> {
    pair(total, width, bits, |source, total, width| {
        source.try_read_horizontal(total, width)
    })
}

/// The run of at most so many pels that is read, and the place then.
fn try_read_run(colour: &str, bits: &str, most: &str) -> Result<String, WrongLine> {
    let colour = words::colour(colour)?;
    let bytes = words::bytes(bits)?;
    let most = words::number(most)?;
    let mut source = BitSource::new(&bytes, FillOrder::MsbFirst);
    match source.try_read_run(colour, most) {
        Some(pels) => Ok(format!("{pels} {}", source.place())),
        None => Ok(format!("none {}", source.place())),
    }
}

/// The mode that one look-up reads, and the place then; or both answers, where it matters which
/// modes are looked for first.
fn looked_up_mode(bits: &str) -> Result<String, WrongLine> {
    let bytes = words::bytes(bits)?;
    let mut source = BitSource::new(&bytes, FillOrder::MsbFirst);
    let mut other = BitSource::new(&bytes, FillOrder::MsbFirst);
    let answer = format!("{:?} {}", source.try_read_mode::<false>(), source.place());
    let other_answer = format!("{:?} {}", other.try_read_mode::<true>(), other.place());
    if answer == other_answer {
        Ok(answer)
    } else {
        Ok(format!("{answer} or {other_answer}"))
    }
}

/// How many vertical modes one look-up reads, how many pels right of the pel three left of b1 a1 is
/// in each, 0 after the last of them, and the place then.
fn verticals(bits: &str) -> Result<String, WrongLine> {
    let bytes = words::bytes(bits)?;
    let mut source = BitSource::new(&bytes, FillOrder::MsbFirst);
    match source.try_read_verticals() {
        Some(found) => {
            let place = source.place();
            Ok(format!(
                "{} {:?} {place}",
                found.count, found.biased_offsets
            ))
        }
        None => Ok(format!("none {}", source.place())),
    }
}

/// After a mode, which loads bits: how many ones are next, how many of them are gone past, and the
/// place after those.
fn skip_ones(bits: &str, most: &str) -> Result<String, WrongLine> {
    let most = words::number(most)?;
    let bytes = words::bytes(bits)?;
    let mut source = BitSource::new(&bytes, FillOrder::MsbFirst);
    if most > 32 {
        return Err(WrongLine::OutOfLimits);
    }
    let _mode = source.try_read_mode::<false>();
    let ones = source.ones();
    let count = source.skip_ones(most);
    Ok(format!("{ones} {count} {}", source.place()))
}

/// The place to which bits from a place on are skipped, before which no eleven zeros begin.
fn skip_short_zeros(order: &str, bits: &str, place: &str) -> Result<String, WrongLine> {
    let order = words::order(order)?;
    let place = u64::from(words::number(place)?);
    let bytes = words::bytes(bits)?;
    let mut source = BitSource::new(&bytes, order);
    if place > source.remaining() {
        return Err(WrongLine::OutOfLimits);
    }
    source.skip(place);
    source.skip_short_zeros();
    Ok(source.place().to_string())
}

/// Whether the codes of a run were gone past, and the place after them.
fn skip_run_if_next(colour: &str, bits: &str, pels: &str) -> Result<String, WrongLine> {
    let colour = words::colour(colour)?;
    let pels = words::number(pels)?;
    if pels >= 2560 {
        return Err(WrongLine::OutOfLimits);
    }
    let bytes = words::bytes(bits)?;
    let mut source = BitSource::new(&bytes, FillOrder::MsbFirst);
    let taken = source.skip_run_if_next(colour, pels);
    Ok(format!("{taken} {}", source.place()))
}

/// Whether so many zeros and the 1 after them were gone past, and the place then.
fn past_zeros(bits: &str, least: &str) -> Result<String, WrongLine> {
    let least = words::number(least)?;
    let bytes = words::bytes(bits)?;
    let mut source = BitSource::new(&bytes, FillOrder::MsbFirst);
    let past = source.skip_zeros_and_one(least);
    Ok(format!("{past} {}", source.place()))
}

/// The bits of a run.
fn run(colour: &str, pels: &str) -> Result<String, WrongLine> {
    let colour = words::colour(colour)?;
    let pels = words::number(pels)?;
    if pels > 65_535 {
        return Err(WrongLine::OutOfLimits);
    }
    let mut sink = BitSink::new(Global, FillOrder::MsbFirst);
    put_run(&mut sink, colour, pels)?;
    Ok(text::bits(sink))
}

/// The bits of two short runs, the first of this colour.
fn short_pair(colour: &str, first: &str, second: &str) -> Result<String, WrongLine> {
    let colour = words::colour(colour)?;
    let first = words::number(first)?;
    let second = words::number(second)?;
    if first >= SHORT_RUN || second >= SHORT_RUN {
        return Err(WrongLine::OutOfLimits);
    }
    let mut sink = BitSink::new(Global, FillOrder::MsbFirst);
    PendingBits::none()
        .put_short_pair(&mut sink, colour, first, second)?
        .put_all(&mut sink)?;
    Ok(text::bits(sink))
}

/// The bits of a mode: its name, or how far a1 is right of b1.
fn mode_bits(mode: &str) -> Result<String, WrongLine> {
    let mode = match mode {
        "pass" => ModeCode::Pass,
        "horizontal" => ModeCode::Horizontal,
        "0" => ModeCode::Vertical(0),
        "1" => ModeCode::Vertical(1),
        "2" => ModeCode::Vertical(2),
        "3" => ModeCode::Vertical(3),
        "-1" => ModeCode::Vertical(-1),
        "-2" => ModeCode::Vertical(-2),
        "-3" => ModeCode::Vertical(-3),
        _ => return Err(WrongLine::BadWord),
    };
    let mut sink = BitSink::new(Global, FillOrder::MsbFirst);
    put_mode(&mut sink, mode)?;
    Ok(text::bits(sink))
}

/// How many bits three puts leave, and their bytes.
fn three_puts(order: &str, first: &str, second: &str, third: &str) -> Result<String, WrongLine> {
    let mut sink = BitSink::new(Global, words::order(order)?);
    for word in [first, second, third] {
        let (bits, len) = words::short_bits(word)?;
        sink.put(bits, len)?;
    }
    let len = sink.len();
    sink.pad();
    sink.pad();
    let bytes = text::digits(&sink.into_bytes());
    Ok(format!("{len} {bytes}"))
}

/// The number of the first bits.
fn peeked(order: &str, bytes: &str, count: &str) -> Result<String, WrongLine> {
    let order = words::order(order)?;
    let bytes = words::bytes(bytes)?;
    let count = words::number(count)?;
    if count > 32 {
        return Err(WrongLine::OutOfLimits);
    }
    let source = BitSource::new(&bytes, order);
    Ok(format!("{:b}", source.peek(count)))
}

/// The bytes with their bits turned round.
fn reversed(bytes: &str) -> Result<String, WrongLine> {
    let mut bytes = words::bytes(bytes)?;
    reverse_bits(&mut bytes);
    Ok(text::digits(&bytes))
}

/// What an error says.
fn said(fault: &str) -> Result<String, WrongLine> {
    match fault {
        "DataEnds" => Ok(format!("{}", CodeFault::DataEnds)),
        "BadCode" => Ok(format!("{}", CodeFault::BadCode)),
        "Memory" => Ok(format!("{Memory}")),
        _ => Err(WrongLine::BadWord),
    }
}
