//! What the words of a call mean.

use crate::table::WrongLine;
use fax_page::Coding;
use fax_rows::{Colour, FillOrder, Row};
use kit_std::alloc::Global;

/// The most bytes of a word.
const MOST_BYTES: usize = 4_000_000;

/// A number.
pub fn number(word: &str) -> Result<u32, WrongLine> {
    word.parse::<u32>().map_err(|_| WrongLine::BadWord)
}

pub fn colour(word: &str) -> Result<Colour, WrongLine> {
    match word {
        "white" => Ok(Colour::White),
        "black" => Ok(Colour::Black),
        _ => Err(WrongLine::BadWord),
    }
}

/// The order of a byte's bits.
pub fn order(word: &str) -> Result<FillOrder, WrongLine> {
    match word {
        "msb" => Ok(FillOrder::MsbFirst),
        "lsb" => Ok(FillOrder::LsbFirst),
        _ => Err(WrongLine::BadWord),
    }
}

pub fn coding(word: &str) -> Result<Coding, WrongLine> {
    match word {
        "mh" => Ok(Coding::Mh),
        "mr" => Ok(Coding::Mr),
        "mmr" => Ok(Coding::Mmr),
        _ => Err(WrongLine::BadWord),
    }
}

/// Whether EOLs are aligned.
pub fn alignment(word: &str) -> Result<bool, WrongLine> {
    match word {
        "aligned" => Ok(true),
        "plain" => Ok(false),
        _ => Err(WrongLine::BadWord),
    }
}

/// Whether a character of bits is a one, or `None` where it only parts codes.
fn bit(character: u8) -> Result<Option<bool>, WrongLine> {
    match character {
        b'0' | b'W' => Ok(Some(false)),
        b'1' | b'B' => Ok(Some(true)),
        b'.' | b'-' => Ok(None),
        _ => Err(WrongLine::BadWord),
    }
}

/// The bytes of bits, the highest of each first. The last byte is filled with zeros.
fn bytes_of_bits(bits: &str) -> Result<Vec<u8>, WrongLine> {
    let mut bytes = Vec::new();
    let mut place = 0x80u8;
    let mut byte = 0u8;
    for character in bits.bytes() {
        if let Some(is_one) = bit(character)? {
            byte |= if is_one { place } else { 0 };
            place >>= 1;
            if place == 0 {
                bytes.push(byte);
                place = 0x80;
                byte = 0;
            }
        }
    }
    if place != 0x80 {
        bytes.push(byte);
    }
    Ok(bytes)
}

/// The number of a hexadecimal digit.
fn digit(character: u8) -> Result<u8, WrongLine> {
    match character {
        b'0'..=b'9' => Ok(character - b'0'),
        b'A'..=b'F' => Ok(character - b'A' + 10),
        _ => Err(WrongLine::BadWord),
    }
}

/// The bytes of pairs of hexadecimal digits.
fn bytes_of_digits(digits: &str) -> Result<Vec<u8>, WrongLine> {
    let mut bytes = Vec::new();
    for pair in digits.as_bytes().chunks(2) {
        match *pair {
            [high, low] => bytes.push((digit(high)? << 4) | digit(low)?),
            _ => return Err(WrongLine::BadWord),
        }
    }
    Ok(bytes)
}

/// Bytes: an `x` and two hexadecimal digits for each, or bits.
pub fn bytes(word: &str) -> Result<Vec<u8>, WrongLine> {
    let bytes = match word.strip_prefix('x') {
        Some(digits) => bytes_of_digits(digits)?,
        None => bytes_of_bits(word)?,
    };
    if bytes.len() > MOST_BYTES {
        return Err(WrongLine::OutOfLimits);
    }
    Ok(bytes)
}

/// A number of up to 24 bits that is spelled by bits, and how many they are.
pub fn short_bits(word: &str) -> Result<(u32, u32), WrongLine> {
    if word == "-" {
        return Ok((0, 0));
    }
    let bits = u32::from_str_radix(word, 2).map_err(|_| WrongLine::BadWord)?;
    let len = word.len();
    if len > 24 || bits >> (len as u32) != 0 {
        return Err(WrongLine::OutOfLimits);
    }
    Ok((bits, len as u32))
}

/// A row's width, or a fault where it has none.
pub fn width(word: &str) -> Result<u32, WrongLine> {
    let width = number(word)?;
    if width == 0 || width > 65_535 {
        return Err(WrongLine::OutOfLimits);
    }
    Ok(width)
}

/// The row of these bytes.
pub fn packed_row(width: u32, bytes: &[u8]) -> Result<Row, WrongLine> {
    if width == 0 || width > 65_535 || bytes.len() != width.div_ceil(8) as usize {
        return Err(WrongLine::OutOfLimits);
    }
    Ok(Row::from_packed(Global, bytes, width)?)
}

/// A row: its pels, `W` or `B` for each, or its width, a colon and its bytes.
pub fn row(word: &str) -> Result<Row, WrongLine> {
    match word.split_once(':') {
        Some((width, digits)) => packed_row(number(width)?, &bytes(digits)?),
        None => {
            let width = u32::try_from(word.len()).map_err(|_| WrongLine::OutOfLimits)?;
            packed_row(width, &bytes(word)?)
        }
    }
}

/// A white row as wide as another.
pub fn white(row: &Row) -> Result<Row, WrongLine> {
    let width = row.width();
    if width == 0 || width > 65_535 {
        return Err(WrongLine::OutOfLimits);
    }
    Ok(Row::white(Global, width)?)
}

/// Numbers with commas between them, or `-` for none.
pub fn numbers(word: &str) -> Result<Vec<u32>, WrongLine> {
    let mut numbers = Vec::new();
    if word != "-" {
        for part in word.split(',') {
            numbers.push(number(part)?);
        }
    }
    Ok(numbers)
}
