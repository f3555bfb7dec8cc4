// Made by tools/plain-rust of crates/fax_bits/src/sink.rt: change that.
//! Bits that are put one after another into bytes.

use kit_std::prelude::Vec;

use crate::bit_reversal::reverse_bits;
use crate::window::word_at;
use crate::{BitSource, FillOrder, Memory};
use kit_std::alloc::Global;
use kit_std::marker::Model;

/// The most bits that are pending between two calls.
const MOST_PENDING: u32 = 32;

/// How many bytes have room before a word is stored: its four, and five after them.
const ROOM: usize = 9;

/// Pushes the whole bytes of pending bits after bytes that have room for them, and answers the bits
/// that are pending then, fewer than eight, and how many they are.
// requires few { count ≤ 64 }
// requires fits { pending < 2 ^ count }
// requires room { 8 * vec_len bytes.old + count ≤ 8 * vec_capacity bytes.old }
// ensures pushed { bits MsbFirst bytes.new.items ++ code_bits result.1 result.0
//     ≡ bits MsbFirst bytes.old.items ++ code_bits count pending }
// ensures fewer { result.1 < 8 }
// ensures fits { result.0 < 2 ^ result.1 }
// ensures len { 8 * vec_len bytes.new + result.1 ≡ 8 * vec_len bytes.old + count }
// ensures room { vec_capacity bytes.new ≡ vec_capacity bytes.old }
fn push_whole(bytes: &mut Vec<u8>, pending: u64, count: u32) -> (u64, u32) {
    let mut rest = pending;
    let mut remaining = count;
    while remaining >= 8 {
        remaining -= 8;
        let byte = (rest >> remaining) as u8;
        bytes.push_reserved(byte);
        rest &= (1 << remaining) - 1;
    }
    (rest, remaining)
}

/// Pushes the four bytes of a word, the highest first, after bytes that have room for them.
#[inline(always)]
// requires room { vec_len bytes.old + 4 ≤ vec_capacity bytes.old }
// ensures pushed { bits MsbFirst bytes.new.items ≡ bits MsbFirst bytes.old.items
//     ++ code_bits 32 word }
// ensures len { vec_len bytes.new ≡ vec_len bytes.old + 4 }
// ensures room { vec_capacity bytes.old ≤ vec_capacity bytes.new }
fn push_word(bytes: &mut Vec<u8>, word: u32) {
    // There is room, so that this does not fail.
    let _ = bytes.extend_from_slice(&word.to_be_bytes());
}

/// Bits, and the bytes that hold them. Contracts see the order of the bits in a byte and the list
/// of the bits.
// Pending bits are one number, and are stored by words of four bytes. While any may be pending
// there is room for five bytes more, so that `pad` takes no memory.
pub struct BitSink {
    order: FillOrder,
    /// Whole bytes, the highest bit of each first. Where bits may be pending there is room for five
    /// more.
    bytes: Vec<u8>,
    /// The bits after the bytes, as a number: the highest was put first.
    pending: u64,
    /// How many bits are pending.
    count: u32,
    /// How many bits may be pending: none before the first of them are put, and then 32.
    most: u32,
}

impl Model for BitSink {}

impl BitSink {
    /// No bits; `order` says which bit of a byte is put first (TIFF 6.0, FillOrder).
    // ensures { result ≡ record { order = order; bits = [] } }
    pub fn new(alloc: Global, order: FillOrder) -> Self {
        BitSink {
            order,
            bytes: Vec::new(alloc),
            pending: 0,
            count: 0,
            most: 0,
        }
    }

    /// How many bits were put.
    // ensures { result ≡ length self.now.bits }
    pub fn len(&self) -> u128 {
        self.bytes.len() as u128 * 8 + u128::from(self.count)
    }

    /// Forgets all bits. Their memory stays for those to come.
    // ensures { self.new ≡ record self.old { bits = [] } }
    pub fn clear(&mut self) {
        self.bytes.clear();
        self.pending = 0;
        self.count = 0;
    }

    /// Whether the bits that a source has left begin with these.
    // ensures { IsTrue result ↔ StartsWith source.now.remaining self.now.bits }
    pub fn starts_with(&self, source: &BitSource) -> bool {
        let mut ahead = source.fork();
        for byte in &self.bytes {
            if !ahead.take(u32::from(*byte), 8) {
                return false;
            }
        }
        ahead.starts_with(self.pending, self.count)
    }

    /// Puts the lowest `len` bits of `bits`, 0 to 32 of them, the highest first.
    ///
    /// # Errors
    ///
    /// Where a growth was refused. The sink is then as it was.
    #[inline(always)]
    // requires short { len ≤ 32 }
    // requires fits { bits < 2 ^ len }
    // ensures ok { OnOk result (Appends self.old (code_bits len bits) self.new) }
    // ensures err { OnErr result (self.new ≡ self.old) }
    pub fn put(&mut self, bits: u32, len: u32) -> Result<(), Memory> {
        let count = self.count + len;
        if count > self.most {
            return self.store(bits, len);
        }
        self.pending = (self.pending << len) | u64::from(bits);
        self.count = count;
        Ok(())
    }

    /// What `put` does where the pending bits have to become bytes, or have no room yet, for 0 to
    /// 32 bits.
    #[inline(never)]
    // requires short { len ≤ 32 }
    // requires fits { bits < 2 ^ len }
    // ensures ok { OnOk result (Appends self.old (code_bits len bits) self.new) }
    // ensures err { OnErr result (self.new ≡ self.old) }
    fn store(&mut self, bits: u32, len: u32) -> Result<(), Memory> {
        self.bytes.reserve(ROOM).map_err(|_| Memory)?;
        let pending = (self.pending << len) | u64::from(bits);
        let count = self.count + len;
        self.most = MOST_PENDING;
        if count < 32 {
            self.pending = pending;
            self.count = count;
            return Ok(());
        }
        let remaining = count - 32;
        push_word(&mut self.bytes, (pending >> remaining) as u32);
        self.pending = pending & ((1 << remaining) - 1);
        self.count = remaining;
        Ok(())
    }

    /// Puts the 32 bits of a word, the highest first. After an `Err` the sink is as it was.
    #[inline(always)]
    // ensures ok { OnOk result (Appends self.old (code_bits 32 word) self.new) }
    // ensures err { OnErr result (self.new ≡ self.old) }
    pub(crate) fn put_word(&mut self, word: u32) -> Result<(), Memory> {
        if self.bytes.capacity() - self.bytes.len() < ROOM {
            return self.store(word, 32);
        }
        let count = self.count;
        let pending = (self.pending << 32) | u64::from(word);
        push_word(&mut self.bytes, (pending >> count) as u32);
        self.pending = pending & ((1 << count) - 1);
        Ok(())
    }

    /// Puts the bits of bytes, the highest bit of each first.
    // ensures ok { OnOk result (Appends self.old (bits MsbFirst bytes.now) self.new) }
    // ensures same_order { self.new.order ≡ self.old.order }
    fn put_bytes(&mut self, bytes: &[u8]) -> Result<(), Memory> {
        let mut at = 0;
        while bytes.len() - at >= 4 {
            self.put_word(word_at(bytes, at, FillOrder::MsbFirst))?;
            at += 4;
        }
        for byte in &bytes[at..] {
            self.put(u32::from(*byte), 8)?;
        }
        Ok(())
    }

    /// Puts all bits of another sink.
    ///
    /// # Errors
    ///
    /// Where a growth was refused. Some of the bits may have been put then.
    // ensures ok { OnOk result (Appends self.old other.now.bits self.new) }
    // ensures same_order { self.new.order ≡ self.old.order }
    pub fn put_bits_of(&mut self, other: &BitSink) -> Result<(), Memory> {
        self.put_bytes(&other.bytes)?;
        self.put(other.pending as u32, other.count)
    }

    /// Puts zeros up to a whole byte. This takes no memory.
    // ensures { IsPadded self.old self.new }
    pub fn pad(&mut self) {
        let zeros = (MOST_PENDING - self.count) % 8;
        self.pending <<= zeros;
        self.count += zeros;
    }

    /// The bytes of the bits, which make up whole bytes.
    // requires whole { length self.bits % 8 ≡ 0 }
    // ensures { bits self.order result.items ≡ self.bits }
    pub fn into_bytes(self) -> Vec<u8> {
        let mut bytes = self.bytes;
        // No bits are pending after these bytes.
        push_whole(&mut bytes, self.pending, self.count);
        match self.order {
            FillOrder::MsbFirst => {}
            FillOrder::LsbFirst => reverse_bits(&mut bytes),
        }
        bytes
    }
}
