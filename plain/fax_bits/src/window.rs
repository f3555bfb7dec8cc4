// Made by tools/plain-rust of crates/fax_bits/src/window.rt: change that.
//! The next bits of some bytes, by value: what a fast reader keeps in registers.

use crate::FillOrder;

/// The next bits of some bytes: the first `count` of `bits`, and then those of the bytes from `at`
/// on.
#[derive(Clone, Copy, Debug)]
pub(crate) struct Window {
    /// The highest is next; zeros stand after `count`.
    pub bits: u64,
    pub count: u32,
    /// The first byte that is not loaded.
    pub at: usize,
}

impl Window {
    /// The bits from a byte on, of which none is loaded.
    #[inline(always)]
    // ensures ahead { (order : FillOrder) (bytes : List ℕ)
    //     → bits_ahead order bytes result ≡ bits order (drop at bytes) }
    // ensures count { result.count ≡ 0 }
    // ensures at { result.at ≡ at }
    pub fn new(at: usize) -> Window {
        Window {
            bits: 0,
            count: 0,
            at,
        }
    }

    /// The bits from a place on, of which no more than those of its byte are loaded.
    #[inline(never)]
    // requires { IsPlaced bytes.now place }
    // ensures ahead { IsAhead order bytes.now result }
    // ensures place { bit_offset result ≡ place }
    pub fn at_bit_offset(bytes: &[u8], order: FillOrder, place: u64) -> Window {
        let at = (place / 8) as usize;
        let bits = (place % 8) as u32;
        if bits == 0 {
            return Window::new(at);
        }
        Window::new(at).with_byte(bytes, order).after(bits)
    }

    /// The same window, made of its fields.
    #[inline(always)]
    // ensures { result ≡ self }
    pub fn fork(self) -> Window {
        Window {
            bits: self.bits,
            count: self.count,
            at: self.at,
        }
    }

    /// How many bits of the bytes stand before its own.
    #[inline(always)]
    // requires after { self.count ≤ 8 * self.at }
    // requires within { self.at ≤ 4294967295 }
    // ensures { result ≡ bit_offset self }
    pub fn place(self) -> u64 {
        self.at as u64 * 8 - u64::from(self.count)
    }

    /// The bits after the next `n`, which are loaded.
    #[inline(always)]
    // requires loaded { n ≤ self.count }
    // requires short { n < 64 }
    // ensures ahead { (order : FillOrder) (bytes : List ℕ)
    //     → bits_ahead order bytes result ≡ drop n (bits_ahead order bytes self) }
    // ensures count { result.count + n ≡ self.count }
    // ensures at { result.at ≡ self.at }
    pub fn after(self, n: u32) -> Window {
        Window {
            bits: self.bits << n,
            count: self.count - n,
            at: self.at,
        }
    }

    /// The same bits, of which four bytes more are loaded.
    #[inline(always)]
    // requires room { self.count < 32 }
    // requires remaining { self.at + 4 ≤ length bytes.now }
    // ensures ahead { bits_ahead order bytes.now result ≡ bits_ahead order bytes.now self }
    // ensures count { result.count ≡ self.count + 32 }
    // ensures at { result.at ≡ self.at + 4 }
    pub fn refilled(self, bytes: &[u8], order: FillOrder) -> Window {
        let word = word_at(bytes, self.at, order);
        Window {
            bits: self.bits | u64::from(word) << (32 - self.count),
            count: self.count + 32,
            at: self.at + 4,
        }
    }

    /// The same bits, of which one byte more is loaded.
    #[inline(always)]
    // requires room { self.count ≤ 56 }
    // requires remaining { self.at < length bytes.now }
    // ensures ahead { bits_ahead order bytes.now result ≡ bits_ahead order bytes.now self }
    // ensures count { result.count ≡ self.count + 8 }
    // ensures at { result.at ≡ self.at + 1 }
    pub fn with_byte(self, bytes: &[u8], order: FillOrder) -> Window {
        let byte = byte_at(bytes, self.at, order);
        Window {
            bits: self.bits | u64::from(byte) << (56 - self.count),
            count: self.count + 8,
            at: self.at + 1,
        }
    }

    /// The same bits, of which single bytes more are loaded, up to 32 bits or to the end of the
    /// bytes.
    #[inline(never)]
    // requires within { self.at ≤ length bytes.now }
    // ensures ahead { bits_ahead order bytes.now result ≡ bits_ahead order bytes.now self }
    // ensures place { 8 * result.at + self.count ≡ 8 * self.at + result.count }
    // ensures within { result.at ≤ length bytes.now }
    // ensures many { (32 ≤ result.count) ⊎ (result.at ≡ length bytes.now) }
    pub fn with_last_bytes(self, bytes: &[u8], order: FillOrder) -> Window {
        let mut more = self;
        while more.count < 32 && more.at < bytes.len() {
            more = more.with_byte(bytes, order);
        }
        more
    }

    /// The same bits, of which at least 32 are loaded, or all that are left.
    #[inline(always)]
    // requires within { self.at ≤ length bytes.now }
    // ensures ahead { bits_ahead order bytes.now result ≡ bits_ahead order bytes.now self }
    // ensures place { 8 * result.at + self.count ≡ 8 * self.at + result.count }
    // ensures within { result.at ≤ length bytes.now }
    // ensures many { (32 ≤ result.count) ⊎ (result.at ≡ length bytes.now) }
    pub fn filled(self, bytes: &[u8], order: FillOrder) -> Window {
        match self.loaded(bytes, order) {
            Some(more) => more,
            None => self.with_last_bytes(bytes, order),
        }
    }

    /// The same bits, of which at least 32 are loaded, or `None` near the end of the bytes.
    #[inline(always)]
    // requires { self.at ≤ length bytes.now }
    // ensures ahead { IfSome result (λ more. bits_ahead order bytes.now more
    //     ≡ bits_ahead order bytes.now self) }
    // ensures many { IfSome result (λ more. 32 ≤ more.count) }
    // ensures place { IfSome result (λ more. 8 * more.at + self.count
    //     ≡ 8 * self.at + more.count) }
    // ensures within { IfSome result (λ more. more.at ≤ length bytes.now) }
    pub fn loaded(self, bytes: &[u8], order: FillOrder) -> Option<Window> {
        self.loaded_for(32, bytes, order)
    }

    /// The same bits, of which at least `least` are loaded, 0 to 32 of them, or `None` near the end
    /// of the bytes.
    #[inline(always)]
    // requires within { self.at ≤ length bytes.now }
    // requires few { least ≤ 32 }
    // ensures ahead { IfSome result (λ more. bits_ahead order bytes.now more
    //     ≡ bits_ahead order bytes.now self) }
    // ensures many { IfSome result (λ more. least ≤ more.count) }
    // ensures place { IfSome result (λ more. 8 * more.at + self.count
    //     ≡ 8 * self.at + more.count) }
    // ensures within { IfSome result (λ more. more.at ≤ length bytes.now) }
    pub fn loaded_for(self, least: u32, bytes: &[u8], order: FillOrder) -> Option<Window> {
        // It gives up where fewer than four bytes are left: to load single bytes would cost each
        // look-up a test. The last codes of a strip are read one by one (`read_code`).
        if self.count >= least {
            return Some(self);
        }
        if bytes.len() - self.at < 4 {
            return None;
        }
        Some(self.refilled(bytes, order))
    }

    /// How many zeros stand before the first 1, where it is loaded; else no fewer than are loaded.
    #[inline(always)]
    // ensures ahead { (order : FillOrder) (bytes : List ℕ) → result < self.count
    //     → HasLeadingZeros (bits_ahead order bytes self) result }
    pub fn zeros(self) -> u32 {
        self.bits.leading_zeros()
    }

    /// Whether the next bit is loaded, and a 1.
    #[inline(always)]
    // ensures ahead { IsTrue result → (order : FillOrder) (bytes : List ℕ)
    //     → HasLeadingZeros (bits_ahead order bytes self) 0 }
    // ensures loaded { IsTrue result → 0 < self.count }
    pub fn begins_with_one(self) -> bool {
        self.bits >> 63 == 1
    }

    /// How many ones are next, of the bits that are loaded.
    #[inline(always)]
    // ensures ahead { (order : FillOrder) (bytes : List ℕ)
    //     → take result (bits_ahead order bytes self) ≡ replicate result true }
    // ensures loaded { result ≤ self.count }
    pub fn ones(self) -> u32 {
        self.bits.leading_ones()
    }

    /// The number that the next `n` bits spell, where they are loaded, or all that are left are:
    /// past the end of the bytes it sees zeros, which are no bits.
    #[inline(always)]
    // requires some { 0 < n }
    // requires few { n ≤ 32 }
    // ensures number { (order : FillOrder) (bytes : List ℕ)
    //     → (n ≤ self.count) ⊎ (length bytes ≤ self.at)
    //     → result ≡ bits_number (take n (bits_ahead order bytes self ++ replicate n false)) }
    pub fn number(self, n: u32) -> u32 {
        (self.bits >> (64 - n)) as u32
    }
}

/// The bits of a byte as a number, the first bit highest.
#[inline(always)]
// requires { at < length bytes.now }
// ensures { code_bits 8 result ≡ bits order (take 1 (drop at bytes.now)) }
fn byte_at(bytes: &[u8], at: usize, order: FillOrder) -> u8 {
    match order {
        FillOrder::MsbFirst => bytes[at],
        FillOrder::LsbFirst => bytes[at].reverse_bits(),
    }
}

/// The bits of four bytes as a number, the first bit highest.
#[inline(always)]
// requires { at + 4 ≤ length bytes.now }
// ensures { code_bits 32 result ≡ bits order (take 4 (drop at bytes.now)) }
pub(crate) fn word_at(bytes: &[u8], at: usize, order: FillOrder) -> u32 {
    let word = [bytes[at], bytes[at + 1], bytes[at + 2], bytes[at + 3]];
    match order {
        FillOrder::MsbFirst => u32::from_be_bytes(word),
        FillOrder::LsbFirst => u32::from_le_bytes(word).reverse_bits(),
    }
}
