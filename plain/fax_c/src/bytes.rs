// Made by tools/plain-rust of crates/fax_c/src/bytes.rt: change that.
//! Bytes of a file that is written, and numbers in them, each with its lowest byte first.

/// Writes bytes at a place.
// requires { at + length bytes.now ≤ length file.old }
// ensures { file.new ≡ take at file.old ++ bytes.now ++ drop (at + length bytes.now) file.old }
pub(crate) fn put_bytes(file: &mut [u8], at: usize, bytes: &[u8]) {
    file[at..at + bytes.len()].copy_from_slice(bytes);
}

/// Writes so many zeros at a place.
// requires { at + zeros ≤ length file.old }
// ensures { file.new ≡ take at file.old ++ replicate zeros 0 ++ drop (at + zeros) file.old }
pub(crate) fn put_zeros(file: &mut [u8], at: usize, zeros: usize) {
    file[at..at + zeros].fill(0);
}

/// Writes the bytes of a number of four bytes at a place.
// requires { at + 4 ≤ length file.old }
// ensures { file.new ≡ take at file.old ++ four n ++ drop (at + 4) file.old }
pub(crate) fn put_four(file: &mut [u8], at: usize, n: u32) {
    put_bytes(file, at, &n.to_le_bytes());
}

/// The number of two bytes at a place.
// requires { at + 2 ≤ length file.now }
// ensures { result ≡ number_at Little 2 file.now at }
pub(crate) fn two_at(file: &[u8], at: usize) -> u16 {
    u16::from_le_bytes([file[at], file[at + 1]])
}

/// The number of four bytes at a place.
// requires { at + 4 ≤ length file.now }
// ensures { result ≡ number_at Little 4 file.now at }
pub(crate) fn four_at(file: &[u8], at: usize) -> u32 {
    u32::from_le_bytes([file[at], file[at + 1], file[at + 2], file[at + 3]])
}
