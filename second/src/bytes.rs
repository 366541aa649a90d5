//! Whole numbers in four bytes, lowest byte first.

/// The number whose four bytes begin at `at`.
#[inline]
pub fn number_at(bytes: &[u8], at: usize) -> u32 {
    let four = bytes[at..].first_chunk().expect("four bytes");
    u32::from_le_bytes(*four)
}

/// Puts a number over the four bytes that begin at `at`.
#[inline]
pub fn put_number(bytes: &mut [u8], at: usize, value: u32) {
    bytes[at..at + 4].copy_from_slice(&value.to_le_bytes());
}

/// Adds a number's four bytes at the end.
pub fn push_number(bytes: &mut Vec<u8>, value: u32) {
    bytes.extend(value.to_le_bytes());
}
