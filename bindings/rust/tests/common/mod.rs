//! What the tests share: the example index of docs/FORMAT.md with its lists, short ways to spoil it and
//! to say what is expected, and numbers and lists made at random.
#![allow(dead_code)] // Each file of tests is a program of its own and uses its part of this.

use slots::{Refusal, Refused};
use std::collections::BTreeSet;
use std::path::PathBuf;

/// How many slots the rack of the example has.
pub const U: u32 = 32;
/// How many slots a block of the example has.
pub const BLOCK: u32 = 4;
/// What list 0 of the example holds; it was written with cut 0.
pub const LIST_0: [u32; 15] = [1, 4, 5, 6, 8, 12, 15, 16, 18, 20, 25, 26, 27, 28, 30];
/// What list 1 of the example holds; it was written with cut 16.
pub const LIST_1: [u32; 7] = [3, 5, 12, 16, 26, 30, 31];
/// What both hold.
pub const SHARED: [u32; 5] = [5, 12, 16, 26, 30];

/// The rows of "One index, byte by byte" in docs/FORMAT.md.
const ROWS: &str = "
    00000000 0F000000 0B000000
    01000000 00000000 08000000 03000000 12000000 06000000 1B000000 09000000
    02 00 00 03 02 00 01 04 00 00 01
    10000000 03000000 02000000
    28 11
    1A000000 00000000 03 00
    00000000 37000000
    01000000 20000000 04000000 02000000 4F000000 534C4F54";

/// The 111 bytes of the example index.
pub fn example() -> Vec<u8> {
    let digits: String = ROWS.split_whitespace().collect();
    let byte = |at| u8::from_str_radix(&digits[at..at + 2], 16).expect("two hexadecimal digits");
    (0..digits.len()).step_by(2).map(byte).collect()
}

/// The example index with one byte changed.
pub fn spoilt(at: usize, byte: u8) -> Vec<u8> {
    let mut index = example();
    assert_ne!(index[at], byte, "the byte at {at} is {byte} already");
    index[at] = byte;
    index
}

/// A refusal, to compare a result with.
pub fn refused<T>(refusal: Refusal, place: u32) -> Result<T, Refused> {
    Err(Refused { refusal, place })
}

/// A file of the repository, by its path from there.
pub fn repository(path: &str) -> PathBuf {
    PathBuf::from(env!("CARGO_MANIFEST_DIR")).join("../..").join(path)
}

/// The xorshift generator of 64 bits, by its seed, which must not be 0.
pub struct Random(pub u64);

impl Random {
    /// A number from `low` to `high`, both included.
    pub fn between(&mut self, low: u32, high: u32) -> u32 {
        self.0 ^= self.0 << 13;
        self.0 ^= self.0 >> 7;
        self.0 ^= self.0 << 17;
        let span = u64::from(high - low) + 1;
        low + u32::try_from((self.0 >> 16) % span).expect("less than the span")
    }

    pub fn one_of<T: Copy>(&mut self, choices: &[T]) -> T {
        let last = u32::try_from(choices.len() - 1).expect("few choices");
        choices[self.between(0, last) as usize]
    }

    /// A list that is empty, full, crowded or thin.
    pub fn list(&mut self, u: u32) -> BTreeSet<u32> {
        let one_in = self.one_of(&[1, 2, 3, 10, 200, u32::MAX]);
        (1..=u).filter(|_| self.between(1, one_in) == 1).collect()
    }
}
