//! Making indexes for the cases, sound ones and others.

use crate::bytes::{push_number, put_number};
use crate::random::Random;
use crate::{write, EDITION, TAG};

/// How far before the end of an index its trailer's numbers stand.
pub const AT_EDITION: usize = 24;
pub const AT_U: usize = 20;
pub const AT_BLOCK: usize = 16;
pub const AT_K: usize = 12;
pub const AT_DIRECTORY: usize = 8;

/// A number that comes near to what four bytes can hold.
pub const WILD: u32 = u32::MAX;

/// A sound record.
pub fn record(u: u32, block: u32, cut: u32, slots: &[u32]) -> Vec<u8> {
    let mut room = vec![0; 12 + u as usize / 8 + 1 + 12 * slots.len()];
    let length = write(u, block, cut, slots, &mut room).length;
    room.truncate(length as usize);
    room
}

/// A record of any numbers and parts, sound or not.
pub fn raw(head: [u32; 3], bits: &[u8], skips: &[(u32, u32)], codes: &[u8]) -> Vec<u8> {
    let mut bytes = Vec::new();
    for number in head {
        push_number(&mut bytes, number);
    }
    bytes.extend(bits);
    for &(first, offset) in skips {
        push_number(&mut bytes, first);
        push_number(&mut bytes, offset);
    }
    bytes.extend(codes);
    bytes
}

/// A record without bits whose code length is that of its codes.
pub fn gaps(n: u32, skips: &[(u32, u32)], codes: &[u8]) -> Vec<u8> {
    raw([0, n, codes.len() as u32], &[], skips, codes)
}

/// Where records laid one after the other begin.
pub fn starts(records: &[Vec<u8>]) -> Vec<u32> {
    let mut at = 0;
    let mut starts = Vec::new();
    for record in records {
        starts.push(at);
        at += record.len() as u32;
    }
    starts
}

/// Records with directory and trailer behind them, unjudged.
pub fn index(u: u32, block: u32, records: &[Vec<u8>]) -> Vec<u8> {
    let mut bytes = records.concat();
    let directory = bytes.len() as u32;
    for start in starts(records) {
        push_number(&mut bytes, start);
    }
    for number in [EDITION, u, block, records.len() as u32, directory] {
        push_number(&mut bytes, number);
    }
    bytes.extend(TAG);
    bytes
}

/// An index of one record.
pub fn one(u: u32, block: u32, record: Vec<u8>) -> Vec<u8> {
    index(u, block, &[record])
}

/// The same bytes with another number `back` bytes before their end.
pub fn with_number(bytes: &[u8], back: usize, value: u32) -> Vec<u8> {
    let mut bytes = bytes.to_vec();
    let at = bytes.len() - back;
    put_number(&mut bytes, at, value);
    bytes
}

/// The same bytes with another number in the directory of `k` starts.
pub fn with_start(bytes: &[u8], k: usize, list: usize, value: u32) -> Vec<u8> {
    with_number(bytes, AT_EDITION + 4 * (k - list), value)
}

/// The same bytes with another byte at `at`.
pub fn with_byte(bytes: &[u8], at: usize, value: u8) -> Vec<u8> {
    let mut bytes = bytes.to_vec();
    bytes[at] = value;
    bytes
}

/// The lists of the paper's index.
pub const PAPER_0: [u32; 15] = [1, 4, 5, 6, 8, 12, 15, 16, 18, 20, 25, 26, 27, 28, 30];
pub const PAPER_1: [u32; 7] = [3, 5, 12, 16, 26, 30, 31];

/// The records of the paper's index.
pub fn paper_records() -> Vec<Vec<u8>> {
    vec![record(32, 4, 0, &PAPER_0), record(32, 4, 16, &PAPER_1)]
}

/// The paper's index.
pub fn paper() -> Vec<u8> {
    index(32, 4, &paper_records())
}

/// Three lists of which list 1 ends its bits within a byte.
fn mixed_records() -> Vec<Vec<u8>> {
    vec![
        record(32, 2, 0, &[3, 11, 12, 13, 22]),
        record(32, 2, 11, &[2, 3, 11, 13, 14, 20, 22, 31]),
        record(32, 2, 0, &[]),
    ]
}

/// The index of these lists.
pub fn mixed() -> Vec<u8> {
    index(32, 2, &mixed_records())
}

/// The same index with all bits set that lie behind list 1's cut.
pub fn rubbish() -> Vec<u8> {
    let mut records = mixed_records();
    records[1][13] |= 0x1F;
    index(32, 2, &records)
}

/// What a slice of slots holds before a question: anything but zeros.
pub fn slots(random: &mut Random, many: usize) -> Vec<u32> {
    (0..many).map(|_| random.between(1, WILD)).collect()
}

/// What a buffer holds before it is written to: anything but zeros.
pub fn room(random: &mut Random, many: usize) -> Vec<u8> {
    (0..many).map(|_| random.between(1, 255) as u8).collect()
}
