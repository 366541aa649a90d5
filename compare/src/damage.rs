//! Indexes with faults put in on purpose: in the trailer, in the directory, in the
//! lists, or anywhere.

use crate::hurt::{hurt_lists, place_of, Fault};
use crate::make::{once_in, one_of, Shelf, MOST_SLOTS, WILD};
use crate::pack::index;
use second::random::Random;

/// Puts a number over four bytes that begin `back` bytes before the end.
fn put_back(bytes: &mut [u8], back: usize, value: u32) {
    let at = bytes.len() - back;
    bytes[at..at + 4].copy_from_slice(&value.to_le_bytes());
}

/// 2, 3 or 4: one of the trailer's words.
fn hurt_trailer(random: &mut Random, bytes: &mut [u8], number: u32) -> Fault {
    match number {
        2 => {
            let at = bytes.len() - 1 - random.below(4) as usize;
            bytes[at] ^= one_of(random, &[1, 32, 128, 255]);
        }
        3 => {
            let edition = one_of(random, &[0, 2, 257, 1 << 24, WILD]);
            put_back(bytes, 24, edition);
        }
        _ => {
            let (back, value) = bad_size(random);
            put_back(bytes, back, value);
        }
    }
    Fault::frame(number)
}

/// A size that 4 refuses, with how far before the end it stands.
fn bad_size(random: &mut Random) -> (usize, u32) {
    match random.below(3) {
        0 => (20, one_of(random, &[0, MOST_SLOTS + 1, 1 << 31, WILD])),
        1 => (16, one_of(random, &[0, 129, 256, 1 << 31, WILD])),
        _ => (12, one_of(random, &[0, 4_097, 1 << 30, 1 << 30 | 1, WILD])),
    }
}

/// 5: the directory's place, or one of its starts.
fn hurt_directory(random: &mut Random, bytes: &mut Vec<u8>, k: u32) -> Fault {
    let length = bytes.len() as u32;
    let directory = length - 24 - 4 * k;
    match random.below(8) {
        0 => {
            let near = [directory + 1, directory.wrapping_sub(1), WILD, 1 << 31];
            let value = one_of(random, &near);
            put_back(bytes, 8, value);
        }
        1 => {
            bytes.insert(0, 0);
        }
        4 => {
            bytes.remove(0);
        }
        // D + 4k + 24 is the length only where the sum is cut to 32 bits.
        5 if length < 4 * 4_096 + 24 => {
            put_back(bytes, 12, 4_096);
            put_back(bytes, 8, length.wrapping_sub(4 * 4_096 + 24));
        }
        2 if k > 1 => put_back(bytes, 12, k - 1),
        3 => {
            let first = one_of(random, &[1, 4, 12, WILD]);
            put_back(bytes, 24 + 4 * k as usize, first);
        }
        _ => {
            let i = place_of(random, k as usize);
            let value = bad_start(random, bytes, i, k, directory);
            put_back(bytes, 24 + 4 * (k as usize - i), value);
        }
    }
    Fault::frame(5)
}

/// A start of list `i` that leaves too short a record on one of its sides.
fn bad_start(random: &mut Random, bytes: &[u8], i: usize, k: u32, directory: u32) -> u32 {
    let start = |i: usize| {
        let at = directory as usize + 4 * i;
        u32::from_le_bytes([bytes[at], bytes[at + 1], bytes[at + 2], bytes[at + 3]])
    };
    let end = if i + 1 < k as usize {
        start(i + 1)
    } else {
        directory
    };
    let close_by = random.between(0, 11);
    if i > 0 && once_in(random, 2) {
        return start(i - 1) + close_by;
    }
    one_of(random, &[end - close_by, end + close_by, WILD, WILD - 11])
}

/// An index with faults, and these in the order in which they are found, where
/// that is known.
pub struct Damaged {
    pub kind: &'static str,
    pub index: Vec<u8>,
    pub faults: Vec<Fault>,
}

/// One fault.
pub fn single(random: &mut Random, shelf: &Shelf) -> Damaged {
    let kind = "one fault";
    let mut bytes = shelf.index();
    let fault = match random.below(12) {
        0 => {
            bytes.drain(..bytes.len() - random.below(24) as usize);
            Fault::frame(1)
        }
        1 => hurt_trailer(random, &mut bytes, 2),
        2 => hurt_trailer(random, &mut bytes, 3),
        3 => hurt_trailer(random, &mut bytes, 4),
        4 | 5 => hurt_directory(random, &mut bytes, shelf.k()),
        _ => return of_lists(random, shelf, kind, 1),
    };
    Damaged {
        kind,
        index: bytes,
        faults: vec![fault],
    }
}

fn of_lists(random: &mut Random, shelf: &Shelf, kind: &'static str, many: u32) -> Damaged {
    let (records, faults) = hurt_lists(random, shelf, many);
    Damaged {
        kind,
        index: index(shelf.u, shelf.block, &records),
        faults,
    }
}

/// Two faults or more, of which the first must be reported.
pub fn several(random: &mut Random, shelf: &Shelf) -> Damaged {
    let mut damaged = of_lists(random, shelf, "several faults", 2);
    if !once_in(random, 3) {
        return damaged;
    }
    if once_in(random, 2) {
        let fault = hurt_directory(random, &mut damaged.index, shelf.k());
        damaged.faults.push(fault);
    }
    for number in 2..=4 {
        if once_in(random, 3) {
            let fault = hurt_trailer(random, &mut damaged.index, number);
            damaged.faults.push(fault);
        }
    }
    damaged.faults.sort_unstable();
    damaged
}

/// Bytes of which nobody knows beforehand what they are.
pub fn wild(random: &mut Random, shelf: &Shelf) -> Damaged {
    let mut bytes = shelf.index();
    let kind = match random.below(6) {
        0 => {
            let many = random.between(0, 90) as usize;
            bytes = random.bytes(many);
            "random bytes"
        }
        1 => {
            let kept = random.below(bytes.len() as u32 + 1) as usize;
            bytes.truncate(kept);
            "cut off"
        }
        2 => {
            scramble(random, &mut bytes, 24 + 4 * shelf.lists.len());
            "random bytes before a sound directory"
        }
        3 => {
            scramble(random, &mut bytes, 24);
            "random bytes before a sound trailer"
        }
        4 => {
            flip(random, &mut bytes, 3);
            "three bits flipped"
        }
        _ => {
            flip(random, &mut bytes, 1);
            "one bit flipped"
        }
    };
    Damaged {
        kind,
        index: bytes,
        faults: Vec::new(),
    }
}

/// Random bytes for all but the last ones.
fn scramble(random: &mut Random, bytes: &mut [u8], kept: usize) {
    let body = bytes.len() - kept;
    for byte in &mut bytes[..body] {
        *byte = random.byte();
    }
}

fn flip(random: &mut Random, bytes: &mut [u8], many: u32) {
    for _ in 0..many {
        let at = random.below(bytes.len() as u32) as usize;
        bytes[at] ^= 1 << random.below(8);
    }
}
