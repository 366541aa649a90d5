//! Seeking a slot in one list: which slot is the next, and what it costs to tell.

use crate::code;
use crate::record::Record;
use crate::search::search;

/// What one search in a list has found.
#[derive(Clone, Copy, Debug, PartialEq, Eq)]
pub struct Sought {
    /// The least slot of the list that is not below the slot sought, or 0 where
    /// there is none. It is the slot sought itself exactly where the list holds it.
    pub next: u32,
    /// From where the next search in the list goes on.
    pub finger: u32,
    pub looks: u64,
    pub codes: u64,
}

/// Seeks a slot in a list. The finger is 0, or what an earlier search in the list
/// has given, for a slot that was not above `x`.
#[inline]
pub fn seek(list: &Record, finger: u32, x: u32) -> Sought {
    if x <= list.cut {
        in_bits(list, finger, x)
    } else {
        in_tail(list, finger, x)
    }
}

/// Up to the cut there is nothing to be looked at: the bits are read, and where
/// they run out the tail begins.
fn in_bits(list: &Record, finger: u32, x: u32) -> Sought {
    let set = list.next_bit(x);
    Sought {
        next: set.unwrap_or_else(|| first_behind(list, 0)),
        finger,
        looks: 0,
        codes: 0,
    }
}

/// Behind the cut. The finger stays at block j even where the answer comes from
/// the block behind it: the next slot sought may still lie before that block.
#[inline]
fn in_tail(list: &Record, finger: u32, x: u32) -> Sought {
    let entry = |position: u32| list.first(position as usize - 1);
    let (j, looks) = search(entry, list.blocks() as u32, finger, x);
    let (held, codes) = if j == 0 {
        (None, 0)
    } else {
        read_block(list, j as usize - 1, x)
    };
    Sought {
        next: held.unwrap_or_else(|| first_behind(list, j)),
        finger: j,
        looks,
        codes,
    }
}

/// Reads one block up to its first slot that is not below `x`, if it has one;
/// also gives how many codes were read.
#[inline]
fn read_block(list: &Record, b: usize, x: u32) -> (Option<u32>, u64) {
    let mut slot = list.first(b);
    let mut rest = list.codes_of(b);
    let mut codes = 0;
    while slot < x {
        let Some((value, behind)) = code::read(rest) else {
            return (None, codes);
        };
        codes += 1;
        slot += value + 1;
        rest = behind;
    }
    (Some(slot), codes)
}

/// The first slot of the block behind position `j`, where 0 stands for the cut;
/// 0 where no block is left. It is read off its entry and compared with nothing,
/// so it is no look.
fn first_behind(list: &Record, j: u32) -> u32 {
    let b = j as usize;
    if b < list.blocks() {
        list.first(b)
    } else {
        0
    }
}
