//! A sound index read once more, in the plainest way, for what the answers are
//! held against besides the second implementation.

/// One slot of a block, and how many bytes its code has; 0 for a first slot.
pub type Coded = (u32, usize);

/// One list of a sound index.
pub struct Seen {
    pub start: usize,
    pub length: usize,
    pub cut: u32,
    /// All slots, ascending.
    pub held: Vec<u32>,
    pub blocks: Vec<Vec<Coded>>,
}

fn number(bytes: &[u8], at: usize) -> u32 {
    let four = [bytes[at], bytes[at + 1], bytes[at + 2], bytes[at + 3]];
    u32::from_le_bytes(four)
}

/// The number of lists.
pub fn k(index: &[u8]) -> u32 {
    number(index, index.len() - 12)
}

/// u.
pub fn u(index: &[u8]) -> u32 {
    number(index, index.len() - 20)
}

/// B.
pub fn block(index: &[u8]) -> u32 {
    number(index, index.len() - 16)
}

/// Where a list's record begins and ends.
fn ends(index: &[u8], name: u32) -> (usize, usize) {
    let directory = number(index, index.len() - 8) as usize;
    let at = directory + 4 * name as usize;
    let start = number(index, at) as usize;
    let next = if name + 1 < k(index) {
        number(index, at + 4) as usize
    } else {
        directory
    };
    (start, next)
}

/// One list, by its name.
pub fn list(index: &[u8], name: u32) -> Seen {
    let (start, next) = ends(index, name);
    record(&index[start..next], start, block(index) as usize)
}

/// The first list that has a bit set behind its cut. Only its last bit byte can
/// have such bits.
pub fn rubbish(index: &[u8]) -> Option<u32> {
    (0..k(index)).find(|&name| {
        let start = ends(index, name).0;
        let cut = number(index, start) as usize;
        let set = |bit: usize| index[start + 12 + bit / 8] << (bit % 8) & 128 != 0;
        (cut..cut.next_multiple_of(8)).any(set)
    })
}

fn record(bytes: &[u8], start: usize, block: usize) -> Seen {
    let cut = number(bytes, 0);
    let tail = number(bytes, 4) as usize;
    let bits = &bytes[12..12 + cut.div_ceil(8) as usize];
    let skips = &bytes[12 + bits.len()..];
    let m = tail.div_ceil(block);
    let codes = &skips[8 * m..];
    let mut blocks = Vec::new();
    for b in 0..m {
        let many = block.min(tail - b * block);
        let first = number(skips, 8 * b);
        let offset = number(skips, 8 * b + 4) as usize;
        blocks.push(decoded(first, many, &codes[offset..]));
    }
    let mut held = set_bits(bits);
    held.retain(|&slot| slot <= cut);
    held.extend(blocks.iter().flatten().map(|coded| coded.0));
    Seen {
        start,
        length: bytes.len(),
        cut,
        held,
        blocks,
    }
}

/// Which bits are set, by position: the top bit of a first byte is 1.
fn set_bits(bits: &[u8]) -> Vec<u32> {
    let mut set = Vec::new();
    for (i, byte) in bits.iter().enumerate() {
        for bit in 0..8 {
            if byte << bit & 128 != 0 {
                set.push(8 * i as u32 + bit + 1);
            }
        }
    }
    set
}

/// A block of so many slots from its first one and its codes.
fn decoded(first: u32, many: usize, codes: &[u8]) -> Vec<Coded> {
    let mut slots = vec![(first, 0)];
    let mut slot = first;
    let mut at = 0;
    for _ in 1..many {
        let mut value = 0;
        let mut length = 0;
        loop {
            let byte = codes[at + length];
            value += u32::from(byte % 128) << (7 * length);
            length += 1;
            if byte < 128 {
                break;
            }
        }
        at += length;
        slot += value + 1;
        slots.push((slot, length));
    }
    slots
}

#[cfg(test)]
mod tests {
    use super::*;
    use crate::pack::{index, List, Raw};

    /// A sound list, then one of such a cut and such bits, then a sound one.
    fn between(cut: u32, bits: &[u8]) -> Vec<u8> {
        let sound = List::of(2, 5, &[1, 5, 9, 31]).bytes();
        let raw = Raw {
            head: [cut, 0, 0],
            bits: bits.to_vec(),
            entries: Vec::new(),
            codes: Vec::new(),
        };
        index(32, 2, &[sound.clone(), raw.bytes(), sound])
    }

    #[test]
    fn bits_behind_a_cut() {
        for last in [0xC0, 0xA0, 0x90, 0x88, 0x84, 0x82, 0x81, 0x40, 0xFF] {
            assert_eq!(rubbish(&between(9, &[0x80, last])), Some(1));
        }
        for last in [0x80, 0x00] {
            assert_eq!(rubbish(&between(9, &[0x80, last])), None);
        }
        assert_eq!(rubbish(&between(15, &[0x00, 0x01])), Some(1));
        assert_eq!(rubbish(&between(15, &[0xFF, 0xFE])), None);
        assert_eq!(rubbish(&between(16, &[0xFF, 0xFF])), None);
        assert_eq!(rubbish(&between(0, &[])), None);
    }
}
