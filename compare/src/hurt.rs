//! Faults put into lists on purpose. Each knows which refusal it must cause and
//! how early a look comes upon it, so that of several faults the one that has to
//! be reported is known without asking anybody.

use crate::case::{Spots, Verdict};
use crate::make::{once_in, one_of, Shelf, MOST_SLOTS, WILD};
use crate::pack::{code, Block, List, Raw};
use second::random::Random;

/// A fault. The order of faults is the order in which they are found.
#[derive(Clone, Copy, PartialEq, Eq, PartialOrd, Ord)]
pub struct Fault {
    /// The number of refusal where it is at most 5, else 6.
    stage: u32,
    list: u32,
    /// Before the blocks, or the block.
    block: Option<usize>,
    /// Before the blocks 0 is the record's parts, 1 its bits. In a block 0 is its
    /// end, 1 its first slot, then its codes.
    step: usize,
    number: u32,
    pub spots: Spots,
}

impl Fault {
    pub fn frame(number: u32) -> Fault {
        Fault {
            stage: number,
            list: 0,
            block: None,
            step: 0,
            number,
            spots: Spots::default(),
        }
    }

    fn within(number: u32, list: u32, block: Option<usize>, step: usize) -> Fault {
        Fault {
            stage: 6,
            list,
            block,
            step,
            number,
            spots: Spots::default(),
        }
    }

    pub fn verdict(&self) -> Verdict {
        (self.number, self.list)
    }

    fn at(mut self, block: Option<&'static str>, code: Option<&'static str>) -> Fault {
        self.spots = [block, code, None, None];
        self
    }

    /// Tells what the block is like that the fault is in, if it lies in the codes. All
    /// faults of the list have been put in by then.
    fn look_around(&mut self, list: &List) {
        let Some(block) = self.block.map(|b| &list.blocks[b]) else {
            return;
        };
        let bytes = [block.codes.concat(), block.rest.clone()].concat();
        if self.step < 2 || bytes.len() < LONG {
            return;
        }
        let (names, highs) = match self.number {
            8 => (&EIGHTS[..], EIGHTS_HIGH),
            _ => (&NINES[..], NINES_HIGH),
        };
        let which = match self.step {
            usize::MAX => 3,
            step => third(step - 2, block.codes.len() - 1),
        };
        let high = usize::from(bytes.iter().any(|&byte| byte > 127));
        self.spots[2] = Some(names[which]);
        self.spots[3] = Some(highs[high]);
    }
}

/// Where in a block of so many bytes of codes or more an 8 lies, and a 9.
const LONG: usize = 9;
pub const EIGHTS: [&str; 4] = [
    "8 in 9 bytes or more, first code",
    "8 in 9 bytes or more, middle code",
    "8 in 9 bytes or more, last code",
    "8 in 9 bytes or more, bytes behind the codes",
];
pub const NINES: [&str; 3] = [
    "9 in 9 bytes or more, first code",
    "9 in 9 bytes or more, middle code",
    "9 in 9 bytes or more, last code",
];
/// And whether one of these bytes has its high bit set, as no code of one byte has.
pub const EIGHTS_HIGH: [&str; 2] = [
    "8 in 9 bytes or more, no high bit set",
    "8 in 9 bytes or more, a high bit set",
];
pub const NINES_HIGH: [&str; 2] = [
    "9 in 9 bytes or more, no high bit set",
    "9 in 9 bytes or more, a high bit set",
];

/// Which of three: the first, one between, or the last.
fn third(at: usize, last: usize) -> usize {
    if at == 0 {
        0
    } else if at < last {
        1
    } else {
        2
    }
}

/// First, last, or any of `many`.
pub fn place_of(random: &mut Random, many: usize) -> usize {
    match random.below(3) {
        0 => 0,
        1 => many - 1,
        _ => random.below(many as u32) as usize,
    }
}

/// 6: one of the head's numbers, or the record's length, does not fit. The
/// record stays at least as long as a head.
fn hurt_head(random: &mut Random, list: &List, u: u32, block: u32) -> Vec<u8> {
    let mut raw = list.raw();
    let room = u - raw.head[0];
    match random.below(9) {
        0 => {
            let cut = one_of(random, &[u + 1, u + 8, 2 * u + 1]);
            raw.head[0] = cut;
            raw.bits.resize(cut.div_ceil(8) as usize, 0);
        }
        1 => raw.head[0] = one_of(random, &[WILD, WILD - 7, 1 << 31, MOST_SLOTS + 1]),
        2 if room < 5_000 => {
            raw.head[1] = room + 1;
            let m = (room + 1).div_ceil(block) as usize;
            raw.entries.resize(m, (u, 0));
        }
        3 => raw.head[1] = one_of(random, &[WILD, WILD - 127, 1 << 31, MOST_SLOTS + 1]),
        4 => {
            raw.head[1] = 0;
            raw.entries.clear();
            raw.codes = few_bytes(random);
            raw.head[2] = raw.codes.len() as u32;
        }
        5 => raw.head[2] = raw.head[2].wrapping_add(one_of(random, &[1, WILD, 1 << 31, 7])),
        6 if wrapping(&mut raw, room, block) => {}
        7 if raw.bytes().len() > 12 => {
            let mut bytes = raw.bytes();
            bytes.pop();
            return bytes;
        }
        _ => {
            let mut bytes = raw.bytes();
            bytes.push(random.byte());
            return bytes;
        }
    }
    raw.bytes()
}

fn few_bytes(random: &mut Random) -> Vec<u8> {
    let many = random.between(1, 4);
    random.bytes(many as usize)
}

/// Makes the parts' sum right only where it is cut to 32 bits.
fn wrapping(raw: &mut Raw, room: u32, block: u32) -> bool {
    let length = raw.bytes().len() as u32;
    let parts = 12 + raw.bits.len() as u32 + 8 * room.div_ceil(block);
    raw.head[1] = room;
    raw.head[2] = length.wrapping_sub(parts);
    parts > length
}

/// 17: bits behind the cut are set. These are the lowest ones of a byte: one at
/// either end of them, any one, or some.
fn hurt_bits(random: &mut Random, hurt: &mut List, list: u32) -> Option<Fault> {
    let idle = hurt.idle_bits();
    if idle == 0 {
        return None;
    }
    let highest = idle ^ idle >> 1;
    let some = random.byte() & idle;
    let set = match random.below(5) {
        0 => 1,
        1 => highest,
        2 => 1 << random.below(idle.count_ones()),
        3 if some != 0 => some,
        _ => idle,
    };
    *hurt.bits.last_mut()? |= set;
    let lowest = (set == 1).then_some("17, lowest unused bit alone");
    let next = (set == highest).then_some("17, highest unused bit alone");
    let other = match set.count_ones() {
        1 => "17, an unused bit between alone",
        _ => "17, more than one unused bit",
    };
    let first = lowest.or(next).unwrap_or(other);
    let second = lowest.and(next);
    Some(Fault::within(17, list, None, 1).at(Some(first), second))
}

/// Whether a record whose head was hurt still has the list's cut and all of its
/// bits.
fn keeps_bits(record: &[u8], list: &List) -> bool {
    record[..4] == list.cut.to_le_bytes() && record.len() >= 12 + list.bits.len()
}

/// 7: the end of one block, which is the next block's offset, or the first
/// block's offset.
fn hurt_offset(random: &mut Random, raw: &mut Raw, list: u32) -> Option<Fault> {
    const SPOTS: [&str; 3] = ["7, first block", "7, middle block", "7, last block but one"];
    let m = raw.entries.len();
    if m == 0 {
        return None;
    }
    if m == 1 || once_in(random, 5) {
        raw.entries[0].1 = one_of(random, &[1, 2, 256, 1 << 24, WILD]);
        return Some(Fault::within(7, list, Some(0), 0).at(Some("7, first offset"), None));
    }
    let b = place_of(random, m - 1);
    let length = raw.codes.len() as u32;
    let from = raw.entries[b].1;
    raw.entries[b + 1].1 = if from > 0 && once_in(random, 2) {
        one_of(random, &[from - 1, 0])
    } else {
        one_of(random, &[length + 1, length + 1, WILD, 1 << 31])
    };
    Some(Fault::within(7, list, Some(b), 0).at(Some(SPOTS[third(b, m - 2)]), None))
}

/// 8: a code that is none, or bytes left over.
fn hurt_code(random: &mut Random, hurt: &mut List, list: u32) -> Option<Fault> {
    const BLOCKS: [&str; 3] = ["8, first block", "8, middle block", "8, last block"];
    const CODES: [&str; 3] = ["8, first code", "8, middle code", "8, last code"];
    let m = hurt.blocks.len();
    if m == 0 {
        return None;
    }
    let b = place_of(random, m);
    let spot = Some(BLOCKS[third(b, m - 1)]);
    let block = &mut hurt.blocks[b];
    let many = block.codes.len();
    if many == 0 || once_in(random, 5) {
        let kept = one_of(random, &[127, 255]);
        block.rest = few_bytes(random).iter().map(|byte| byte & kept).collect();
        let fault = Fault::within(8, list, Some(b), usize::MAX);
        return Some(fault.at(spot, Some("8, bytes behind the codes")));
    }
    let t = place_of(random, many);
    let last = t == many - 1;
    let value = random.byte();
    block.codes[t] = match random.below(7) {
        0 if last => vec![value | 128],
        1 if last => vec![value | 128, value | 128],
        2 if last => vec![],
        0 | 3 => vec![value | 128, 0],
        1 | 4 => vec![128, 128, 0],
        2 | 5 => vec![value | 128, 128, 128, 1],
        _ => vec![255, 255, 255],
    };
    Some(Fault::within(8, list, Some(b), 2 + t).at(spot, Some(CODES[third(t, many - 1)])))
}

/// 9: a slot that is too large, or a block that begins no higher than what
/// stands before it.
fn hurt_slot(random: &mut Random, hurt: &mut List, list: u32, u: u32) -> Option<Fault> {
    const BLOCKS: [&str; 3] = ["9, first block", "9, middle block", "9, last block"];
    const CODES: [&str; 3] = ["9, first code", "9, middle code", "9, last code"];
    let m = hurt.blocks.len();
    if m == 0 {
        return None;
    }
    let b = place_of(random, m);
    let spot = Some(BLOCKS[third(b, m - 1)]);
    let before = if b == 0 {
        hurt.cut
    } else {
        last_slot(hurt, b - 1)
    };
    let block = &mut hurt.blocks[b];
    let many = block.codes.len();
    if many == 0 || once_in(random, 3) {
        let low = random.between(0, before);
        block.first = one_of(random, &[before, low, 0, hurt.cut, u + 1, WILD]);
        return Some(Fault::within(9, list, Some(b), 1).at(spot, Some("9, first slot")));
    }
    let t = place_of(random, many);
    let previous = slot_at(block, t);
    let least = u - previous.min(u);
    let value = one_of(random, &[least, least + 1, (1 << 21) - 1]);
    block.codes[t] = code(value.min((1 << 21) - 1));
    Some(Fault::within(9, list, Some(b), 2 + t).at(spot, Some(CODES[third(t, many - 1)])))
}

/// The slot that stands before code `t` of a block. Codes that were hurt count
/// as nothing: a fault behind another one is not found anyway.
fn slot_at(block: &Block, t: usize) -> u32 {
    let gaps = block.codes[..t].iter().map(|code| value(code) + 1);
    block.first.saturating_add(gaps.sum())
}

fn last_slot(list: &List, b: usize) -> u32 {
    slot_at(&list.blocks[b], list.blocks[b].codes.len())
}

fn value(code: &[u8]) -> u32 {
    let digits = code.iter().take(3).enumerate();
    digits
        .map(|(i, &byte)| u32::from(byte & 127) << (7 * i))
        .sum()
}

/// Some faults of lists in the order in which they are found, and the records
/// they leave.
pub fn hurt_lists(random: &mut Random, shelf: &Shelf, many: u32) -> (Vec<Vec<u8>>, Vec<Fault>) {
    let mut records = shelf.records();
    let mut faults = Vec::new();
    let mut i = place_of(random, shelf.lists.len());
    let alone = shelf.lists.len() == 1;
    for turn in 0..many {
        let twice = turn + 1 < many && (alone || once_in(random, 2));
        faults.extend(hurt_list(random, shelf, i, twice, &mut records[i]));
        if twice {
            break;
        }
        i = (i + 1) % shelf.lists.len();
    }
    faults.sort_unstable();
    (records, faults)
}

/// One fault in list `i`, or two; the record's bytes are replaced.
fn hurt_list(
    random: &mut Random,
    shelf: &Shelf,
    i: usize,
    twice: bool,
    record: &mut Vec<u8>,
) -> Vec<Fault> {
    let at = i as u32;
    let mut list = shelf.lists[i].clone();
    let mut faults = Vec::new();
    let kinds = if list.idle_bits() == 0 { 4 } else { 6 };
    let kind = random.below(kinds);
    if kind >= 4 || twice && once_in(random, 3) {
        faults.extend(hurt_bits(random, &mut list, at));
    }
    let bare = list.blocks.is_empty();
    if kind == 0 || bare && (twice || faults.is_empty()) {
        *record = hurt_head(random, &list, shelf.u, shelf.block);
        faults.retain(|_| keeps_bits(record, &list));
        faults.push(Fault::within(6, at, None, 0));
        return faults;
    }
    if twice || kind == 1 {
        faults.extend(hurt_code(random, &mut list, at));
    }
    if kind == 2 || twice && once_in(random, 2) {
        let fault = hurt_slot(random, &mut list, at, shelf.u);
        // The same code cannot be hurt twice: only the later fault is there.
        faults.retain(|f: &Fault| fault.is_none_or(|g| (f.block, f.step) != (g.block, g.step)));
        faults.extend(fault);
    }
    for fault in &mut faults {
        fault.look_around(&list);
    }
    let mut raw = list.raw();
    if kind == 3 || twice && once_in(random, 2) {
        faults.extend(hurt_offset(random, &mut raw, at));
    }
    *record = raw.bytes();
    faults
}

#[cfg(test)]
mod tests {
    use super::*;

    /// What is told of a fault in the first block of a list, beside its block and code.
    fn around(number: u32, step: usize, list: &List) -> [Option<&'static str>; 2] {
        let mut fault = Fault::within(number, 0, Some(0), step);
        fault.look_around(list);
        assert_eq!(fault.spots[..2], [None; 2]);
        [fault.spots[2], fault.spots[3]]
    }

    #[test]
    fn faults_in_long_blocks() {
        let ten: Vec<u32> = (1..=10).collect();
        let list = List::of(128, 0, &ten);
        let low = Some(EIGHTS_HIGH[0]);
        assert_eq!(around(8, 2, &list), [Some(EIGHTS[0]), low]);
        assert_eq!(around(8, 3, &list), [Some(EIGHTS[1]), low]);
        assert_eq!(around(8, 10, &list), [Some(EIGHTS[2]), low]);
        assert_eq!(around(8, usize::MAX, &list), [Some(EIGHTS[3]), low]);
        assert_eq!(around(9, 1, &list), [None; 2]);
        let low = Some(NINES_HIGH[0]);
        assert_eq!(around(9, 10, &list), [Some(NINES[2]), low]);
        let mut list = List::of(128, 0, &ten[..9]);
        assert_eq!(around(8, 2, &list), [None; 2]);
        list.blocks[0].rest = vec![128];
        let high = Some(EIGHTS_HIGH[1]);
        assert_eq!(around(8, usize::MAX, &list), [Some(EIGHTS[3]), high]);
    }
}
