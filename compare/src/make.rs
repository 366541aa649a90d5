//! Sound lists and indexes of many kinds.

use crate::fast::APART;
use crate::pack::{index, List};
use second::random::Random;

pub const MOST_SLOTS: u32 = 1_048_576;
pub const MOST_LISTS: u32 = 4_096;
pub const WILD: u32 = u32::MAX;

/// Lists of one u and B, with the slots that each holds.
#[derive(Clone)]
pub struct Shelf {
    pub u: u32,
    pub block: u32,
    pub lists: Vec<List>,
    pub held: Vec<Vec<u32>>,
}

impl Shelf {
    pub fn k(&self) -> u32 {
        self.lists.len() as u32
    }

    pub fn records(&self) -> Vec<Vec<u8>> {
        self.lists.iter().map(List::bytes).collect()
    }

    pub fn index(&self) -> Vec<u8> {
        index(self.u, self.block, &self.records())
    }

    pub fn count(&self, name: u32) -> usize {
        self.held[name as usize].len()
    }
}

/// One of some things.
pub fn one_of<T: Copy>(random: &mut Random, things: &[T]) -> T {
    things[random.below(things.len() as u32) as usize]
}

/// True once in `many` times.
pub fn once_in(random: &mut Random, many: u32) -> bool {
    random.below(many) == 0
}

/// A u, from the smallest to the largest.
pub fn some_u(random: &mut Random) -> u32 {
    match random.below(100) {
        0..=3 => 1,
        4..=14 => random.between(2, 12),
        15..=22 => random.between(31, 33),
        23..=44 => random.between(13, 100),
        45..=69 => random.between(101, 1_000),
        70..=84 => random.between(1_001, 20_000),
        85..=92 => random.between(20_001, MOST_SLOTS - 1),
        _ => MOST_SLOTS,
    }
}

/// A block length.
pub fn some_block(random: &mut Random) -> u32 {
    let usual = [1, 1, 2, 2, 3, 3, 4, 4, 5, 7, 8, 16, 31, 127, 128];
    if once_in(random, 5) {
        random.between(1, 128)
    } else {
        one_of(random, &usual)
    }
}

/// Ascending slots, at most `limit` of them.
pub fn some_slots(random: &mut Random, u: u32, limit: u32) -> Vec<u32> {
    match random.below(12) {
        0 => Vec::new(),
        1 => vec![one_of(random, &[1, u, u.div_ceil(2)])],
        2 => scattered(random, u, 8),
        3..=5 => scattered(random, u, limit),
        6 => run(random, u, limit),
        7 => [scattered(random, u, 8), run(random, u, limit)].concat(),
        8 => stepped(random, u, limit),
        9 if u <= limit => (1..=u).collect(),
        _ => leaping(random, u, limit),
    }
}

/// Any slots.
fn scattered(random: &mut Random, u: u32, limit: u32) -> Vec<u32> {
    let many = random.between(1, limit.min(u));
    (0..many).map(|_| random.between(1, u)).collect()
}

/// Slots without gaps between them.
fn run(random: &mut Random, u: u32, limit: u32) -> Vec<u32> {
    let first = random.between(1, u);
    let many = random.between(1, limit);
    (first..=u.min(first + many)).collect()
}

/// Slots at even distances.
fn stepped(random: &mut Random, u: u32, limit: u32) -> Vec<u32> {
    let step = random.between(1, u.div_ceil(3));
    let first = random.between(1, step);
    (first..=u)
        .step_by(step as usize)
        .take(limit as usize)
        .collect()
}

/// Slots at distances where a code's length changes.
fn leaping(random: &mut Random, u: u32, limit: u32) -> Vec<u32> {
    let near = [1, 1, 2, 3, 60, 127, 128, 129, 130, 255, 256, 257];
    let far = [16_383, 16_384, 16_385, 16_386, 16_512, 16_513, 40_000];
    let mut slots = Vec::new();
    let mut slot = random.between(1, u.min(300));
    while slot <= u && (slots.len() as u32) < limit {
        slots.push(slot);
        slot += match random.below(8) {
            0 => one_of(random, &far),
            1 => random.between(1, 20_000),
            _ => one_of(random, &near),
        };
    }
    if once_in(random, 4) {
        slots.push(u);
    }
    slots
}

fn sorted(mut slots: Vec<u32>) -> Vec<u32> {
    slots.sort_unstable();
    slots.dedup();
    slots
}

/// A list that has something to do with the others: part of them, more than
/// them, as many as them, or none of this.
fn related(random: &mut Random, u: u32, limit: u32, pool: &[u32]) -> Vec<u32> {
    let fresh = some_slots(random, u, limit);
    match random.below(8) {
        0 | 1 => fresh,
        2 | 3 => pool
            .iter()
            .copied()
            .filter(|_| once_in(random, 2))
            .collect(),
        4 | 5 => [pool, &fresh].concat(),
        6 => pool.to_vec(),
        _ => pool.iter().map(|slot| slot % u + 1).collect(),
    }
}

/// A cut: at an end, at or beside a slot, at a byte's end, or anywhere. Long
/// bit parts are rare.
pub fn some_cut(random: &mut Random, u: u32, slots: &[u32]) -> u32 {
    let longest = if once_in(random, 150) {
        u
    } else {
        u.min(8_000)
    };
    let slot = if slots.is_empty() {
        1
    } else {
        one_of(random, slots)
    };
    let cut = match random.below(10) {
        0..=2 => 0,
        3 if u <= longest => u,
        4 => slot,
        5 => slot - 1,
        6 => (slot + 1).min(u),
        7 => random.between(0, longest) / 8 * 8,
        _ => random.between(0, longest),
    };
    if cut <= longest {
        cut
    } else {
        random.between(0, longest)
    }
}

/// A shelf of `k` lists.
pub fn shelf_of(random: &mut Random, u: u32, block: u32, k: u32, limit: u32) -> Shelf {
    let pool = sorted(some_slots(random, u, limit));
    let mut shelf = Shelf {
        u,
        block,
        lists: Vec::new(),
        held: Vec::new(),
    };
    for _ in 0..k {
        let slots = sorted(related(random, u, limit, &pool));
        let beside = if once_in(random, 2) { &pool } else { &slots };
        let cut = some_cut(random, u, beside);
        shelf.lists.push(List::of(block, cut, &slots));
        shelf.held.push(slots);
    }
    shelf
}

/// How many slots a list may have.
pub fn some_limit(random: &mut Random) -> u32 {
    match random.below(100) {
        0..=59 => 30,
        60..=91 => 120,
        92..=98 => 500,
        _ => 5_000,
    }
}

/// A shelf of one to a dozen lists, or once in a long while of 4,096.
pub fn some_shelf(random: &mut Random) -> Shelf {
    if once_in(random, 3_000) {
        return shelf_of(random, 32, 4, MOST_LISTS, 2);
    }
    match random.below(40) {
        0 => return apart(random),
        1..=3 => return dense(random),
        _ => {}
    }
    let k = one_of(random, &[1, 1, 2, 2, 3, 3, 3, 4, 5, 6, 8, 12]);
    let u = some_u(random);
    let block = some_block(random);
    let limit = some_limit(random);
    shelf_of(random, u, block, k, limit)
}

/// A long list in short blocks, and a few slots to look for in it that lie far
/// apart: at, beside and between its slots.
pub fn gallop(random: &mut Random) -> Shelf {
    let u = random.between(400, 6_000);
    let block = one_of(random, &[1, 1, 2, 3, 4]);
    let step = random.between(2, 5);
    let low = random.between(1, 60);
    let many = random.between(40, 400) as usize;
    let long: Vec<u32> = (low..=u)
        .filter(|_| once_in(random, step))
        .take(many)
        .collect();
    let mut wanted = vec![1];
    for _ in 0..random.between(2, 9) {
        if let Some(&slot) = long.get(random.below(500) as usize) {
            wanted.push(one_of(random, &[slot, slot, slot + 1, slot - 1]).clamp(1, u));
        }
    }
    let wanted = sorted(wanted);
    let cut = one_of(random, &[0, low.min(u), low / 2, low + 9]).min(u);
    let other = some_cut(random, u, &wanted);
    let lists = vec![List::of(block, cut, &long), List::of(block, other, &wanted)];
    Shelf {
        u,
        block,
        lists,
        held: vec![long, wanted],
    }
}

/// A list of many blocks, and so few slots to look for in it that its blocks are far
/// more than the searches. Some of these slots may be bits of the list, or all. A
/// third list has half of them, and some others.
pub fn few(random: &mut Random) -> Shelf {
    let block = one_of(random, &[1, 1, 2, 3]);
    let every = one_of(random, &[4, 8, 16, 32]);
    let rest = one_of(random, &[0, every - 1, every - 1, every / 2]);
    let many = (every * random.between(1, 6) + rest) * block;
    let cut = random.between(1, 90) * random.below(2);
    let bits: Vec<u32> = (1..=cut).filter(|_| once_in(random, 3)).collect();
    let step = random.between(1, 4);
    let tail: Vec<u32> = (1..=many).map(|i| cut + step * i).collect();
    let u = cut + step * many + random.below(20);
    let firsts: Vec<u32> = tail.iter().copied().step_by(block as usize).collect();
    let wanted = few_wanted(random, &bits, &firsts, every as usize);
    let other = some_cut(random, u, &wanted);
    let half = &wanted[wanted.len() / 2..];
    let between = sorted([half, &run(random, u, 9)].concat());
    let long = [bits, tail].concat();
    let lists = vec![
        List::of(block, cut, &long),
        List::of(block, other, &wanted),
        List::of(block, cut, &between),
    ];
    Shelf {
        u,
        block,
        lists,
        held: vec![long, wanted, between],
    }
}

/// The slots to look for. Those behind the cut are first slots of blocks that lie so
/// far apart that each search takes all its halvings, or of any blocks, or they are
/// the slots before.
fn few_wanted(random: &mut Random, bits: &[u32], firsts: &[u32], every: usize) -> Vec<u32> {
    let many = random.between(1, 4) as usize;
    let mut wanted: Vec<u32> = match random.below(3) {
        0 => (0..many).map(|_| one_of(random, firsts)).collect(),
        1 => (0..many).map(|_| one_of(random, firsts) - 1).collect(),
        _ => firsts
            .iter()
            .copied()
            .skip(every - 1)
            .step_by(every)
            .collect(),
    };
    wanted.truncate(many);
    if !bits.is_empty() && once_in(random, 3) {
        wanted.clear();
    }
    if !bits.is_empty() && once_in(random, 2) {
        wanted.extend([one_of(random, bits), one_of(random, bits)]);
    }
    wanted.retain(|&slot| slot > 0);
    sorted(wanted)
}

/// Lists of long blocks whose codes have one byte, most of them. Few slots or none lie
/// behind the last one of all, so that a little more is too much.
fn dense(random: &mut Random) -> Shelf {
    let block = one_of(random, &[10, 17, 33, 64, 127, 128]);
    let mut held = Vec::new();
    for _ in 0..random.between(1, 2) {
        let most = one_of(random, &[1, 3, 9, 60, 127, 140]);
        let many = random.between(10, 150);
        let steps: Vec<u32> = (0..many).map(|_| random.between(1, most)).collect();
        held.push(upwards(1, &steps));
    }
    let last = held.iter().flatten().copied().max().unwrap_or(1);
    let u = last + random.below(10);
    shelved(random, u, block, held)
}

/// The slots that one comes to by such steps.
fn upwards(first: u32, steps: &[u32]) -> Vec<u32> {
    let mut slots = vec![first];
    for step in steps {
        slots.push(slots[slots.len() - 1] + step);
    }
    slots
}

/// Lists of such slots, cut somewhere.
fn shelved(random: &mut Random, u: u32, block: u32, held: Vec<Vec<u32>>) -> Shelf {
    let cuts: Vec<u32> = held
        .iter()
        .map(|slots| some_cut(random, u, slots))
        .collect();
    let parts = cuts.iter().zip(&held);
    let lists = parts
        .map(|(&cut, slots)| List::of(block, cut, slots))
        .collect();
    Shelf {
        u,
        block,
        lists,
        held,
    }
}

/// A list whose slots lie 16,384 apart, one less or more, or a multiple of that, with
/// others between; a few slots to look for, most of which lie so far from one of its
/// slots; and the same list as far ahead.
pub fn apart(random: &mut Random) -> Shelf {
    let (block, mut long) = if once_in(random, 5) {
        (128, brimming(random))
    } else {
        let block = one_of(random, &[2, 2, 2, 3, 5, 9, 16, 33, 127, 128]);
        (block, striding(random))
    };
    for _ in 0..random.below(4) {
        long.push(one_of(random, &long) + APART);
    }
    let shifted = long.iter().map(|slot| slot + APART).collect();
    let many = random.between(1, 12);
    let wanted = (0..many).map(|_| so_far_from(random, &long)).collect();
    let last = long.iter().copied().max().unwrap_or(1);
    let u = MOST_SLOTS.min(last + random.between(0, 2 * APART));
    let held = [long, wanted, shifted].map(|slots: Vec<u32>| {
        let good = slots.into_iter().filter(|slot| (1..=u).contains(slot));
        sorted(good.collect())
    });
    shelved(random, u, block, held.to_vec())
}

/// Slots with steps of about 16,384 and multiples, and near ones between.
fn striding(random: &mut Random) -> Vec<u32> {
    let far = [APART - 1, APART, APART, APART + 1, 2 * APART, 3 * APART];
    let near = [[1, 2, 3, 60], [1, 128, 129, 130], [129, 130, 200, 300]];
    let near = one_of(random, &near);
    let many = one_of(random, &[4, 12, 40, 160]);
    let every = random.between(2, 6);
    let low = one_of(random, &[40, 20_000]);
    let first = random.between(1, low);
    let mut steps = Vec::new();
    for _ in 1..many {
        steps.push(if once_in(random, every) {
            one_of(random, &far)
        } else {
            one_of(random, &near)
        });
    }
    let mut slots = upwards(first, &steps);
    slots.retain(|&slot| slot <= MOST_SLOTS);
    slots
}

/// Slots of which 128 need 254 bytes of codes, or one or two less or more.
fn brimming(random: &mut Random) -> Vec<u32> {
    let mut steps: Vec<u32> = (0..150).map(|_| random.between(129, 400)).collect();
    for step in [1, APART + 1, APART + 1] {
        let at = random.below(127) as usize;
        if once_in(random, 2) {
            steps[at] = step;
        }
    }
    upwards(1, &steps)
}

/// One of some slots, or one that lies 16,384 or a multiple above or below it, or beside
/// that. It may lie outside of all.
fn so_far_from(random: &mut Random, slots: &[u32]) -> u32 {
    let slot = one_of(random, slots);
    let far = APART * one_of(random, &[1, 1, 1, 2, 3]);
    let (above, below) = (slot + far, slot.saturating_sub(far));
    one_of(
        random,
        &[slot, slot, above, above, below, below, above - 1, below + 1],
    )
}

/// Ascending slots, each once.
pub fn sorted_slots(random: &mut Random, u: u32, limit: u32) -> Vec<u32> {
    sorted(some_slots(random, u, limit))
}
