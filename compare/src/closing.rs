//! Indexes to be closed.

use crate::case::{Call, Case, Spots, Verdict};
use crate::hurt::{hurt_lists, Fault};
use crate::make::{once_in, one_of, some_shelf, Shelf, MOST_SLOTS, WILD};
use crate::pack::starts;
use second::random::Random;

/// Records, starts and sizes for a closing.
struct Wish {
    u: u32,
    block: u32,
    total: u32,
    starts: Vec<u32>,
    records: Vec<u8>,
    /// The reasons to refuse it, in the paper's order.
    reasons: Vec<Verdict>,
    spots: Spots,
}

pub fn close(random: &mut Random) -> Case {
    let shelf = some_shelf(random);
    let mut wish = gather(random, &shelf);
    if once_in(random, 5) {
        spoil_starts(random, &mut wish);
    }
    let room = some_room(random, &mut wish);
    if once_in(random, 12) {
        spoil_total(random, &mut wish);
    }
    if once_in(random, 10) {
        spoil_sizes(random, &mut wish);
    }
    let mut bytes: Vec<u8> = (0..room).map(|_| random.byte() | 1).collect();
    let kept = room.min(wish.records.len());
    bytes[..kept].copy_from_slice(&wish.records[..kept]);
    let call = Call::Close {
        u: wish.u,
        block: wish.block,
        total: wish.total,
    };
    let mut case = Case::new("an index closed", call, bytes)
        .given(wish.starts)
        .out(random)
        .refused_by(&wish.reasons);
    case.spots = wish.spots;
    case
}

/// The records, every second time with a fault or two.
fn gather(random: &mut Random, shelf: &Shelf) -> Wish {
    let mut records = shelf.records();
    let mut faults = Vec::new();
    if once_in(random, 2) {
        let many = one_of(random, &[1, 2, 2]);
        (records, faults) = hurt_lists(random, shelf, many);
    }
    let starts = starts(&records);
    let records = records.concat();
    Wish {
        u: shelf.u,
        block: shelf.block,
        total: records.len() as u32,
        starts,
        records,
        reasons: faults.iter().map(Fault::verdict).collect(),
        spots: faults.first().map_or(Spots::default(), |fault| fault.spots),
    }
}

impl Wish {
    /// One more reason, before all there are.
    fn refuse(&mut self, number: u32, place: u32) {
        self.reasons.insert(0, (number, place));
        self.spots = Spots::default();
    }

    fn finished(&self) -> u64 {
        u64::from(self.total) + 4 * self.starts.len() as u64 + 24
    }
}

/// 5: one start is wrong, or the last record ends too early.
fn spoil_starts(random: &mut Random, wish: &mut Wish) {
    let last = wish.starts.len() - 1;
    match random.below(4) {
        0 => wish.starts[0] = one_of(random, &[1, 4, WILD]),
        1 if last > 0 => {
            let at = one_of(random, &[1, last]);
            wish.starts[at] = wish.starts[at - 1] + random.below(12);
        }
        2 => {
            let near = wish.total - random.below(12);
            wish.starts[last] = one_of(random, &[near, wish.total + 1, WILD, WILD - 11]);
        }
        _ => wish.total = wish.starts[last] + random.below(12),
    }
    wish.refuse(5, 0);
}

/// Room: exact, one less, less, none, or more; 12 where it is too little.
fn some_room(random: &mut Random, wish: &mut Wish) -> usize {
    let length = wish.finished() as usize;
    let room = match random.below(12) {
        0 => length - 1,
        1 => random.below(length as u32) as usize,
        2 => wish.records.len().min(length - 1),
        3..=6 => length,
        _ => length + random.between(1, 40) as usize,
    };
    if room < length {
        wish.refuse(12, length as u32);
    }
    room
}

/// A total for which no room here is enough, or that no index may have.
fn spoil_total(random: &mut Random, wish: &mut Wish) {
    let most = 16_777_216 - 24 - 4 * wish.starts.len() as u32;
    wish.total = one_of(
        random,
        &[most, most + 1, most - 1, 1 << 31, WILD, WILD - 27],
    );
    if wish.total > most {
        wish.refuse(1, 0);
    } else {
        let length = wish.finished() as u32;
        wish.refuse(12, length);
    }
}

/// 4: u, B, no starts, or too many of them.
fn spoil_sizes(random: &mut Random, wish: &mut Wish) {
    match random.below(8) {
        0..=2 => wish.u = one_of(random, &[0, MOST_SLOTS + 1, 1 << 31, WILD]),
        3..=5 => wish.block = one_of(random, &[0, 129, 256, 1 << 31, WILD]),
        6 => wish.starts.clear(),
        _ => wish.starts.resize(4_097, 0),
    }
    wish.refuse(4, 0);
}
