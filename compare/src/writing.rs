//! Records to be written.

use crate::case::{Call, Case, Verdict};
use crate::make::{
    once_in, one_of, some_block, some_cut, some_limit, some_u, sorted_slots, MOST_SLOTS, WILD,
};
use crate::pack::List;
use second::random::Random;

/// Sizes, cut and slots to write.
struct Wish {
    u: u32,
    block: u32,
    cut: u32,
    slots: Vec<u32>,
    /// The reasons to refuse it, in the paper's order.
    reasons: Vec<Verdict>,
}

impl Wish {
    /// One more reason, before all there are.
    fn refuse(&mut self, number: u32, place: u32) {
        self.reasons.insert(0, (number, place));
    }
}

pub fn write(random: &mut Random) -> Case {
    let u = some_u(random);
    let limit = some_limit(random);
    let slots = sorted_slots(random, u, limit);
    let mut wish = Wish {
        u,
        block: some_block(random),
        cut: some_cut(random, u, &slots),
        slots,
        reasons: Vec::new(),
    };
    let length = List::of(wish.block, wish.cut, &wish.slots).bytes().len();
    let room = some_room(random, length);
    if room < length {
        wish.refuse(12, length as u32);
    }
    spoil(random, &mut wish);
    let call = Call::Write {
        u: wish.u,
        block: wish.block,
        cut: wish.cut,
    };
    let bytes = (0..room).map(|_| random.byte() | 1).collect();
    Case::new("a record written", call, bytes)
        .given(wish.slots)
        .out(random)
        .refused_by(&wish.reasons)
}

/// Room: exact, one less, less, none, or more.
fn some_room(random: &mut Random, length: usize) -> usize {
    match random.below(12) {
        0 | 1 => length - 1,
        2 => random.below(length as u32) as usize,
        3 => 0,
        4..=7 => length,
        _ => length + random.between(1, 40) as usize,
    }
}

/// Puts in what is refused, from the last check to the first.
fn spoil(random: &mut Random, wish: &mut Wish) {
    if once_in(random, 4) {
        spoil_slots(random, wish);
    }
    if once_in(random, 10) {
        wish.cut = one_of(random, &[wish.u + 1, wish.u + 8, 1 << 31, WILD]);
        wish.refuse(15, 0);
    }
    if once_in(random, 12) {
        if once_in(random, 2) {
            wish.u = one_of(random, &[0, MOST_SLOTS + 1, 1 << 31, WILD]);
        } else {
            wish.block = one_of(random, &[0, 129, 256, 1 << 31, WILD]);
        }
        wish.refuse(4, 0);
    }
}

/// One slot that is 0, too large, or does not rise.
fn spoil_slots(random: &mut Random, wish: &mut Wish) {
    if wish.slots.is_empty() {
        wish.slots.push(1);
    }
    let last = wish.slots.len() - 1;
    let at = one_of(random, &[0, last / 2, last]);
    let before = if at > 0 { wish.slots[at - 1] } else { 0 };
    let lower = before / 2;
    wish.slots[at] = one_of(random, &[before, lower, 0, wish.u + 1, WILD]);
    wish.refuse(13, at as u32);
}
