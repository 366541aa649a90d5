//! How large a record can be: asked with good and bad numbers, and asked first
//! where a record is then written into a room of just so many bytes.

use crate::case::{Call, Case, Sizes, Verdict};
use crate::make::{
    once_in, one_of, some_block, some_cut, some_limit, some_u, sorted_slots, MOST_SLOTS, WILD,
};
use crate::measure::{THREE, TWO};
use crate::pack::List;
use second::random::Random;

/// Sizes to ask about.
struct Wish {
    sizes: Sizes,
    /// The reasons to refuse them, in the paper's order.
    reasons: Vec<Verdict>,
}

pub fn bound(random: &mut Random) -> Case {
    if once_in(random, 8) {
        return asked("a bound of wild numbers", wild(random)).out(random);
    }
    let mut wish = Wish {
        sizes: good(random),
        reasons: Vec::new(),
    };
    if once_in(random, 2) {
        spoil(random, &mut wish);
    }
    asked("a bound", wish.sizes)
        .out(random)
        .refused_by(&wish.reasons)
}

fn asked(kind: &'static str, sizes: Sizes) -> Case {
    Case::new(kind, Call::Bound(sizes), Vec::new())
}

/// Any numbers, small and large ones alike.
fn wild(random: &mut Random) -> Sizes {
    let mut number = || random.bits() as u32 >> random.below(32);
    Sizes {
        u: number(),
        block: number(),
        cut: number(),
        n: number(),
    }
}

/// Sizes that are accepted. How many slots lie above the cut comes first: most
/// of the sum goes by that.
fn good(random: &mut Random) -> Sizes {
    let above = some_above(random);
    let cut = some_cut_below(random, above);
    let block = some_block(random);
    Sizes {
        u: above + cut,
        block,
        cut,
        n: some_n(random, above, block),
    }
}

/// How many slots lie above the cut: none, at or beside a multiple of one of the
/// two differences, or any number.
fn some_above(random: &mut Random) -> u32 {
    match random.below(10) {
        0 => 0,
        1 => one_of(random, &[1, 2, MOST_SLOTS - 1, MOST_SLOTS]),
        2..=4 => beside(random, TWO),
        5..=7 => beside(random, THREE),
        _ => some_u(random),
    }
}

fn beside(random: &mut Random, step: u32) -> u32 {
    let most = one_of(random, &[1, 4, MOST_SLOTS / step]);
    step * random.between(1, most) + random.below(3) - 1
}

/// A cut that leaves so many slots above it: none, at a byte's end and beside it,
/// the highest, or any.
fn some_cut_below(random: &mut Random, above: u32) -> u32 {
    let most = MOST_SLOTS - above;
    let any = random.between(0, most);
    let byte = any / 8 * 8;
    let near = random.between(0, 20);
    let cut = one_of(random, &[0, 0, near, byte, byte + 1, byte + 7, most, any]);
    cut.clamp(u32::from(above == 0), most)
}

/// How many slots there are above the cut: none, one, all and one less, whole
/// blocks and one beside, or any number.
fn some_n(random: &mut Random, above: u32, block: u32) -> u32 {
    let any = random.between(0, above);
    let whole = any / block * block;
    let [less, fewer] = [above, whole].map(|n: u32| n.saturating_sub(1));
    let many = [0, 1, above, less, whole, whole + 1, fewer, any];
    one_of(random, &many).min(above)
}

/// Puts in one reason to refuse, two, or all three. Each goes by the numbers that
/// stand before it, so that it holds whatever else was put in.
fn spoil(random: &mut Random, wish: &mut Wish) {
    let which = random.between(1, 7);
    if which & 4 != 0 {
        spoil_limits(random, &mut wish.sizes);
        wish.reasons.push((4, 0));
    }
    if which & 2 != 0 {
        spoil_cut(random, &mut wish.sizes);
        wish.reasons.push((15, 0));
    }
    if which & 1 != 0 {
        spoil_n(random, &mut wish.sizes);
        wish.reasons.push((13, 0));
    }
}

/// A u or a B that no index has. What was good below another u is so below this
/// one, and every u has a number above it, for a cut.
fn spoil_limits(random: &mut Random, sizes: &mut Sizes) {
    if once_in(random, 2) {
        sizes.block = one_of(random, &[0, 129, 256, 1 << 31, WILD]);
    } else {
        sizes.u = one_of(random, &[0, MOST_SLOTS + 1, 1 << 31, WILD - 1]);
        sizes.cut = sizes.cut.min(sizes.u);
        sizes.n = sizes.n.min(sizes.u - sizes.cut);
    }
}

fn spoil_cut(random: &mut Random, sizes: &mut Sizes) {
    let least = sizes.u + 1;
    let more = least.saturating_add(7);
    sizes.cut = one_of(random, &[least, more, 1 << 31, WILD]).max(least);
}

/// More slots than there are above the cut, or above any cut where this one is
/// too high. With the cut added, one of these numbers comes to 2 to the 32nd.
fn spoil_n(random: &mut Random, sizes: &mut Sizes) {
    let above = sizes.u.checked_sub(sizes.cut);
    let least = above.unwrap_or(sizes.u) + 1;
    let more = least.saturating_add(1);
    let wrapping = sizes.cut.wrapping_neg();
    let many = [least, least, more, sizes.u + 1];
    let wild = [wrapping, wrapping, 1 << 31, WILD];
    sizes.n = one_of(random, &[many, wild].concat()).max(least);
}

/// A list to be written.
struct Plan {
    u: u32,
    block: u32,
    cut: u32,
    slots: Vec<u32>,
}

impl Plan {
    fn list(&self) -> List {
        List::of(self.block, self.cut, &self.slots)
    }

    /// What is asked before the list is written.
    fn sizes(&self) -> Sizes {
        Sizes {
            u: self.u,
            block: self.block,
            cut: self.cut,
            n: self.list().tail,
        }
    }
}

/// A bound asked, the record written into a room of just so many bytes, and into
/// one of a byte less.
pub fn reserved(random: &mut Random) -> Vec<Case> {
    let plan = match random.below(3) {
        0 => usual(random),
        1 => stretched(random),
        _ => reaching(random),
    };
    let first = asked("room reserved: bound", plan.sizes())
        .out(random)
        .accepted();
    let bytes = first.outcome().numbers[2] as usize;
    let length = plan.list().bytes().len();
    let fits = written(random, &plan, bytes).accepted();
    let less = written(random, &plan, bytes.saturating_sub(1));
    let less = if length < bytes {
        less.accepted()
    } else {
        less.refused_by(&[(12, length as u32)])
    };
    vec![first, fits, less]
}

/// The list written into so much room, of which no byte is zero.
fn written(random: &mut Random, plan: &Plan, room: usize) -> Case {
    let call = Call::Write {
        u: plan.u,
        block: plan.block,
        cut: plan.cut,
    };
    let bytes = (0..room).map(|_| random.byte() | 1).collect();
    Case::new("room reserved: write", call, bytes)
        .given(plan.slots.clone())
        .out(random)
}

/// A list of any kind.
fn usual(random: &mut Random) -> Plan {
    let u = some_u(random);
    let limit = some_limit(random);
    let slots = sorted_slots(random, u, limit);
    Plan {
        u,
        block: some_block(random),
        cut: some_cut(random, u, &slots),
        slots,
    }
}

/// A list of many differences of 129, and some at which a code has three bytes.
fn stretched(random: &mut Random) -> Plan {
    let mut gaps = Vec::new();
    let mut sum = 0;
    for _ in 0..random.between(2, 150) {
        let gap = match random.below(10) {
            0 => one_of(random, &[THREE - 1, THREE, THREE, THREE + 1, 40_000]),
            1 => one_of(random, &[1, 2, TWO - 1, TWO + 1]),
            _ => TWO,
        };
        sum += gap;
        if sum > 1_000_000 {
            break;
        }
        gaps.push(gap);
    }
    let block = some_block(random);
    let spare = random.between(0, 300);
    laid_out(random, block, &gaps, spare)
}

/// A list whose record is as long as its bound: as many differences of 129 as
/// the slots above the cut have room for, each inside a block. From 16,385 slots
/// on no record is, for a code of three bytes takes the room of many of two.
fn reaching(random: &mut Random) -> Plan {
    let block = random.between(2, 128);
    let long = random.between(1, 126);
    let mut gaps = Vec::new();
    for _ in 0..long {
        if (gaps.len() as u32 + 1).is_multiple_of(block) {
            gaps.push(1);
        }
        gaps.push(TWO);
    }
    // What is spread over the rest may not make room for one of them more.
    let between = gaps.len() as u32 - long;
    let mut spare = random.between(0, TWO - 2 - between);
    while spare > 0 && !once_in(random, 4) {
        let more = random.between(1, spare);
        spare -= more;
        if once_in(random, 2) {
            gaps.push(more);
        } else {
            let at = random.below(gaps.len() as u32) as usize;
            gaps[at] += more;
        }
    }
    laid_out(random, block, &gaps, spare)
}

/// The list with such differences between the slots above its cut, and so many
/// slots free before and behind them.
fn laid_out(random: &mut Random, block: u32, gaps: &[u32], spare: u32) -> Plan {
    let any = random.between(1, 300);
    let cut = one_of(random, &[0, 8, 64, any]);
    let mut slots: Vec<u32> = (1..=cut).filter(|_| once_in(random, 3)).collect();
    let before = random.between(0, spare);
    let mut slot = cut + 1 + before;
    slots.push(slot);
    for gap in gaps {
        slot += gap;
        slots.push(slot);
    }
    Plan {
        u: slot + spare - before,
        block,
        cut,
        slots,
    }
}

#[cfg(test)]
mod tests {
    use super::*;
    use crate::kinds::stream;

    #[test]
    fn lists_that_reach_the_bound() {
        for number in 0..2_000 {
            let plan = reaching(&mut stream(1, number));
            let length = plan.list().bytes().len() as u64;
            assert_eq!(length, plan.sizes().most(), "{number}");
        }
    }

    #[test]
    fn the_first_reason_is_told() {
        for number in 0..20_000 {
            let random = &mut stream(2, number);
            let mut wish = Wish {
                sizes: good(random),
                reasons: Vec::new(),
            };
            assert_eq!(wish.sizes.verdict(), (0, 0), "{number}");
            spoil(random, &mut wish);
            assert_eq!(wish.sizes.verdict(), wish.reasons[0], "{number}");
        }
    }
}
