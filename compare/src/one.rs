//! Cases for one list: a slot tested, the next one told, a count, a record lent.

use crate::case::{Call, Case, Verdict};
use crate::make::{once_in, one_of, some_shelf, Shelf, MOST_LISTS, MOST_SLOTS, WILD};
use crate::next::least;
use crate::pack::List;
use second::random::Random;

fn some_name(random: &mut Random, shelf: &Shelf) -> u32 {
    let k = shelf.k();
    if once_in(random, 8) {
        one_of(random, &[k, k + 1, 1 << 31, WILD])
    } else {
        one_of(random, &[0, k - 1, k / 2])
    }
}

/// 11 for a name that is none.
fn misnamed(shelf: &Shelf, name: u32) -> Vec<Verdict> {
    if name < shelf.k() {
        Vec::new()
    } else {
        vec![(11, 0)]
    }
}

/// 11, and 16 for a slot that is none.
fn misplaced(shelf: &Shelf, name: u32, slot: u32) -> Vec<Verdict> {
    let mut reasons = misnamed(shelf, name);
    if !(1..=shelf.u).contains(&slot) {
        reasons.push((16, 0));
    }
    reasons
}

pub fn test(random: &mut Random) -> Case {
    let shelf = some_shelf(random);
    let name = some_name(random, &shelf);
    let slot = some_slot(random, &shelf, name);
    Case::new("a slot tested", Call::Test { name, slot }, shelf.index())
        .out(random)
        .refused_by(&misplaced(&shelf, name, slot))
}

pub fn next(random: &mut Random) -> Case {
    if once_in(random, 5) {
        return over_empty(random);
    }
    let shelf = if once_in(random, 2) {
        let few = one_of(random, &[2, 5, 15, 40, 300]);
        one_list(random, 200, few)
    } else {
        some_shelf(random)
    };
    let name = some_name(random, &shelf);
    let slot = some_slot(random, &shelf, name);
    Case::new("the next slot", Call::Next { name, slot }, shelf.index())
        .out(random)
        .refused_by(&misplaced(&shelf, name, slot))
}

/// The next slot from the first bit of a byte or any, where eight bytes without a bit,
/// or a few more or less, come first: then a slot or none, by its bit or in a block.
fn over_empty(random: &mut Random) -> Case {
    let any = random.between(1, 70);
    let slot = one_of(random, &[any, (any - 1) / 8 * 8 + 1]);
    let told = slot + random.between(56, 140);
    let cut = told - 1 + random.below(2) * random.between(1, 20);
    let u = cut + random.between(1, 40);
    let some = (1..=u).filter(|&x| (x < slot || x > told) && once_in(random, 9));
    let mut slots: Vec<u32> = some.collect();
    if !once_in(random, 3) {
        slots.push(told);
        slots.sort_unstable();
    }
    let shelf = Shelf {
        u,
        block: 4,
        lists: vec![List::of(4, cut, &slots)],
        held: vec![slots],
    };
    let call = Call::Next { name: 0, slot };
    Case::new("the next slot behind empty bytes", call, shelf.index())
        .out(random)
        .accepted()
}

/// A slot of the list, beside one, between two, at the cut, at an end of a block,
/// at the ends of all, or outside.
fn some_slot(random: &mut Random, shelf: &Shelf, name: u32) -> u32 {
    let u = shelf.u;
    let any = random.between(1, u);
    let Some(list) = shelf.lists.get(name as usize) else {
        return one_of(random, &[any, 0, u + 1, WILD]);
    };
    let held = &shelf.held[name as usize];
    let slot = if held.is_empty() {
        any
    } else {
        one_of(random, held)
    };
    match random.below(16) {
        0..=3 => slot,
        4 => slot - 1,
        5 => slot + 1,
        6 => list.cut,
        7 => list.cut + 1,
        8 => one_of(random, &[0, u + 1, 1 << 31, WILD]),
        9 => one_of(random, &[1, u]),
        10 | 11 => random.between(slot, least(held, slot + 1).max(slot)),
        12..=14 => at_block(
            random,
            shelf.block,
            &held[held.len() - list.tail as usize..],
        ),
        _ => any,
    }
}

/// The first slot of a block or its last one, or a slot beside these; 1 where there
/// is no block.
fn at_block(random: &mut Random, block: u32, tail: &[u32]) -> u32 {
    let blocks: Vec<&[u32]> = tail.chunks(block as usize).collect();
    if blocks.is_empty() {
        return 1;
    }
    let block = one_of(random, &blocks);
    let (first, last) = (block[0], block[block.len() - 1]);
    one_of(
        random,
        &[first, first - 1, first + 1, last, last + 1, last + 1],
    )
}

/// A name and a slot for an index that may have a fault: near good ones, or both
/// such as no index has.
pub fn some_pair(random: &mut Random, shelf: &Shelf) -> (u32, u32) {
    if once_in(random, 4) {
        let name = one_of(random, &[MOST_LISTS, 1 << 31, WILD]);
        (name, one_of(random, &[0, MOST_SLOTS + 1, WILD]))
    } else {
        (random.below(shelf.k() + 1), random.below(shelf.u + 2))
    }
}

/// The reasons to refuse a name and a slot that hold for every index.
pub fn always(name: u32, slot: u32) -> Vec<Verdict> {
    let mut reasons = Vec::new();
    if name >= MOST_LISTS {
        reasons.push((11, 0));
    }
    if !(1..=MOST_SLOTS).contains(&slot) {
        reasons.push((16, 0));
    }
    reasons
}

/// One list whose bits end so many bits behind so many bytes behind so many
/// eights of bytes. Up to so many slots lie above them, and one in `few` is held.
fn one_list(random: &mut Random, above: u32, few: u32) -> Shelf {
    let cut = 64 * random.below(4) + 8 * random.below(8) + random.below(8);
    let u = cut + random.between(1, above);
    let slots: Vec<u32> = (1..=u).filter(|_| once_in(random, few)).collect();
    Shelf {
        u,
        block: 4,
        lists: vec![List::of(4, cut, &slots)],
        held: vec![slots],
    }
}

/// Such a list full, half full, or nearly empty.
fn by_eights(random: &mut Random) -> Shelf {
    let few = one_of(random, &[1, 2, 2, 2, 40]);
    one_list(random, 20, few)
}

pub fn count(random: &mut Random) -> Case {
    let shelf = if once_in(random, 2) {
        by_eights(random)
    } else {
        some_shelf(random)
    };
    let name = some_name(random, &shelf);
    let reasons = misnamed(&shelf, name);
    Case::new("a list counted", Call::Count { name }, shelf.index())
        .out(random)
        .refused_by(&reasons)
}

pub fn lend(random: &mut Random) -> Case {
    let shelf = some_shelf(random);
    let name = some_name(random, &shelf);
    let reasons = misnamed(&shelf, name);
    Case::new("a record lent", Call::Lend { name }, shelf.index())
        .out(random)
        .refused_by(&reasons)
}
