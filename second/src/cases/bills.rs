//! Cases of few slots sought in many blocks, where the bill for looks is well below
//! a look for each search and two for each block. They stand behind all others, so
//! that these keep their numbers.

use super::shape::*;
use super::Deck;
use crate::random::Random;

const SKIPS: u32 = 1;

pub fn add(deck: &mut Deck, random: &mut Random) {
    at_even_slots(deck, random);
    behind_another(deck, random);
    with_bits(deck, random);
    at_the_end(deck, random);
}

/// So many slots, each so far behind the one before.
fn steps(first: u32, step: u32, many: u32) -> Vec<u32> {
    (0..many).map(|i| first + step * i).collect()
}

/// Slots that take all the halvings there are.
fn at_even_slots(deck: &mut Deck, random: &mut Random) {
    let long = record(64, 1, 0, &steps(2, 2, 31));
    let lists = index(64, 1, &[long, record(64, 1, 0, &[16, 32, 48])]);
    let label = "3 slots in 31 blocks";
    deck.ask(label, &lists, SKIPS, &[0, 1], &slots(random, 3));

    let long = record(32, 1, 0, &steps(2, 2, 15));
    let lists = index(32, 1, &[long, record(32, 1, 0, &[16])]);
    let label = "1 slot in 15 blocks";
    deck.ask(label, &lists, SKIPS, &[0, 1], &slots(random, 2));
}

/// One of three slots is dropped before the long list's turn, and one is a bit test
/// in the list between.
fn behind_another(deck: &mut Deck, random: &mut Random) {
    let lists = [
        record(64, 1, 0, &steps(5, 2, 27)),
        record(64, 1, 24, &[3, 11, 20, 28, 40, 45, 60]),
        record(64, 1, 64, &[11, 30, 45]),
    ];
    let label = "2 of 3 slots left for 27 blocks";
    let names = [0, 2, 1];
    deck.ask(
        label,
        &index(64, 1, &lists),
        SKIPS,
        &names,
        &slots(random, 3),
    );
}

/// Slots up to the cut are no searches, be they some of the candidates or all.
fn with_bits(deck: &mut Deck, random: &mut Random) {
    let long = [&[2, 8, 21], &steps(23, 3, 24)[..]].concat();
    let wanted = record(96, 1, 96, &[2, 9, 21, 22, 50, 71]);
    let lists = index(96, 1, &[record(96, 1, 21, &long), wanted]);
    let label = "3 bit tests, then 3 slots in 24 blocks";
    deck.ask(label, &lists, SKIPS, &[0, 1], &slots(random, 7));

    let long = [&[7, 23, 40], &steps(42, 2, 12)[..]].concat();
    let wanted = record(64, 1, 0, &[7, 24, 40]);
    let lists = index(64, 1, &[wanted, record(64, 1, 40, &long)]);
    let label = "3 bit tests, no slot in 12 blocks";
    deck.ask(label, &lists, SKIPS, &[0, 1], &slots(random, 3));
}

/// Blocks of two, and nothing sought in any but the last two of them.
fn at_the_end(deck: &mut Deck, random: &mut Random) {
    let firsts = steps(3, 5, 20);
    let long: Vec<u32> = firsts.iter().flat_map(|&x| [x, x + 1]).collect();
    let wanted = record(100, 2, 100, &[94, 96, 99, 100]);
    let lists = index(100, 2, &[wanted, record(100, 2, 0, &long)]);
    let label = "4 slots at the end of 20 blocks";
    deck.ask(label, &lists, SKIPS, &[1, 0], &slots(random, 5));
}
