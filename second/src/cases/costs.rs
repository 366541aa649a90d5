//! Cases of what each position of a question costs. They stand behind those of
//! all operations that there were before them, so that these keep their numbers.

use super::shape::*;
use super::Deck;
use crate::random::Random;

const PLAIN: u32 = 0;
const SKIPS: u32 = 1;

/// Four lists of 4, 6, 9 and 14 slots, of which every two have some in common.
fn four_lists() -> Vec<u8> {
    let c = [2, 9, 17, 22, 28, 40, 41, 55, 60];
    let d = [1, 5, 9, 12, 18, 22, 23, 31, 36, 40, 44, 49, 52, 58];
    let lists = [
        record(60, 2, 0, &[9, 22, 40, 55]),
        record(60, 2, 0, &[3, 9, 22, 30, 40, 57]),
        record(60, 2, 10, &c),
        record(60, 2, 0, &d),
    ];
    index(60, 2, &lists)
}

pub fn add(deck: &mut Deck, random: &mut Random) {
    let lists = four_lists();
    let exact = slots(random, 4);
    let larger = slots(random, 7);
    let label = "three names, the starting list between the others";
    deck.ask(label, &lists, SKIPS, &[3, 0, 1], &exact);
    let mixed = [2, 3, 0, 1];
    let label = "four names of different counts";
    deck.ask(label, &lists, SKIPS, &mixed, &larger);
    deck.ask("four names plainly", &lists, PLAIN, &mixed, &larger);
    deck.ask("four names, no room", &lists, SKIPS, &mixed, &exact[1..]);
    let label = "a list named three times";
    deck.ask(label, &lists, SKIPS, &[3, 0, 3, 3], &exact);
    let sixteen = [3, 2, 1, 3, 1, 2, 0, 3, 0, 1, 2, 3, 2, 1, 0, 3];
    let label = "sixteen names of four lists";
    deck.ask(label, &lists, SKIPS, &sixteen, &larger);
}
