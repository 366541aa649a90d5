//! Cases of the next slot of a list. They stand behind all that there were before
//! them, so that these keep their numbers. Every index is a small one.

use super::shape::*;
use super::Deck;

pub fn add(deck: &mut Deck) {
    itself(deck);
    from_bits(deck);
    from_the_tail(deck);
    refused(deck);
}

/// The list holds the slot it is asked from.
fn itself(deck: &mut Deck) {
    let paper = paper();
    deck.next("itself, the last bit, at the cut", &paper, 1, 16);
    deck.next("itself, within a block", &paper, 0, 5);
    deck.next("itself, a block's first slot", &paper, 0, 18);
    let last = one(20, 3, record(20, 3, 6, &[2, 6, 9, 20]));
    deck.next("itself, u in the tail", &last, 0, 20);
}

/// From slots up to the cut.
fn from_bits(deck: &mut Deck) {
    let paper = paper();
    deck.next("a larger bit of the same byte", &paper, 1, 4);
    deck.next("a bit of a later byte", &paper, 1, 6);
    let far = one(80, 4, record(80, 4, 75, &[75]));
    deck.next("the only bit, in the last of ten bytes", &far, 0, 1);
    let whole = one(13, 128, record(13, 128, 13, &[1, 2, 8, 13]));
    deck.next("cut = u, its slot is the next", &whole, 0, 9);

    let mixed = one(24, 2, record(24, 2, 13, &[3, 9, 17, 20, 23]));
    deck.next("the bits run out, a block follows", &mixed, 0, 10);
    let bits = one(24, 2, record(24, 2, 13, &[3, 9]));
    deck.next("the bits run out, no block follows", &bits, 0, 10);
}

/// From slots behind the cut.
fn from_the_tail(deck: &mut Deck) {
    let paper = paper();
    deck.next("between the cut and the first block", &paper, 1, 17);
    let late = one(32, 2, record(32, 2, 0, &[3, 11, 12]));
    deck.next("before the first block, cut 0", &late, 0, 1);
    deck.next("a larger slot of the block", &paper, 0, 9);
    let apart = one(160, 4, record(160, 4, 0, &[3, 150, 151]));
    deck.next("a larger slot, by a code of two bytes", &apart, 0, 4);
    deck.next("the block runs out, another follows", &paper, 0, 17);
    deck.next("the last block runs out", &paper, 0, 31);
    deck.next("an empty list", &one(32, 4, vec![0; 12]), 0, 1);
}

/// Each reason, mostly with reasons that come behind it.
fn refused(deck: &mut Deck) {
    let paper = paper();
    deck.next("slot 0", &paper, 0, 0);
    deck.next("slot u + 1", &paper, 1, 33);
    deck.next("name k, slot 0", &paper, 2, 0);
    deck.next("name wild, slot wild", &paper, WILD, WILD);
    let damaged = with_byte(&paper, 54, 0x81);
    deck.next("damage behind the next slot", &damaged, 0, 5);
    let dirty = raw([9, 1, 0], &[0x80, 0x40], &[(12, 0)], &[]);
    let lists = index(32, 4, &[record(32, 4, 0, &[7]), dirty]);
    deck.next("a set bit behind the cut is refused", &lists, 1, 2);
}
