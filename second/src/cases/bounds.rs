//! Cases of how large a record can be. They stand behind all that there were before
//! them, so that these keep their numbers. U is the number of slots behind the cut.

use super::shape::WILD;
use super::Deck;

pub fn add(deck: &mut Deck) {
    accepted(deck);
    refused(deck);
}

/// Where a record is as large, and where each part of the sum grows.
fn accepted(deck: &mut Deck) {
    deck.bound("as large as slots 1 and 130", [130, 128, 0], 2);
    deck.bound("the paper's list 0", [32, 4, 0], 15);
    deck.bound("the paper's list 1", [32, 4, 16], 3);
    deck.bound("U 128, all in the tail", [130, 5, 2], 128);
    deck.bound("U 129, a cut within a byte", [146, 2, 17], 3);
    let u = 1_048_576;
    let label = "U 16384, largest u, B 128";
    deck.bound(label, [u, 128, u - 16_384], 129);
    deck.bound("U 16385, no tail", [16_385, 1, 0], 0);
    deck.bound("cut = u within a byte", [41, 7, 41], 0);
    deck.bound("largest u, B 1, all in the tail", [u, 1, 0], u);
}

/// Each reason, mostly with reasons that come behind it.
fn refused(deck: &mut Deck) {
    let large = 1_048_577;
    deck.bound("u one too large, cut wild", [large, 128, WILD], 0);
    deck.bound("B one too large, cut too, n wild", [32, 129, 33], WILD);
    deck.bound("B 0, n above U", [32, 0, 0], 33);
    deck.bound("cut u + 1, n wild", [32, 4, 33], WILD);
    deck.bound("cut wild", [32, 4, WILD], 0);
    deck.bound("U 128, n one above it", [130, 5, 2], 129);
    deck.bound("n whose sum with the cut wraps", [32, 4, 2], WILD);
}
