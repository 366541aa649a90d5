//! The next slot of a list, taken from its slots alone; and what is met where it
//! is asked.

use crate::case::Verdict;
use crate::make::{MOST_LISTS, MOST_SLOTS};
use crate::measure::{happened, Row};
use crate::read::{self, Seen};
use std::collections::BTreeSet;

// How the next slot from x on is come by, where x has a bit,
const BY_BIT: &str = "next: x itself, by its bit";
const SAME_BYTE: &str = "next: a larger slot in the same byte";
const NEXT_BYTE: &str = "next: a larger slot in the byte behind";
const LATER_BYTE: &str = "next: a larger slot, empty bytes between";
const BITS_OUT: &str = "next: the bits run out, a block follows";
const BITS_OUT_ALL: &str = "next: the bits run out, no block follows";
// and where it lies above the cut.
const BY_ENTRY: &str = "next: x itself, a block's first slot";
const BY_CODE: &str = "next: x itself, inside a block";
const LARGER: &str = "next: a larger slot in the block";
const BLOCK_OUT: &str = "next: the block runs out, another follows";
const ALL_OUT: &str = "next: the last block runs out";
const FRONT: &str = "next: j = 0, a block follows";
const NO_BLOCK: &str = "next: j = 0, no block follows";

/// Every answer is come by in exactly one of these ways.
const HOW: [&str; 13] = [
    BY_BIT,
    SAME_BYTE,
    NEXT_BYTE,
    LATER_BYTE,
    BITS_OUT,
    BITS_OUT_ALL,
    BY_ENTRY,
    BY_CODE,
    LARGER,
    BLOCK_OUT,
    ALL_OUT,
    FRONT,
    NO_BLOCK,
];

/// The least of some slots that is not below x, or 0 where there is none.
pub fn least(slots: &[u32], x: u32) -> u32 {
    let large = slots.iter().copied().filter(|&slot| slot >= x);
    large.min().unwrap_or(0)
}

/// What a sound index must say to a name and a slot.
pub fn verdict(index: &[u8], name: u32, slot: u32) -> Verdict {
    let number = if name >= read::k(index) {
        11
    } else if outside(slot, read::u(index)) {
        16
    } else {
        0
    };
    (number, 0)
}

fn outside(slot: u32, u: u32) -> bool {
    slot == 0 || slot > u
}

/// What is met where the next slot from x on is told, in so many places.
pub fn met(list: &Seen, u: u32, x: u32, out: usize) -> BTreeSet<&'static str> {
    let rows = from(list, u, x).into_iter().chain(over_empty(list, x));
    let mut met = happened(rows.chain(ended(out)));
    met.insert(if x <= list.cut {
        by_bits(list, x)
    } else {
        by_blocks(list, x)
    });
    met
}

/// What is met where it is refused. Of an index that is not sound nothing is read:
/// there a name and a slot are bad that no index has.
pub fn refused(index: &[u8], number: u32, name: u32, slot: u32) -> BTreeSet<&'static str> {
    let most = match number {
        11 | 16 => read::u(index),
        _ => MOST_SLOTS,
    };
    happened(why(number, most, name, slot))
}

fn byte_of(slot: u32) -> u32 {
    (slot - 1) / 8
}

/// How the next slot is come by from a slot that has a bit.
fn by_bits(list: &Seen, x: u32) -> &'static str {
    match least(&list.held, x) {
        0 => BITS_OUT_ALL,
        slot if slot == x => BY_BIT,
        slot if slot > list.cut => BITS_OUT,
        slot => match byte_of(slot) - byte_of(x) {
            0 => SAME_BYTE,
            1 => NEXT_BYTE,
            _ => LATER_BYTE,
        },
    }
}

/// The same from a slot above the cut: j blocks begin at it or before it.
fn by_blocks(list: &Seen, x: u32) -> &'static str {
    let begun = list.blocks.iter().take_while(|block| block[0].0 <= x);
    let j = begun.count();
    let follows = j < list.blocks.len();
    match (told_by(list, x), j) {
        (Some((slot, 0)), _) if slot == x => BY_ENTRY,
        (Some((slot, _)), _) if slot == x => BY_CODE,
        (Some(_), _) => LARGER,
        (None, 0) if follows => FRONT,
        (None, 0) => NO_BLOCK,
        (None, _) if follows => BLOCK_OUT,
        (None, _) => ALL_OUT,
    }
}

/// The next slot, if the last block that begins at x or before it has it, and how
/// many bytes its code has.
fn told_by(list: &Seen, x: u32) -> Option<read::Coded> {
    let begun = list.blocks.iter().rev().find(|block| block[0].0 <= x)?;
    begun.iter().copied().find(|coded| coded.0 >= x)
}

/// From which slot the next one is asked, and what has to be passed over and read.
fn from(list: &Seen, u: u32, x: u32) -> [Row; 8] {
    let code = told_by(list, x).map_or(0, |coded| coded.1);
    [
        ("next: from 1", x == 1),
        ("next: from u", x == u),
        ("next: from the cut", x == list.cut),
        (
            "next: from one above the cut",
            list.cut > 0 && x == list.cut + 1,
        ),
        ("next: none in an empty list", list.held.is_empty()),
        (
            "next: of x's byte only bits below x are set",
            passes(list, x),
        ),
        ("next: told by a code of two bytes", code == 2),
        ("next: told by a code of three bytes", code == 3),
    ]
}

/// Whether the byte of x has a bit set below that of x, and none from there on.
fn passes(list: &Seen, x: u32) -> bool {
    let first = 8 * byte_of(x) + 1;
    let last = list.cut.min(first + 7);
    let set = |from: u32, to: u32| (from..=to).any(|slot| list.held.contains(&slot));
    x <= list.cut && set(first, x - 1) && !set(x, last)
}

/// Whether eight whole bytes or more without a bit have to be passed over, which may
/// be done by eights, up to the bit that is told or until the bits run out.
fn over_empty(list: &Seen, x: u32) -> [Row; 4] {
    let inside = !(x - 1).is_multiple_of(8);
    let told = least(&list.held, x);
    let found = told > 0 && told <= list.cut;
    let end = if found { byte_of(told) } else { list.cut / 8 };
    let eight = x <= list.cut && end >= byte_of(x) + u32::from(inside) + 8;
    [
        (
            "next: eight empty bytes from a first bit, then a slot",
            eight && found && !inside,
        ),
        (
            "next: eight empty bytes from inside a byte, then a slot",
            eight && found && inside,
        ),
        (
            "next: eight empty bytes from a first bit, bits run out",
            eight && !found && !inside,
        ),
        (
            "next: eight empty bytes from inside a byte, bits run out",
            eight && !found && inside,
        ),
    ]
}

/// Where the slice for the three numbers ends.
fn ended(places: usize) -> [Row; 4] {
    [
        ("next: out without a place", places == 0),
        ("next: out of one place", places == 1),
        ("next: out of two places", places == 2),
        ("next: out of more than three", places > 3),
    ]
}

/// Why it is refused, where slots up to `most` are good.
fn why(number: u32, most: u32, name: u32, slot: u32) -> [Row; 3] {
    let index = matches!(number, 1..=9 | 17);
    let both = name >= MOST_LISTS && outside(slot, most);
    [
        ("next refused: 16 by 0", number == 16 && slot == 0),
        (
            "next refused: 16 by u + 1",
            number == 16 && slot == most + 1,
        ),
        ("next refused: an index, before 11 and 16", index && both),
    ]
}

/// What must be met somewhere in a run: every way to come by an answer, and the
/// names of all rows, whatever they are made of.
pub fn required() -> impl Iterator<Item = &'static str> {
    let any = Seen {
        start: 0,
        length: 0,
        cut: 0,
        held: Vec::new(),
        blocks: Vec::new(),
    };
    let rows = from(&any, 1, 1).into_iter().chain(ended(0));
    let rows = rows.chain(over_empty(&any, 1)).chain(why(0, 0, 0, 0));
    HOW.into_iter().chain(rows.map(|row| row.0))
}

#[cfg(test)]
mod tests {
    use super::*;
    use crate::pack::{index, List};

    const ZERO: [u32; 15] = [1, 4, 5, 6, 8, 12, 15, 16, 18, 20, 25, 26, 27, 28, 30];
    const ONE: [u32; 7] = [3, 5, 12, 16, 26, 30, 31];

    /// A list of such a cut and such slots, in blocks of four.
    fn list(cut: u32, slots: &[u32]) -> Seen {
        let bytes = index(40_000, 4, &[List::of(4, cut, slots).bytes()]);
        read::list(&bytes, 0)
    }

    fn how(list: &Seen, x: u32) -> &'static str {
        let met = met(list, 40_000, x, 3);
        let mut ways = HOW.into_iter().filter(|way| met.contains(way));
        let way = ways.next().expect("some way");
        assert_eq!(ways.next(), None);
        way
    }

    #[test]
    fn the_papers_lists() {
        let cases = [(5, 5), (7, 8), (9, 12), (30, 30), (31, 0)];
        for (x, next) in cases {
            assert_eq!(least(&ZERO, x), next);
        }
        for (x, next) in [(1, 3), (6, 12), (16, 16), (17, 26), (31, 31), (32, 0)] {
            assert_eq!(least(&ONE, x), next);
        }
        assert_eq!(least(&[], 1), 0);
    }

    #[test]
    fn how_an_answer_is_come_by() {
        let zero = list(0, &ZERO);
        assert_eq!(how(&zero, 8), BY_ENTRY);
        assert_eq!(how(&zero, 12), BY_CODE);
        assert_eq!(how(&zero, 9), LARGER);
        assert_eq!(how(&zero, 7), BLOCK_OUT);
        assert_eq!(how(&zero, 31), ALL_OUT);
        let one = list(16, &ONE);
        assert_eq!(how(&one, 16), BY_BIT);
        assert_eq!(how(&one, 4), SAME_BYTE);
        assert_eq!(how(&one, 6), NEXT_BYTE);
        assert_eq!(how(&one, 17), FRONT);
        let few = list(40, &[1, 25, 41]);
        assert_eq!(how(&few, 8), LATER_BYTE);
        assert_eq!(how(&few, 26), BITS_OUT);
        let none = list(40, &[]);
        assert_eq!(how(&none, 40), BITS_OUT_ALL);
        assert_eq!(how(&none, 41), NO_BLOCK);
    }

    #[test]
    fn from_where_it_is_asked() {
        let met = |cut: u32, slots: &[u32], x: u32| happened(from(&list(cut, slots), 40_000, x));
        let below = "next: of x's byte only bits below x are set";
        assert_eq!(met(16, &[9, 40], 10), BTreeSet::from([below]));
        assert_eq!(met(16, &[8, 40], 10), BTreeSet::new());
        assert_eq!(met(16, &[9, 16], 10), BTreeSet::new());
        assert_eq!(
            met(9, &[9, 16], 10),
            BTreeSet::from(["next: from one above the cut"])
        );
        let cut = BTreeSet::from(["next: from the cut", below]);
        assert_eq!(met(10, &[9, 11], 10), cut);
        let two = BTreeSet::from(["next: told by a code of two bytes"]);
        let three = BTreeSet::from(["next: told by a code of three bytes"]);
        assert_eq!(met(0, &[1, 130], 2), two);
        assert_eq!(met(0, &[1, 129], 2), BTreeSet::new());
        assert_eq!(met(0, &[1, 16_386], 2), three);
        let last = BTreeSet::from(["next: from u", "next: none in an empty list"]);
        assert_eq!(met(8, &[], 40_000), last);
        assert!(met(0, &[7], 1).contains("next: from 1"));
    }

    #[test]
    fn over_empty_bytes() {
        let met = |cut: u32, slots: &[u32], x: u32| happened(over_empty(&list(cut, slots), x));
        let names = over_empty(&list(0, &[]), 1).map(|row| row.0);
        let only = |which: usize| BTreeSet::from([names[which]]);
        assert_eq!(met(80, &[65], 1), only(0));
        assert_eq!(met(80, &[64], 1), BTreeSet::new());
        assert_eq!(met(80, &[73], 2), only(1));
        assert_eq!(met(80, &[72], 2), BTreeSet::new());
        assert_eq!(met(80, &[73], 8), only(1));
        assert_eq!(met(80, &[73], 9), only(0));
        assert_eq!(met(64, &[65], 1), only(2));
        assert_eq!(met(63, &[64], 1), BTreeSet::new());
        assert_eq!(met(72, &[1], 2), only(3));
        assert_eq!(met(71, &[], 2), BTreeSet::new());
        assert_eq!(met(0, &[90], 1), BTreeSet::new());
    }

    #[test]
    fn what_is_refused() {
        let bytes = index(32, 4, &[List::of(4, 0, &ZERO).bytes()]);
        assert_eq!(verdict(&bytes, 0, 1), (0, 0));
        assert_eq!(verdict(&bytes, 0, 32), (0, 0));
        assert_eq!(verdict(&bytes, 0, 33), (16, 0));
        assert_eq!(verdict(&bytes, 0, 0), (16, 0));
        assert_eq!(verdict(&bytes, 1, 0), (11, 0));
        let by = |number: u32, name: u32, slot: u32| refused(&bytes, number, name, slot);
        assert_eq!(by(16, 0, 0), BTreeSet::from(["next refused: 16 by 0"]));
        assert_eq!(by(16, 0, 33), BTreeSet::from(["next refused: 16 by u + 1"]));
        assert_eq!(by(16, 0, 34), BTreeSet::new());
        assert_eq!(by(11, 1, 0), BTreeSet::new());
        let both = BTreeSet::from(["next refused: an index, before 11 and 16"]);
        assert_eq!(by(17, 4_096, 0), both);
        assert_eq!(by(5, 4_096, 1_048_577), both);
        assert_eq!(by(5, 4_095, 0), BTreeSet::new());
        assert_eq!(by(5, 4_096, 33), BTreeSet::new());
    }
}
