//! What the library's short ways go by: the codes of a block and how many bytes they
//! have, how far apart the slots of a plain question lie, and where the cut of a written
//! list lies. Nothing here says what an answer must be. It sees to it that a run comes
//! to both sides of every turning, whichever way the library takes there.

use crate::measure::{happened, Row};
use crate::read::{Coded, Seen};
use crate::trace::Walk;
use std::collections::BTreeSet;

/// Slots so far apart have the same low fourteen bits, which is what a code of two
/// bytes holds.
pub const APART: u32 = 16_384;

/// What must be met somewhere in a run: the names of all rows, whatever they are made
/// of, and every place of a cut.
pub fn required() -> impl Iterator<Item = &'static str> {
    let none = Seen {
        start: 0,
        length: 0,
        cut: 0,
        held: Vec::new(),
        blocks: Vec::new(),
    };
    let codes = of_codes(&[]).into_iter().chain(of_rest(0));
    let plain = of_left(&[], &none).into_iter();
    let plain = plain.chain(of_sought(&none, &[], 1)).chain(of_block(&[]));
    let names = codes.chain(plain).map(|row| row.0);
    names.chain(CUTS.into_iter().flatten()).chain(BETWEEN)
}

/// What the blocks of an accepted list are like. A block of one slot has no codes.
pub fn met_by_blocks(list: &Seen) -> BTreeSet<&'static str> {
    let blocks = list.blocks.iter().filter(|block| block.len() > 1);
    let rows = blocks.flat_map(|block| {
        let codes = &block[1..];
        of_codes(codes).into_iter().chain(of_rest(bytes(codes)))
    });
    happened(rows)
}

fn bytes(codes: &[Coded]) -> usize {
    codes.iter().map(|code| code.1).sum()
}

/// How long the codes of a block are, each and together.
fn of_codes(codes: &[Coded]) -> [Row; 11] {
    let n = bytes(codes);
    let [one, two, three] = [1, 2, 3].map(|many| codes.iter().any(|code| code.1 == many));
    let usual = (9..=254).contains(&n);
    let short = one && !two && !three;
    [
        ("block: 9 to 254 bytes, codes of one alone", usual && short),
        (
            "block: 9 to 254 bytes, codes of one and two",
            usual && one && two && !three,
        ),
        (
            "block: 9 to 254 bytes, codes of two alone",
            usual && two && !one && !three,
        ),
        (
            "block: 10 to 254 bytes, a code of three",
            usual && n > 9 && three,
        ),
        ("block: more than 254 bytes", n > 254),
        ("block: 1 to 8 bytes", (1..=8).contains(&n)),
        ("block: 8 bytes", n == 8),
        ("block: 9 bytes", n == 9),
        ("block: 254 bytes", n == 254),
        ("block: 255 bytes", n == 255),
        (
            "block: 32 codes of one byte or more",
            short && codes.len() >= 32,
        ),
    ]
}

/// How many bytes are left behind whole eights of them.
fn of_rest(n: usize) -> [Row; 8] {
    const RESTS: [&str; 8] = [
        "block: 9 to 254 bytes, a multiple of 8",
        "block: 9 to 254 bytes, 1 behind eights",
        "block: 9 to 254 bytes, 2 behind eights",
        "block: 9 to 254 bytes, 3 behind eights",
        "block: 9 to 254 bytes, 4 behind eights",
        "block: 9 to 254 bytes, 5 behind eights",
        "block: 9 to 254 bytes, 6 behind eights",
        "block: 9 to 254 bytes, 7 behind eights",
    ];
    let usual = (9..=254).contains(&n);
    std::array::from_fn(|rest| (RESTS[rest], usual && n % 8 == rest))
}

/// What is met where the candidates of a plain question are held against one list
/// after the other. It is told of the walk by skips, which has the same order and
/// drops the same candidates.
pub fn met_by_plain(walk: &Walk, lists: &[&Seen]) -> BTreeSet<&'static str> {
    let mut met = BTreeSet::new();
    for (&position, left) in &walk.left {
        let list = lists[position];
        if list.blocks.is_empty() {
            continue;
        }
        met.extend(happened(of_left(left, list)));
        for &x in left.iter().filter(|&&x| x > list.cut) {
            let begun = begun(list, x);
            let block = if begun == 0 {
                &[][..]
            } else {
                &list.blocks[begun - 1]
            };
            let rows = of_sought(list, block, x).into_iter();
            met.extend(happened(rows.chain(of_block(block))));
        }
    }
    met
}

/// How many blocks begin at x or before it. The last of them is where x is sought.
fn begun(list: &Seen, x: u32) -> usize {
    list.blocks.partition_point(|block| block[0].0 <= x)
}

/// Whether a whole block lies between x and y, and another block behind it.
fn passed(list: &Seen, x: u32, y: u32) -> bool {
    let next = begun(list, x);
    let ends = |block: &Vec<Coded>| block.iter().all(|coded| coded.0 < y);
    list.blocks.get(next).is_some_and(ends) && next + 1 < list.blocks.len()
}

/// Where the candidates that are left lie among the blocks of a list.
fn of_left(left: &[u32], list: &Seen) -> [Row; 5] {
    let many = list.blocks.len();
    let first = left.first().is_some_and(|&x| passed(list, 0, x));
    let later = left.windows(2).any(|two| passed(list, two[0], two[1]));
    let last = left.last().map(|&x| begun(list, x));
    [
        (
            "plain: a block before the first candidate, one behind it",
            first,
        ),
        (
            "plain: a block between two candidates, one behind it",
            later,
        ),
        (
            "plain: no candidate left before the last block",
            last.is_some_and(|j| 0 < j && j < many),
        ),
        (
            "plain: no candidate left before the first block",
            last == Some(0),
        ),
        ("plain: no candidate left at all", last.is_none()),
    ]
}

/// How far from a candidate, which is sought in this block, slots of the list's blocks
/// lie.
fn of_sought(list: &Seen, block: &[Coded], x: u32) -> [Row; 6] {
    let inside = |slot: u32| block.binary_search_by_key(&slot, |coded| coded.0).is_ok();
    let tail = |slot: u32| slot > list.cut && list.held.binary_search(&slot).is_ok();
    let elsewhere = |slot: u32| tail(slot) && !inside(slot);
    let both = |times: u32| [x + times * APART, x.saturating_sub(times * APART)];
    let [above, below] = both(1);
    let [twice, thrice] = [both(2), both(3)];
    let held = inside(x);
    [
        (
            "plain: dropped, 16,384 above it a slot of its block",
            !held && inside(above),
        ),
        (
            "plain: dropped, 16,384 below it a slot of its block",
            !held && inside(below),
        ),
        (
            "plain: dropped, two or three times that from it one of its block",
            !held && twice.into_iter().chain(thrice).any(inside),
        ),
        (
            "plain: dropped, 16,384 from it a slot of another block",
            !held && both(1).into_iter().any(elsewhere),
        ),
        (
            "plain: held, and 16,384 above it a slot of its block",
            held && inside(above),
        ),
        (
            "plain: held, and 16,384 above it a slot of another block",
            held && elsewhere(above),
        ),
    ]
}

/// How far apart the slots of a block lie in which a candidate is sought.
fn of_block(block: &[Coded]) -> [Row; 6] {
    let span = match block {
        [first, .., last] => last.0 - first.0,
        _ => 0,
    };
    let step = |far: u32| block.windows(2).any(|two| two[1].0 - two[0].0 == far);
    [
        (
            "plain: a block from end to end 16,384 or more",
            span >= APART,
        ),
        ("plain: a block from end to end just 16,384", span == APART),
        (
            "plain: a block from end to end just 16,383",
            span == APART - 1,
        ),
        ("plain: neighbours in a block 16,383 apart", step(APART - 1)),
        ("plain: neighbours in a block 16,384 apart", step(APART)),
        ("plain: neighbours in a block 16,385 apart", step(APART + 1)),
    ]
}

/// Where the cut of a written list of one, two, three and more slots lies.
const CUTS: [[&str; 4]; 4] = [
    [
        "written: one slot, cut 0",
        "written: one slot, a cut below it",
        "written: one slot, the cut",
        "written: one slot, a cut above it",
    ],
    [
        "written: two slots, cut 0",
        "written: two slots, a cut below them",
        "written: two slots, one of them the cut",
        "written: two slots, a cut above them",
    ],
    [
        "written: three slots, cut 0",
        "written: three slots, a cut below them",
        "written: three slots, one of them the cut",
        "written: three slots, a cut above them",
    ],
    [
        "written: four slots or more, cut 0",
        "written: four slots or more, a cut below them",
        "written: four slots or more, one of them the cut",
        "written: four slots or more, a cut above them",
    ],
];
/// From two slots on it can lie between them.
const BETWEEN: [&str; 3] = [
    "written: two slots, a cut between",
    "written: three slots, a cut between",
    "written: four slots or more, a cut between",
];

/// Where among the slots of a written list its cut lies.
pub fn met_by_cut(cut: u32, slots: &[u32]) -> Option<&'static str> {
    let (&first, &last) = (slots.first()?, slots.last()?);
    let many = slots.len().min(4);
    let place = match cut {
        0 => 0,
        cut if cut < first => 1,
        cut if slots.contains(&cut) => 2,
        cut if cut > last => 3,
        _ => return Some(BETWEEN[many - 2]),
    };
    Some(CUTS[many - 1][place])
}

#[cfg(test)]
mod tests {
    use super::*;
    use crate::pack::{index, List};
    use crate::read;
    use crate::trace::walk;

    /// A list of such a B, such a cut and such slots.
    fn list(block: u32, cut: u32, slots: &[u32]) -> Seen {
        let bytes = index(1_000_000, block, &[List::of(block, cut, slots).bytes()]);
        read::list(&bytes, 0)
    }

    /// What a block is like whose slots lie so far apart.
    fn block(steps: &[u32]) -> BTreeSet<&'static str> {
        let ends = steps.iter().scan(1, |slot, step| {
            *slot += step;
            Some(*slot)
        });
        let slots: Vec<u32> = std::iter::once(1).chain(ends).collect();
        met_by_blocks(&list(128, 0, &slots))
    }

    #[test]
    fn what_blocks_are_like() {
        assert_eq!(block(&[]), BTreeSet::new());
        assert_eq!(block(&[128; 7]), BTreeSet::from(["block: 1 to 8 bytes"]));
        let eight = BTreeSet::from(["block: 1 to 8 bytes", "block: 8 bytes"]);
        assert_eq!(block(&[1; 8]), eight);
        let alone = "block: 9 to 254 bytes, codes of one alone";
        let one = "block: 9 to 254 bytes, 1 behind eights";
        let nine = BTreeSet::from([alone, one, "block: 9 bytes"]);
        assert_eq!(block(&[128; 9]), nine);
        let seven = "block: 9 to 254 bytes, 7 behind eights";
        assert_eq!(block(&[1; 31]), BTreeSet::from([alone, seven]));
        let many = "block: 32 codes of one byte or more";
        let none = "block: 9 to 254 bytes, a multiple of 8";
        assert_eq!(block(&[1; 32]), BTreeSet::from([alone, none, many]));
        let two = "block: 9 to 254 bytes, codes of two alone";
        let mixed = "block: 9 to 254 bytes, codes of one and two";
        let three = "block: 10 to 254 bytes, a code of three";
        let rest = "block: 9 to 254 bytes, 2 behind eights";
        assert_eq!(block(&[129; 5]), BTreeSet::from([two, rest]));
        assert_eq!(
            block(&[129, 129, 129, 129, 1, 1]),
            BTreeSet::from([mixed, rest])
        );
        assert_eq!(
            block(&[16_385, 129, 129, 129, 1]),
            BTreeSet::from([three, rest])
        );
    }

    #[test]
    fn the_longest_blocks() {
        let mut steps = [129; 127];
        assert!(block(&steps).contains("block: 254 bytes"));
        assert!(!block(&steps).contains("block: more than 254 bytes"));
        steps[5] = 16_385;
        let more = BTreeSet::from(["block: more than 254 bytes", "block: 255 bytes"]);
        assert_eq!(block(&steps), more);
        steps[6] = 16_385;
        assert_eq!(
            block(&steps),
            BTreeSet::from(["block: more than 254 bytes"])
        );
    }

    /// What is met where these slots are sought in such a list.
    fn plain(list: &Seen, left: &[u32]) -> BTreeSet<&'static str> {
        let starts = self::list(1, 0, left);
        let lists = [&starts, list];
        met_by_plain(&walk(&lists), &lists)
    }

    #[test]
    fn slots_far_apart() {
        let wide = "plain: a block from end to end 16,384 or more";
        let just = "plain: a block from end to end just 16,384";
        let step = "plain: neighbours in a block 16,384 apart";
        let pair = list(2, 0, &[5, 16_389]);
        let held = "plain: held, and 16,384 above it a slot of its block";
        assert_eq!(plain(&pair, &[5]), BTreeSet::from([wide, just, step, held]));
        let above = "plain: dropped, 16,384 above it a slot of its block";
        let below = "plain: dropped, 16,384 below it a slot of its block";
        let times = "plain: dropped, two or three times that from it one of its block";
        let three = list(3, 0, &[5, 16_390, 32_774]);
        let other = "plain: neighbours in a block 16,385 apart";
        let spans = BTreeSet::from([wide, step, other]);
        assert_eq!(plain(&three, &[7]), spans);
        assert_eq!(
            plain(&three, &[6]),
            &spans | &BTreeSet::from([above, times])
        );
        assert_eq!(plain(&three, &[16_389]), &spans | &BTreeSet::from([below]));
        assert_eq!(plain(&three, &[32_773]), &spans | &BTreeSet::from([times]));
        assert_eq!(
            plain(&three, &[49_158]),
            &spans | &BTreeSet::from([below, times])
        );
        // Slots up to the cut are bits, and no block has them.
        let bits = list(2, 5, &[5, 6, 8]);
        assert_eq!(plain(&bits, &[16_389]), BTreeSet::new());
        let near = list(2, 0, &[5, 16_388]);
        let near_step = "plain: neighbours in a block 16,383 apart";
        let near_span = "plain: a block from end to end just 16,383";
        assert_eq!(plain(&near, &[9]), BTreeSet::from([near_step, near_span]));
    }

    #[test]
    fn candidates_among_blocks() {
        let blocks = list(2, 0, &[10, 20, 30, 40, 50, 60]);
        let before = "plain: a block before the first candidate, one behind it";
        let between = "plain: a block between two candidates, one behind it";
        let last = "plain: no candidate left before the last block";
        let first = "plain: no candidate left before the first block";
        assert_eq!(plain(&blocks, &[20, 50]), BTreeSet::from([between]));
        assert_eq!(plain(&blocks, &[20, 40, 50]), BTreeSet::new());
        assert_eq!(plain(&blocks, &[20]), BTreeSet::from([last]));
        assert_eq!(plain(&blocks, &[21]), BTreeSet::from([before, last]));
        assert_eq!(plain(&blocks, &[50]), BTreeSet::from([before]));
        assert_eq!(plain(&blocks, &[61]), BTreeSet::from([before]));
        assert_eq!(plain(&blocks, &[9]), BTreeSet::from([first]));
        let none = BTreeSet::from(["plain: no candidate left at all"]);
        assert_eq!(plain(&blocks, &[]), none);
        let dropped = "plain: dropped, 16,384 from it a slot of another block";
        let held = "plain: held, and 16,384 above it a slot of another block";
        let far = list(1, 0, &[10, 11, 16_394]);
        assert_eq!(plain(&far, &[10]), BTreeSet::from([held, last]));
        let far = list(1, 0, &[9, 11, 16_394]);
        assert_eq!(plain(&far, &[10]), BTreeSet::from([before, dropped, last]));
    }

    #[test]
    fn where_cuts_lie() {
        assert_eq!(met_by_cut(7, &[]), None);
        let told = |cut: u32, slots: &[u32]| met_by_cut(cut, slots).unwrap();
        assert_eq!(told(0, &[3]), CUTS[0][0]);
        assert_eq!(told(2, &[3]), CUTS[0][1]);
        assert_eq!(told(3, &[3]), CUTS[0][2]);
        assert_eq!(told(4, &[3]), CUTS[0][3]);
        assert_eq!(told(4, &[3, 5]), BETWEEN[0]);
        assert_eq!(told(5, &[3, 5]), CUTS[1][2]);
        assert_eq!(told(6, &[3, 5, 7]), BETWEEN[1]);
        assert_eq!(told(8, &[3, 5, 7]), CUTS[2][3]);
        assert_eq!(told(8, &[3, 5, 7, 9]), BETWEEN[2]);
        assert_eq!(told(1, &[3, 5, 7, 9, 11]), CUTS[3][1]);
    }
}
