//! The walk of a question by skips, step by step as the paper tells it, with a
//! note of what was met on the way; and what a list that is counted is like.

use crate::bill::Load;
use crate::fast::met_by_blocks;
use crate::read::Seen;
use std::collections::{BTreeMap, BTreeSet};

pub const TWO_BYTES: &str = "a code of two bytes read";
pub const THREE_BYTES: &str = "a code of three bytes read";
pub const INSIDE: &str = "accepted: a cut inside a byte";
pub const BYTE_END: &str = "accepted: a cut at a byte's end, its bit set";
pub const UNSORTED: &str = "three different counts, unsorted";
pub const TIES: &str = "two lists of one count";
pub const TWICE: &str = "a list named twice";
pub const GALLOP: &str = "p+16 looked at, three halvings, p > 0";
pub const AT_CUT: &str = "x = c";
pub const BEHIND_ALL: &str = "x behind the last block";
pub const STAYED: &str = "finger above 0 stays";
pub const NONE_LEFT: &str = "no candidate left for a name";

// A candidate is dropped, and the next slot is a block's first one: that may be
// neither kept nor charged, and the finger may not go there.
pub const BEFORE_BLOCKS: &str = "j = 0 with c > 0 and m > 0";
pub const BEFORE_ALL: &str = "j = 0 with c = 0 and m > 0";
pub const BEHIND_BLOCK: &str = "x behind a block that isn't the last";
pub const BEHIND_BITS: &str = "x up to c dropped, no bit set behind it, m > 0";
pub const FINGER_AHEAD: &str = "other looks, were the finger at the next block";
// Where there is no block either, no slot is the next.
pub const BEHIND_BITS_ALL: &str = "x up to c dropped, no bit set behind it, m = 0";

// A position counts as one with a cost where it has looks and codes.
pub const COST_BELOW: &str = "a cost below the starting list's position";
pub const COST_ABOVE: &str = "a cost above the starting list's position";
pub const COST_THREE: &str = "costs at three positions or more";
pub const COST_TWICE: &str = "a list named twice, its two costs different";
pub const COST_LAST: &str = "sixteen names, a cost at the last";
pub const START_LATER: &str = "the starting list isn't the first name";

// Where bits go by eights of bytes, then bytes, then bits of a byte.
pub const START_EIGHTS: &str = "another list would start without its eights";
pub const FULL_EIGHT: &str = "counted: eight bytes of ones";
/// The parts of a list's bits that were counted, by whether there are eights
/// (4), bytes (2) and bits (1).
const COUNTED: [&str; 8] = [
    "counted: no bits",
    "counted: bits of a byte",
    "counted: bytes",
    "counted: bytes, bits of a byte",
    "counted: eights of bytes",
    "counted: eights, bits of a byte",
    "counted: eights, bytes",
    "counted: eights, bytes, bits of a byte",
];

pub const WRITTEN_TWO: &str = "written: a code of two bytes";
pub const WRITTEN_THREE: &str = "written: a code of three bytes";
pub const WRITTEN_CUT: &str = "written: a cut inside a byte";

/// What must be met somewhere in a run.
pub fn required() -> impl Iterator<Item = &'static str> {
    MET.into_iter().chain(COUNTED)
}

const MET: [&str; 29] = [
    TWO_BYTES,
    THREE_BYTES,
    INSIDE,
    BYTE_END,
    UNSORTED,
    TIES,
    TWICE,
    GALLOP,
    AT_CUT,
    BEHIND_ALL,
    STAYED,
    NONE_LEFT,
    BEFORE_BLOCKS,
    BEFORE_ALL,
    BEHIND_BLOCK,
    BEHIND_BITS,
    FINGER_AHEAD,
    BEHIND_BITS_ALL,
    COST_BELOW,
    COST_ABOVE,
    COST_THREE,
    COST_TWICE,
    COST_LAST,
    START_LATER,
    START_EIGHTS,
    FULL_EIGHT,
    WRITTEN_TWO,
    WRITTEN_THREE,
    WRITTEN_CUT,
];

/// The outcome of a walk.
#[derive(Default)]
pub struct Walk {
    pub slots: Vec<u32>,
    /// The position of the starting list.
    pub start: usize,
    /// What each position has cost, in the order named.
    pub looks: Vec<u64>,
    pub codes: Vec<u64>,
    /// What each position had to do, but the starting list's.
    pub loads: BTreeMap<usize, Load>,
    /// The candidates that were left for each of these.
    pub left: BTreeMap<usize, Vec<u32>>,
    pub met: BTreeSet<&'static str>,
}

/// Where a search came to.
struct Found {
    j: usize,
    looks: u64,
    sixteen: bool,
    halvings: u32,
}

/// Where the searches in one list stand.
#[derive(Default)]
struct Trail {
    finger: usize,
    /// Whether the last one dropped its slot, and the next slot is the first of
    /// the block behind the finger's.
    behind: bool,
}

/// The slots that all lists hold, as sets.
pub fn common(lists: &[&Seen]) -> Vec<u32> {
    let mut common: BTreeSet<u32> = lists[0].held.iter().copied().collect();
    for list in &lists[1..] {
        let held: BTreeSet<u32> = list.held.iter().copied().collect();
        common.retain(|slot| held.contains(slot));
    }
    common.into_iter().collect()
}

/// What the bits and the blocks of an accepted list are like.
pub fn met_by_list(list: &Seen) -> BTreeSet<&'static str> {
    let mut met = met_by_blocks(list);
    if !list.cut.is_multiple_of(8) {
        met.insert(INSIDE);
    } else if list.held.binary_search(&list.cut).is_ok() {
        met.insert(BYTE_END);
    }
    met
}

/// How the bits of a counted list were counted. It tells nothing where one of
/// the parts has no bit set, for then that one might as well be left out.
pub fn met_by_count(list: &Seen) -> BTreeSet<&'static str> {
    let ends = [0, list.cut / 64 * 64, list.cut / 8 * 8, list.cut];
    let mut parts = 0;
    for (i, part) in ends.windows(2).enumerate() {
        if part[0] == part[1] {
            continue;
        }
        if between(list, part[0], part[1]) == 0 {
            return BTreeSet::new();
        }
        parts += 4 >> i;
    }
    let mut met = BTreeSet::from([COUNTED[parts]]);
    if (0..ends[1])
        .step_by(64)
        .any(|from| between(list, from, from + 64) == 64)
    {
        met.insert(FULL_EIGHT);
    }
    met
}

/// The position of the smallest count, the first of several.
fn smallest(counts: &[usize]) -> Option<usize> {
    (0..counts.len()).min_by_key(|&position| counts[position])
}

/// How many slots a list holds above one slot and up to another.
fn between(list: &Seen, from: u32, to: u32) -> usize {
    let below = |end: u32| list.held.partition_point(|&slot| slot <= end);
    below(to) - below(from)
}

/// What the names and their lists are like.
pub fn met_by_names(names: &[u32], lists: &[&Seen]) -> BTreeSet<&'static str> {
    let mut met = BTreeSet::new();
    let counts: Vec<usize> = lists.iter().map(|list| list.held.len()).collect();
    let different: BTreeSet<usize> = counts.iter().copied().collect();
    let named: BTreeSet<u32> = names.iter().copied().collect();
    let pairs: BTreeSet<(u32, usize)> = names.iter().copied().zip(counts.clone()).collect();
    if different.len() >= 3 && !counts.is_sorted() {
        met.insert(UNSORTED);
    }
    if pairs.len() > different.len() {
        met.insert(TIES);
    }
    if named.len() < names.len() {
        met.insert(TWICE);
    }
    let behind = |list: &Seen| between(list, list.cut / 64 * 64, u32::MAX);
    let without: Vec<usize> = lists.iter().map(|&list| behind(list)).collect();
    if smallest(&counts) != smallest(&without) {
        met.insert(START_EIGHTS);
    }
    met
}

/// Where the costs of a walk lie.
pub fn met_by_costs(names: &[u32], walk: &Walk) -> BTreeSet<&'static str> {
    let mut met = BTreeSet::new();
    let costly: Vec<usize> = (0..names.len())
        .filter(|&at| walk.looks[at] > 0 && walk.codes[at] > 0)
        .collect();
    let differ = |a: usize, b: usize| walk.looks[a] != walk.looks[b];
    let again = |&a: &usize| costly.iter().any(|&b| names[a] == names[b] && differ(a, b));
    for (event, happened) in [
        (COST_BELOW, costly.iter().any(|&at| at < walk.start)),
        (COST_ABOVE, costly.iter().any(|&at| at > walk.start)),
        (COST_THREE, costly.len() >= 3),
        (COST_TWICE, costly.iter().any(again)),
        (COST_LAST, names.len() == 16 && costly.contains(&15)),
        (START_LATER, walk.start > 0),
    ] {
        if happened {
            met.insert(event);
        }
    }
    met
}

/// The walk by skips over the lists in the order named.
pub fn walk(lists: &[&Seen]) -> Walk {
    let mut order: Vec<usize> = (0..lists.len()).collect();
    order.sort_by_key(|&position| lists[position].held.len());
    let mut walk = Walk {
        slots: lists[order[0]].held.clone(),
        start: order[0],
        looks: vec![0; lists.len()],
        codes: vec![0; lists.len()],
        ..Walk::default()
    };
    for &position in &order[1..] {
        sift(&mut walk, position, lists[position]);
    }
    walk
}

/// Keeps the candidates that the list of one more position holds.
fn sift(walk: &mut Walk, position: usize, list: &Seen) {
    if walk.slots.is_empty() {
        walk.met.insert(NONE_LEFT);
    }
    let mut trail = Trail::default();
    let mut load = Load {
        blocks: list.blocks.len() as u64,
        ..Load::default()
    };
    let left = std::mem::take(&mut walk.slots);
    for &x in &left {
        let holds = if x <= list.cut {
            load.tests += 1;
            in_bits(walk, list, x)
        } else {
            load.searches += 1;
            in_tail(walk, position, list, &mut trail, x)
        };
        if holds {
            walk.slots.push(x);
        }
    }
    walk.loads.insert(position, load);
    walk.left.insert(position, left);
}

/// Whether the bit of x is set, which costs nothing.
fn in_bits(walk: &mut Walk, list: &Seen, x: u32) -> bool {
    if x == list.cut {
        walk.met.insert(AT_CUT);
    }
    let holds = list.held.binary_search(&x).is_ok();
    if !holds && between(list, x, list.cut) == 0 {
        let alone = list.blocks.is_empty();
        walk.met
            .insert(if alone { BEHIND_BITS_ALL } else { BEHIND_BITS });
    }
    holds
}

/// Whether the list holds x, which lies above its cut: a search, and a block read.
fn in_tail(walk: &mut Walk, position: usize, list: &Seen, trail: &mut Trail, x: u32) -> bool {
    let found = search(list, trail.finger, x);
    note(walk, list, trail, x, &found);
    walk.looks[position] += found.looks;
    let holds = found.j > 0 && in_block(walk, position, list, found.j, x);
    *trail = Trail {
        finger: found.j,
        behind: ended(list, found.j, x) && found.j < list.blocks.len(),
    };
    holds
}

/// Whether no slot up to block j's last one is x or larger.
fn ended(list: &Seen, j: usize, x: u32) -> bool {
    j == 0 || list.blocks[j - 1].iter().all(|coded| coded.0 < x)
}

/// What is worth counting about one search for x.
fn note(walk: &mut Walk, list: &Seen, trail: &Trail, x: u32, found: &Found) {
    let finger = trail.finger;
    if found.sixteen && found.halvings >= 3 && finger > 0 {
        walk.met.insert(GALLOP);
    }
    if found.j == 0 && !list.blocks.is_empty() {
        walk.met.insert(if list.cut > 0 {
            BEFORE_BLOCKS
        } else {
            BEFORE_ALL
        });
    }
    if found.j == finger && finger > 0 {
        walk.met.insert(STAYED);
    }
    if trail.behind && search(list, finger + 1, x).looks != found.looks {
        walk.met.insert(FINGER_AHEAD);
    }
}

/// The doubling search from the finger, then the halving.
fn search(list: &Seen, p: usize, x: u32) -> Found {
    let m = list.blocks.len();
    let mut found = Found {
        j: p,
        looks: 0,
        sixteen: false,
        halvings: 0,
    };
    let mut good = Vec::new();
    let mut hi = m + 1;
    for power in 0.. {
        let position = p + (1 << power);
        if position > m {
            break;
        }
        found.looks += 1;
        found.sixteen |= power == 4;
        if list.blocks[position - 1][0].0 > x {
            hi = position;
            break;
        }
        good.push(position);
    }
    let Some(&last) = good.last() else {
        return found;
    };
    let mut lo = last;
    while hi - lo > 1 {
        let middle = lo + (hi - lo) / 2;
        found.looks += 1;
        found.halvings += 1;
        if list.blocks[middle - 1][0].0 <= x {
            lo = middle;
        } else {
            hi = middle;
        }
    }
    found.j = lo;
    found
}

/// Reads block j until a slot that is not below x, or the block's end.
fn in_block(walk: &mut Walk, position: usize, list: &Seen, j: usize, x: u32) -> bool {
    let block = &list.blocks[j - 1];
    let mut slot = block[0].0;
    for &(next, length) in &block[1..] {
        if slot >= x {
            break;
        }
        walk.codes[position] += 1;
        match length {
            2 => walk.met.insert(TWO_BYTES),
            3 => walk.met.insert(THREE_BYTES),
            _ => false,
        };
        slot = next;
    }
    if slot < x {
        let last = j == list.blocks.len();
        walk.met
            .insert(if last { BEHIND_ALL } else { BEHIND_BLOCK });
    }
    slot == x
}

#[cfg(test)]
mod tests {
    use super::*;
    use crate::pack::{index, List};
    use crate::read;

    const ZERO: [u32; 15] = [1, 4, 5, 6, 8, 12, 15, 16, 18, 20, 25, 26, 27, 28, 30];
    const ONE: [u32; 7] = [3, 5, 12, 16, 26, 30, 31];

    /// Lists of one B, each by its cut and its slots.
    fn shelf(block: u32, lists: &[(u32, &[u32])]) -> Vec<Seen> {
        let records: Vec<Vec<u8>> = lists
            .iter()
            .map(|&(cut, slots)| List::of(block, cut, slots).bytes())
            .collect();
        let bytes = index(100, block, &records);
        (0..lists.len() as u32)
            .map(|name| read::list(&bytes, name))
            .collect()
    }

    /// A walk over some of the lists.
    fn walked(lists: &[Seen], names: &[u32]) -> Walk {
        let named: Vec<&Seen> = names.iter().map(|&name| &lists[name as usize]).collect();
        let walk = walk(&named);
        assert_eq!(walk.slots, common(&named));
        walk
    }

    /// The walk over these names has these looks and codes at their positions.
    #[track_caller]
    fn costs(lists: &[Seen], names: &[u32], looks: &[u64], codes: &[u64]) {
        let walk = walked(lists, names);
        assert_eq!((&walk.looks[..], &walk.codes[..]), (looks, codes));
    }

    #[test]
    fn the_papers_questions() {
        let lists = shelf(4, &[(0, &ZERO), (16, &ONE)]);
        let both = [5, 12, 16, 26, 30];
        assert_eq!(walked(&lists, &[0, 1]).slots, both);
        assert_eq!(walked(&lists, &[1, 1]).slots, ONE);
        assert_eq!(walked(&lists, &[1, 0, 0]).slots, both);
        costs(&lists, &[1], &[0], &[0]);
        costs(&lists, &[0, 1], &[9, 0], &[14, 0]);
        costs(&lists, &[1, 0], &[0, 9], &[0, 14]);
        costs(&lists, &[1, 1], &[0, 1], &[0, 3]);
        costs(&lists, &[1, 0, 0], &[0, 9, 8], &[0, 14, 11]);
        costs(&lists, &[0, 1, 0], &[9, 0, 8], &[14, 0, 11]);
    }

    #[test]
    fn ties_and_order() {
        let lists = shelf(1, &[(0, &[7, 8, 9, 10]), (0, &[1, 2, 3, 4])]);
        costs(&lists, &[0, 1], &[0, 3], &[0, 0]);
        costs(&lists, &[1, 0], &[0, 4], &[0, 0]);
        let all: Vec<u32> = (1..=26).collect();
        let even: Vec<u32> = (1..=12).map(|i| 2 * i).collect();
        let lists = shelf(2, &[(0, &[4, 9, 16, 25]), (0, &all), (0, &even)]);
        assert_eq!(walked(&lists, &[0, 1, 2]).slots, [4, 16]);
        costs(&lists, &[0, 1, 2], &[0, 10, 10], &[0, 2, 4]);
        costs(&lists, &[2, 1, 0], &[10, 10, 0], &[4, 2, 0]);
    }

    #[test]
    fn what_positions_have_to_do() {
        let loads = |lists: &[Seen], names: &[u32]| -> Vec<(usize, [u64; 3])> {
            let loads = walked(lists, names).loads;
            let told = |load: &Load| [load.tests, load.searches, load.blocks];
            loads.iter().map(|(&at, load)| (at, told(load))).collect()
        };
        let lists = shelf(4, &[(0, &ZERO), (16, &ONE)]);
        assert_eq!(loads(&lists, &[0]), []);
        assert_eq!(loads(&lists, &[0, 1]), [(0, [0, 7, 4])]);
        assert_eq!(loads(&lists, &[1, 1]), [(1, [4, 3, 1])]);
        // 5 12 16 26 30 are left for list 0's second turn.
        let again = [(0, [0, 7, 4]), (2, [0, 5, 4])];
        assert_eq!(loads(&lists, &[0, 1, 0]), again);
        // 3 is dropped by its bit and 5 by its search. 4 is a bit of the last list.
        let lists = shelf(1, &[(0, &[3, 4, 5]), (3, &[2, 4, 9, 10]), (9, &ZERO)]);
        let left = [(1, [1, 2, 3]), (2, [1, 0, 10])];
        assert_eq!(loads(&lists, &[0, 1, 2]), left);
    }

    #[test]
    fn where_costs_lie() {
        let lists = shelf(4, &[(0, &ZERO), (16, &ONE)]);
        let met = |names: &[u32]| met_by_costs(names, &walked(&lists, names));
        assert_eq!(met(&[1]), BTreeSet::new());
        assert_eq!(met(&[1, 0]), BTreeSet::from([COST_ABOVE]));
        assert_eq!(met(&[0, 1]), BTreeSet::from([COST_BELOW, START_LATER]));
        assert_eq!(met(&[1, 0, 0]), BTreeSet::from([COST_ABOVE, COST_TWICE]));
        // Each position of list 1 but the first costs the same.
        let four = BTreeSet::from([COST_ABOVE, COST_THREE]);
        assert_eq!(met(&[1, 1, 1, 0]), four);
        let sixteen = BTreeSet::from([COST_ABOVE, COST_THREE, COST_LAST]);
        assert_eq!(met(&[1; 16]), sixteen);
    }

    #[test]
    fn where_candidates_are_dropped() {
        // What is met where these slots are sought in such a list of blocks of two.
        let met = |cut: u32, slots: &[u32], sought: &[u32]| {
            let lists = shelf(2, &[(0, sought), (cut, slots)]);
            walked(&lists, &[0, 1]).met
        };
        let tail = [10, 11, 20, 21];
        assert_eq!(met(0, &tail, &[12]), BTreeSet::from([BEHIND_BLOCK]));
        let twice = BTreeSet::from([BEHIND_BLOCK, FINGER_AHEAD, STAYED]);
        assert_eq!(met(0, &tail, &[12, 13]), twice);
        // The last search comes to block 2 by one look, and by none from there.
        let later = BTreeSet::from([BEHIND_BLOCK, FINGER_AHEAD]);
        assert_eq!(met(0, &tail, &[12, 20]), later);
        assert_eq!(met(0, &tail, &[9]), BTreeSet::from([BEFORE_ALL]));
        assert_eq!(met(4, &tail, &[9]), BTreeSet::from([BEFORE_BLOCKS]));
        // Here the dropped slot's next one is in its block.
        assert_eq!(
            met(0, &[10, 12, 20, 21], &[11, 13]),
            BTreeSet::from([BEHIND_BLOCK, STAYED])
        );
        assert_eq!(met(16, &[3, 20], &[4]), BTreeSet::from([BEHIND_BITS]));
        assert_eq!(met(16, &[3], &[4]), BTreeSet::from([BEHIND_BITS_ALL]));
        assert_eq!(met(16, &[3, 5], &[4]), BTreeSet::new());
        assert_eq!(met(16, &[3, 20], &[3]), BTreeSet::new());
    }

    #[test]
    fn how_bits_are_counted() {
        let met = |cut: u32, slots: &[u32]| met_by_count(&shelf(4, &[(cut, slots)])[0]);
        let all: Vec<u32> = (1..=100).collect();
        let full = |what| BTreeSet::from([what, FULL_EIGHT]);
        assert_eq!(met(0, &all), BTreeSet::from(["counted: no bits"]));
        assert_eq!(met(7, &all), BTreeSet::from(["counted: bits of a byte"]));
        assert_eq!(met(8, &all), BTreeSet::from(["counted: bytes"]));
        let seven = BTreeSet::from(["counted: bytes, bits of a byte"]);
        assert_eq!(met(63, &all), seven);
        assert_eq!(met(64, &all), full("counted: eights of bytes"));
        assert_eq!(met(65, &all), full("counted: eights, bits of a byte"));
        assert_eq!(met(72, &all), full("counted: eights, bytes"));
        assert_eq!(
            met(79, &all),
            full("counted: eights, bytes, bits of a byte")
        );
        let sparse = BTreeSet::from(["counted: eights, bytes, bits of a byte"]);
        assert_eq!(met(79, &[64, 72, 79]), sparse);
        // One part is empty: the bits of the last byte, the bytes, the eight.
        for slots in [[64, 72, 80], [64, 73, 79], [65, 72, 79]] {
            assert_eq!(met(79, &slots), BTreeSet::new());
        }
    }

    #[test]
    fn which_list_starts() {
        // Of the first list's three slots two stand in an eight, of the other's
        // two none.
        let few: (u32, &[u32]) = (64, &[1, 64, 65]);
        let fewer: (u32, &[u32]) = (63, &[1, 63]);
        let met = |lists: &[(u32, &[u32])]| {
            let lists = shelf(4, lists);
            let named: Vec<&Seen> = lists.iter().collect();
            let names: Vec<u32> = (0..lists.len() as u32).collect();
            met_by_names(&names, &named).contains(START_EIGHTS)
        };
        assert!(met(&[few, fewer]));
        assert!(met(&[fewer, few]));
        assert!(!met(&[few]));
        assert!(!met(&[fewer, fewer]));
        assert!(!met(&[few, few]));
    }

    #[test]
    fn single_searches() {
        let list = &shelf(4, &[(0, &ZERO)])[0];
        assert_eq!(search(list, 0, 8).looks, 4);
        assert_eq!(search(list, 0, 18).looks, 4);
        let all: Vec<u32> = (1..=40).collect();
        let list = &shelf(1, &[(0, &all)])[0];
        let cases = [(0, 13, 8), (5, 30, 10), (0, 40, 10), (5, 5, 1), (40, 40, 0)];
        for (finger, x, looks) in cases {
            let found = search(list, finger, x);
            assert_eq!((found.j, found.looks), (x as usize, looks));
        }
    }
}
