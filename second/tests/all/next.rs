//! The next slot of a list: asked from outside, sought from any finger, and that a
//! question by skips still keeps and costs what the paper says.

use crate::model::least;
use crate::properties::{pack, some_lists};
use crate::tools::*;
use second::random::Random;
use second::{ask, next, open, seek, test, Answer, Index, Sought};

/// One list as the paper speaks of it.
struct List {
    cut: u32,
    slots: Vec<u32>,
    /// s(0), which is the cut, and the blocks' first slots behind it.
    s: Vec<u32>,
    /// Block j stands at j - 1.
    blocks: Vec<Vec<u32>>,
}

impl List {
    fn new(block: u32, cut: u32, slots: &[u32]) -> List {
        let tail: Vec<u32> = slots.iter().copied().filter(|&slot| slot > cut).collect();
        let blocks: Vec<Vec<u32>> = tail.chunks(block as usize).map(<[u32]>::to_vec).collect();
        let mut s = vec![cut];
        s.extend(blocks.iter().map(|block| block[0]));
        List {
            cut,
            slots: slots.to_vec(),
            s,
            blocks,
        }
    }

    /// The fingers from which `x` may be sought.
    fn fingers(&self, x: u32) -> Vec<usize> {
        let admitted = |&p: &usize| p == 0 || self.s[p] <= x;
        (0..self.s.len()).filter(admitted).collect()
    }
}

/// The paper's search among the entries: where it ends and how often it looks.
fn search_told(s: &[u32], p: usize, x: u32) -> (usize, u64) {
    let m = s.len() - 1;
    let steps = (0..20).map(|i| p + (1 << i));
    let reach: Vec<usize> = steps.take_while(|&position| position <= m).collect();
    let good = reach.iter().take_while(|&&at| s[at] <= x).count();
    // The one that fails is looked at too, where there is one.
    let looks = reach.len().min(good + 1) as u64;
    if good == 0 {
        return (p, looks);
    }
    let hi = reach.get(good).copied().unwrap_or(m + 1);
    let (j, more) = halving_told(s, reach[good - 1], hi, x);
    (j, looks + more)
}

fn halving_told(s: &[u32], mut lo: usize, mut hi: usize, x: u32) -> (usize, u64) {
    let mut looks = 0;
    while hi - lo > 1 {
        let middle = lo + (hi - lo) / 2;
        let half = if s[middle] <= x { &mut lo } else { &mut hi };
        *half = middle;
        looks += 1;
    }
    (lo, looks)
}

/// One candidate as the paper tries it, before there was a next slot.
struct Tried {
    found: bool,
    finger: usize,
    looks: u64,
    codes: u64,
}

fn tried(list: &List, p: usize, x: u32) -> Tried {
    if x <= list.cut {
        return Tried {
            found: list.slots.contains(&x),
            finger: p,
            looks: 0,
            codes: 0,
        };
    }
    let (j, looks) = search_told(&list.s, p, x);
    let (found, codes) = if j == 0 {
        (false, 0)
    } else {
        block_told(&list.blocks[j - 1], x)
    };
    Tried {
        found,
        finger: j,
        looks,
        codes,
    }
}

/// A block read from its first slot until a slot not below `x` or its end. The
/// first slot stands in the entry; each further one is a code.
fn block_told(block: &[u32], x: u32) -> (bool, u64) {
    let mut at = 0;
    while block[at] < x && at + 1 < block.len() {
        at += 1;
    }
    (block[at] == x, at as u64)
}

/// What a walk keeps of its candidates, and its looks and codes.
type Walk = (Vec<u32>, u64, u64);

/// The paper's walk: candidates in ascending order, those not found dropped.
fn walk_told(list: &List, candidates: &[u32]) -> Walk {
    let mut walk = (Vec::new(), 0, 0);
    let mut p = 0;
    for &x in candidates {
        let tried = tried(list, p, x);
        p = tried.finger;
        walk.1 += tried.looks;
        walk.2 += tried.codes;
        if tried.found {
            walk.0.push(x);
        }
    }
    walk
}

/// An index that must be sound.
fn opened(index: &[u8]) -> Index<'_> {
    open(index).unwrap_or_else(|refusal| panic!("{refusal:?}"))
}

/// The same walk by the search that answers the next slot.
fn walk(index: &Index, name: usize, candidates: &[u32]) -> Walk {
    let mut walk = (Vec::new(), 0, 0);
    let mut finger = 0;
    for &x in candidates {
        let sought = seek(&index.records[name], finger, x);
        finger = sought.finger;
        walk.1 += sought.looks;
        walk.2 += sought.codes;
        if sought.next == x {
            walk.0.push(x);
        }
    }
    walk
}

/// Every list of slots up to `u`.
fn every_list(u: u32) -> impl Iterator<Item = Vec<u32>> {
    let held = |set: u32, x: u32| set >> (x - 1) & 1 == 1;
    (0..1u32 << u).map(move |set| (1..=u).filter(|&x| held(set, x)).collect())
}

/// Goes through every list of slots up to `u`, in blocks of one to three, with
/// every cut.
fn every_record(u: u32, mut each: impl FnMut(u32, u32, &[u32])) {
    for slots in every_list(u) {
        for block in 1..=3 {
            for cut in 0..=u {
                each(block, cut, &slots);
            }
        }
    }
}

#[test]
fn every_small_list_from_outside() {
    let u = 9;
    every_record(u, |block, cut, slots| {
        let index = lists(u, block, &[(cut, slots)]);
        for x in 1..=u {
            let answer = next(&index, 0, x);
            assert_eq!(answer, follows(0, 0, least(slots, x)));
            assert_eq!(answer.slot == x, test(&index, 0, x).yes);
        }
    });
}

#[test]
fn a_single_bit_anywhere() {
    let (u, cut) = (203, 197);
    for slot in 1..=cut {
        let index = lists(u, 4, &[(cut, &[slot]), (cut, &[slot, 201])]);
        for name in 0..2 {
            assert_eq!(next(&index, name, 1), follows(0, 0, slot));
            assert_eq!(next(&index, name, slot), follows(0, 0, slot));
        }
        assert_eq!(next(&index, 0, slot + 1), follows(0, 0, 0));
        assert_eq!(next(&index, 1, slot + 1), follows(0, 0, 201));
    }
}

/// The slots at which it is telling to ask: those of a list and their neighbours,
/// both ends, the slots about the cut, and any others.
fn telling(random: &mut Random, u: u32, cut: u32, slots: &[u32]) -> Vec<u32> {
    let about = |&slot: &u32| [slot - 1, slot, slot + 1];
    let mut asked: Vec<u32> = slots.iter().flat_map(about).collect();
    asked.extend([1, u, cut, cut + 1]);
    asked.extend((0..10).map(|_| random.between(1, u)));
    asked.retain(|x| (1..=u).contains(x));
    asked
}

#[test]
fn many_larger_lists_from_outside() {
    let mut random = Random::new(28);
    let mut none = 0;
    for _ in 0..150 {
        let given = some_lists(&mut random);
        let index = join(given.u, given.block, &pack(&given));
        for (name, (cut, slots)) in (0..).zip(&given.lists) {
            for x in telling(&mut random, given.u, *cut, slots) {
                let slot = least(slots, x);
                assert_eq!(next(&index, name, x), follows(0, 0, slot));
                none += usize::from(slot == 0);
            }
        }
    }
    assert!(none > 500, "{none}");
}

/// The slots met by asking again and again, each time from behind the last answer.
fn stepped(index: &[u8], name: u32, u: u32) -> Vec<u32> {
    let mut met = Vec::new();
    let mut x = 1;
    while x <= u {
        let answer = next(index, name, x);
        assert_eq!((answer.number, answer.place), (0, 0));
        if answer.slot == 0 {
            break;
        }
        met.push(answer.slot);
        x = answer.slot + 1;
    }
    met
}

#[test]
fn steps_meet_every_slot() {
    assert_eq!(stepped(&paper(), 0, 32), LIST_0);
    assert_eq!(stepped(&paper(), 1, 32), LIST_1);
    let mut random = Random::new(29);
    for _ in 0..100 {
        let given = some_lists(&mut random);
        let index = join(given.u, given.block, &pack(&given));
        for (name, (_, slots)) in (0..).zip(&given.lists) {
            assert_eq!(stepped(&index, name, given.u), *slots);
        }
    }
}

/// Seeking in one list of an index must find this: the next slot, the finger
/// afterwards, looks and codes.
#[track_caller]
fn seeks(index: &[u8], name: usize, finger: u32, x: u32, found: (u32, u32, u64, u64)) {
    let (next, j, looks, codes) = found;
    let expected = Sought {
        next,
        finger: j,
        looks,
        codes,
    };
    assert_eq!(seek(&opened(index).records[name], finger, x), expected);
}

#[test]
fn by_hand_in_blocks() {
    // The blocks of list 0: 1 4 5 6, 8 12 15 16, 18 20 25 26, 27 28 30.
    let index = paper();
    // Looks at 1, 2, 4 and then 3; block 2 is read to its end, and stays.
    seeks(&index, 0, 0, 17, (18, 2, 4, 3));
    seeks(&index, 0, 1, 17, (18, 2, 2, 3));
    seeks(&index, 0, 2, 17, (18, 2, 1, 3));
    // The slot after it is a look at 3 and one at 4.
    seeks(&index, 0, 2, 18, (18, 3, 2, 0));
    seeks(&index, 0, 0, 7, (8, 1, 2, 3));
    seeks(&index, 0, 1, 9, (12, 2, 2, 1));
    // Behind the last block there is nothing to look at, and no slot.
    seeks(&index, 0, 0, 31, (0, 4, 3, 2));
    seeks(&index, 0, 4, 31, (0, 4, 0, 2));
}

#[test]
fn by_hand_about_the_cut() {
    // List 1 has bits 3 5 12 16 up to its cut 16, and one block, 26 30 31.
    let index = paper();
    seeks(&index, 1, 0, 6, (12, 0, 0, 0));
    seeks(&index, 1, 0, 16, (16, 0, 0, 0));
    // One look says that j is 0; that 26 is the next costs none.
    seeks(&index, 1, 0, 17, (26, 0, 1, 0));
    seeks(&index, 1, 0, 26, (26, 1, 1, 0));
    seeks(&index, 1, 1, 27, (30, 1, 0, 1));
    seeks(&index, 1, 0, 32, (0, 1, 1, 2));
    // Without 12 and 16 the bits run out.
    let fewer = poke(&index, 68, 0);
    seeks(&fewer, 1, 0, 5, (5, 0, 0, 0));
    seeks(&fewer, 1, 0, 6, (26, 0, 0, 0));
    // No blocks at all.
    let bits = lists(32, 4, &[(16, &[3, 5]), (0, &[])]);
    seeks(&bits, 0, 0, 6, (0, 0, 0, 0));
    seeks(&bits, 0, 0, 17, (0, 0, 0, 0));
    seeks(&bits, 1, 0, 1, (0, 0, 0, 0));
}

/// Seeks from one finger: the next slot is the list's least, whatever the finger,
/// the finger becomes j, and the rest is as the paper tells it. Gives whether the
/// slot is that of the block behind j.
fn sought(index: &Index, list: &List, finger: usize, x: u32) -> bool {
    let sought = seek(&index.records[0], finger as u32, x);
    assert_eq!(sought.next, least(&list.slots, x));
    // The last entry up to x; up to the cut there is none, and no search.
    let j = list.s.iter().rposition(|&entry| entry <= x).unwrap_or(0);
    assert_eq!(sought.finger as usize, j);

    let tried = tried(list, finger, x);
    assert_eq!((sought.looks, sought.codes), (tried.looks, tried.codes));
    assert_eq!((sought.next == x, j), (tried.found, tried.finger));
    list.s.get(j + 1) == Some(&sought.next)
}

#[test]
fn every_finger_of_every_small_list() {
    let u = 9;
    let mut behind = [0; 2];
    every_record(u, |block, cut, slots| {
        let bytes = lists(u, block, &[(cut, slots)]);
        let index = opened(&bytes);
        let list = List::new(block, cut, slots);
        for x in 1..=u {
            for finger in list.fingers(x) {
                let from_next = sought(&index, &list, finger, x);
                behind[finger.min(1)] += usize::from(from_next);
            }
        }
    });
    // From 0 and from other fingers the answer was often the block behind j.
    assert!(behind.iter().all(|&times| times > 10_000), "{behind:?}");
}

#[test]
fn every_walk_through_every_small_list() {
    let u = 7;
    every_record(u, |block, cut, slots| {
        let bytes = lists(u, block, &[(cut, slots)]);
        let index = opened(&bytes);
        let list = List::new(block, cut, slots);
        for candidates in every_list(u) {
            let told = walk_told(&list, &candidates);
            assert_eq!(walk(&index, 0, &candidates), told);
        }
    });
}

#[test]
fn many_larger_walks() {
    let mut random = Random::new(30);
    let mut looks = 0;
    for _ in 0..400 {
        let given = some_lists(&mut random);
        let bytes = join(given.u, given.block, &pack(&given));
        let index = opened(&bytes);
        for (name, (cut, slots)) in given.lists.iter().enumerate() {
            let list = List::new(given.block, *cut, slots);
            for (_, candidates) in &given.lists {
                let told = walk_told(&list, candidates);
                assert_eq!(walk(&index, name, candidates), told);
                looks += told.1;
            }
        }
    }
    assert!(looks > 10_000, "{looks}");
}

/// Asks by skips for the slots of a smaller list, kept as bits, in a larger one.
/// The answer must be what the paper's walk tells.
fn asks(u: u32, block: u32, list: &List, candidates: &[u32]) {
    let given = [(u, candidates), (list.cut, &list.slots[..])];
    let index = lists(u, block, &given);
    let (mut slots, looks, codes) = walk_told(list, candidates);
    let expected = Answer {
        number: 0,
        place: 0,
        count: slots.len() as u32,
        looks,
        codes,
        looks_at: places(&[0, looks]),
        codes_at: places(&[0, codes]),
    };
    let mut room = vec![OLD; candidates.len()];
    assert_eq!(ask(&index, 1, &[0, 1], &mut room), expected);
    slots.resize(candidates.len(), 0);
    assert_eq!(room, slots);
}

#[test]
fn every_small_question_is_such_a_walk() {
    let u = 6;
    every_record(u, |block, cut, slots| {
        let list = List::new(block, cut, slots);
        // A list that is not longer starts, where it is named first.
        for candidates in every_list(u).filter(|other| other.len() <= slots.len()) {
            asks(u, block, &list, &candidates);
        }
    });
}

/// Must be refused so, from every list and slot of these.
#[track_caller]
fn refused(index: &[u8], names: &[u32], slots: &[u32], number: u32, place: u32) {
    for &name in names {
        for &slot in slots {
            let answer = next(index, name, slot);
            assert_eq!(answer, follows(number, place, 0), "{name} {slot}");
        }
    }
}

#[test]
fn refusals_in_their_order() {
    let index = paper();
    let any = [0, 1, 2, WILD];
    let from = [0, 1, 5, 32, 33, WILD];
    // The index first, whatever is named and from wherever.
    refused(&[], &any, &from, 1, 0);
    refused(&index[88..], &any, &from, 1, 0);
    refused(&poke(&index, 110, 0), &any, &from, 2, 0);
    refused(&put(&index, 87, 2), &any, &from, 3, 0);
    refused(&put(&index, 91, 0), &any, &from, 4, 0);
    refused(&index[1..], &any, &from, 5, 0);
    refused(&poke(&index, 63, 3), &any, &from, 6, 1);
    refused(&poke(&index, 16, 1), &any, &from, 7, 0);
    refused(&poke(&index, 54, 0x81), &any, &from, 8, 0);
    refused(&poke(&index, 69, 16), &any, &from, 9, 1);
    refused(&poke(&index, 55, 15), &any, &from, 17, 1);
    // Then the name, then the slot.
    refused(&index, &[2, 3, WILD], &from, 11, 0);
    refused(&index, &[0, 1], &[0, 33, 34, WILD], 16, 0);
    assert_eq!(next(&index, 0, 1), follows(0, 0, 1));
    assert_eq!(next(&index, 1, 32), follows(0, 0, 0));
}
