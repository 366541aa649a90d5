//! The bill for looks: its sum by hand, the smallest of all, and that no search, no
//! position and no question costs more.

use crate::model::{self, Visit};
use crate::properties::{pack, some_lists, some_names};
use crate::tools::*;
use second::random::Random;
use second::{ask, best, bill, charges, search, Charge, Verdict};

/// The looks of some searches one after the other, each from where the one before
/// it ended, in entries 1 to m.
fn looks_of(m: u32, finger: u32, wanted: &[u32]) -> u64 {
    let mut at = finger;
    let mut sum = 0;
    for &x in wanted {
        let (j, looks) = search(|i| i, m, at, x);
        at = j;
        sum += looks;
    }
    sum
}

/// Holds looks to the bill of one e, and to more than was asked for: above e = 0 the
/// bill would do without its first q, and where there was a search at all, a look is
/// left even so.
#[track_caller]
fn held(looks: u64, e: u32, q: u64, m: u64) {
    let most = bill(e, q, m);
    assert!(looks <= most, "{looks} looks, e {e}, q {q}, m {m}: {most}");
    let spare = if e > 0 { q } else { 0 } + q.min(1);
    assert!(looks + spare <= most, "{looks} looks, e {e}, q {q}, m {m}");
}

/// Holds the looks of some searches in entries 1 to m to the bill of all blocks,
/// and to that of the blocks ahead of the finger alone.
#[track_caller]
fn searches_held(m: u32, finger: u32, wanted: &[u32]) {
    let looks = looks_of(m, finger, wanted);
    let q = wanted.len() as u64;
    let ahead = u64::from(m.saturating_sub(finger));
    if ahead == 0 {
        assert_eq!(looks, 0, "{m} {finger} {wanted:?}");
    }
    for e in 0..=8 {
        held(looks, e, q, u64::from(m));
        held(looks, e, q, ahead);
    }
}

#[test]
fn the_sum_by_hand() {
    for (e, q, m, most) in [
        (0, 0, 0, 0),
        (0, 3, 31, 3 + 62),
        (1, 3, 31, 3 + 6 + 30),
        (2, 3, 31, 3 + 12 + 14),
        (3, 3, 31, 3 + 18 + 6),
        (4, 3, 31, 3 + 24 + 2),
        (5, 3, 31, 3 + 30),
        (6, 3, 31, 3 + 36),
        (3, 0, 15, 2),
        (4, 0, 15, 0),
        (2, 5, 0, 25),
    ] {
        assert_eq!(bill(e, q, m), most, "{e} {q} {m}");
    }
}

#[test]
fn any_numbers_have_a_bill() {
    let most = u64::MAX;
    // The largest m is 64 ones; from e = 64 on nothing is left of it.
    assert_eq!(bill(1, 0, most), most - 1);
    assert_eq!(bill(63, 0, most), 2);
    for e in [64, 65, 127, 128, 1 << 31, WILD] {
        assert_eq!(bill(e, 0, most), 0);
        assert_eq!(bill(e, 7, most), 7 + 14 * u64::from(e));
    }
    // These are larger than eight bytes can tell.
    assert_eq!(bill(0, 1, most), most);
    assert_eq!(bill(0, most, 1), most);
    assert_eq!(bill(WILD, most, most), most);
}

#[test]
fn the_bill_of_old() {
    for q in 0..50 {
        for m in 0..50 {
            assert_eq!(bill(0, q, m), q + 2 * m);
        }
    }
}

#[test]
fn the_best_by_hand() {
    for (q, m, e, most) in [
        (0, 0, 0, 0),
        (3, 0, 0, 3),
        // Nothing sought: where no part of m is left, no look is.
        (0, 1, 1, 0),
        (0, 15, 4, 0),
        (0, 16, 5, 0),
        // 3, 3, 5.
        (1, 1, 0, 3),
        // 31, 17, 11, 9, 9, 11.
        (1, 15, 3, 9),
        // 65, 39, 29, 27, 29, 33.
        (3, 31, 3, 27),
        // 36, 40: as many searches as blocks.
        (12, 12, 0, 36),
    ] {
        assert_eq!(best(q, m), (e, most), "{q} {m}");
    }
}

/// The first smallest bill of a great many e.
fn plain_best(q: u64, m: u64) -> (u32, u64) {
    let least = (0..=40).map(|e| bill(e, q, m)).min().unwrap();
    let e = (0..=40).find(|&e| bill(e, q, m) == least).unwrap();
    (e, least)
}

#[test]
fn the_best_of_all() {
    for q in 0..=70 {
        for m in 0..=300 {
            assert_eq!(best(q, m), plain_best(q, m), "{q} {m}");
        }
    }
    let mut random = Random::new(28);
    for _ in 0..20_000 {
        let q = random.bits() >> random.between(40, 63);
        let m = random.bits() >> random.between(44, 63);
        assert_eq!(best(q, m), plain_best(q, m), "{q} {m}");
    }
}

/// All rows of so many slots from 0 to m, rising or not. Slot 0 stands before the
/// first entry.
fn rows(m: u32, many: u32) -> Vec<Vec<u32>> {
    let slots = m + 1;
    let slot = |row: u32, place: u32| row / slots.pow(place) % slots;
    (0..slots.pow(many))
        .map(|row| (0..many).map(|place| slot(row, place)).collect())
        .collect()
}

#[test]
fn every_few_searches_in_few_blocks() {
    assert_eq!(rows(1, 2), [[0, 0], [1, 0], [0, 1], [1, 1]]);
    for m in 0..=12 {
        for wanted in (0..=3).flat_map(|many| rows(m, many)) {
            // A finger behind the last block stands where no look is made.
            for finger in (0..=m + 2).chain([WILD]) {
                searches_held(m, finger, &wanted);
            }
        }
    }
}

#[test]
fn one_and_two_searches_in_more_blocks() {
    for m in 13..=70 {
        for finger in 0..=m {
            for x in finger..=m {
                searches_held(m, finger, &[x]);
                searches_held(m, finger, &[x, m]);
                searches_held(m, finger, &[x, x + (m - x) / 2]);
            }
        }
    }
}

#[test]
fn every_set_of_slots_in_ten_blocks() {
    for set in 0u32..1 << 11 {
        let wanted: Vec<u32> = (0..=10).filter(|x| set >> x & 1 == 1).collect();
        for m in 1..=10 {
            searches_held(m, 0, &wanted);
        }
    }
}

#[test]
fn long_runs_of_searches() {
    let mut random = Random::new(29);
    let mut sharper = 0;
    for _ in 0..3_000 {
        let m = random.between(1, 5_000);
        let q = random.between(0, 40).min(m);
        let mut wanted = random.ascending(q, 0, m);
        if random.below(4) == 0 {
            wanted.reverse();
        }
        let finger = random.below(m + 2);
        searches_held(m, 0, &wanted);
        searches_held(m, finger, &wanted);
        let (e, most) = best(u64::from(q), u64::from(m));
        assert!(looks_of(m, 0, &wanted) <= most);
        sharper += usize::from(e > 0 && q > 0);
    }
    assert!(sharper > 2_000, "{sharper}");
}

/// What a question by skips costs and is charged for, its looks told by the answer.
fn charged(index: &[u8], names: &[u32]) -> Vec<Charge> {
    let charges = charges(index, names).unwrap();
    let answer = ask(index, 1, names, &mut [OLD; 200]);
    assert_eq!((answer.number, charges.len()), (0, names.len() - 1));
    for charge in &charges {
        assert_eq!(charge.looks, answer.looks_at[charge.position]);
    }
    charges
}

/// The searches and blocks must be those that the model tells.
fn as_the_model(charges: &[Charge], visits: &[Visit]) {
    for visit in visits {
        let at = |charge: &&Charge| charge.position == visit.position;
        let charge = charges.iter().find(at).unwrap();
        assert_eq!(charge.searches, visit.steps.len() as u64);
        assert_eq!(charge.searches, (visit.candidates - visit.bit_tests) as u64);
        assert_eq!(charge.blocks, visit.blocks as u64);
        assert_eq!(charge.looks, visit.looks());
    }
    assert_eq!(charges.len(), visits.len());
}

/// Something of all positions together.
fn sum(charges: &[Charge], what: impl Fn(&Charge) -> u64) -> u64 {
    charges.iter().map(what).sum()
}

/// Holds each position to its bills, and all of them together.
fn question_held(charges: &[Charge]) {
    for charge in charges {
        position_held(charge);
    }
    let looks = sum(charges, |charge| charge.looks);
    let q = sum(charges, |charge| charge.searches);
    let m = sum(charges, |charge| charge.blocks);
    for e in 0..=24 {
        let each = sum(charges, |charge| charge.bill(e));
        assert!(looks <= each && each <= bill(e, q, m));
        held(looks, e, q, m);
    }
    assert!(looks <= sum(charges, |charge| charge.best().1));
}

fn position_held(charge: &Charge) {
    for e in 0..=24 {
        assert_eq!(charge.bill(e), bill(e, charge.searches, charge.blocks));
        held(charge.looks, e, charge.searches, charge.blocks);
    }
    assert!(charge.looks <= charge.best().1);
}

/// Counts the positions for which something holds.
fn many(charges: &[Charge], what: impl Fn(&Charge) -> bool) -> usize {
    charges.iter().filter(|charge| what(charge)).count()
}

/// Whether something was sought at a position, and its best e is not below this.
fn best_from(e: u32) -> impl Fn(&Charge) -> bool {
    move |charge| charge.searches > 0 && charge.best().0 >= e
}

#[test]
fn whole_questions() {
    let mut random = Random::new(30);
    let mut all = Vec::new();
    for _ in 0..3_000 {
        let given = some_lists(&mut random);
        let index = join(given.u, given.block, &pack(&given));
        let names = some_names(&mut random, &given);
        let charges = charged(&index, &names);
        let (_, visits) = model::question(&model::read(&index), &names);
        as_the_model(&charges, &visits);
        question_held(&charges);
        all.extend(charges);
    }
    assert!(many(&all, best_from(1)) > 300);
    assert!(many(&all, best_from(3)) > 50);
    assert!(many(&all, |charge| charge.searches == 0 && charge.blocks > 0) > 300);
}

/// Many blocks, few of whose slots are sought. The list sought in comes last, and
/// another may have dropped some of the slots before.
fn few_in_many(random: &mut Random) -> (Vec<u8>, Vec<u32>) {
    let u = random.between(100, 2_000);
    let block = random.between(1, 3);
    let many = random.between(40, u / 2);
    let long = random.ascending(many, 1, u);
    let few = random.between(1, 6);
    let few = random.ascending(few, 1, u);
    let more = random.ascending(20, 1, u);
    let mut other = [&few[few.len() / 2..], &more[..]].concat();
    other.sort_unstable();
    other.dedup();
    let cut = [0, 0, u / 8, u / 2][random.below(4) as usize];
    let index = lists(u, block, &[(cut, &long), (0, &few), (u / 3, &other)]);
    let names = match random.below(3) {
        0 => vec![0, 1],
        1 => vec![2, 0, 1],
        _ => vec![1, 0, 2],
    };
    (index, names)
}

#[test]
fn few_slots_in_many_blocks() {
    let mut random = Random::new(31);
    let mut all = Vec::new();
    for _ in 0..1_500 {
        let (index, names) = few_in_many(&mut random);
        let charges = charged(&index, &names);
        question_held(&charges);
        all.extend(charges);
    }
    assert!(many(&all, best_from(3)) > 800);
    // Some come as near to their bill as they can.
    let near = |charge: &Charge| charge.looks + charge.searches + 1 == charge.best().1;
    assert!(many(&all, |charge| best_from(1)(charge) && near(charge)) > 100);
}

#[test]
fn three_in_31_blocks() {
    // The entries are 2 4 .. 62, so that 16 32 48 are those of positions 8 16 24.
    //   16 from finger 0: 1, 2, 4, 8 are good and 16 is not: then 12, 10 and 9
    //      are not either. 5 + 3 = 8 looks, and j = 8.
    //   32 from finger 8: 9, 10, 12, 16 are good and 24 is not: then 20, 18, 17.
    //      5 + 3 = 8 looks, and j = 16.
    //   48 from finger 16: 17, 18, 20, 24 are good, and 32 lies past 31, so that
    //      hi is 32: then 28, 26, 25. 4 + 3 = 7 looks, and j = 24.
    // Blocks of one slot have no codes.
    let even: Vec<u32> = (1..=31).map(|i| 2 * i).collect();
    let index = lists(64, 1, &[(0, &even), (0, &[16, 32, 48])]);
    assert_eq!(index.len(), 328);
    let answer = answers(&index, 1, &[0, 1], 3, &[16, 32, 48], (23, 0));
    assert_eq!(answer.looks_at, places(&[23]));
    let charge = charged(&index, &[0, 1])[0];
    let expected = Charge {
        position: 0,
        searches: 3,
        blocks: 31,
        looks: 8 + 8 + 7,
    };
    assert_eq!(charge, expected);
    // 3 + 2 x 31, and 3 + 2 x 3 x 3 + 2 x 3.
    assert_eq!((charge.bill(0), charge.bill(3)), (65, 27));
    assert_eq!(charge.best(), (3, 27));
}

#[test]
fn one_in_15_blocks() {
    // 16 is the entry of position 8: 1, 2, 4, 8 are good, and 16 lies past 15, so
    // that hi is 16: then 12, 10, 9. 4 + 3 = 7 looks.
    let even: Vec<u32> = (1..=15).map(|i| 2 * i).collect();
    let index = lists(32, 1, &[(0, &even), (0, &[16])]);
    answers(&index, 1, &[0, 1], 1, &[16], (7, 0));
    answers(&index, 1, &[1, 0], 1, &[16], (7, 0));
    let charge = charged(&index, &[1, 0])[0];
    assert_eq!([charge.searches, charge.blocks, charge.looks], [1, 15, 7]);
    assert_eq!((charge.position, charge.bill(0)), (1, 31));
    assert_eq!(charge.best(), (3, 9));
}

#[test]
fn bit_tests_are_no_searches() {
    // All three candidates lie up to the cut, 20; behind it are 20 blocks.
    let tail: Vec<u32> = (1..=20).map(|i| 20 + 2 * i).collect();
    let long = [&[3, 9, 20][..], &tail].concat();
    let index = lists(64, 1, &[(20, &long), (0, &[3, 10, 20])]);
    answers(&index, 1, &[0, 1], 3, &[3, 20], (0, 0));
    let charge = charged(&index, &[0, 1])[0];
    assert_eq!([charge.searches, charge.blocks, charge.looks], [0, 20, 0]);
    assert_eq!((charge.bill(0), charge.bill(4)), (40, 2));
    assert_eq!(charge.best(), (5, 0));

    // One more, 38, which is the entry of position 9: 1, 2, 4, 8 are good and 16 is
    // not: then 12 and 10 are not, and 9 is good. 8 looks; 1 + 2 x 4 + 2 is the best
    // bill, and so is 1 + 2 x 3 + 2 x 2.
    let index = lists(64, 1, &[(20, &long), (0, &[3, 10, 20, 38])]);
    answers(&index, 1, &[0, 1], 4, &[3, 20, 38], (8, 0));
    let charge = charged(&index, &[0, 1])[0];
    assert_eq!([charge.searches, charge.blocks, charge.looks], [1, 20, 8]);
    assert_eq!(charge.best(), (3, 11));
}

#[test]
fn the_papers_question() {
    // Seven slots, none of them up to list 0's cut, in four blocks: 7 + 8.
    let charge = charged(&paper(), &[0, 1])[0];
    assert_eq!([charge.searches, charge.blocks, charge.looks], [7, 4, 9]);
    assert_eq!(charge.best(), (0, 15));
    // List 1 in itself: 26, 30 and 31 in one block.
    let charge = charged(&paper(), &[1, 1])[0];
    assert_eq!([charge.searches, charge.blocks, charge.looks], [3, 1, 1]);
    assert_eq!(charge.best(), (0, 5));
    assert_eq!(charges(&paper(), &[1]), Ok(vec![]));
}

#[test]
fn a_refused_question_has_no_charges() {
    let refused = |index: &[u8], names: &[u32], number: u32, place: u32| {
        let expected = Verdict { number, place };
        assert_eq!(charges(index, names), Err(expected));
    };
    refused(&paper(), &[], 10, 0);
    refused(&paper(), &[0; 17], 10, 0);
    refused(&paper(), &[0, 1, 2], 11, 2);
    refused(&poke(&paper(), 54, 0x81), &[0, 1], 8, 0);
    refused(&[], &[0], 1, 0);
}
