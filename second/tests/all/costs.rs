//! What each position of a question has cost: by hand on small lists, and as
//! properties on pseudo-random ones.

use crate::model::{self, Visit};
use crate::properties::{pack, shuffle, some_lists, some_names, Lists};
use crate::tools::*;
use second::random::Random;
use second::{ask, Answer};

/// Asks by skips, with room for every list used here.
fn asked(index: &[u8], names: &[u32]) -> Answer {
    let mut slots = vec![OLD; 200];
    let answer = ask(index, 1, names, &mut slots);
    assert_eq!((answer.number, answer.place), (0, 0));
    answer
}

/// The places of the names must hold these by skips and the other places 0, and
/// plainly all of them 0.
#[track_caller]
fn costs(index: &[u8], names: &[u32], looks: &[u64], codes: &[u64]) {
    assert_eq!((looks.len(), codes.len()), (names.len(), names.len()));
    let answer = asked(index, names);
    assert_eq!(answer.looks_at, places(looks));
    assert_eq!(answer.codes_at, places(codes));
    assert_eq!(answer.looks, looks.iter().sum());
    assert_eq!(answer.codes, codes.iter().sum());

    let mut slots = vec![OLD; 200];
    let plain = ask(index, 0, names, &mut slots);
    assert_eq!((plain.number, plain.count), (0, answer.count));
    assert_eq!((plain.looks, plain.codes), (0, 0));
    assert_eq!((plain.looks_at, plain.codes_at), ([0; 16], [0; 16]));
}

#[test]
fn on_the_papers_index() {
    // The seven of list 1 in list 0: 2+1+2+1+2+1+0 looks, 1+2+1+3+3+2+2 codes.
    costs(&paper(), &[0, 1], &[9, 0], &[14, 0]);
    costs(&paper(), &[1, 0], &[0, 9], &[0, 14]);
    // List 1 in itself: 26 is found by the only look, 30 and 31 by 1 + 2 codes.
    costs(&paper(), &[1, 1], &[0, 1], &[0, 3]);
    costs(&paper(), &[0], &[0], &[0]);
    costs(&paper(), &[1], &[0], &[0]);
}

#[test]
fn a_list_named_again() {
    // The five that are left, 5 12 16 26 30, in list 0 once more: 2+2+1+2+1
    // looks, 2+1+3+3+2 codes.
    costs(&paper(), &[1, 0, 0], &[0, 9, 8], &[0, 14, 11]);
    costs(&paper(), &[0, 1, 0], &[9, 0, 8], &[14, 0, 11]);
    costs(&paper(), &[0, 0, 1], &[9, 8, 0], &[14, 11, 0]);
    costs(&paper(), &[0, 1, 0, 0], &[9, 0, 8, 8], &[14, 0, 11, 11]);
    // List 1's second position comes before list 0, and costs what it does alone.
    costs(&paper(), &[0, 1, 1], &[9, 0, 1], &[14, 0, 3]);
    costs(&paper(), &[1, 0, 1], &[0, 9, 1], &[0, 14, 3]);
}

#[test]
fn sixteen_names() {
    let names: Vec<u32> = (0..16).map(|i| i % 2).collect();
    let looks = [9, 0, 8, 1, 8, 1, 8, 1, 8, 1, 8, 1, 8, 1, 8, 1];
    let codes = [14, 0, 11, 3, 11, 3, 11, 3, 11, 3, 11, 3, 11, 3, 11, 3];
    costs(&paper(), &names, &looks, &codes);
    // List 0 fifteen times before the starting list.
    let mut names = [0; 16];
    names[15] = 1;
    let looks = [9, 8, 8, 8, 8, 8, 8, 8, 8, 8, 8, 8, 8, 8, 8, 0];
    let codes = [
        14, 11, 11, 11, 11, 11, 11, 11, 11, 11, 11, 11, 11, 11, 11, 0,
    ];
    costs(&paper(), &names, &looks, &codes);
}

#[test]
fn tied_names() {
    // 7 passes blocks 1, 2 and 4 and nothing is left behind; each of 1 to 4
    // fails at block 1.
    let index = lists(10, 1, &[(0, &[7, 8, 9, 10]), (0, &[1, 2, 3, 4])]);
    costs(&index, &[0, 1], &[0, 3], &[0, 0]);
    costs(&index, &[1, 0], &[0, 4], &[0, 0]);
}

#[test]
fn three_counts() {
    // In the even slots, blocks from 2 6 10 14 18 22: 4 and 9 cost two looks each,
    // 16 four (blocks 3, 4, 6, then 5) and 25 two, each with one code. In 1 to 26,
    // thirteen blocks: 4 costs four looks (1, 2, 4, then 3), 16 six (3, 4, 6, 10,
    // then 8 and 9), each with one code.
    let all: Vec<u32> = (1..=26).collect();
    let even: Vec<u32> = (1..=12).map(|i| 2 * i).collect();
    let index = lists(32, 2, &[(0, &[4, 9, 16, 25]), (0, &all), (0, &even)]);
    costs(&index, &[0, 1, 2], &[0, 10, 10], &[0, 2, 4]);
    costs(&index, &[2, 1, 0], &[10, 10, 0], &[4, 2, 0]);
    costs(&index, &[1, 0, 2], &[10, 0, 10], &[2, 0, 4]);
    costs(&index, &[2, 0, 1], &[10, 0, 10], &[4, 0, 2]);
    // All four in 1 to 26 cost four looks each: 4 as above, 9 at blocks 3, 4, 6, then
    // 5, 16 at 6, 7, 9, then 8, and 25 at 9, 10, 12, then 13. 9 and 25 are their
    // blocks' first slots; 4 and 16 cost a code.
    costs(&index, &[1, 0], &[16, 0], &[2, 0]);
}

#[test]
fn nothing_left_costs_nothing() {
    // 5 passes both blocks of list 1, and 6 stands behind them already.
    let index = lists(20, 2, &[(0, &[5, 6]), (0, &[1, 2, 3]), (0, &[5, 6, 7, 8])]);
    costs(&index, &[2, 1, 0, 2], &[0, 2, 0, 0], &[0, 0, 0, 0]);
    costs(&index, &[1, 2, 0], &[2, 0, 0], &[0, 0, 0]);
    // An empty list starts, wherever it stands.
    let index = join(32, 4, &[paper_0(), vec![0; 12]]);
    costs(&index, &[0, 0, 1], &[0, 0, 0], &[0, 0, 0]);
}

#[test]
fn bits_cost_nothing() {
    // 2 and 10 are bits of list 1; 14, 15 and 20 cost two looks each there. List 2
    // is all bits.
    let all: Vec<u32> = (1..=30).collect();
    let some = [2, 10, 14, 15, 20];
    let tail = [2, 5, 13, 15, 17, 20];
    let index = lists(32, 1, &[(0, &some), (12, &tail), (32, &all)]);
    costs(&index, &[2, 1, 0], &[0, 6, 0], &[0, 0, 0]);
}

#[test]
fn refusals_have_no_costs() {
    let damaged = poke(&paper(), 54, 0x81);
    for (index, way, names, room, number, place) in [
        (&paper(), 1, &[0, 1][..], 6, 12, 7),
        (&paper(), 1, &[0; 17], 64, 10, 0),
        (&paper(), 1, &[0, 1, 2], 64, 11, 2),
        (&paper(), 2, &[0, 1], 64, 14, 0),
        (&damaged, 1, &[0, 1], 64, 8, 0),
    ] {
        let answer = ask(index, way, names, &mut vec![OLD; room]);
        assert_eq!((answer.number, answer.place), (number, place));
        assert_eq!((answer.looks, answer.codes), (0, 0));
        assert_eq!((answer.looks_at, answer.codes_at), ([0; 16], [0; 16]));
    }
}

/// The visits put at their positions: looks, then codes.
fn told(visits: &[Visit]) -> [[u64; 16]; 2] {
    let mut told = [[0; 16]; 2];
    for visit in visits {
        told[0][visit.position] = visit.looks();
        told[1][visit.position] = visit.codes();
    }
    told
}

/// The first position of a smallest list.
fn start(given: &Lists, names: &[u32]) -> usize {
    let count = |&position: &usize| given.lists[names[position] as usize].1.len();
    (0..names.len()).min_by_key(count).unwrap()
}

/// A question about some lists, its answer, and the model's visits.
fn some_question(random: &mut Random) -> (Lists, Vec<u32>, Answer, Vec<Visit>) {
    let given = some_lists(random);
    let index = join(given.u, given.block, &pack(&given));
    let names = some_names(random, &given);
    let answer = asked(&index, &names);
    let (_, visits) = model::question(&model::read(&index), &names);
    (given, names, answer, visits)
}

#[test]
fn each_position_as_the_model_tells() {
    let mut random = Random::new(24);
    let mut later = 0;
    let mut crowded = 0;
    for _ in 0..1_500 {
        let (given, names, answer, visits) = some_question(&mut random);
        assert_eq!([answer.looks_at, answer.codes_at], told(&visits));
        assert_eq!(answer.looks, answer.looks_at.iter().sum());
        assert_eq!(answer.codes, answer.codes_at.iter().sum());

        let start = start(&given, &names);
        assert_eq!((answer.looks_at[start], answer.codes_at[start]), (0, 0));
        assert_eq!(answer.looks_at[names.len()..], [0; 16][names.len()..]);
        assert_eq!(answer.codes_at[names.len()..], [0; 16][names.len()..]);
        later += usize::from(start > 0);
        let costly = answer.looks_at.iter().filter(|&&looks| looks > 0);
        crowded += usize::from(costly.count() >= 3);
    }
    assert!(later > 300 && crowded > 100, "{later} {crowded}");
}

#[test]
fn the_bounds_hold_at_each_position() {
    let mut random = Random::new(25);
    let mut searched = 0;
    for _ in 0..1_500 {
        let (given, names, answer, visits) = some_question(&mut random);
        assert_eq!(visits.len(), names.len() - 1);
        let bounded = |visit| bounded(&given, &names, &answer, visit);
        searched += visits.iter().map(bounded).sum::<u64>();
    }
    assert!(searched > 1_000);
}

/// Holds the costs at a visit's position to their bounds, and gives the searches
/// there.
fn bounded(given: &Lists, names: &[u32], answer: &Answer, visit: &Visit) -> u64 {
    let (cut, slots) = &given.lists[names[visit.position] as usize];
    let tail = slots.iter().filter(|&slot| slot > cut).count();
    let m = tail.div_ceil(given.block as usize) as u64;
    let q = visit.steps.len() as u64;
    let b = u64::from(given.block);
    assert!(answer.looks_at[visit.position] <= q + 2 * m);
    assert!(answer.codes_at[visit.position] <= (b - 1) * q);
    q
}

/// Names of lists with different counts, each once.
fn distinct_names(given: &Lists) -> Vec<u32> {
    let mut counts = Vec::new();
    let mut names = Vec::new();
    for (name, (_, slots)) in (0..).zip(&given.lists) {
        if !counts.contains(&slots.len()) {
            counts.push(slots.len());
            names.push(name);
        }
    }
    names
}

#[test]
fn places_move_with_their_names() {
    let mut random = Random::new(26);
    let mut moved = 0;
    for _ in 0..600 {
        let given = some_lists(&mut random);
        let index = join(given.u, given.block, &pack(&given));
        let names = distinct_names(&given);
        let first = asked(&index, &names);
        let mut from: Vec<usize> = (0..names.len()).collect();
        shuffle(&mut random, &mut from);
        let others: Vec<u32> = from.iter().map(|&position| names[position]).collect();

        let taken = |places: &[u64; 16]| -> Vec<u64> { from.iter().map(|&i| places[i]).collect() };
        let mut expected = first;
        expected.looks_at = places(&taken(&first.looks_at));
        expected.codes_at = places(&taken(&first.codes_at));
        assert_eq!(asked(&index, &others), expected);
        moved += usize::from(expected.looks_at != first.looks_at);
    }
    assert!(moved > 200, "{moved}");
}
