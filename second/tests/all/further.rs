//! Further worked examples, computed by hand from the paper's rules where its
//! own examples would not see a slip.

use crate::tools::*;
use second::{count, lend, look, search, test, Verdict};

#[test]
fn on_the_papers_index() {
    answers(&paper(), 1, &[1, 0, 0], 7, &IN_BOTH, (17, 25));
    answers(&paper(), 1, &[1, 1], 7, &LIST_1, (1, 3));
    let damaged = poke(&paper(), 54, 0x81);
    assert_eq!(test(&damaged, 0, 5), tested(8, 0, false));
}

#[test]
fn six_entries() {
    for (x, looks) in [(4, 4), (5, 5), (6, 5)] {
        assert_eq!(search(|i| i, 6, 0, x), (x, looks));
    }
}

#[test]
fn forty_entries() {
    for (finger, x, looks) in [(0, 13, 8), (5, 30, 10), (0, 40, 10), (5, 5, 1), (40, 40, 0)] {
        assert_eq!(search(|i| i, 40, finger, x), (x, looks));
    }
}

#[test]
fn a_slot_not_there() {
    let entries = [1, 8, 18, 27];
    assert_eq!(search(|i| entries[i as usize - 1], 4, 0, 7), (1, 2));
    // Asked of the index: block 1 is read to its end.
    let index = join(32, 4, &[paper_0(), written(32, 4, 0, &[7])]);
    answers(&index, 1, &[0, 1], 1, &[], (2, 3));
}

#[test]
fn ties_go_to_the_earlier_name() {
    let index = lists(10, 1, &[(0, &[7, 8, 9, 10]), (0, &[1, 2, 3, 4])]);
    answers(&index, 1, &[0, 1], 4, &[], (3, 0));
    answers(&index, 1, &[1, 0], 4, &[], (4, 0));
}

#[test]
fn lists_by_rising_count() {
    let all: Vec<u32> = (1..=26).collect();
    let even: Vec<u32> = (1..=12).map(|i| 2 * i).collect();
    let index = lists(32, 2, &[(0, &[4, 9, 16, 25]), (0, &all), (0, &even)]);
    answers(&index, 1, &[0, 1, 2], 4, &[4, 16], (20, 6));
    answers(&index, 1, &[0, 2, 1], 4, &[4, 16], (20, 6));
    answers(&index, 0, &[0, 1, 2], 4, &[4, 16], (0, 0));
}

#[test]
fn bits_behind_the_cut() {
    let few = written(32, 2, 0, &[3, 11, 12, 13, 22]);
    let mixed = written(32, 2, 11, &[2, 3, 11, 13, 14, 20, 22, 31]);
    let index = join(32, 2, &[few.clone(), mixed.clone()]);
    looks_like(&index, 0, 0);
    answers(&index, 1, &[0, 1], 5, &[3, 11, 13, 22], (5, 1));
    answers(&index, 0, &[0, 1], 5, &[3, 11, 13, 22], (0, 0));
    assert_eq!(count(&index, 1), counted(0, 0, 8));
    assert_eq!(test(&index, 1, 12), tested(0, 0, false));
    assert_eq!(lend(&index, 1), mixed);

    // Slot 11 is the third bit of the second byte; five bits follow it.
    let dirty = poke(&mixed, 13, 0x20 | 0x1F);
    let index = join(32, 2, &[few, dirty]);
    looks_like(&index, 17, 1);
    refuses(&index, 1, &[0, 1], 5, 17, 1);
    refuses(&index, 0, &[0], 5, 17, 1);
    assert_eq!(count(&index, 1), counted(17, 1, 0));
    assert_eq!(test(&index, 0, 3), tested(17, 1, false));
    assert!(lend(&index, 1).is_empty());
    // List 0's first slot made 0 is found before.
    looks_like(&put(&index, 12, 0), 9, 0);
}

#[test]
fn order_of_faults() {
    let record = gaps(5, &[(40, 0), (41, 1), (42, 99)], &[0, 0]);
    looks_like(&join(32, 2, &[record]), 9, 0);
}

#[test]
fn codes_at_the_edges() {
    let u = 40_000;
    for (difference, code) in [
        (1, &[0x00][..]),
        (128, &[0x7F]),
        (129, &[0x80, 0x01]),
        (16_384, &[0xFF, 0x7F]),
        (16_385, &[0x80, 0x80, 0x01]),
        (16_512, &[0xFF, 0x80, 0x01]),
    ] {
        let slots = [5, 5 + difference];
        let record = gaps(2, &[(5, 0)], code);
        writes([u, 2, 0], &slots, &record);
        answers(&join(u, 2, &[record]), 1, &[0], 2, &slots, (0, 0));
    }
    looks_like(
        &join(u, 2, &[gaps(2, &[(5, 0)], &[0x80, 0x80, 0x00])]),
        8,
        0,
    );
    looks_like(
        &join(u, 2, &[gaps(2, &[(5, 0)], &[0x80, 0x80, 0x01])]),
        0,
        0,
    );
    looks_like(
        &join(u, 2, &[gaps(2, &[(5, 0)], &[0x80, 0x80, 0x80])]),
        8,
        0,
    );
    let four = [0x80, 0x80, 0x80, 0x01];
    looks_like(&join(u, 2, &[gaps(2, &[(5, 0)], &four)]), 8, 0);
}

#[test]
fn sizes_at_the_edge() {
    let mut bytes = vec![0; 16_777_216];
    let verdict = |number| Verdict { number, place: 0 };
    assert_eq!(look(&bytes), verdict(2));
    bytes.push(0);
    assert_eq!(look(&bytes), verdict(1));
}

#[test]
fn nothing_left_costs_nothing() {
    // 5 and 6 are not in list 1; list 2 is then never searched.
    let index = lists(20, 2, &[(0, &[5, 6]), (0, &[1, 2, 3]), (0, &[5, 6, 7, 8])]);
    answers(&index, 1, &[0, 1], 2, &[], (2, 0));
    answers(&index, 1, &[0, 1, 2], 2, &[], (2, 0));
    answers(&index, 1, &[2, 1, 0, 2], 2, &[], (2, 0));
    // A name behind it is checked all the same.
    refuses(&index, 1, &[0, 1, 3], 2, 11, 2);
}

#[test]
fn a_list_without_blocks_costs_nothing() {
    let index = lists(40, 2, &[(0, &[3, 9, 20, 30]), (12, &[1, 2, 3, 4, 9])]);
    answers(&index, 1, &[0, 1], 4, &[3, 9], (0, 0));
}

#[test]
fn a_bit_test_moves_no_finger() {
    // Candidates 2 and 10 are bit tests; 14, 15 and 20 are searched for in
    // blocks that begin at 13, 15, 17, 20: looks 13 yes, 15 no; 15 yes, 17 no;
    // 17 yes, 20 yes, then nothing is left.
    let index = lists(
        32,
        1,
        &[(0, &[2, 10, 14, 15, 20]), (12, &[2, 5, 13, 15, 17, 20])],
    );
    answers(&index, 1, &[0, 1], 5, &[2, 15, 20], (6, 0));
}

#[test]
fn room_is_that_of_the_smallest_list() {
    let index = lists(32, 4, &[(0, &[1, 2, 3]), (32, &[7, 8])]);
    for way in [0, 1] {
        refuses(&index, way, &[0, 1], 1, 12, 2);
        refuses(&index, way, &[1, 0], 0, 12, 2);
        refuses(&index, way, &[0], 2, 12, 3);
        refuses(&index, way, &[0, 0], 2, 12, 3);
    }
    answers(&index, 0, &[0, 1], 2, &[], (0, 0));
}

#[test]
fn the_rest_of_the_slice_is_zero() {
    answers(&paper(), 0, &[0, 1], 40, &IN_BOTH, (0, 0));
    answers(&paper(), 1, &[0, 1], 40, &IN_BOTH, (9, 14));
}
