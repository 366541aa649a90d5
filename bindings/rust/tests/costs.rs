//! Which list cost what: the looks and the codes of each position of a question. Expected values are
//! worked out by hand from the walk that docs/FORMAT.md describes.
//!
//! In the example list 1, the smaller, is the starting list where it is named. Its seven slots are tried
//! in list 0 at 9 looks and 14 codes, as docs/FORMAT.md tells. Where list 0 is named again, 5 12 16 26
//! 30 are left to be tried, at 2 2 1 2 1 looks and 2 1 3 3 2 codes. In itself list 1 costs the look at its
//! one entry that finds 26, and 0, 1 and 2 codes for 26, 30 and 31.

mod common;

use common::{example, SHARED};
use slots::{ask, ask_owned, index_of, record, Way};

/// The names, and the looks and the codes of each by skips.
type Question = (&'static [u32], &'static [u64], &'static [u64]);

const QUESTIONS: [Question; 9] = [
    (&[0, 1], &[9, 0], &[14, 0]),
    (&[1, 0], &[0, 9], &[0, 14]),
    (&[1, 0, 0], &[0, 9, 8], &[0, 14, 11]),
    (&[0, 1, 0], &[9, 0, 8], &[14, 0, 11]),
    (&[1, 0, 1], &[0, 9, 1], &[0, 14, 3]),
    (&[0, 1, 1], &[9, 0, 1], &[14, 0, 3]),
    (&[1, 1], &[0, 1], &[0, 3]),
    (&[0], &[0], &[0]),
    (&[1], &[0], &[0]),
];

#[test]
fn each_position_has_its_cost() {
    for (names, looks, codes) in QUESTIONS {
        let mut slots = [99; 15];
        let answer = ask(&example(), Way::BySkips, names, &mut slots).unwrap();
        assert_eq!((answer.looks_at(), answer.codes_at()), (looks, codes), "{names:?}");
        let answer = ask_owned(&example(), Way::BySkips, names).unwrap();
        assert_eq!((answer.looks_at(), answer.codes_at()), (looks, codes), "{names:?}");
    }
}

#[test]
fn looks_and_codes_are_the_totals() {
    for (names, looks, codes) in QUESTIONS {
        let answer = ask_owned(&example(), Way::BySkips, names).unwrap();
        assert_eq!(answer.looks, looks.iter().sum(), "{names:?}");
        assert_eq!(answer.codes, codes.iter().sum(), "{names:?}");
    }
}

#[test]
fn plainly_no_position_has_a_cost() {
    for (names, ..) in QUESTIONS {
        let answer = ask_owned(&example(), Way::Plain, names).unwrap();
        let nothing = vec![0; names.len()];
        assert_eq!((answer.looks_at(), answer.codes_at()), (&nothing[..], &nothing[..]), "{names:?}");
    }
}

#[test]
fn sixteen_names_have_sixteen_costs() {
    // The starting list stands at position 1. Then list 1 is tried at the seven positions that follow,
    // and drops nothing; then list 0, at the first of its positions with seven slots.
    let names = [0, 1].repeat(8);
    let answer = ask_owned(&example(), Way::BySkips, &names).unwrap();
    assert_eq!(answer.slots, SHARED);
    assert_eq!(answer.looks_at(), [9, 0, 8, 1, 8, 1, 8, 1, 8, 1, 8, 1, 8, 1, 8, 1]);
    assert_eq!(answer.codes_at(), [14, 0, 11, 3, 11, 3, 11, 3, 11, 3, 11, 3, 11, 3, 11, 3]);
    assert_eq!((answer.looks, answer.codes), (9 + 7 * 8 + 7, 14 + 7 * 11 + 7 * 3));
}

#[test]
fn of_two_lists_with_the_same_count_the_one_named_first_costs_nothing() {
    // One block each, 1 3 and 2 3. For 1, which lies before the block 2 3, there is 1 look and no code;
    // for 3 there is 1 look and 1 code. For 2 in the block 1 3 there is 1 look and 1 code; for 3 the
    // finger is at that block: no look, and 1 code.
    let records = [record(9, 2, 0, &[1, 3]).unwrap(), record(9, 2, 0, &[2, 3]).unwrap()];
    let index = index_of(9, 2, &records).unwrap();
    let answer = ask_owned(&index, Way::BySkips, &[0, 1]).unwrap();
    assert_eq!((answer.looks_at(), answer.codes_at()), (&[0, 2][..], &[0, 1][..]));
    let answer = ask_owned(&index, Way::BySkips, &[1, 0]).unwrap();
    assert_eq!((answer.looks_at(), answer.codes_at()), (&[0, 1][..], &[0, 2][..]));
}

#[test]
fn where_nothing_is_sought_no_position_has_a_cost() {
    // The starting list is empty.
    let records = [record(9, 2, 0, &[]).unwrap(), record(9, 2, 0, &[1, 2, 9]).unwrap()];
    let index = index_of(9, 2, &records).unwrap();
    let answer = ask_owned(&index, Way::BySkips, &[1, 0, 1]).unwrap();
    assert_eq!((answer.looks_at(), answer.codes_at()), (&[0; 3][..], &[0; 3][..]));
}

#[test]
fn an_answer_is_shown_with_a_cost_for_each_name() {
    let answer = ask_owned(&example(), Way::BySkips, &[0, 1]).unwrap();
    let shown = "{ slots: [5, 12, 16, 26, 30], looks: 9, codes: 14, looks_at: [9, 0], codes_at: [14, 0] }";
    assert_eq!(format!("{answer:?}"), format!("OwnedAnswer {shown}"));
    let mut slots = [0; 7];
    let answer = ask(&example(), Way::BySkips, &[0, 1], &mut slots).unwrap();
    assert_eq!(format!("{answer:?}"), format!("Answer {shown}"));
}
