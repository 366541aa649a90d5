//! Looking at an index and asking it. Expected values are those of docs/FORMAT.md and README.md, or are
//! worked out by hand from the walk that docs/FORMAT.md describes.

mod common;

use common::{example, refused, spoilt, LIST_0, LIST_1, SHARED};
use slots::{ask, ask_owned, index_of, look, record, OwnedAnswer, Refusal, Refused, Way};

const WAYS: [Way; 2] = [Way::Plain, Way::BySkips];

#[test]
fn the_example_is_sound() {
    assert_eq!(look(&example()), Ok(()));
}

#[test]
fn every_shorter_part_of_the_example_is_refused() {
    let index = example();
    for length in 0..index.len() {
        // A part of 24 bytes or more does not end in the tag: the example has it once, at its end.
        let refusal = if length < 24 { Refusal::BadSize } else { Refusal::BadTag };
        assert_eq!(look(&index[..length]), refused(refusal, 0), "{length} bytes");
    }
}

#[test]
fn by_skips_the_example_costs_9_looks_and_14_codes() {
    let mut slots = [99; 8];
    let answer = ask(&example(), Way::BySkips, &[0, 1], &mut slots).unwrap();
    assert_eq!(answer.slots, SHARED);
    assert_eq!((answer.looks, answer.codes), (9, 14));
    assert_eq!(slots, [5, 12, 16, 26, 30, 0, 0, 0]);
}

#[test]
fn plainly_the_example_costs_nothing() {
    let mut slots = [99; 8];
    let answer = ask(&example(), Way::Plain, &[0, 1], &mut slots).unwrap();
    assert_eq!(answer.slots, SHARED);
    assert_eq!((answer.looks, answer.codes), (0, 0));
    assert_eq!(slots, [5, 12, 16, 26, 30, 0, 0, 0]);
}

#[test]
fn the_order_of_the_names_changes_nothing_in_the_example_but_the_order_of_its_costs() {
    // List 1 is the smaller wherever it is named, so the walk is the same.
    for way in WAYS {
        let one = ask_owned(&example(), way, &[0, 1]).unwrap();
        let other = ask_owned(&example(), way, &[1, 0]).unwrap();
        assert_eq!((&other.slots, other.looks, other.codes), (&one.slots, one.looks, one.codes));
        assert!(other.looks_at().iter().rev().eq(one.looks_at()));
        assert!(other.codes_at().iter().rev().eq(one.codes_at()));
    }
}

#[test]
fn a_list_named_alone_answers_with_all_that_it_holds() {
    for way in WAYS {
        let found = ask_owned(&example(), way, &[0]).unwrap();
        assert_eq!(found.slots, LIST_0);
        assert_eq!((found.looks, found.codes), (0, 0));
    }
}

#[test]
fn a_list_named_twice_is_sought_in_itself() {
    // The candidates 3 5 12 16 are bits and cost nothing. List 1 has one block, 26 30 31. For 26 the
    // search looks at its entry (1 look) and no further, and reads no code; for 30 and 31 the finger
    // is at that block, there is no entry behind it to look at, and 1 and 2 codes are read.
    let mut slots = [99; 9];
    let answer = ask(&example(), Way::BySkips, &[1, 1], &mut slots).unwrap();
    assert_eq!(answer.slots, LIST_1);
    assert_eq!((answer.looks, answer.codes), (1, 3));
    assert_eq!(slots, [3, 5, 12, 16, 26, 30, 31, 0, 0]);
}

#[test]
fn the_room_is_that_of_the_smallest_list() {
    for way in WAYS {
        let mut slots = [99; 6];
        let answer = ask(&example(), way, &[0, 1], &mut slots);
        assert_eq!(answer, refused(Refusal::NoRoom, 7));
        assert_eq!(slots, [99; 6]);

        let mut slots = [99; 7];
        let answer = ask(&example(), way, &[0, 1], &mut slots).unwrap();
        assert_eq!(answer.slots, SHARED);
        assert_eq!(slots, [5, 12, 16, 26, 30, 0, 0]);
    }
}

#[test]
fn an_answer_is_the_front_of_the_slice_that_was_lent() {
    let mut slots = [99; 8];
    let lent = slots.as_ptr();
    let answer = ask(&example(), Way::Plain, &[1, 0], &mut slots).unwrap();
    assert!(std::ptr::eq(answer.slots.as_ptr(), lent));
}

#[test]
fn a_question_has_1_to_16_names() {
    for way in WAYS {
        let found = ask_owned(&example(), way, &[1; 16]).unwrap();
        assert_eq!(found.slots, LIST_1);
        let mut slots = [99; 8];
        let none = ask(&example(), way, &[], &mut slots);
        assert_eq!(none, refused(Refusal::BadNames, 0));
        let many = ask(&example(), way, &[1; 17], &mut slots);
        assert_eq!(many, refused(Refusal::BadNames, 0));
        assert_eq!(slots, [99; 8]);
    }
}

#[test]
fn the_first_name_that_is_no_list_is_the_place() {
    let mut slots = [99; 8];
    for (names, place) in [(&[2][..], 0), (&[0, 1, 2, 3], 2), (&[1, u32::MAX, 2], 1)] {
        let answer = ask(&example(), Way::BySkips, names, &mut slots);
        assert_eq!(answer, refused(Refusal::NoList, place));
    }
    assert_eq!(slots, [99; 8]);
}

#[test]
fn checks_come_in_their_order() {
    // Everything is wrong at first, and then one thing after the other is put right.
    let damaged = spoilt(110, b'S');
    let sound = example();
    let too_many = [2; 17];
    for way in WAYS {
        let asked = |index, names| with_no_room(index, way, names);
        assert_eq!(asked(&damaged, &too_many), refused(Refusal::BadTag, 0));
        assert_eq!(asked(&sound, &too_many), refused(Refusal::BadNames, 0));
        assert_eq!(asked(&sound, &too_many[..16]), refused(Refusal::NoList, 0));
        assert_eq!(asked(&sound, &[1]), refused(Refusal::NoRoom, 7));
    }
}

fn with_no_room(index: &[u8], way: Way, names: &[u32]) -> Result<OwnedAnswer, Refused> {
    ask(index, way, names, &mut []).map(OwnedAnswer::from)
}

#[test]
fn empty_slices_get_an_answer() {
    for way in WAYS {
        assert_eq!(ask(&[], way, &[], &mut []), refused(Refusal::BadSize, 0));
        assert_eq!(ask_owned(&[], way, &[]), refused(Refusal::BadSize, 0));
        assert_eq!(ask(&example(), way, &[], &mut []), refused(Refusal::BadNames, 0));
        assert_eq!(ask(&example(), way, &[0], &mut []), refused(Refusal::NoRoom, 15));
    }
    assert_eq!(look(&[]), refused(Refusal::BadSize, 0));
}

#[test]
fn an_empty_list_needs_no_room() {
    let records = [record(9, 2, 0, &[]).unwrap(), record(9, 2, 4, &[1, 2, 9]).unwrap()];
    let index = index_of(9, 2, &records).unwrap();
    for way in WAYS {
        let answer = ask(&index, way, &[1, 0], &mut []).unwrap();
        assert_eq!((answer.slots, answer.looks, answer.codes), (&[][..], 0, 0));
        let mut slots = [99; 3];
        assert_eq!(ask(&index, way, &[0, 1], &mut slots).unwrap().slots, []);
        assert_eq!(slots, [0; 3]);
        assert_eq!(ask_owned(&index, way, &[0, 1]).unwrap().slots, []);
        assert_eq!(ask_owned(&index, way, &[1]).unwrap().slots, [1, 2, 9]);
    }
}

#[test]
fn an_owned_answer_says_the_same_and_is_refused_the_same() {
    let index = example();
    for way in WAYS {
        let mut slots = [0; 32];
        let lent = ask(&index, way, &[0, 1], &mut slots).unwrap();
        let owned = ask_owned(&index, way, &[0, 1]).unwrap();
        assert_eq!(owned, lent.into());
        assert_eq!(owned.slots, SHARED);
        assert_eq!(ask_owned(&index, way, &[0; 17]), refused(Refusal::BadNames, 0));
        assert_eq!(ask_owned(&index, way, &[0, 2]), refused(Refusal::NoList, 1));
        assert_eq!(ask_owned(&spoilt(54, 0x80), way, &[0]), refused(Refusal::BadCode, 0));
    }
}

#[test]
fn threads_may_ask_at_once() {
    let index = example();
    let asked = || (0..1000).all(|_| ask_owned(&index, Way::BySkips, &[0, 1]).unwrap().codes == 14);
    std::thread::scope(|scope| {
        let threads = [(); 4].map(|()| scope.spawn(asked));
        assert!(threads.into_iter().all(|thread| thread.join().unwrap()));
    });
}
