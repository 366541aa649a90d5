//! Testing, counting and lending: the calls about one list, but for `next`, which has a file of its own.
//! What is expected stands in docs/FORMAT.md.

mod common;

use common::{example, refused, spoilt, LIST_0, LIST_1, U};
use slots::{count, lend, test, Refusal};

#[test]
fn a_test_says_what_a_list_holds() {
    let index = example();
    for slot in 1..=U {
        assert_eq!(test(&index, 0, slot).unwrap().yes, LIST_0.contains(&slot), "list 0, {slot}");
        assert_eq!(test(&index, 1, slot).unwrap().yes, LIST_1.contains(&slot), "list 1, {slot}");
    }
}

#[test]
fn a_test_is_refused_in_order() {
    let damaged = spoilt(110, b'S');
    assert_eq!(test(&damaged, 2, 0), refused(Refusal::BadTag, 0));
    assert_eq!(test(&example(), 2, 0), refused(Refusal::NoList, 0));
    for slot in [0, U + 1, u32::MAX] {
        assert_eq!(test(&example(), 1, slot), refused(Refusal::Outside, 0));
    }
    assert_eq!(test(&[], 0, 1), refused(Refusal::BadSize, 0));
}

#[test]
fn a_count_is_how_many_slots_a_list_holds() {
    assert_eq!(count(&example(), 0).unwrap().count, 15);
    assert_eq!(count(&example(), 1).unwrap().count, 7);
}

#[test]
fn a_count_is_refused_in_order() {
    assert_eq!(count(&spoilt(110, b'S'), 2), refused(Refusal::BadTag, 0));
    assert_eq!(count(&example(), 2), refused(Refusal::NoList, 0));
    assert_eq!(count(&example(), u32::MAX), refused(Refusal::NoList, 0));
    assert_eq!(count(&[], 0), refused(Refusal::BadSize, 0));
}

#[test]
fn a_lent_record_is_part_of_the_index() {
    let index = example();
    let first = lend(&index, 0).unwrap();
    assert_eq!(first.start, 0);
    assert!(std::ptr::eq(first.record, &index[..55]));
    let second = lend(&index, 1).unwrap();
    assert_eq!(second.start, 55);
    assert!(std::ptr::eq(second.record, &index[55..79]));
}

#[test]
fn a_lent_record_lives_as_long_as_the_index() {
    let index = example();
    let record = {
        let lent = lend(&index, 1).unwrap();
        lent.record
    };
    assert_eq!(record[..4], [16, 0, 0, 0], "the cut of list 1");
}

#[test]
fn lending_is_refused_as_counting_is() {
    for index in [example(), spoilt(54, 0x80), spoilt(55, 33), vec![], vec![0; 24]] {
        for name in [2, 3, u32::MAX] {
            let refused = count(&index, name).unwrap_err();
            assert_eq!(lend(&index, name), Err(refused));
        }
    }
    assert_eq!(lend(&example(), 2), refused(Refusal::NoList, 0));
    assert_eq!(lend(&spoilt(55, 33), 0), refused(Refusal::BadHead, 1));
    assert_eq!(lend(&[], 0), refused(Refusal::BadSize, 0));
}
