//! Writing records and closing an index over them. Expected bytes and lengths are those of
//! docs/FORMAT.md, or are worked out by its tables.

mod common;

use common::{example, refused, BLOCK, LIST_0, LIST_1, U};
use slots::{close, index_of, look, record, write, Refusal};

/// A byte that no record and no trailer of these tests has, so that a place left alone shows.
const BEFORE: u8 = 0xA5;

#[test]
fn the_example_is_made_byte_by_byte() {
    let example = example();
    let first = record(U, BLOCK, 0, &LIST_0).unwrap();
    let second = record(U, BLOCK, 16, &LIST_1).unwrap();
    assert_eq!(first, example[..55]);
    assert_eq!(second, example[55..79]);
    assert_eq!(index_of(U, BLOCK, &[first, second]).unwrap(), example);
}

#[test]
fn the_example_is_made_in_one_buffer() {
    let mut room = [BEFORE; 120];
    assert_eq!(write(U, BLOCK, 0, &LIST_0, &mut room).unwrap().length, 55);
    assert_eq!(room[55..], [BEFORE; 65], "behind the first record");
    assert_eq!(write(U, BLOCK, 16, &LIST_1, &mut room[55..]).unwrap().length, 24);
    assert_eq!(room[79..], [BEFORE; 41], "behind the second record");
    assert_eq!(close(&mut room, U, BLOCK, 79, &[0, 55]).unwrap().length, 111);
    assert_eq!(room[..111], example());
    assert_eq!(room[111..], [BEFORE; 9], "behind the index");
}

#[test]
fn rooms_that_are_just_long_enough_will_do() {
    let mut room = [BEFORE; 24];
    assert_eq!(write(U, BLOCK, 16, &LIST_1, &mut room).unwrap().length, 24);
    assert_eq!(room, example()[55..79]);
    let mut room = [BEFORE; 111];
    room[..79].copy_from_slice(&example()[..79]);
    assert_eq!(close(&mut room, U, BLOCK, 79, &[0, 55]).unwrap().length, 111);
    assert_eq!(room[..], example());
}

#[test]
fn a_record_of_no_slots_is_its_head_and_its_bits() {
    assert_eq!(record(U, BLOCK, 0, &[]).unwrap(), [0; 12]);
    // Cut 9: two bytes of bits, none of them set.
    let bits = record(U, BLOCK, 9, &[]).unwrap();
    assert_eq!(bits, [9, 0, 0, 0, 0, 0, 0, 0, 0, 0, 0, 0, 0, 0]);
}

#[test]
fn writing_is_refused_in_order_and_leaves_the_room() {
    let mut room = [BEFORE; 23];
    let falling = [3, 5, 5];
    let cases = [
        (write(0, BLOCK, 1, &falling, &mut room), Refusal::BadRange, 0),
        (write(1_048_577, BLOCK, u32::MAX, &falling, &mut room), Refusal::BadRange, 0),
        (write(U, 0, 33, &falling, &mut room), Refusal::BadRange, 0),
        (write(U, 129, 33, &falling, &mut room), Refusal::BadRange, 0),
        (write(U, BLOCK, 33, &falling, &mut room), Refusal::BadCut, 0),
        (write(U, BLOCK, 32, &falling, &mut room), Refusal::NotRising, 2),
        (write(U, BLOCK, 0, &[0], &mut room), Refusal::NotRising, 0),
        (write(U, BLOCK, 0, &[1, 33], &mut room), Refusal::NotRising, 1),
        (write(U, BLOCK, 16, &LIST_1, &mut room), Refusal::NoRoom, 24),
    ];
    for (result, refusal, place) in cases {
        assert_eq!(result, refused(refusal, place));
    }
    assert_eq!(room, [BEFORE; 23]);
}

#[test]
fn closing_is_refused_in_order_and_leaves_the_room() {
    let mut room = [BEFORE; 111];
    room[..79].copy_from_slice(&example()[..79]);
    let before = room;
    let far = u32::MAX;
    let cases = [
        (close(&mut room, 0, BLOCK, far, &[1, 55]), Refusal::BadRange, 0),
        (close(&mut room, U, 129, far, &[1, 55]), Refusal::BadRange, 0),
        (close(&mut room, U, BLOCK, far, &[]), Refusal::BadRange, 0),
        (close(&mut room, U, BLOCK, far, &[1; 4097]), Refusal::BadRange, 0),
        (close(&mut room, U, BLOCK, far, &[1, 55]), Refusal::BadSize, 0),
        (close(&mut room[..110], U, BLOCK, 79, &[1, 55]), Refusal::NoRoom, 111),
        (close(&mut room, U, BLOCK, 79, &[1, 55]), Refusal::BadParts, 0),
        (close(&mut room, U, BLOCK, 79, &[0, 68]), Refusal::BadParts, 0),
        (close(&mut room, U, BLOCK, 79, &[0, 80]), Refusal::BadParts, 0),
        (close(&mut room, U, BLOCK, 79, &[0, 54]), Refusal::BadHead, 0),
        // List 0 fits a rack of 30 slots, and list 1 holds slot 31.
        (close(&mut room, 30, BLOCK, 79, &[0, 55]), Refusal::BadSlot, 1),
    ];
    for (result, refusal, place) in cases {
        assert_eq!(result, refused(refusal, place));
    }
    assert_eq!(room, before);
}

#[test]
fn a_record_is_refused_as_writing_is() {
    assert_eq!(record(0, 4, 1, &[0]), refused(Refusal::BadRange, 0));
    assert_eq!(record(U, BLOCK, 33, &[0]), refused(Refusal::BadCut, 0));
    assert_eq!(record(U, BLOCK, 0, &[1, 2, 2]), refused(Refusal::NotRising, 2));
}

#[test]
fn an_index_is_refused_as_closing_is() {
    let list = record(U, BLOCK, 0, &[7]).unwrap();
    let none: [Vec<u8>; 0] = [];
    assert_eq!(index_of(U, BLOCK, &none), refused(Refusal::BadRange, 0));
    assert_eq!(index_of(0, BLOCK, &[&list]), refused(Refusal::BadRange, 0));
    assert_eq!(index_of(U, BLOCK, &vec![&list; 4097]), refused(Refusal::BadRange, 0));
    assert_eq!(index_of(U, BLOCK, &[&list[..], &[]]), refused(Refusal::BadParts, 0));
    assert_eq!(index_of(U, BLOCK, &[&list[..], &list[..11]]), refused(Refusal::BadParts, 0));
    assert_eq!(index_of(U, BLOCK, &[&list[..], &list[..12]]), refused(Refusal::BadHead, 1));
    assert_eq!(index_of(6, BLOCK, &[&list]), refused(Refusal::BadSlot, 0));
}

#[test]
fn an_index_may_have_4096_lists() {
    // A record of no slots has 12 bytes, and its start another 4.
    let index = index_of(1, 1, &[[0; 12]; 4096]).unwrap();
    assert_eq!(index.len(), 4096 * 16 + 24);
    assert_eq!(look(&index), Ok(()));
}

#[test]
fn records_may_be_owned_or_lent() {
    let list = record(U, BLOCK, 0, &[7]).unwrap();
    let owned = index_of(U, BLOCK, &[list.clone(), list.clone()]).unwrap();
    let lent: [&[u8]; 2] = [&list, &list];
    assert_eq!(index_of(U, BLOCK, &lent).unwrap(), owned);
    // A record of 20 bytes (head and one entry) twice, two starts, the trailer.
    assert_eq!(owned.len(), 20 + 20 + 8 + 24);
}

#[test]
fn empty_slices_get_an_answer() {
    assert_eq!(write(U, BLOCK, 0, &[], &mut []), refused(Refusal::NoRoom, 12));
    assert_eq!(write(0, 0, 0, &[], &mut []), refused(Refusal::BadRange, 0));
    assert_eq!(close(&mut [], U, BLOCK, 0, &[]), refused(Refusal::BadRange, 0));
    // An index of one list that has no byte: its start and the trailer alone take 28.
    assert_eq!(close(&mut [], U, BLOCK, 0, &[0]), refused(Refusal::NoRoom, 28));
}
