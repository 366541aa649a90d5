//! Bits beyond the cut, in the last byte of a record's bits. Where one is set, every call that judges
//! the record refuses it with 17, behind 6 of the same list and before the faults of its blocks.
//!
//! What is expected follows from where bits stand: slot 1 has the top bit of the first byte.

mod common;

use common::{refused, spoilt, BLOCK, U};
use slots::{ask, ask_owned, close, count, index_of, lend, look, next, record, test, write, Refusal, Way};

/// The example with list 1 cut at 15, not at 16. The lowest bit of its two bytes of bits, 28 11, was
/// slot 16 and now lies beyond the cut.
fn rubbish() -> Vec<u8> {
    spoilt(55, 15)
}

/// The same with that bit cleared: 28 10.
fn cleared() -> Vec<u8> {
    changed(rubbish(), 68, 0x10)
}

fn changed(mut index: Vec<u8>, at: usize, byte: u8) -> Vec<u8> {
    assert_ne!(index[at], byte, "the byte at {at} is {byte} already");
    index[at] = byte;
    index
}

#[test]
fn every_call_that_takes_an_index_refuses_it() {
    let index = rubbish();
    assert_eq!(look(&index), refused(Refusal::BadBits, 1));
    // Whatever is asked, and of whichever list: the index is judged first.
    let mut slots = [99; 8];
    for way in [Way::Plain, Way::BySkips] {
        for names in [&[0, 1][..], &[0], &[9], &[]] {
            assert_eq!(ask(&index, way, names, &mut slots), refused(Refusal::BadBits, 1));
            assert_eq!(ask_owned(&index, way, names), refused(Refusal::BadBits, 1));
        }
    }
    assert_eq!(slots, [99; 8]);
    for name in [0, 1, 2] {
        assert_eq!(test(&index, name, 33), refused(Refusal::BadBits, 1));
        assert_eq!(next(&index, name, 33), refused(Refusal::BadBits, 1));
        assert_eq!(count(&index, name), refused(Refusal::BadBits, 1));
        assert_eq!(lend(&index, name), refused(Refusal::BadBits, 1));
    }
}

#[test]
fn closing_refuses_it_and_leaves_the_room() {
    let mut room = [0xA5; 111];
    room[..79].copy_from_slice(&rubbish()[..79]);
    let before = room;
    assert_eq!(close(&mut room, U, BLOCK, 79, &[0, 55]), refused(Refusal::BadBits, 1));
    assert_eq!(room, before);
    let list = &rubbish()[55..79];
    assert_eq!(index_of(U, BLOCK, &[list]), refused(Refusal::BadBits, 0));
}

#[test]
fn with_the_bit_cleared_the_index_is_sound() {
    let index = cleared();
    assert_eq!(look(&index), Ok(()));
    assert_eq!(count(&index, 1).unwrap().count, 6);
    assert!(!test(&index, 1, 16).unwrap().yes);
    assert_eq!(next(&index, 1, 13).unwrap().slot, Some(26));
    // The walk of docs/FORMAT.md without slot 16, which cost 1 look and 3 codes.
    let found = ask_owned(&index, Way::BySkips, &[0, 1]).unwrap();
    assert_eq!(found.slots, [5, 12, 26, 30]);
    assert_eq!((found.looks, found.codes), (9 - 1, 14 - 3));
    // It is the record that is written for these slots and this cut.
    let written = record(U, BLOCK, 15, &[3, 5, 12, 26, 30, 31]).unwrap();
    assert_eq!(lend(&index, 1).unwrap().record, written);
}

#[test]
fn every_bit_is_judged_by_the_cut() {
    for cut in 0..=24_u8 {
        let bytes = usize::from(cut.div_ceil(8));
        let mut list = vec![0; 12 + bytes];
        list[0] = cut;
        assert!(index_of(24, 1, &[&list]).is_ok(), "cut {cut}, no bit set");
        for slot in 1..=8 * bytes {
            let mut list = list.clone();
            list[12 + (slot - 1) / 8] = 0x80 >> ((slot - 1) % 8);
            let made = index_of(24, 1, &[list]);
            if slot <= usize::from(cut) {
                let found = ask_owned(&made.unwrap(), Way::Plain, &[0]).unwrap();
                assert_eq!(found.slots, [slot as u32], "cut {cut}");
            } else {
                assert_eq!(made, refused(Refusal::BadBits, 0), "cut {cut}, bit {slot}");
            }
        }
    }
}

#[test]
fn it_comes_behind_6_and_before_the_blocks_of_the_same_list() {
    // One code byte more than there are: the parts of list 1 do not make up its record.
    assert_eq!(look(&changed(rubbish(), 63, 3)), refused(Refusal::BadHead, 1));
    // Faults of list 1's block: its codes begin at 1; a code that ends in a zero byte; its first slot
    // is 15, which is not above the cut.
    let faults = [(73, 1, Refusal::BadBlock), (77, 0x83, Refusal::BadCode), (69, 15, Refusal::BadSlot)];
    for (at, byte, refusal) in faults {
        assert_eq!(look(&changed(cleared(), at, byte)), refused(refusal, 1));
        assert_eq!(look(&changed(rubbish(), at, byte)), refused(Refusal::BadBits, 1));
    }
    // The last code of list 0 is not ended: what is wrong with an earlier list comes first.
    assert_eq!(look(&changed(rubbish(), 54, 0x81)), refused(Refusal::BadCode, 0));
}

#[test]
fn the_first_list_that_has_a_fault_is_the_place() {
    // Three lists of 14 bytes: a head, and 28 10 for the slots 3 5 12 up to cut 13.
    let list = record(U, BLOCK, 13, &[3, 5, 12]).unwrap();
    let sound = index_of(U, BLOCK, &[&list, &list, &list]).unwrap();
    assert_eq!(look(&sound), Ok(()));
    let last = changed(sound, 41, 0x17);
    assert_eq!(look(&last), refused(Refusal::BadBits, 2));
    let two = changed(last, 27, 0x11);
    assert_eq!(look(&two), refused(Refusal::BadBits, 1));
    // A cut above u: in list 2, behind the rubbish; then in list 0, before it.
    assert_eq!(look(&changed(two.clone(), 28, 33)), refused(Refusal::BadBits, 1));
    assert_eq!(look(&changed(two, 0, 33)), refused(Refusal::BadHead, 0));
}

#[test]
fn the_longest_bits_that_have_one_are_judged_to_their_end() {
    // 1,048,575 is 8 * 131,071 + 7, so that one bit of the last byte is beyond the cut.
    let u = 1_048_575;
    let slots: Vec<u32> = (1..=u).collect();
    let mut list = record(u, 1, u, &slots).unwrap();
    assert_eq!((list.len(), list[131_083]), (12 + 131_072, 0xFE));
    assert!(index_of(u, 1, &[&list]).is_ok());
    list[131_083] = 0xFF;
    assert_eq!(index_of(u, 1, &[&list]), refused(Refusal::BadBits, 0));
}

#[test]
fn writing_clears_what_stood_there() {
    let slots = [1, 2, 3, 4, 5, 6, 7, 8];
    for (cut, bits) in (1..).zip([0x80, 0xC0, 0xE0, 0xF0, 0xF8, 0xFC, 0xFE, 0xFF]) {
        let mut room = [0xFF; 13];
        assert_eq!(write(8, 8, cut, &slots[..cut as usize], &mut room).unwrap().length, 13);
        assert_eq!(room[12], bits, "cut {cut}");
    }
}
