//! The next slot of a list, from a slot on: by hand on the example of docs/FORMAT.md, and one slot after
//! the other in lists of every kind.

mod common;

use common::{example, refused, spoilt, Random, LIST_0, LIST_1, U};
use slots::{ask_owned, index_of, next, record, test, Next, Refusal, Way};

/// The slot told, where the call is accepted.
fn told(index: &[u8], name: u32, slot: u32) -> Option<u32> {
    next(index, name, slot).expect("a sound index, one of its lists, a slot of its rack").slot
}

#[test]
fn by_hand_in_a_list_of_gaps() {
    // The blocks of list 0: 1 4 5 6, 8 12 15 16, 18 20 25 26, 27 28 30.
    let index = example();
    assert_eq!(told(&index, 0, 5), Some(5), "the slot itself counts");
    assert_eq!(told(&index, 0, 7), Some(8), "behind the end of a block comes the next block");
    assert_eq!(told(&index, 0, 9), Some(12));
    assert_eq!(told(&index, 0, 30), Some(30));
    assert_eq!(told(&index, 0, 31), None);
    assert_eq!(told(&index, 0, 32), None);
}

#[test]
fn by_hand_in_a_list_of_bits_and_gaps() {
    // The bits of list 1: 3 5 12 16. Its one block: 26 30 31.
    let index = example();
    assert_eq!(told(&index, 1, 1), Some(3));
    assert_eq!(told(&index, 1, 6), Some(12));
    assert_eq!(told(&index, 1, 16), Some(16), "the last bit");
    assert_eq!(told(&index, 1, 17), Some(26), "the first slot that is no bit");
    assert_eq!(told(&index, 1, 27), Some(30));
    assert_eq!(told(&index, 1, 32), None);
}

#[test]
fn from_the_last_bits_it_goes_on_in_the_block() {
    // Byte 68 has the bits of 9 to 16: without them 3 and 5 are left before the block.
    let index = spoilt(68, 0);
    assert_eq!(told(&index, 1, 4), Some(5));
    for slot in 6..=26 {
        assert_eq!(told(&index, 1, slot), Some(26), "{slot}");
    }
}

#[test]
fn from_every_slot_of_the_example() {
    let index = example();
    for slot in 1..=U {
        for (name, list) in [(0, &LIST_0[..]), (1, &LIST_1)] {
            let least = list.iter().copied().find(|&held| held >= slot);
            assert_eq!(told(&index, name, slot), least, "list {name}, {slot}");
        }
    }
}

#[test]
fn it_is_refused_in_order() {
    // Everything is wrong at first, and then one thing after the other is put right.
    assert_eq!(next(&spoilt(110, b'S'), 2, 0), refused(Refusal::BadTag, 0));
    for slot in [0, 1, U, U + 1] {
        assert_eq!(next(&example(), 2, slot), refused(Refusal::NoList, 0));
        assert_eq!(next(&example(), u32::MAX, slot), refused(Refusal::NoList, 0));
    }
    for slot in [0, U + 1, u32::MAX] {
        for name in [0, 1] {
            assert_eq!(next(&example(), name, slot), refused(Refusal::Outside, 0));
        }
    }
    assert_eq!(next(&[], 0, 1), refused(Refusal::BadSize, 0));
}

#[test]
fn the_whole_index_is_looked_at_first() {
    // The last code of list 0 is not ended: none of the lists is answered for.
    let damaged = spoilt(54, 0x81);
    for (name, slot) in [(0, 5), (1, 5), (1, 0), (2, 5)] {
        assert_eq!(next(&damaged, name, slot), refused(Refusal::BadCode, 0));
    }
}

/// The slots of a list, told one after the other: from 1 on, and then from one above the slot told,
/// where the rack has such a slot.
fn stepped(index: &[u8], name: u32, u: u32) -> Vec<u32> {
    let mut slots = Vec::new();
    let mut from = 1;
    while from <= u {
        let Some(slot) = told(index, name, from) else { break };
        assert!(slot >= from, "a step back from {from} to {slot}, and no end of steps");
        slots.push(slot);
        from = slot + 1;
    }
    slots
}

#[test]
fn stepping_through_the_example_tells_its_lists() {
    assert_eq!(stepped(&example(), 0, U), LIST_0);
    assert_eq!(stepped(&example(), 1, U), LIST_1);
}

#[test]
fn stepping_through_a_list_tells_what_asking_for_it_alone_tells() {
    let mut random = Random(0x0E_87_A5);
    let (mut longest, mut to_the_end) = (0, 0);
    for _ in 0..400 {
        let largest = random.one_of(&[3, 40, 600]);
        let u = random.between(1, largest);
        let largest = random.one_of(&[3, 128]);
        let block = random.between(1, largest);
        let list: Vec<u32> = random.list(u).into_iter().collect();
        let any = random.between(0, u);
        let cut = random.one_of(&[0, any, u]);
        let index = index_of(u, block, &[record(u, block, cut, &list).unwrap()]).unwrap();
        let slots = stepped(&index, 0, u);
        assert_eq!(slots, ask_owned(&index, Way::Plain, &[0]).unwrap().slots, "u {u}, B {block}, cut {cut}");
        assert_eq!(slots, list, "u {u}, B {block}, cut {cut}");
        longest = longest.max(slots.len());
        to_the_end += u32::from(slots.last() == Some(&u));
    }
    // Long lists were among them, and steps that ended at the end of the rack as well as before it.
    assert!(longest > 400, "at most {longest} slots");
    assert!((40..360).contains(&to_the_end), "{to_the_end} lists with the last slot");
}

#[test]
fn every_list_of_a_small_rack_in_every_packing() {
    let u = 9;
    for held in 0..1_u32 << u {
        let list: Vec<u32> = (1..=u).filter(|slot| held >> (slot - 1) & 1 == 1).collect();
        for (block, cut) in [(1, 0), (2, 0), (3, 4), (2, 8), (1, 9)] {
            let index = index_of(u, block, &[record(u, block, cut, &list).unwrap()]).unwrap();
            for slot in 1..=u {
                let least = list.iter().copied().find(|&held| held >= slot);
                assert_eq!(told(&index, 0, slot), least, "{list:?}, B {block}, cut {cut}, {slot}");
            }
        }
    }
}

#[test]
fn a_slot_is_its_own_next_one_exactly_where_a_test_says_yes() {
    let index = example();
    for name in [0, 1] {
        for slot in 1..=U {
            let yes = test(&index, name, slot).unwrap().yes;
            assert_eq!(told(&index, name, slot) == Some(slot), yes, "list {name}, {slot}");
        }
    }
}

#[test]
fn an_answer_can_be_kept_and_compared() {
    let one: Next = next(&example(), 0, 7).unwrap();
    assert_eq!(one, next(&example(), 0, 8).unwrap());
    assert_ne!(one, next(&example(), 0, 9).unwrap());
    assert_eq!(format!("{one:?}"), "Next { slot: Some(8) }");
}
