//! The largest rack, the largest index and sums beyond it. Lengths and costs are worked out by hand from
//! docs/FORMAT.md; how is said at each.

mod common;

use common::refused;
use slots::{ask, ask_owned, count, index_of, lend, look, next, record, test, write, Refusal, Way};

/// The most slots that a rack may have.
const MOST: u32 = 1_048_576;

fn all() -> Vec<u32> {
    (1..=MOST).collect()
}

#[test]
fn a_full_rack_is_asked_both_ways() {
    let all = all();
    // Bits: a head of 12 bytes and an eighth of a byte for each slot.
    let bits = record(MOST, 128, MOST, &all).unwrap();
    assert_eq!(bits.len(), 12 + 131_072);
    // Gaps: 8,192 blocks, each with an entry of 8 bytes and 127 codes of one byte.
    let gaps = record(MOST, 128, 0, &all).unwrap();
    assert_eq!(gaps.len(), 12 + 8_192 * (8 + 127));
    let index = index_of(MOST, 128, &[bits, gaps]).unwrap();
    assert_eq!(count(&index, 0).unwrap().count, MOST);
    assert_eq!(count(&index, 1).unwrap().count, MOST);

    let found = ask_owned(&index, Way::Plain, &[0, 1]).unwrap();
    assert!(found.slots == all);
    assert_eq!((found.looks, found.codes), (0, 0));

    // Of two lists with the same count the one named first gives the candidates. Sought in bits they
    // cost nothing. Sought in gaps, the first slot of a block costs 2 looks, at its own entry and at
    // the next, and the other 127 cost 1 look each, at the next; behind the last block there is no
    // entry, which saves a look for each of its slots. The slot at position t of its block costs t codes.
    let found = ask_owned(&index, Way::BySkips, &[1, 0]).unwrap();
    assert!(found.slots == all);
    assert_eq!((found.looks, found.codes), (0, 0));
    let found = ask_owned(&index, Way::BySkips, &[0, 1]).unwrap();
    assert!(found.slots == all);
    assert_eq!(found.looks, 8_192 * (2 + 127) - 128);
    assert_eq!(found.codes, 8_192 * (127 * 128 / 2));
    assert_eq!((found.looks_at(), found.codes_at()), (&[0, found.looks][..], &[0, found.codes][..]));
}

#[test]
fn the_room_for_a_full_rack_is_the_rack() {
    let index = index_of(MOST, 1, &[record(MOST, 1, MOST, &all()).unwrap()]).unwrap();
    let mut slots = vec![7; MOST as usize - 1];
    let answer = ask(&index, Way::BySkips, &[0], &mut slots);
    assert_eq!(answer, refused(Refusal::NoRoom, MOST));
    assert!(slots.iter().all(|&slot| slot == 7));
    slots.push(7);
    assert_eq!(ask(&index, Way::BySkips, &[0], &mut slots).unwrap().slots.len(), MOST as usize);
}

#[test]
fn a_gap_of_three_bytes_is_read_back() {
    // From slot 1 to the last one it is 1,048,575 steps: the code has three bytes.
    let list = record(MOST, 2, 0, &[1, MOST]).unwrap();
    assert_eq!(list.len(), 12 + 8 + 3);
    let index = index_of(MOST, 2, &[list]).unwrap();
    assert_eq!(ask_owned(&index, Way::Plain, &[0]).unwrap().slots, [1, MOST]);
    assert!(test(&index, 0, MOST).unwrap().yes);
    assert!(!test(&index, 0, MOST - 1).unwrap().yes);
    assert_eq!(test(&index, 0, MOST + 1), refused(Refusal::Outside, 0));
    assert_eq!(next(&index, 0, 2).unwrap().slot, Some(MOST));
    assert_eq!(next(&index, 0, MOST).unwrap().slot, Some(MOST));
    assert_eq!(next(&index, 0, MOST + 1), refused(Refusal::Outside, 0));
}

#[test]
fn the_next_slot_is_told_across_the_longest_bits() {
    // List 0 has its first and its last slot as bits, list 1 the first alone.
    let records = [record(MOST, 1, MOST, &[1, MOST]).unwrap(), record(MOST, 1, MOST, &[1]).unwrap()];
    let index = index_of(MOST, 1, &records).unwrap();
    for (name, last) in [(0, Some(MOST)), (1, None)] {
        assert_eq!(next(&index, name, 1).unwrap().slot, Some(1));
        for slot in [2, 8, 9, MOST - 8, MOST - 7, MOST] {
            assert_eq!(next(&index, name, slot).unwrap().slot, last, "list {name}, {slot}");
        }
    }
}

#[test]
fn what_lies_beyond_the_largest_rack_is_refused() {
    let mut slots = all();
    slots.push(MOST + 1);
    assert_eq!(record(MOST + 1, 1, 0, &slots), refused(Refusal::BadRange, 0));
    assert_eq!(record(MOST, 1, MOST + 1, &slots), refused(Refusal::BadCut, 0));
    assert_eq!(write(MOST, 1, 0, &slots, &mut []), refused(Refusal::NotRising, MOST));
}

#[test]
fn the_largest_index_is_accepted_and_a_larger_one_is_not() {
    // With blocks of one slot a list of gaps has 12 bytes and 8 for each slot. Two lists, two starts
    // and the trailer: 2 * 12 + 2 * 4 + 24 = 56, and 16,777,216 - 56 = 8 * (1,048,576 + 1,048,569).
    let all = all();
    let full = record(MOST, 1, 0, &all).unwrap();
    let most = record(MOST, 1, 0, &all[..1_048_569]).unwrap();
    let index = index_of(MOST, 1, &[&full, &most]).unwrap();
    assert_eq!(index.len(), 16_777_216);
    assert_eq!(look(&index), Ok(()));
    assert!(std::ptr::eq(lend(&index, 1).unwrap().record, &index[8_388_620..16_777_184]));
    let found = ask_owned(&index, Way::BySkips, &[0, 1]).unwrap();
    assert!(found.slots == all[..1_048_569]);

    let more = record(MOST, 1, 0, &all[..1_048_570]).unwrap();
    assert_eq!(index_of(MOST, 1, &[&full, &more]), refused(Refusal::BadSize, 0));
}

#[test]
fn a_sum_beyond_u32_is_too_large_and_never_wraps() {
    // 4,096 times 2^20 bytes are 2^32, which a u32 would hold as 0; and 4,294,967,295 is the last
    // sum that fits.
    let mebi = vec![0; 1 << 20];
    let mut records = vec![&mebi[..]; 4096];
    assert_eq!(index_of(MOST, 1, &records), refused(Refusal::BadSize, 0));
    assert_eq!(index_of(MOST + 1, 1, &records), refused(Refusal::BadRange, 0));
    assert_eq!(index_of(MOST, 0, &records), refused(Refusal::BadRange, 0));
    records[0] = &mebi[1..];
    assert_eq!(index_of(MOST, 1, &records), refused(Refusal::BadSize, 0));
    records.push(&mebi);
    assert_eq!(index_of(MOST, 1, &records), refused(Refusal::BadRange, 0));
}
