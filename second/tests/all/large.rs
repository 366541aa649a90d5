//! The largest numbers the paper allows.

use crate::tools::*;
use second::{close, count, next, test, write};

const MOST: u32 = 1_048_576;

#[test]
fn an_index_of_the_greatest_length() {
    // Two lists of single-slot blocks, 12 + 8n bytes each, two starts and the
    // trailer come to 16,777,216 bytes exactly.
    let all: Vec<u32> = (1..=MOST).collect();
    let most = &all[7..];
    assert_eq!(most.len(), 1_048_569);
    let total = 24 + 8 * (all.len() + most.len());
    assert_eq!(total + 32, 16_777_216);

    let mut room = vec![DUST; total + 32];
    let first = write(MOST, 1, 0, &all, &mut room);
    assert_eq!(first, wrote(0, 0, 8_388_620));
    let second = write(MOST, 1, 0, most, &mut room[8_388_620..]);
    assert_eq!(second, wrote(0, 0, 8_388_564));
    let closed = close(&mut room, MOST, 1, total as u32, &[0, 8_388_620]);
    assert_eq!(closed, wrote(0, 0, 16_777_216));
    looks_like(&room, 0, 0);
    assert_eq!(count(&room, 1), counted(0, 0, 1_048_569));

    // Slot 8 is found by looks at 1, 2, 4, 8 and 16 and the halving between
    // 8 and 16: 12, 10, 9. Each slot after it is one step on: two looks, but
    // the last has no second position left.
    let looks = 5 + 3 + 2 * 1_048_568 - 1;
    answers(&room, 1, &[0, 1], most.len(), most, (looks, 0));
    answers(&room, 0, &[0, 1], most.len(), most, (0, 0));

    // The last block's first slot made equal to the one before it.
    let at = 8_388_564 + 8_388_620 - 8;
    looks_like(&put(&room, at, MOST - 1), 9, 1);
    room.push(0);
    looks_like(&room, 1, 0);
}

#[test]
fn all_slots_in_long_blocks_and_in_bits() {
    let all: Vec<u32> = (1..=MOST).collect();
    let index = lists(MOST, 128, &[(0, &all), (MOST, &all), (524_287, &all)]);
    for name in 0..3 {
        assert_eq!(count(&index, name), counted(0, 0, MOST));
        assert_eq!(test(&index, name, MOST), tested(0, 0, true));
        assert_eq!(next(&index, name, MOST), follows(0, 0, MOST));
    }
    answers(&index, 0, &[0, 1, 2], MOST as usize, &all, (0, 0));
    refuses(&index, 1, &[0, 1, 2], MOST as usize - 1, 12, MOST);
    // Bits answer without a search.
    answers(&index, 1, &[0, 1], MOST as usize, &all, (0, 0));
}

#[test]
fn the_farthest_next_slot() {
    let last = [MOST];
    let index = lists(MOST, 128, &[(0, &last), (MOST, &last), (MOST - 1, &last)]);
    for name in 0..3 {
        for slot in [1, MOST - 1, MOST] {
            assert_eq!(next(&index, name, slot), follows(0, 0, MOST));
        }
        assert_eq!(next(&index, name, MOST + 1), follows(16, 0, 0));
    }
    let index = lists(MOST, 1, &[(0, &[1]), (MOST, &[1]), (1, &[1, 2])]);
    for name in 0..3 {
        assert_eq!(next(&index, name, 3), follows(0, 0, 0));
        assert_eq!(next(&index, name, MOST), follows(0, 0, 0));
    }
}

#[test]
fn many_lists() {
    let records: Vec<Vec<u8>> = (1..=4_096)
        .map(|slot| written(4_096, 7, slot % 9, &[slot]))
        .collect();
    let index = join(4_096, 7, &records);
    looks_like(&index, 0, 0);
    assert_eq!(test(&index, 4_095, 4_096), tested(0, 0, true));
    assert_eq!(test(&index, 4_096, 4_096), tested(11, 0, false));
    answers(&index, 0, &[4_095], 1, &[4_096], (0, 0));
}
