//! The rows of the table one by one, for looking and for questions, and the
//! order in which faults are found.

use crate::tools::*;
use second::{count, lend, next, part, test};

/// Puts one record between two sound ones and expects the fault at list 1; and
/// the record alone, with the fault at list 0.
#[track_caller]
fn faulty(u: u32, block: u32, record: &[u8], number: u32) {
    let record = record.to_vec();
    looks_like(&join(u, block, std::slice::from_ref(&record)), number, 0);
    let empty = vec![0; 12];
    looks_like(&join(u, block, &[empty.clone(), record, empty]), number, 1);
}

#[track_caller]
fn sound(u: u32, block: u32, record: &[u8], slots: &[u32]) {
    let index = join(u, block, &[record.to_vec()]);
    looks_like(&index, 0, 0);
    answers(&index, 0, &[0], slots.len(), slots, (0, 0));
}

#[test]
fn row_1() {
    for length in 0..24 {
        looks_like(&vec![0; length], 1, 0);
    }
    looks_like(&[0; 24], 2, 0);
}

#[test]
fn row_2() {
    for at in 107..111 {
        looks_like(&poke(&paper(), at, 0x20), 2, 0);
    }
    // The tag goes before a bad edition and bad sizes.
    looks_like(&put(&poke(&paper(), 110, 0), 87, 9), 2, 0);
}

#[test]
fn row_3() {
    for edition in [0, 2, 256, 257, WILD] {
        looks_like(&put(&paper(), 87, edition), 3, 0);
        looks_like(&put(&put(&paper(), 87, edition), 91, 0), 3, 0);
    }
}

#[test]
fn row_4() {
    for u in [0, 1_048_577, 1 << 31, WILD] {
        looks_like(&put(&paper(), 91, u), 4, 0);
    }
    for block in [0, 129, 256, WILD] {
        looks_like(&put(&paper(), 95, block), 4, 0);
    }
    for k in [0, 4_097, 1 << 30, (1 << 30) + 2, WILD] {
        looks_like(&put(&paper(), 99, k), 4, 0);
    }
    // 4 goes before 5.
    looks_like(&put(&put(&paper(), 91, 0), 103, WILD), 4, 0);
}

#[test]
fn row_4_most_lists() {
    let most = vec![vec![0; 12]; 4_096];
    looks_like(&join(1, 1, &most), 0, 0);
    let more = vec![vec![0; 12]; 4_097];
    looks_like(&join(1, 1, &more), 4, 0);
}

#[test]
fn row_5_the_length() {
    for d in [0, 0x4E, 0x50, 0x53, 1 << 31, WILD - 1, WILD] {
        looks_like(&put(&paper(), 103, d), 5, 0);
    }
    // k 1 and 3 move the sum by four bytes.
    looks_like(&put(&paper(), 99, 1), 5, 0);
    looks_like(&put(&paper(), 99, 3), 5, 0);
    // A sum that would come round to the right length.
    let short = [
        &[0; 3][..],
        &[1, 0, 0, 0, 1, 0, 0, 0, 1, 0, 0, 0, 1, 0, 0, 0],
    ]
    .concat();
    let wrapped = [&short[..], &le(WILD), b"SLOT"].concat();
    assert_eq!(wrapped.len(), 27);
    looks_like(&wrapped, 5, 0);
    // The shortest trailer that asks for one list.
    looks_like(&put(&paper()[87..], 12, 1), 5, 0);
}

#[test]
fn row_5_the_starts() {
    for start in [1, 4, 0x37, WILD] {
        looks_like(&put(&paper(), 79, start), 5, 0);
    }
    for start in [0, 11, 0x4F - 11, 0x4F, 0x50, 1 << 31, WILD] {
        looks_like(&put(&paper(), 83, start), 5, 0);
    }
    // Shorter or longer parts that still have room for their heads are 6.
    for start in [12, 0x36, 0x38, 0x4F - 12] {
        looks_like(&put(&paper(), 83, start), 6, 0);
    }
    let three = join(32, 4, &vec![vec![0; 12]; 3]);
    for (second, third) in [(12, 12), (12, 35), (11, 24), (24, 12), (30, 24)] {
        looks_like(&put(&put(&three, 40, second), 44, third), 5, 0);
    }
    looks_like(&join(32, 4, &[vec![0; 11]]), 5, 0);
    looks_like(&join(32, 4, &[vec![]]), 5, 0);
}

#[test]
fn row_5_before_any_list() {
    let bad = raw(33, 0, 0, &[], &[], &[]);
    looks_like(&join(32, 4, &[bad.clone(), vec![0; 11]]), 5, 0);
    looks_like(&join(32, 4, &[bad, vec![0; 12]]), 6, 0);
}

#[test]
fn row_6() {
    // A cut above u with all the bytes it would need.
    faulty(32, 4, &raw(33, 0, 0, &[0; 5], &[], &[]), 6);
    sound(33, 4, &raw(33, 0, 0, &[0; 5], &[], &[]), &[]);
    faulty(32, 4, &raw(WILD, 0, 0, &[], &[], &[]), 6);
    // More slots in the tail than lie behind the cut.
    faulty(12, 8, &raw(8, 5, 4, &[0], &[(9, 0)], &[0; 4]), 6);
    sound(
        13,
        8,
        &raw(8, 5, 4, &[0], &[(9, 0)], &[0; 4]),
        &[9, 10, 11, 12, 13],
    );
    faulty(32, 1, &raw(0, WILD, 8, &[], &[], &[]), 6);
    faulty(8, 4, &raw(8, 1, 0, &[0], &[(9, 0)], &[]), 6);
    // Code bytes without slots.
    faulty(32, 4, &raw(0, 0, 1, &[], &[], &[0]), 6);
    faulty(32, 4, &raw(9, 0, 2, &[0, 0], &[], &[0, 0]), 6);
    // A byte more or less anywhere.
    sound(32, 4, &raw(9, 2, 1, &[0, 0], &[(10, 0)], &[0]), &[10, 11]);
    faulty(32, 4, &raw(9, 2, 2, &[0, 0], &[(10, 0)], &[0]), 6);
    faulty(32, 4, &raw(9, 2, 0, &[0, 0], &[(10, 0)], &[0]), 6);
    faulty(32, 4, &raw(8, 2, 1, &[0, 0], &[(10, 0)], &[0]), 6);
    faulty(32, 4, &raw(17, 2, 1, &[0, 0], &[(10, 0)], &[0]), 6);
    faulty(32, 4, &raw(9, 5, 1, &[0, 0], &[(10, 0)], &[0]), 6);
    // Code lengths whose sum would come round.
    faulty(32, 4, &raw(0, 1, WILD - 7, &[], &[], &[]), 6);
    faulty(32, 4, &raw(0, 1, WILD, &[], &[(3, 0)], &[]), 6);
}

#[test]
fn row_6_sums_of_blocks() {
    // Eight tail slots are two blocks of four, nine are three.
    let skips = [(1, 0), (5, 3), (9, 6)];
    sound(
        32,
        4,
        &gaps(8, &skips[..2], &[0; 6]),
        &[1, 2, 3, 4, 5, 6, 7, 8],
    );
    faulty(32, 4, &gaps(8, &skips, &[0; 6]), 6);
    faulty(32, 4, &gaps(9, &skips[..2], &[0; 6]), 6);
    sound(
        32,
        4,
        &gaps(9, &skips, &[0; 6]),
        &[1, 2, 3, 4, 5, 6, 7, 8, 9],
    );
}

#[test]
fn row_7() {
    faulty(32, 4, &gaps(2, &[(3, 1)], &[0, 0]), 7);
    faulty(32, 4, &gaps(1, &[(3, WILD)], &[]), 7);
    // The end of a middle block before its start.
    faulty(32, 2, &gaps(5, &[(1, 0), (3, 1), (5, 0)], &[0, 0]), 7);
    // The end of the first block before 0 cannot be; beyond L it can.
    faulty(32, 2, &gaps(3, &[(1, 0), (4, 2)], &[0]), 7);
    faulty(32, 2, &gaps(3, &[(1, 0), (4, WILD)], &[0]), 7);
    faulty(32, 2, &gaps(5, &[(1, 0), (3, 1), (5, 3)], &[0, 0]), 7);
    // A last block that begins at L is sound when it has one slot.
    sound(32, 2, &gaps(3, &[(1, 0), (4, 1)], &[0]), &[1, 2, 4]);
}

#[test]
fn row_8() {
    let two = |codes: &[u8]| gaps(2, &[(1, 0)], codes);
    let u = 1_048_576;
    for codes in [
        &[][..],
        &[0x80],
        &[0x80, 0x80],
        &[0x80, 0x80, 0x80],
        &[0x80, 0x00],
        &[0xFF, 0x00],
        &[0x80, 0x80, 0x00],
        &[0x80, 0x80, 0x80, 0x00],
        &[0x80, 0x80, 0x80, 0x01],
        &[0x00, 0x00],
        &[0x05, 0x80],
        &[0x80, 0x80, 0x01, 0x00],
    ] {
        faulty(u, 4, &two(codes), 8);
    }
    sound(u, 4, &two(&[0x00]), &[1, 2]);
    sound(u, 4, &two(&[0x80, 0x80, 0x01]), &[1, 16_386]);
    sound(u, 4, &two(&[0xFE, 0xFF, 0x3F]), &[1, 1_048_576]);
}

#[test]
fn row_8_within_blocks() {
    // A code begun in block 0 and ended in block 1.
    faulty(
        900,
        2,
        &gaps(4, &[(1, 0), (200, 1)], &[0x80, 0x01, 0x00]),
        8,
    );
    sound(
        900,
        2,
        &gaps(4, &[(1, 0), (200, 2)], &[0x80, 0x01, 0x00]),
        &[1, 130, 200, 201],
    );
    // Bytes in blocks that have a single slot.
    faulty(32, 1, &gaps(1, &[(5, 0)], &[0]), 8);
    faulty(32, 1, &gaps(2, &[(5, 0), (6, 1)], &[0]), 8);
    faulty(32, 2, &gaps(3, &[(1, 0), (4, 1)], &[0, 0]), 8);
    // Too few codes in the first block, too many in the second.
    faulty(32, 3, &gaps(6, &[(1, 0), (9, 1)], &[0, 0, 0, 0]), 8);
}

#[test]
fn row_9() {
    let u = 32;
    for first in [0, 33, WILD] {
        faulty(u, 4, &gaps(1, &[(first, 0)], &[]), 9);
    }
    sound(u, 4, &gaps(1, &[(1, 0)], &[]), &[1]);
    sound(u, 4, &gaps(1, &[(32, 0)], &[]), &[32]);
    // Up to the cut.
    for first in [0, 1, 8, 9] {
        faulty(u, 4, &raw(9, 1, 0, &[0, 0], &[(first, 0)], &[]), 9);
    }
    sound(u, 4, &raw(9, 1, 0, &[0, 0], &[(10, 0)], &[]), &[10]);
    // Up to the last slot of the block before, which is 7.
    for first in [0, 3, 6, 7] {
        faulty(u, 2, &gaps(3, &[(3, 0), (first, 1)], &[3]), 9);
    }
    sound(u, 2, &gaps(3, &[(3, 0), (8, 1)], &[3]), &[3, 7, 8]);
    // Codes that lead above u.
    faulty(u, 4, &gaps(2, &[(30, 0)], &[2]), 9);
    sound(u, 4, &gaps(2, &[(30, 0)], &[1]), &[30, 32]);
    faulty(u, 4, &gaps(2, &[(30, 0)], &[0xFF, 0xFF, 0x7F]), 9);
    faulty(u, 4, &gaps(3, &[(30, 0)], &[1, 0]), 9);
}

/// A byte whose first `used` bits are set and no others.
fn front(used: u32) -> u8 {
    [0x80, 0xC0, 0xE0, 0xF0, 0xF8, 0xFC, 0xFE][used as usize - 1]
}

#[test]
fn row_17_each_bit_behind_the_cut() {
    // The last of one to four bytes has `used` bits up to the cut, set or not.
    for (whole, used) in (0..4).flat_map(|whole| (1..8).map(move |used| (whole, used))) {
        let cut = 8 * whole as u32 + used;
        let all: Vec<u32> = (1..=cut).collect();
        let list = |last: u8| {
            let bits = [&vec![0xFF; whole][..], &[last]].concat();
            raw(cut, 1, 0, &bits, &[(40, 0)], &[])
        };
        sound(40, 4, &list(front(used)), &[&all[..], &[40]].concat());
        sound(40, 4, &list(0), &[&all[..8 * whole], &[40]].concat());
        for bit in [0x40, 0x20, 0x10, 0x08, 0x04, 0x02, 0x01] {
            if bit & front(used) == 0 {
                faulty(40, 4, &list(bit), 17);
                faulty(40, 4, &list(front(used) | bit), 17);
            }
        }
        faulty(40, 4, &list(0xFF), 17);
        faulty(40, 4, &list(!front(used)), 17);
    }
}

#[test]
fn row_17_where_no_bit_is_left_over() {
    sound(32, 4, &raw(0, 0, 0, &[], &[], &[]), &[]);
    // All bits that follow the bit part belong to an entry.
    let record = raw(0, 1, 0, &[], &[(0xFFFFF, 0)], &[]);
    sound(1 << 20, 4, &record, &[0xFFFFF]);
    let record = raw(8, 1, 0, &[0x01], &[(0xFFFFF, 0)], &[]);
    sound(1 << 20, 4, &record, &[8, 0xFFFFF]);
    for bytes in 1..6 {
        let all: Vec<u32> = (1..=8 * bytes).collect();
        let bits = vec![0xFF; bytes as usize];
        let record = raw(8 * bytes, 0, 0, &bits, &[], &[]);
        sound(8 * bytes, 4, &record, &all);
        sound(8 * bytes + 1, 4, &record, &all);
    }
}

#[test]
fn row_17_where_the_cut_is_u() {
    let all: Vec<u32> = (1..=29).collect();
    let list = |last: u8| raw(29, 0, 0, &[0xFF, 0xFF, 0xFF, last], &[], &[]);
    sound(29, 4, &list(0xF8), &all);
    for last in [0xFC, 0xFA, 0xF9, 0xFF] {
        faulty(29, 4, &list(last), 17);
    }
    sound(1, 1, &raw(1, 0, 0, &[0x80], &[], &[]), &[1]);
    for bits in [0xC0, 0x40, 0x81, 0x01, 0xFF] {
        faulty(1, 1, &raw(1, 0, 0, &[bits], &[], &[]), 17);
    }
}

#[test]
fn row_17_behind_6() {
    let bits = [0x80, 0xC0];
    faulty(32, 4, &raw(9, 0, 0, &bits, &[], &[]), 17);
    // Code bytes without slots, n too large, a byte more, a byte less.
    faulty(32, 4, &raw(9, 0, 1, &bits, &[], &[0]), 6);
    faulty(9, 4, &raw(9, 1, 0, &bits, &[(10, 0)], &[]), 6);
    faulty(32, 4, &raw(9, 0, 0, &[0x80, 0xC0, 0], &[], &[]), 6);
    faulty(32, 4, &raw(9, 2, 1, &bits, &[(10, 0)], &[]), 6);
    // A cut above u has the bits it asks for, and some behind it.
    faulty(8, 4, &raw(9, 0, 0, &bits, &[], &[]), 6);
    // One byte of bits where the cut asks for two.
    faulty(32, 4, &raw(9, 0, 0, &[0xFF], &[], &[]), 6);
}

#[test]
fn row_17_before_the_blocks() {
    for (number, skips, codes) in [
        (7, (10, 1), &[][..]),
        (7, (10, WILD), &[]),
        (8, (10, 0), &[0x00]),
        (9, (9, 0), &[]),
        (9, (33, 0), &[]),
    ] {
        let list = |last: u8| raw(9, 1, codes.len() as u32, &[0x80, last], &[skips], codes);
        faulty(32, 4, &list(0x80), number);
        faulty(32, 4, &list(0x00), number);
        faulty(32, 4, &list(0xC0), 17);
        faulty(32, 4, &list(0x01), 17);
    }
    let list = |last: u8| raw(9, 1, 0, &[0x80, last], &[(10, 0)], &[]);
    sound(32, 4, &list(0x80), &[1, 9, 10]);
    faulty(32, 4, &list(0x81), 17);
}

#[test]
fn row_17_in_every_operation() {
    let dirty = raw(9, 1, 0, &[0x80, 0xA0], &[(12, 0)], &[]);
    let index = join(32, 4, &[gaps(1, &[(12, 0)], &[]), dirty]);
    for name in [0, 1, 2, WILD] {
        assert_eq!(test(&index, name, 12), tested(17, 1, false));
        assert_eq!(test(&index, name, 0), tested(17, 1, false));
        assert_eq!(next(&index, name, 12), follows(17, 1, 0));
        assert_eq!(next(&index, name, 0), follows(17, 1, 0));
        assert_eq!(count(&index, name), counted(17, 1, 0));
        assert_eq!(part(&index, name), lies(17, 1, 0, 0));
        assert!(lend(&index, name).is_empty());
        for way in [0, 1, 2] {
            refuses(&index, way, &[name], 3, 17, 1);
            refuses(&index, way, &[0, name], 0, 17, 1);
        }
    }
}

#[test]
fn faults_in_their_order() {
    let u = 32;
    // One block's end, first slot, codes and remaining bytes.
    faulty(u, 2, &gaps(4, &[(40, 0), (5, 9)], &[0, 0]), 7);
    faulty(u, 4, &gaps(2, &[(40, 1)], &[0x80]), 7);
    faulty(u, 4, &gaps(2, &[(40, 0)], &[0x80]), 9);
    faulty(u, 4, &gaps(1, &[(40, 0)], &[0x00]), 9);
    faulty(u, 4, &gaps(2, &[(20, 0)], &[0xFF, 0xFF, 0xFF]), 8);
    faulty(u, 4, &gaps(2, &[(20, 0)], &[0xFF, 0xFF, 0x00]), 8);
    faulty(u, 4, &gaps(3, &[(20, 0)], &[0x20, 0x80]), 9);
    faulty(u, 4, &gaps(3, &[(20, 0)], &[0x80, 0x20]), 9);
    faulty(u, 4, &gaps(3, &[(20, 0)], &[0x00, 0x80]), 8);
    faulty(u, 4, &gaps(2, &[(20, 0)], &[0x20, 0x00]), 9);
    // One block before the next.
    faulty(u, 2, &gaps(5, &[(40, 0), (41, 1), (42, 99)], &[0, 0]), 9);
    faulty(u, 2, &gaps(5, &[(1, 0), (5, 1), (9, 77)], &[0x80, 0]), 8);
    faulty(u, 2, &gaps(4, &[(1, 0), (40, 2)], &[0, 0]), 8);
    faulty(u, 2, &gaps(5, &[(1, 0), (2, 1), (9, 0)], &[0, 0]), 7);
    faulty(u, 2, &gaps(5, &[(1, 0), (2, 1), (9, 2)], &[0, 0]), 9);
}

#[test]
fn lists_in_their_order() {
    let six = raw(33, 0, 0, &[], &[], &[]);
    let seven = gaps(1, &[(3, 5)], &[]);
    let eight = gaps(1, &[(3, 0)], &[0]);
    let nine = gaps(1, &[(33, 0)], &[]);
    let dirty = raw(9, 0, 0, &[0x80, 0x40], &[], &[]);
    let good = gaps(1, &[(3, 0)], &[]);
    let kinds = [
        (6, &six),
        (7, &seven),
        (8, &eight),
        (9, &nine),
        (17, &dirty),
    ];
    for (first, a) in kinds {
        for (_, b) in kinds {
            let index = join(32, 4, &[good.clone(), a.clone(), good.clone(), b.clone()]);
            looks_like(&index, first, 1);
        }
    }
}

#[test]
fn questions_in_their_order() {
    let index = paper();
    let seventeen = [9; 17];
    let damaged = poke(&index, 54, 0x81);
    refuses(&damaged, 2, &[], 0, 8, 0);
    refuses(&index[1..], 2, &[], 0, 5, 0);
    refuses(&index[88..], 2, &[], 3, 1, 0);
    for way in [2, 3, 256, WILD] {
        refuses(&index, way, &[0, 1], 7, 14, 0);
        refuses(&index, way, &[], 0, 14, 0);
        refuses(&index, way, &seventeen, 2, 14, 0);
        refuses(&index, way, &[2], 0, 14, 0);
    }
    for way in [0, 1] {
        refuses(&index, way, &seventeen, 0, 10, 0);
        refuses(&index, way, &[], 5, 10, 0);
        refuses(&index, way, &[2], 0, 11, 0);
        refuses(&index, way, &[WILD, 5, 0], 9, 11, 0);
        refuses(&index, way, &[0, 1, 2, 9], 0, 11, 2);
        refuses(&index, way, &[0, 0, 0, 0, 0, WILD], 99, 11, 5);
        refuses(&index, way, &[0, 1], 0, 12, 7);
        refuses(&index, way, &[0], 14, 12, 15);
        refuses(&index, way, &[1, 1, 1], 6, 12, 7);
    }
}

#[test]
fn testing_in_its_order() {
    let index = paper();
    let damaged = poke(&index, 69, 16);
    assert_eq!(test(&damaged, 9, 99), tested(9, 1, false));
    assert_eq!(test(&index, 2, 0), tested(11, 0, false));
    assert_eq!(test(&index, WILD, WILD), tested(11, 0, false));
    assert_eq!(test(&index, 1, 0), tested(16, 0, false));
    assert_eq!(test(&index, 1, WILD), tested(16, 0, false));
    assert_eq!(test(&index, 1, 31), tested(0, 0, true));
}

#[test]
fn counting_and_lending() {
    let index = paper();
    let damaged = poke(&index, 63, 3);
    for name in [0, 1, 2, WILD] {
        assert_eq!(count(&damaged, name), counted(6, 1, 0));
        assert_eq!(part(&damaged, name), lies(6, 1, 0, 0));
        assert!(lend(&damaged, name).is_empty());
    }
    for name in [2, 3, WILD] {
        assert_eq!(count(&index, name), counted(11, 0, 0));
        assert_eq!(part(&index, name), lies(11, 0, 0, 0));
        assert!(lend(&index, name).is_empty());
    }
}
