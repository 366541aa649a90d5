//! The paper's own examples: its index, its table T1 to T11, the other examples
//! and the slips it warns of.

use crate::tools::*;
use second::{close, count, lend, look, part, program, search, test, write, Verdict};

#[test]
fn the_index_in_full() {
    let index = paper();
    assert_eq!(index.len(), 111);
    assert_eq!(
        look(&index),
        Verdict {
            number: 0,
            place: 0
        }
    );
    answers(&index, 0, &[0], 15, &LIST_0, (0, 0));
    answers(&index, 0, &[1], 7, &LIST_1, (0, 0));
    assert_eq!(count(&index, 0), counted(0, 0, 15));
    assert_eq!(count(&index, 1), counted(0, 0, 7));
    for slot in 1..=32 {
        let in_0 = LIST_0.contains(&slot);
        let in_1 = LIST_1.contains(&slot);
        assert_eq!(test(&index, 0, slot), tested(0, 0, in_0));
        assert_eq!(test(&index, 1, slot), tested(0, 0, in_1));
    }
}

#[test]
fn its_records_are_lent() {
    let index = paper();
    assert_eq!(part(&index, 0), lies(0, 0, 0, 0x37));
    assert_eq!(lend(&index, 0), paper_0());
    assert_eq!(part(&index, 1), lies(0, 0, 0x37, 24));
    assert_eq!(lend(&index, 1), paper_1());
    assert_eq!(part(&index, 2), lies(11, 0, 0, 0));
    assert!(lend(&index, 2).is_empty());
    // What is lent is a part of the index itself.
    assert_eq!(lend(&index, 1).as_ptr(), index[0x37..].as_ptr());
}

#[test]
fn its_records_are_written_so() {
    writes([32, 4, 0], &LIST_0, &paper_0());
    writes([32, 4, 16], &LIST_1, &paper_1());
}

#[test]
fn it_is_closed_so() {
    let mut room = [paper_0(), paper_1(), vec![DUST; 32]].concat();
    assert_eq!(close(&mut room, 32, 4, 0x4F, &[0, 0x37]), wrote(0, 0, 111));
    assert_eq!(room, paper());
}

#[test]
fn t1_by_skips() {
    answers(&paper(), 1, &[0, 1], 7, &IN_BOTH, (9, 14));
    answers(&paper(), 1, &[1, 0], 7, &IN_BOTH, (9, 14));
}

#[test]
fn t1_search_by_search() {
    let entries = [1, 8, 18, 27];
    let mut finger = 0;
    let mut looks = Vec::new();
    for x in LIST_1 {
        let (j, cost) = search(|i| entries[i as usize - 1], 4, finger, x);
        finger = j;
        looks.push(cost);
    }
    assert_eq!(looks, [2, 1, 2, 1, 2, 1, 0]);
}

#[test]
fn t2_plainly() {
    answers(&paper(), 0, &[0, 1], 7, &IN_BOTH, (0, 0));
}

#[test]
fn t3_as_bits() {
    let record = [&[0x20, 0, 0, 0][..], &[0; 8], &[0x9D, 0x13, 0x50, 0xF4]].concat();
    writes([32, 4, 32], &LIST_0, &record);
    answers(&join(32, 4, &[record]), 1, &[0], 15, &LIST_0, (0, 0));
}

#[test]
fn t4_room() {
    refuses(&paper(), 1, &[0, 1], 6, 12, 7);
    answers(&paper(), 1, &[0, 1], 7, &IN_BOTH, (9, 14));
}

#[test]
fn t5_one_list() {
    answers(&paper(), 1, &[1], 7, &LIST_1, (0, 0));
}

#[test]
fn t6_one_list_twice() {
    answers(&paper(), 1, &[1, 1], 7, &LIST_1, (1, 3));
    answers(&paper(), 0, &[1, 1], 7, &LIST_1, (0, 0));
}

#[test]
fn t7_codes_of_differences() {
    let head = |n: u8, l: u8| [vec![0, 0, 0, 0, n, 0, 0, 0, l], vec![0; 3]].concat();
    let entry = hex("03000000 00000000");
    writes(
        [1000, 4, 0],
        &[3, 131],
        &[&head(2, 1)[..], &entry, &[0x7F]].concat(),
    );
    writes(
        [1000, 4, 0],
        &[3, 132],
        &[&head(2, 2)[..], &entry, &[0x80, 0x01]].concat(),
    );
    let read = |codes: &[u8]| join(1000, 4, &[gaps(2, &[(3, 0)], codes)]);
    answers(&read(&[0x7F]), 0, &[0], 2, &[3, 131], (0, 0));
    answers(&read(&[0x80, 0x01]), 0, &[0], 2, &[3, 132], (0, 0));
}

#[test]
fn t8_an_idle_last_byte() {
    let index = join(1000, 4, &[gaps(2, &[(3, 0)], &[0x80, 0x00])]);
    looks_like(&index, 8, 0);
}

#[test]
fn t9_an_empty_list() {
    writes([32, 4, 0], &[], &[0; 12]);
    let index = join(32, 4, &[paper_0(), vec![0; 12]]);
    answers(&index, 1, &[0, 1], 0, &[], (0, 0));
    answers(&index, 0, &[0, 1], 0, &[], (0, 0));
    answers(&index, 1, &[1], 3, &[], (0, 0));
    assert_eq!(count(&index, 1), counted(0, 0, 0));
}

#[test]
fn t10_no_names() {
    refuses(&paper(), 1, &[], 7, 10, 0);
    refuses(&paper(), 0, &[], 0, 10, 0);
}

#[test]
fn t11_two_searches() {
    let entries = [1, 8, 18, 27];
    let from_0 = |x| search(|i| entries[i as usize - 1], 4, 0, x);
    assert_eq!(from_0(8), (2, 4));
    assert_eq!(from_0(18), (3, 4));
    // The same two asked of the index: one candidate, found at once.
    for slot in [8, 18] {
        let index = join(32, 4, &[paper_0(), written(32, 4, 0, &[slot])]);
        answers(&index, 1, &[0, 1], 1, &[slot], (4, 0));
    }
}

#[test]
fn the_program_prints_six_lines() {
    assert_eq!(
        program(Some(&paper()), b"1 0 1"),
        b"0 0 9 14\n5\n12\n16\n26\n30\n"
    );
}

#[test]
fn sixteen_names_and_seventeen() {
    let names = [1; 17];
    answers(&paper(), 0, &names[1..], 7, &LIST_1, (0, 0));
    answers(&paper(), 1, &names[1..], 7, &LIST_1, (15, 45));
    refuses(&paper(), 0, &names, 7, 10, 0);
    refuses(&paper(), 1, &names, 7, 10, 0);
}

#[test]
fn largest_u() {
    let index = paper();
    looks_like(&put(&index, 111 - 20, 1_048_576), 0, 0);
    looks_like(&put(&index, 111 - 20, 1_048_577), 4, 0);
    writes([1_048_576, 4, 0], &[], &[0; 12]);
    writes_not([1_048_577, 4, 0], &[], 12, 4, 0);
    let mut room = vec![0; 40];
    assert_eq!(close(&mut room, 1_048_577, 4, 12, &[0]), wrote(4, 0, 0));
    assert_eq!(room, [0; 40]);
    assert_eq!(close(&mut room, 1_048_576, 4, 12, &[0]), wrote(0, 0, 40));
}

#[test]
fn longest_block() {
    let index = join(32, 128, &[vec![0; 12]]);
    looks_like(&index, 0, 0);
    looks_like(&join(32, 129, &[vec![0; 12]]), 4, 0);
    writes([32, 128, 0], &[], &[0; 12]);
    writes_not([32, 129, 0], &[], 12, 4, 0);
    let mut room = vec![0; 40];
    assert_eq!(close(&mut room, 32, 129, 12, &[0]), wrote(4, 0, 0));
    assert_eq!(close(&mut room, 32, 128, 12, &[0]), wrote(0, 0, 40));
    assert_eq!(room, index);
}

#[test]
fn too_short() {
    looks_like(&paper()[88..], 1, 0);
    looks_like(&[0; 23], 1, 0);
    looks_like(&[], 1, 0);
}

#[test]
fn slots_tested_at_the_ends() {
    let index = paper();
    assert_eq!(test(&index, 0, 32), tested(0, 0, false));
    assert_eq!(test(&index, 0, 0), tested(16, 0, false));
    assert_eq!(test(&index, 0, 33), tested(16, 0, false));
}

#[test]
fn slip_1_the_gap_without_the_one() {
    assert_eq!(test(&paper(), 0, 4), tested(0, 0, true));
    assert_eq!(test(&paper(), 0, 3), tested(0, 0, false));
}

#[test]
fn slip_2_bit_1_at_the_low_end() {
    // 28 11: from the top the bits are those of 3, 5, 12 and 16; read from the
    // other end they would be 4, 6, 9 and 13.
    let bits: Vec<u32> = (1..=16).filter(|&x| test(&paper(), 1, x).yes).collect();
    assert_eq!(bits, [3, 5, 12, 16]);
    let mut room = [DUST; 14];
    assert_eq!(write(16, 4, 16, &[1], &mut room), wrote(0, 0, 14));
    assert_eq!(&room[12..], [0x80, 0x00]);
}

#[test]
fn slip_3_the_finger_at_the_first_block() {
    // 18, 20 and 25 lie behind list 1's cut and before its first block.
    let index = join(32, 4, &[written(32, 4, 0, &[18, 20, 25]), paper_1()]);
    answers(&index, 1, &[0, 1], 3, &[], (3, 0));
    assert_eq!(search(|_| 26, 1, 0, 18), (0, 1));
}

#[test]
fn slip_4_the_finger_carried_on() {
    answers(&paper(), 1, &[1, 0, 0], 7, &IN_BOTH, (17, 25));
}

#[test]
fn slip_5_the_check_stopped_early() {
    let damaged = poke(&paper(), 54, 0x81);
    looks_like(&damaged, 8, 0);
    assert_eq!(test(&damaged, 0, 5), tested(8, 0, false));
    assert_eq!(test(&damaged, 1, 5), tested(8, 0, false));
    assert_eq!(count(&damaged, 1), counted(8, 0, 0));
    assert_eq!(part(&damaged, 1), lies(8, 0, 0, 0));
    assert!(lend(&damaged, 1).is_empty());
    refuses(&damaged, 1, &[0, 1], 9, 8, 0);
}
