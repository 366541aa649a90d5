//! Closing an index: its bytes, and the refusals in their order.

use crate::tools::*;
use second::close;

/// The paper's records with some bytes behind them.
fn room(behind: usize) -> Vec<u8> {
    [paper_0(), paper_1(), vec![DUST; behind]].concat()
}

/// Closes what must be refused, and checks the buffer is as before.
#[track_caller]
fn closes_not(before: &[u8], sizes: [u32; 3], starts: &[u32], number: u32, place: u32) {
    let [u, block, total] = sizes;
    let mut room = before.to_vec();
    let answer = close(&mut room, u, block, total, starts);
    assert_eq!(answer, wrote(number, place, 0));
    assert_eq!(room, before);
}

#[test]
fn the_papers_index() {
    for spare in [0, 1, 50] {
        let mut room = room(32 + spare);
        assert_eq!(close(&mut room, 32, 4, 79, &[0, 55]), wrote(0, 0, 111));
        assert_eq!(room[..111], paper());
        assert_eq!(room[111..], vec![DUST; spare]);
    }
}

#[test]
fn one_empty_list() {
    let mut room = vec![0; 40];
    assert_eq!(close(&mut room, 1, 1, 12, &[0]), wrote(0, 0, 40));
    let ending = hex("00000000 01000000 01000000 01000000 01000000 0C000000 534C4F54");
    assert_eq!(room[12..], ending);
}

#[test]
fn bits_behind_the_cut() {
    let sizes = [32, 4, 79];
    // With cut 15 the last bit of 28 11, that of slot 16, lies behind it.
    let dirty = poke(&room(32), 55, 15);
    closes_not(&dirty, sizes, &[0, 55], 17, 1);
    let mut clean = poke(&dirty, 68, 0x10);
    let before = clean.clone();
    assert_eq!(close(&mut clean, 32, 4, 79, &[0, 55]), wrote(0, 0, 111));
    assert_eq!(clean[..79], before[..79]);
    answers(&clean, 0, &[1], 6, &[3, 5, 12, 26, 30, 31], (0, 0));

    // Behind list 1's 6 and list 0's 9, before list 1's own 7, 8 and 9.
    closes_not(&poke(&dirty, 63, 3), sizes, &[0, 55], 6, 1);
    closes_not(&poke(&dirty, 12, 0), sizes, &[0, 55], 9, 0);
    closes_not(&poke(&dirty, 73, 1), sizes, &[0, 55], 17, 1);
    closes_not(&poke(&dirty, 78, 0x80), sizes, &[0, 55], 17, 1);
    closes_not(&poke(&dirty, 69, 15), sizes, &[0, 55], 17, 1);
    // Behind the checks that are no list's.
    closes_not(&dirty, [0, 4, 79], &[0, 55], 4, 0);
    closes_not(&dirty[..110], sizes, &[0, 55], 12, 111);
    closes_not(&dirty, sizes, &[0, 54, 55], 12, 115);
    closes_not(&dirty, sizes, &[1, 55], 5, 0);
}

#[test]
fn bits_behind_the_cut_in_the_first_list() {
    let list = |last: u8| raw(9, 0, 0, &[0x80, last], &[], &[]);
    let bytes = |first: u8, second: u8| {
        let records = [list(first), list(second)];
        [&records.concat()[..], &[DUST; 40]].concat()
    };
    closes_not(&bytes(0xC0, 0x80), [9, 4, 28], &[0, 14], 17, 0);
    closes_not(&bytes(0x81, 0xFF), [9, 4, 28], &[0, 14], 17, 0);
    closes_not(&bytes(0x80, 0x01), [9, 4, 28], &[0, 14], 17, 1);
    // 17 of list 0 before 6 of list 1, whose bytes are one too many.
    closes_not(&bytes(0xC0, 0x80), [9, 4, 29], &[0, 14], 17, 0);
    closes_not(&bytes(0x80, 0x80), [9, 4, 29], &[0, 14], 6, 1);
    let mut sound = bytes(0x80, 0x00);
    assert_eq!(close(&mut sound, 9, 4, 28, &[0, 14]), wrote(0, 0, 60));
}

#[test]
fn sizes() {
    for u in [0, 1_048_577, WILD] {
        closes_not(&room(32), [u, 4, 79], &[0, 55], 4, 0);
    }
    for block in [0, 129, WILD] {
        closes_not(&room(32), [32, block, 79], &[0, 55], 4, 0);
    }
    closes_not(&room(32), [32, 4, 79], &[], 4, 0);
    closes_not(&[], [32, 4, 0], &[], 4, 0);
    closes_not(&room(32), [32, 4, WILD], &vec![0; 4_097], 4, 0);
    // As many lists as may be are 12 without enough room.
    let most = vec![0; 4_096];
    closes_not(&room(32), [32, 4, 79], &most, 12, 79 + 4 * 4_096 + 24);
}

#[test]
fn finished_length() {
    for total in [WILD, WILD - 27, 1 << 31, 16_777_216 - 27] {
        closes_not(&room(32), [32, 4, total], &[0], 1, 0);
    }
    closes_not(&room(32), [32, 4, 16_777_216 - 28], &[0], 12, 16_777_216);
    closes_not(&room(32), [32, 4, 16_777_216 - 31], &[0, 55], 1, 0);
    closes_not(&room(31), [32, 4, 79], &[0, 55], 12, 111);
    closes_not(&[], [32, 4, 0], &[0], 12, 28);
}

#[test]
fn starts() {
    for starts in [
        &[1, 55][..],
        &[55, 0],
        &[WILD, 55],
        &[0, 0],
        &[0, 11],
        &[0, 68],
        &[0, 79],
        &[0, 80],
        &[0, WILD],
        &[0, 55, 55],
        &[0, 55, 30],
        &[0, 55, 66],
    ] {
        closes_not(&room(99), [32, 4, 79], starts, 5, 0);
    }
    closes_not(&room(99), [32, 4, 11], &[0], 5, 0);
    closes_not(&room(99), [32, 4, 0], &[0], 5, 0);
    closes_not(&room(99), [32, 4, 66], &[0, 55], 5, 0);
}

#[test]
fn records() {
    let sizes = [32, 4, 79];
    closes_not(&room(99), [32, 4, 78], &[0, 55], 6, 1);
    closes_not(&room(99), [32, 4, 80], &[0, 55], 6, 1);
    closes_not(&room(99), [32, 4, 67], &[0, 55], 6, 1);
    closes_not(&room(99), sizes, &[0], 6, 0);
    closes_not(&room(99), sizes, &[0, 54], 6, 0);
    closes_not(&room(99), [32, 3, 79], &[0, 55], 6, 0);
    closes_not(&poke(&room(32), 16, 1), sizes, &[0, 55], 7, 0);
    closes_not(&poke(&room(32), 40, 2), sizes, &[0, 55], 7, 0);
    closes_not(&poke(&room(32), 73, 1), sizes, &[0, 55], 7, 1);
    closes_not(&poke(&room(32), 54, 0x81), sizes, &[0, 55], 8, 0);
    closes_not(&poke(&room(32), 78, 0x80), sizes, &[0, 55], 8, 1);
    closes_not(&poke(&room(32), 12, 0), sizes, &[0, 55], 9, 0);
    closes_not(&poke(&room(32), 69, 16), sizes, &[0, 55], 9, 1);
    closes_not(&room(32), [30, 4, 79], &[0, 55], 9, 1);
}

#[test]
fn refusals_in_their_order() {
    let damaged = poke(&room(31), 54, 0x81);
    closes_not(&damaged, [0, 4, WILD], &[3], 4, 0);
    closes_not(&damaged, [32, 4, WILD], &[3], 1, 0);
    closes_not(&damaged, [32, 4, 79], &[3, 2], 12, 111);
    let damaged = poke(&room(32), 54, 0x81);
    closes_not(&damaged, [32, 4, 79], &[3, 2], 5, 0);
    closes_not(&damaged, [32, 4, 79], &[0, 55], 8, 0);
}
