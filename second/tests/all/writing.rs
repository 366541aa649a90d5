//! Writing a record: its bytes, and the refusals in their order.

use crate::tools::*;

#[test]
fn blocks_and_offsets() {
    // Cut 3 within a byte; the tail 5 8 9 300 20000 in blocks of two.
    let record = raw(
        3,
        5,
        3,
        &[0xA0],
        &[(5, 0), (9, 1), (20_000, 3)],
        &[0x02, 0xA2, 0x02],
    );
    writes([20_000, 2, 3], &[1, 3, 5, 8, 9, 300, 20_000], &record);
}

#[test]
fn cut_at_u_and_within_a_byte() {
    let record = raw(11, 0, 0, &[0x80, 0x20], &[], &[]);
    writes([11, 4, 11], &[1, 11], &record);
    writes([11, 4, 9], &[], &raw(9, 0, 0, &[0, 0], &[], &[]));
    writes([1, 1, 1], &[1], &raw(1, 0, 0, &[0x80], &[], &[]));
    writes([1, 1, 0], &[1], &raw(0, 1, 0, &[], &[(1, 0)], &[]));
}

#[test]
fn first_and_last_slot() {
    let u = 1_048_576;
    let record = raw(0, 2, 3, &[], &[(1, 0)], &[0xFE, 0xFF, 0x3F]);
    writes([u, 128, 0], &[1, u], &record);
    let single = raw(0, 2, 0, &[], &[(1, 0), (u, 0)], &[]);
    writes([u, 1, 0], &[1, u], &single);
}

#[test]
fn refusals() {
    for u in [0, 1_048_577, WILD] {
        writes_not([u, 4, 0], &[], 12, 4, 0);
    }
    for block in [0, 129, WILD] {
        writes_not([32, block, 0], &[], 12, 4, 0);
    }
    for cut in [33, 1 << 31, WILD] {
        writes_not([32, 4, cut], &[1], 99, 15, 0);
    }
    writes_not([32, 4, 0], &[5, 3], 99, 13, 1);
    writes_not([32, 4, 0], &[40, 3], 99, 13, 0);
    writes_not([32, 4, 0], &[0], 99, 13, 0);
    writes_not([32, 4, 0], &[0, 0], 99, 13, 0);
    writes_not([32, 4, 0], &[33], 99, 13, 0);
    writes_not([32, 4, 0], &[WILD], 99, 13, 0);
    writes_not([32, 4, 0], &[1, 2, 2, 3], 99, 13, 2);
    writes_not([32, 4, 16], &[1, 2, 20, 19], 99, 13, 3);
    writes_not([32, 4, 32], &[1, 2, 32, 33], 99, 13, 3);
    writes_not([32, 4, 32], &[1, 0, 32, 33], 99, 13, 1);
    writes_not([32, 4, 0], &[], 11, 12, 12);
    writes_not([32, 4, 0], &[], 0, 12, 12);
    writes_not([32, 4, 9], &[], 13, 12, 14);
    writes_not([32, 4, 0], &LIST_0, 54, 12, 55);
    writes_not([32, 4, 16], &LIST_1, 23, 12, 24);
}

#[test]
fn refusals_in_their_order() {
    writes_not([0, 4, 33], &[5, 3], 0, 4, 0);
    writes_not([32, 0, 33], &[5, 3], 0, 4, 0);
    writes_not([32, 4, 33], &[5, 3], 0, 15, 0);
    writes_not([32, 4, 32], &[5, 3], 0, 13, 1);
    writes_not([32, 4, 32], &[3, 5], 0, 12, 16);
}
