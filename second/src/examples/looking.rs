//! Examples of looking at an index.

use super::{paper, Page};
use crate::cases::shape::{gaps, one, raw, with_byte, with_number, with_start};
use crate::cases::shape::{AT_DIRECTORY, AT_EDITION, AT_K};

/// Faults that are seen before any list is read.
pub fn whole_indexes(page: &mut Page) {
    let p = paper();
    page.look("look P", &p);
    page.look("look nothing", &[]);
    page.look("look 23 bytes", &p[p.len() - 23..]);

    let empty = |u, block| one(u, block, gaps(0, &[], &[]));
    page.look("u 1048576", &empty(1_048_576, 4));
    page.look("u 1048577", &empty(1_048_577, 4));
    page.look("u 0", &empty(0, 4));
    page.look("B 128", &empty(32, 128));
    page.look("B 129", &empty(32, 129));
    page.look("B 0", &empty(32, 0));

    page.look("k 0", &with_number(&p, AT_K, 0));
    page.look("edition 2", &with_number(&p, AT_EDITION, 2));
    page.look("tag slot", &with_byte(&p, p.len() - 1, 0x74));
    page.look("D FFFFFFFF", &with_number(&p, AT_DIRECTORY, 0xFFFF_FFFF));
    page.look("first start 1", &with_start(&p, 2, 0, 1));
    page.look("falling starts", &with_start(&p, 2, 1, 0));
    page.look("short record", &with_start(&p, 2, 1, 8));
}

/// Codes that are sound and codes that are not, and the fault found first.
pub fn codes(page: &mut Page) {
    let entries = [(40, 0), (41, 1), (42, 99)];
    let faulty = gaps(5, &entries, &[0, 0]);
    page.look("order of faults", &one(32, 2, faulty));

    let coded = |codes: &[u8]| one(20_000, 2, gaps(2, &[(1, 0)], codes));
    page.look("code 80 80 01", &coded(&[0x80, 0x80, 0x01]));
    page.look("code 80 80 00", &coded(&[0x80, 0x80, 0x00]));
    page.look("code 80 00", &coded(&[0x80, 0x00]));
    page.look("code 80 80 80 01", &coded(&[0x80, 0x80, 0x80, 0x01]));
    page.look("code 80 80", &coded(&[0x80, 0x80]));
    page.look("bytes behind the codes", &coded(&[0x00, 0x00]));
}

/// Faults in the numbers of a record and in its entries.
pub fn entries(page: &mut Page) {
    let nought = gaps(1, &[(0, 0)], &[]);
    page.look("first slot 0", &one(20_000, 2, nought));

    let at_cut = raw([8, 1, 0], &[0xFF], &[(8, 0)], &[]);
    page.look("first slot at the cut", &one(32, 2, at_cut));
    let late = gaps(1, &[(1, 1)], &[0]);
    page.look("first offset 1", &one(32, 2, late));
    let back = gaps(5, &[(1, 0), (5, 1), (9, 0)], &[0, 0]);
    page.look("end before start", &one(32, 2, back));
    let endless = gaps(0xFFFF_FFFF, &[], &[]);
    page.look("n FFFFFFFF", &one(32, 2, endless));
    let tailless = gaps(0, &[], &[0]);
    page.look("L without tail", &one(32, 2, tailless));
}

/// Bits behind the cut, one by one, and cuts that leave none.
pub fn unused_bits(page: &mut Page) {
    let bits = |u, cut, bits: &[u8]| one(u, 2, raw([cut, 0, 0], bits, &[], &[]));
    for last in [0x80, 0xC0, 0xA0, 0x90, 0x88, 0x84, 0x82, 0x81] {
        let label = format!("cut 9, bits 80 {last:02X}");
        page.look(&label, &bits(32, 9, &[0x80, last]));
    }
    page.look("cut 8, bits FF", &bits(32, 8, &[0xFF]));
    page.look("cut 0, no bits", &bits(32, 0, &[]));
    page.look("cut 32, bits FF FF FF FF", &bits(32, 32, &[0xFF; 4]));
    let (full, over) = ([0xFF, 0xFF, 0xFF, 0xF8], [0xFF, 0xFF, 0xFF, 0xFC]);
    page.look("u 29, cut 29, bits FF FF FF F8", &bits(29, 29, &full));
    page.look("u 29, cut 29, bits FF FF FF FC", &bits(29, 29, &over));

    let idle = raw([9, 0, 1], &[0x80, 0xC0], &[], &[0]);
    page.look("6 and 17", &one(32, 2, idle));
    let low = raw([9, 1, 0], &[0x80, 0xC0], &[(9, 0)], &[]);
    page.look("17 and a faulty block", &one(32, 2, low));
}
