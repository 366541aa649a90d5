//! Examples of writing records, closing an index, and how large a record can be.

use super::{paper, paper_records, rubbish_records, Page, DUST};
use crate::cases::shape::{starts, PAPER_0, PAPER_1, WILD};

/// Bytes for which there is room where an example says nothing else.
const ROOM: usize = 64;

/// Differences at which a code grows, and one beside each.
pub fn gaps(page: &mut Page) {
    for gap in [16_384, 16_385, 16_512, 128, 129] {
        let label = format!("write gap {gap}");
        page.write(&label, [40_000, 4, 0], &[1, 1 + gap], ROOM);
    }
}

/// The paper's lists, and one without slots.
pub fn records(page: &mut Page) {
    page.write("write list 1", [32, 4, 16], &PAPER_1, ROOM);
    page.write("write list 0 as bits", [32, 4, 32], &PAPER_0, ROOM);
    page.write("write nothing", [32, 4, 0], &[], 12);
    page.write("write nothing, room 11", [32, 4, 0], &[], 11);
}

/// Slots, a cut and a block length that are refused.
pub fn refusals(page: &mut Page) {
    let sizes = [32, 4, 0];
    page.write("write 5 3", sizes, &[5, 3], ROOM);
    page.write("write 40 3", sizes, &[40, 3], ROOM);
    page.write("write 0", sizes, &[0], ROOM);
    page.write("write 5 5", sizes, &[5, 5], ROOM);
    page.write("write cut 33", [32, 4, 33], &[33], ROOM);
    page.write("write B 0", [32, 0, 33], &[5, 3], ROOM);
}

/// The paper's records with bytes behind them that are to be written over.
fn buffer() -> Vec<u8> {
    let mut bytes = paper_records().concat();
    bytes.extend([DUST; 64]);
    bytes
}

/// The paper's index, closed.
pub fn closing(page: &mut Page) {
    let p = paper();
    let closed = page.close("close P", &buffer(), [32, 4, 79], &[0, 55]);
    let front = &closed[..p.len()];
    page.look("close P looks", front);
    page.keep("close P as P", &[(front == p).into()]);
}

/// The same records given with something that is refused.
pub fn closing_refused(page: &mut Page) {
    let whole = buffer();
    let sizes = [32, 4, 79];
    page.close("close no starts", &whole, sizes, &[]);
    page.close("close room 110", &whole[..110], sizes, &[0, 55]);
    for starts in [[0, 54], [1, 55], [0, 80]] {
        let label = format!("close starts {} {}", starts[0], starts[1]);
        page.close(&label, &whole, sizes, &starts);
    }
    page.close("close total 81", &whole, [32, 4, 81], &[0, 55]);
    let wild = [32, 4, 0xFFFF_FFFF];
    page.close("close total FFFFFFFF", &whole, wild, &[0, 55]);
    page.close("close B 129", &whole, [32, 129, 79], &[]);
}

/// Records of which the second has set bits behind its cut.
pub fn closing_rubbish(page: &mut Page) {
    let records = rubbish_records();
    let bytes = records.concat();
    let mut room = [DUST; 143];
    room[..bytes.len()].copy_from_slice(&bytes);
    let sizes = [32, 2, bytes.len() as u32];
    page.close("close rubbish", &room, sizes, &starts(&records));
}

/// How large a record can be: where a record is as large, where each part of the
/// sum grows, and refusals with more than one reason.
pub fn bounds(page: &mut Page) {
    page.bound([130, 128, 0, 2]);
    page.bound([129, 128, 0, 2]);
    page.bound([16_385, 1, 0, 0]);
    page.bound([16_393, 128, 9, 129]);
    page.bound([32, 4, 0, 15]);
    page.bound([32, 4, 16, 3]);
    page.bound([1_048_576, 1, 0, 1_048_576]);
    page.bound([32, 4, 16, 17]);
    page.bound([32, 4, 33, WILD]);
    page.bound([0, 4, WILD, WILD]);
}
