//! Making an index: writing the record of a list, and closing an index over records.

use super::{cut_words, list, share_words, Group, Row};
use crate::call::Call;
use crate::rack::{Spec, U};

const LARGE: usize = 14_000_000;

pub fn groups(short: bool) -> Vec<Group> {
    let shares = [0.5, 0.05, 0.01, 0.001];
    let kinds = [0, U / 2, U].into_iter().flat_map(|cut| [(cut, 16), (cut, 128)]);
    let mut groups: Vec<Group> = kinds.flat_map(|(cut, block)| shares.map(|share| write(share, cut, block))).collect();
    for (share, cut) in [(0.5, 0), (0.01, 0), (0.001, 0), (0.5, U)] {
        groups.push(close(share, cut, None));
        groups.push(close(share, cut, Some(LARGE)));
    }
    groups.retain(|group| !short || (group.spec.fill.is_none() && group.spec.block == 128));
    groups
}

fn write(share: f64, cut: u32, block: u32) -> Group {
    let row = Row {
        topic: "write",
        rack: format!("{}, B {block}", cut_words(cut)),
        what: share_words(share),
        x: None,
        call: Call::Write { name: 0 },
    };
    Group { spec: Spec { block, lists: vec![list(share, cut)], fill: None }, rows: vec![row] }
}

fn close(share: f64, cut: u32, fill: Option<usize>) -> Group {
    let size = if fill.is_some() { "many lists" } else { "2 lists" };
    let row = Row {
        topic: "close",
        rack: format!("{size}, {}, B 128", cut_words(cut)),
        what: share_words(share),
        x: None,
        call: Call::Close,
    };
    Group { spec: Spec { block: 128, lists: vec![list(share, cut); 2], fill }, rows: vec![row] }
}
