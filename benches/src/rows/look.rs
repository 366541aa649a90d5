//! Looking at an index: small ones of two lists, and such as nearly fill what the format allows.

use super::{cut_words, list, share_words, Group, Row};
use crate::call::Call;
use crate::rack::{Kind, Spec, Wanted, U};

const SHARES: [f64; 7] = [0.5, 0.2, 0.05, 0.02, 0.01, 0.001, 0.0001];
const LARGE: usize = 14_000_000;

pub fn groups(short: bool) -> Vec<Group> {
    let mut groups = of_size(short, None);
    let large = of_size(short, Some(LARGE));
    // What is large takes long to make; its bits alone do not.
    groups.extend(large.into_iter().filter(|group| !short || group.spec.lists[0].cut == U));
    groups
}

fn of_size(short: bool, fill: Option<usize>) -> Vec<Group> {
    let (blocks, step): (&[u32], usize) = if short { (&[64], 3) } else { (&[16, 64, 128], 1) };
    let mut groups = Vec::new();
    for (cut, &block) in [0, U / 2].into_iter().flat_map(|cut| blocks.iter().map(move |block| (cut, block))) {
        let shares = SHARES.iter().step_by(step);
        groups.extend(shares.map(|&share| group(&share_words(share), list(share, cut), block, fill)));
    }
    groups.extend([0.5, 0.01, 0.0001].map(|share| group(&share_words(share), list(share, U), 64, fill)));
    groups.push(group("gaps 1 to 100", Wanted { kind: Kind::Gaps(100), cut: 0 }, 128, fill));
    groups
}

fn group(words: &str, wanted: Wanted, block: u32, fill: Option<usize>) -> Group {
    let size = if fill.is_some() { "many lists" } else { "2 lists" };
    let row = Row {
        topic: "look",
        rack: format!("{size}, {}, B {block}", cut_words(wanted.cut)),
        what: words.to_string(),
        x: None,
        call: Call::Look,
    };
    let spec = Spec { block, lists: vec![wanted; 2], fill };
    Group { spec, rows: vec![row] }
}
