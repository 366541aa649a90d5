//! Calls for one list: counting it, testing a slot, the next slot.

use super::{cut_words, list, share_words, Group, Row};
use crate::call::Call;
use crate::rack::{Spec, U};

/// Low, in the middle, high.
const SLOTS: [u32; 3] = [U / 100, U / 2 + 1, U - U / 100];

const SHARES: [f64; 4] = [0.5, 0.05, 0.001, 0.000_002];

pub fn groups(short: bool) -> Vec<Group> {
    let cuts: &[u32] = if short { &[U / 2] } else { &[0, U / 2, U] };
    cuts.iter().flat_map(|&cut| SHARES.map(|share| group(share, cut))).collect()
}

fn group(share: f64, cut: u32) -> Group {
    let spec = Spec { block: 64, lists: vec![list(share, cut)], fill: None };
    Group { spec, rows: rows(&share_words(share), cut) }
}

fn rows(words: &str, cut: u32) -> Vec<Row> {
    let row = |topic, what: String, call| Row {
        topic,
        rack: format!("1 list of {words}, {}, B 64", cut_words(cut)),
        what,
        x: None,
        call,
    };
    let mut rows = vec![row("count", "count".into(), Call::Count { name: 0 })];
    rows.extend(SLOTS.map(|slot| row("test", format!("slot {slot}"), Call::Test { name: 0, slot })));
    rows.extend(SLOTS.map(|slot| row("next", format!("from {slot}"), Call::Next { name: 0, slot })));
    rows
}
