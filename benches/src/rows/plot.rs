//! The points of the plots: how looking and asking grow.

use super::{list, share_words, Group, Row};
use crate::call::Call;
use crate::rack::{Spec, Wanted, U};

const BLOCK: u32 = 64;
const WAYS: [(u32, &str); 2] = [(0, "plain"), (1, "by skips")];

pub fn groups(short: bool) -> Vec<Group> {
    let step = if short { 4 } else { 1 };
    let mut groups: Vec<Group> = (0..=10).step_by(step).map(|power| looking(1 << power)).collect();
    groups.push(naming(step));
    let candidates = [10, 30, 100, 300, 1_000, 3_000, 10_000, 30_000, 100_000, 200_000, 500_000];
    for other in [0.5, 0.01] {
        let smaller = candidates.into_iter().filter(|&many| f64::from(many) < other * f64::from(U));
        groups.extend(smaller.step_by(step).map(|many| seeking(many, other)));
    }
    groups
}

fn row(topic: &'static str, what: &str, x: u64, call: Call) -> Row {
    Row { topic, rack: format!("cut 0, B {BLOCK}"), what: what.to_string(), x: Some(x), call }
}

fn spec(lists: Vec<Wanted>) -> Spec {
    Spec { block: BLOCK, lists, fill: None }
}

/// Looking at so many lists of 1 %.
fn looking(lists: usize) -> Group {
    let row = row("plot look", "look", lists as u64, Call::Look);
    Group { spec: spec(vec![list(0.01, 0); lists]), rows: vec![row] }
}

/// Asking for 1 to 16 lists of 5 %.
fn naming(step: usize) -> Group {
    let asked = |names: u32, (way, how): (u32, &str)| {
        row("plot names", how, names.into(), Call::Ask { way, names: (0..names).collect() })
    };
    let rows = WAYS.iter().flat_map(|&way| (1..=16).step_by(step).map(move |names| asked(names, way)));
    Group { rows: rows.collect(), spec: spec(vec![list(0.05, 0); 16]) }
}

/// Asking for a list of so many slots and one of another share.
fn seeking(many: u32, other: f64) -> Group {
    let share = f64::from(many) / f64::from(U);
    let asked = |(way, how): (u32, &str)| {
        let what = format!("{}, {how}", share_words(other));
        row("plot candidates", &what, many.into(), Call::Ask { way, names: vec![0, 1] })
    };
    Group { rows: WAYS.map(asked).into(), spec: spec(vec![list(other, 0), list(share, 0)]) }
}
