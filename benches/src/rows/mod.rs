//! What is timed: groups of rows, each group over one index.

mod ask;
mod look;
mod make;
mod one;
mod plot;

use crate::call::Call;
use crate::rack::{Kind, Spec, Wanted, U};

/// One line of a table, or one point of a plot.
pub struct Row {
    pub topic: &'static str,
    /// The index, in words.
    pub rack: String,
    /// What it is asked, in words; in a plot, the line.
    pub what: String,
    /// Where a point of a plot lies.
    pub x: Option<u64>,
    pub call: Call,
}

impl Row {
    pub fn id(&self) -> String {
        let x = self.x.map(|x| format!(", {x}")).unwrap_or_default();
        format!("{}: {}: {}{x}", self.topic, self.rack, self.what)
    }
}

/// Rows over one index. How long looking at it takes is measured in the same rounds, so that it can be taken off.
pub struct Group {
    pub spec: Spec,
    pub rows: Vec<Row>,
}

/// All groups, or of every topic the few that a short run has.
pub fn all(short: bool) -> Vec<Group> {
    let mut groups = look::groups(short);
    groups.extend(ask::groups(short));
    groups.extend(one::groups(short));
    groups.extend(make::groups(short));
    groups.extend(plot::groups(short));
    groups
}

/// Where a list is cut, in words.
fn cut_words(cut: u32) -> &'static str {
    match cut {
        0 => "cut 0",
        U => "cut u",
        _ => "cut u/2",
    }
}

fn share_words(share: f64) -> String {
    format!("{} %", (share * 1e6).round() / 1e4)
}

fn list(share: f64, cut: u32) -> Wanted {
    Wanted { kind: Kind::Share(share), cut }
}
