//! Questions: to an index of 64 lists, and to one that has only the lists named, where looking does not drown the question.

use super::{list, share_words, Group, Row};
use crate::call::Call;
use crate::rack::{Spec, Wanted, U};

const LISTS: usize = 64;
const HIGHEST: f64 = 0.5;
const LOWEST: f64 = 0.0001;

/// How the lists of an index are cut.
#[derive(Clone, Copy)]
enum Cuts {
    All(u32),
    Mixed,
}

impl Cuts {
    fn of(self, place: usize) -> u32 {
        match self {
            Cuts::All(cut) => cut,
            Cuts::Mixed => [U / 2, 0, U][place % 3],
        }
    }

    fn words(self) -> &'static str {
        match self {
            Cuts::All(cut) => super::cut_words(cut),
            Cuts::Mixed => "cuts u/2, 0, u",
        }
    }
}

/// A question: how large the shares of its lists are.
struct Question {
    words: String,
    shares: Vec<f64>,
}

pub fn groups(short: bool) -> Vec<Group> {
    let kinds = [(Cuts::All(0), 16), (Cuts::All(0), 64), (Cuts::All(0), 128), (Cuts::All(U), 64), (Cuts::Mixed, 64)];
    let mut groups = Vec::new();
    for (cuts, block) in kinds {
        let questions = questions();
        let few = questions.iter().step_by(if short { 4 } else { 1 });
        groups.extend(few.clone().map(|question| small(cuts, block, question)));
        if !short {
            groups.push(large(cuts, block, few));
        }
    }
    groups
}

/// The share of a list of the large index: they fall evenly on a scale of powers.
fn share(name: usize) -> f64 {
    HIGHEST * (LOWEST / HIGHEST).powf(name as f64 / (LISTS - 1) as f64)
}

fn questions() -> Vec<Question> {
    let alike = [0.5, 0.2, 0.05, 0.02, 0.01, 0.001, 0.0005, LOWEST];
    let mut questions: Vec<Question> =
        alike.map(|share| Question { words: format!("both {}", share_words(share)), shares: vec![share; 2] }).into();
    for (dense, thin) in [(0.5, 0.01), (0.5, LOWEST), (0.01, LOWEST)] {
        let words = format!("{} and {}", share_words(dense), share_words(thin));
        questions.push(Question { words, shares: vec![dense, thin] });
    }
    questions.push(Question { words: "4 lists".into(), shares: (0..4).map(|i| share(10 * i)).collect() });
    questions.push(Question { words: "16 lists".into(), shares: (0..16).map(|i| share(4 * i)).collect() });
    questions
}

/// Both ways of asking for these names.
fn rows(rack: &str, words: &str, names: &[u32]) -> Vec<Row> {
    let ways = [(0, "plain"), (1, "by skips")];
    let row = |(way, how): (u32, &str)| Row {
        topic: "ask",
        rack: rack.to_string(),
        what: format!("{words}, {how}"),
        x: None,
        call: Call::Ask { way, names: names.to_vec() },
    };
    ways.map(row).into()
}

/// An index of the lists named alone.
fn small(cuts: Cuts, block: u32, question: &Question) -> Group {
    let lists: Vec<Wanted> =
        question.shares.iter().enumerate().map(|(place, &share)| list(share, cuts.of(place))).collect();
    let names: Vec<u32> = (0..lists.len() as u32).collect();
    let rack = format!("only these lists, {}, B {block}", cuts.words());
    Group { rows: rows(&rack, &question.words, &names), spec: Spec { block, lists, fill: None } }
}

/// The index of 64 lists, where each question names those whose shares are nearest.
fn large<'a>(cuts: Cuts, block: u32, questions: impl Iterator<Item = &'a Question>) -> Group {
    let rack = format!("64 lists, {}, B {block}", cuts.words());
    let lists = (0..LISTS).map(|place| list(share(place), cuts.of(place))).collect();
    let rows = questions.flat_map(|question| rows(&rack, &question.words, &nearest(&question.shares)));
    Group { rows: rows.collect(), spec: Spec { block, lists, fill: None } }
}

/// Different lists of the large index whose shares are near to these. These fall, or are alike.
fn nearest(shares: &[f64]) -> Vec<u32> {
    let scale = (LOWEST / HIGHEST).ln() / (LISTS - 1) as f64;
    let mut names: Vec<u32> = Vec::new();
    for &share in shares {
        let wanted = ((share / HIGHEST).ln() / scale).round() as u32;
        let free = names.last().map_or(0, |&last| last + 1);
        names.push(wanted.max(free));
    }
    if *names.last().unwrap_or(&0) as usize >= LISTS {
        names.iter_mut().for_each(|name| *name -= 1);
    }
    names
}
