//! Questions to sound indexes.

use crate::case::{Call, Case, Verdict};
use crate::make::{apart, few, gallop, once_in, one_of, some_shelf, Shelf, WILD};
use second::random::Random;

/// A question to any shelf.
pub fn question(random: &mut Random) -> Case {
    let shelf = some_shelf(random);
    let names = some_names(random, &shelf);
    let way = some_way(random);
    asked(random, "a question", &shelf, way, names)
}

/// A question by skips whose searches go far.
pub fn far(random: &mut Random) -> Case {
    let shelf = gallop(random);
    let names = one_of(random, &[[0, 1], [1, 0]]).to_vec();
    asked(random, "long searches", &shelf, 1, names)
}

/// A question by skips that seeks few slots in many blocks, alone or behind another
/// list's turn.
pub fn seldom(random: &mut Random) -> Case {
    let shelf = few(random);
    let names = one_of(random, &[&[0, 1], &[1, 0], &[0, 2, 1][..], &[1, 2, 0]]).to_vec();
    asked(random, "few slots in many blocks", &shelf, 1, names)
}

/// A question, by either way, about slots that lie 16,384 apart.
pub fn strides(random: &mut Random) -> Case {
    let shelf = apart(random);
    let names = one_of(
        random,
        &[&[0, 1], &[1, 0], &[1, 2], &[0, 2, 1][..], &[1, 2, 0]],
    )
    .to_vec();
    let way = random.below(2);
    asked(random, "slots 16,384 apart", &shelf, way, names)
}

fn some_way(random: &mut Random) -> u32 {
    match random.below(20) {
        0 | 1 => one_of(random, &[2, 3, 256, 1 << 31, WILD]),
        2..=6 => 0,
        _ => 1,
    }
}

/// Names: mostly two to five good ones; also none, 16, 17 and more, repeated
/// ones, and now and then bad ones among them.
fn some_names(random: &mut Random, shelf: &Shelf) -> Vec<u32> {
    let many = match random.below(40) {
        0 => 0,
        1 => 16,
        2 => 17,
        3 => random.between(18, 40),
        4..=6 => 1,
        7..=10 => random.between(6, 15),
        _ => random.between(2, 5),
    };
    let k = shelf.k();
    let mut names: Vec<u32> = (0..many).map(|_| random.below(k)).collect();
    if k > many && once_in(random, 2) {
        names = (0..many).map(|i| (i + k / 2) % k).collect();
    }
    if many > 0 && once_in(random, 8) {
        for _ in 0..random.between(1, 2) {
            let at = one_of(random, &[0, many - 1, many / 2]);
            names[at as usize] = one_of(random, &[k, k, k + 1, 4_096, 1 << 31, WILD]).max(k);
        }
    }
    names
}

/// The question with some room, and what it must be answered.
fn asked(
    random: &mut Random,
    kind: &'static str,
    shelf: &Shelf,
    way: u32,
    names: Vec<u32>,
) -> Case {
    let need = needed(shelf, &names);
    let room = some_room(random, need, shelf.u as usize);
    let reasons = reasons(shelf, way, &names, room, need);
    Case::new(kind, Call::Ask { way }, shelf.index())
        .given(names)
        .room(random, room)
        .out(random)
        .refused_by(&reasons)
}

/// How many slots the smallest of the lists has. Names that are refused count nothing.
fn needed(shelf: &Shelf, names: &[u32]) -> usize {
    let good = names.iter().filter(|&&name| name < shelf.k());
    good.map(|&name| shelf.count(name)).min().unwrap_or(0)
}

/// Room: exact, one less, more, or none.
fn some_room(random: &mut Random, need: usize, u: usize) -> usize {
    match random.below(16) {
        0 | 1 => need.saturating_sub(1),
        2 => 0,
        3 => need / 2,
        4 => u.min(3_000),
        5..=9 => need,
        _ => need + random.between(1, 9) as usize,
    }
}

/// The reasons to refuse a question, in the paper's order.
fn reasons(shelf: &Shelf, way: u32, names: &[u32], room: usize, need: usize) -> Vec<Verdict> {
    let mut reasons = Vec::new();
    if way > 1 {
        reasons.push((14, 0));
    }
    if names.is_empty() || names.len() > 16 {
        reasons.push((10, 0));
    }
    if let Some(at) = names.iter().position(|&name| name >= shelf.k()) {
        reasons.push((11, at as u32));
    }
    if room < need {
        reasons.push((12, need as u32));
    }
    reasons
}
