//! From slots to an answer: lists are written one after the other into one
//! room, the index is closed there, and questions are put to it. What each call
//! leaves is what the next one is lent. The answer is known from the slots
//! alone, as sets.

use crate::case::{Call, Case};
use crate::make::{once_in, some_shelf, Shelf};
use second::random::Random;
use std::collections::BTreeSet;

pub fn chain(random: &mut Random) -> Vec<Case> {
    let shelf = some_shelf(random);
    if shelf.k() > 12 {
        return Vec::new();
    }
    let behind = random.between(0, 9) as usize;
    let mut room = random.bytes(shelf.index().len() + behind);
    let mut cases = Vec::new();
    let mut starts = Vec::new();
    let mut at = 0;
    for i in 0..shelf.lists.len() {
        let case = written(random, &shelf, i, room[at..].to_vec());
        let after = case.outcome().after;
        let length = shelf.lists[i].bytes().len();
        room[at..].copy_from_slice(&after.bytes);
        starts.push(at as u32);
        at += length;
        cases.push(case);
    }
    let case = closed(random, &shelf, room, at as u32, starts);
    room = case.outcome().after.bytes;
    cases.push(case);
    room.truncate(room.len() - behind);
    for _ in 0..3 {
        cases.push(asked(random, &shelf, room.clone()));
    }
    cases
}

fn written(random: &mut Random, shelf: &Shelf, i: usize, room: Vec<u8>) -> Case {
    let call = Call::Write {
        u: shelf.u,
        block: shelf.block,
        cut: shelf.lists[i].cut,
    };
    Case::new("end to end: write", call, room)
        .given(shelf.held[i].clone())
        .out(random)
        .accepted()
}

fn closed(random: &mut Random, shelf: &Shelf, room: Vec<u8>, total: u32, starts: Vec<u32>) -> Case {
    let call = Call::Close {
        u: shelf.u,
        block: shelf.block,
        total,
    };
    Case::new("end to end: close", call, room)
        .given(starts)
        .out(random)
        .accepted()
}

fn asked(random: &mut Random, shelf: &Shelf, index: Vec<u8>) -> Case {
    let many = random.between(1, 5);
    let names: Vec<u32> = (0..many).map(|_| random.below(shelf.k())).collect();
    let counts = names.iter().map(|&name| shelf.count(name));
    let room = counts.min().unwrap_or(0) + random.below(3) as usize;
    let way = u32::from(!once_in(random, 3));
    let known = common(shelf, &names);
    let mut case = Case::new("end to end: ask", Call::Ask { way }, index)
        .given(names)
        .room(random, room)
        .out(random)
        .accepted();
    case.known = Some(known);
    case
}

/// What the lists have in common.
fn common(shelf: &Shelf, names: &[u32]) -> Vec<u32> {
    let mut sets = names
        .iter()
        .map(|&name| shelf.held[name as usize].iter().copied())
        .map(BTreeSet::from_iter);
    let first: BTreeSet<u32> = sets.next().unwrap_or_default();
    let common = sets.fold(first, |all, set| &all & &set);
    common.into_iter().collect()
}
