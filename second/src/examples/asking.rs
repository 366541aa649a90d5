//! Examples of questions, of the operations on one list, and of the search.

use super::{paper, rubbish_records, Page};
use crate::bytes::put_number;
use crate::cases::shape::{index, record, with_byte, PAPER_0};
use crate::look::open;
use crate::search::search;

const PLAIN: u32 = 0;
const SKIPS: u32 = 1;
/// Slots for which there is room where an example says nothing else.
const ROOM: usize = 64;

/// Questions to the paper's index.
pub fn questions(page: &mut Page) {
    let p = paper();
    let names: Vec<u32> = (0..17).map(|i| i % 2).collect();
    page.ask("16 names", &p, SKIPS, &names[..16], ROOM);
    page.ask("17 names", &p, SKIPS, &names, ROOM);
    page.ask("17 names, way 2", &p, 2, &names, ROOM);
    page.ask("way 2", &p, 2, &[0, 1], ROOM);
    page.ask("no names, way 0", &p, PLAIN, &[], ROOM);
    page.ask("names 0 2 1 2", &p, SKIPS, &[0, 2, 1, 2], ROOM);
    page.ask("room 6, way 0", &p, PLAIN, &[0, 1], 6);
    page.ask("room 0, name 1", &p, SKIPS, &[1], 0);
    page.ask("names 0 1, way 0", &p, PLAIN, &[0, 1], ROOM);
    page.ask("names 1 0 0", &p, SKIPS, &[1, 0, 0], ROOM);
    page.ask("names 1 1", &p, SKIPS, &[1, 1], ROOM);
    costs(page, &p, &names);
}

/// What each position of such a question costs; `alternating` has 17 names.
fn costs(page: &mut Page, p: &[u8], alternating: &[u32]) {
    page.costs("costs 0 1", p, SKIPS, &[0, 1], ROOM);
    page.costs("costs 1 0", p, SKIPS, &[1, 0], ROOM);
    page.costs("costs 1 0 0", p, SKIPS, &[1, 0, 0], ROOM);
    page.costs("costs 1 1", p, SKIPS, &[1, 1], ROOM);
    page.costs("costs 0 1, way 0", p, PLAIN, &[0, 1], ROOM);
    page.costs("costs 16 names", p, SKIPS, &alternating[..16], ROOM);
    page.costs("costs 17 names", p, SKIPS, alternating, ROOM);
    page.costs("costs room 6", p, SKIPS, &[0, 1], 6);
    let damaged = with_byte(p, 54, 0x81);
    page.costs("costs byte 54 is 81", &damaged, SKIPS, &[0, 1], ROOM);
}

/// Testing, counting and lending, on the paper's index and on a damaged one;
/// counting one list that is cut in many ways; and the next slot on all of these.
pub fn single_lists(page: &mut Page) {
    let p = paper();
    for (slot, list) in [(32, 0), (0, 0), (33, 0), (30, 1), (1, 2)] {
        page.test(&format!("slot {slot} in list {list}"), &p, list, slot);
    }
    for list in 0..3 {
        page.count(&format!("count list {list}"), &p, list);
    }
    for list in 0..3 {
        page.part(&format!("part list {list}"), &p, list);
    }
    let damaged = with_byte(&p, 54, 0x81);
    page.test("byte 54 is 81, slot 5", &damaged, 0, 5);
    page.count("byte 54 is 81, count list 1", &damaged, 1);
    let lists = sevenths();
    count_sevenths(page, &lists);
    nexts(page, &p);
    next_sevenths(page, &lists);
}

/// Cuts at and beside the ends of 8, 9 and 16 bytes of bits, and at u.
const CUTS: [u32; 7] = [63, 64, 71, 72, 127, 128, 196];

/// One list cut in all these ways.
fn sevenths() -> Vec<u8> {
    let slots: Vec<u32> = (7..=196).step_by(7).collect();
    index(196, 128, &CUTS.map(|cut| record(196, 128, cut, &slots)))
}

fn count_sevenths(page: &mut Page, lists: &[u8]) {
    for (list, cut) in (0..).zip(CUTS) {
        page.count(&format!("every seventh slot, cut {cut}"), lists, list);
    }
}

/// The next slot on the paper's index, and on it with one byte changed.
fn nexts(page: &mut Page, p: &[u8]) {
    let asked = [(5, 0), (7, 0), (9, 0), (31, 0), (6, 1), (17, 1), (32, 1)];
    let refused = [(0, 0), (33, 0), (33, 2)];
    for (slot, list) in asked.into_iter().chain(refused) {
        page.next(&format!("next from {slot} in list {list}"), p, list, slot);
    }
    let damaged = with_byte(p, 54, 0x81);
    page.next("byte 54 is 81, next from 5", &damaged, 0, 5);
    // The second byte of list 1's bits: 12 and 16 are gone.
    let fewer = with_byte(p, 68, 0);
    page.next("byte 68 is 0, next from 6", &fewer, 1, 6);
}

/// The next slot where the bits end before it, and where it is their last.
fn next_sevenths(page: &mut Page, lists: &[u8]) {
    for (list, slot) in [(4, 127), (6, 190)] {
        let cut = CUTS[list as usize];
        let label = format!("every seventh slot, cut {cut}, next from {slot}");
        page.next(&label, lists, list, slot);
    }
}

/// The search alone: where every entry is its own position, and in list 0 of
/// the paper's index.
pub fn searches(page: &mut Page) {
    let position = |i: u32| i;
    for x in [4, 5, 6] {
        let found = search(position, 6, 0, x);
        page.found(&format!("six entries, x {x}"), found);
    }
    for (finger, x) in [(0, 13), (5, 30), (0, 40), (5, 5), (40, 40)] {
        let found = search(position, 40, finger, x);
        page.found(&format!("forty entries, finger {finger}, x {x}"), found);
    }

    let p = paper();
    let Ok(opened) = open(&p) else {
        unreachable!("the paper's index is sound");
    };
    let list = &opened.records[0];
    let entry = |i: u32| list.first(i as usize - 1);
    for x in [7, 8, 18] {
        let found = search(entry, list.blocks() as u32, 0, x);
        page.found(&format!("list 0, x {x}"), found);
    }
}

/// Questions to lists made for showing one rule each.
pub fn made_lists(page: &mut Page) {
    let seven = record(32, 4, 0, &[7]);
    let sought = index(32, 4, &[record(32, 4, 0, &PAPER_0), seven]);
    page.ask("7 sought in list 0", &sought, SKIPS, &[0, 1], ROOM);

    let first = record(32, 1, 0, &[7, 8, 9, 10]);
    let second = record(32, 1, 0, &[1, 2, 3, 4]);
    let ties = index(32, 1, &[first, second]);
    page.ask("ties 0 1", &ties, SKIPS, &[0, 1], ROOM);
    page.ask("ties 1 0", &ties, SKIPS, &[1, 0], ROOM);
    page.costs("costs ties 0 1", &ties, SKIPS, &[0, 1], ROOM);
    page.costs("costs ties 1 0", &ties, SKIPS, &[1, 0], ROOM);

    let all: Vec<u32> = (1..=26).collect();
    let even: Vec<u32> = (2..=24).step_by(2).collect();
    let lists: [&[u32]; 3] = [&[4, 9, 16, 25], &all, &even];
    let rising = index(32, 2, &lists.map(|slots| record(32, 2, 0, slots)));
    page.ask("rising counts", &rising, SKIPS, &[0, 1, 2], ROOM);
    let label = "rising counts, names 2 1 0";
    page.ask(label, &rising, SKIPS, &[2, 1, 0], ROOM);
    page.costs("costs rising counts", &rising, SKIPS, &[0, 1, 2], ROOM);
    let label = "costs rising counts, names 2 1 0";
    page.costs(label, &rising, SKIPS, &[2, 1, 0], ROOM);
    rubbish(page);
}

/// Set bits behind a cut, met by every operation, and behind another fault.
fn rubbish(page: &mut Page) {
    let mut dirty = index(32, 2, &rubbish_records());
    page.look("rubbish behind the cut, look", &dirty);
    page.ask("rubbish behind the cut", &dirty, SKIPS, &[0, 1], ROOM);
    page.count("rubbish behind the cut, count list 1", &dirty, 1);
    page.test("rubbish behind the cut, test 3 in list 0", &dirty, 0, 3);
    page.part("rubbish behind the cut, part of list 1", &dirty, 1);
    put_number(&mut dirty, 12, 0);
    page.look("rubbish in list 1, a fault in list 0", &dirty);
}
