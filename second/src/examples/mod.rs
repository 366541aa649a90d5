//! The worked examples, each with the answer this implementation gives.
//!
//! An example is a line: its name, a colon and the values of the answer, each
//! behind one space. All values are decimal but the bytes of a written record,
//! which are hexadecimal and stand together.

mod asking;
mod looking;
mod writing;

use crate::cases::shape::{index, raw};
use crate::{ask, bound, close, count, look, next, part, test, write};

/// All examples, always in this order.
pub fn all() -> Vec<String> {
    let mut page = Page { lines: Vec::new() };
    looking::whole_indexes(&mut page);
    asking::questions(&mut page);
    asking::single_lists(&mut page);
    asking::searches(&mut page);
    asking::made_lists(&mut page);
    looking::codes(&mut page);
    looking::entries(&mut page);
    looking::unused_bits(&mut page);
    writing::gaps(&mut page);
    writing::records(&mut page);
    writing::refusals(&mut page);
    writing::closing(&mut page);
    writing::closing_refused(&mut page);
    writing::closing_rubbish(&mut page);
    writing::bounds(&mut page);
    page.lines
}

/// The paper's index, put together from the parts printed there, so that no
/// example about reading rests on how this implementation writes.
pub fn paper() -> Vec<u8> {
    index(32, 4, &paper_records())
}

fn paper_records() -> [Vec<u8>; 2] {
    let entries = [(1, 0), (8, 3), (18, 6), (27, 9)];
    let codes = [2, 0, 0, 3, 2, 0, 1, 4, 0, 0, 1];
    [
        raw([0, 15, 11], &[], &entries, &codes),
        raw([16, 3, 2], &[0x28, 0x11], &[(26, 0)], &[3, 0]),
    ]
}

/// Two lists of which list 1 has all bits set behind its cut, which is 11: from
/// the top its second bit byte has the bits 9, 10, 11 and five that are no slot's.
fn rubbish_records() -> [Vec<u8>; 2] {
    let few = [(3, 0), (12, 1), (22, 2)];
    let many = [(13, 0), (20, 1), (31, 2)];
    [
        raw([0, 5, 2], &[], &few, &[7, 0]),
        raw([11, 5, 2], &[0x60, 0x20 | 0x1F], &many, &[0, 1]),
    ]
}

/// Runs the operations and keeps the lines.
struct Page {
    lines: Vec<String>,
}

impl Page {
    fn keep(&mut self, label: &str, values: &[u64]) {
        let words: Vec<String> = values.iter().map(u64::to_string).collect();
        self.lines.push(format!("{label}: {}", words.join(" ")));
    }

    fn look(&mut self, label: &str, index: &[u8]) {
        let a = look(index);
        self.keep(label, &[a.number, a.place].map(u64::from));
    }

    fn ask(&mut self, label: &str, index: &[u8], way: u32, names: &[u32], room: usize) {
        let mut slots = vec![u32::MAX; room];
        let a = ask(index, way, names, &mut slots);
        let mut values = [a.number, a.place, a.count].map(u64::from).to_vec();
        values.extend([a.looks, a.codes]);
        let answer = &slots[..a.count as usize];
        values.extend(answer.iter().map(|&slot| u64::from(slot)));
        self.keep(label, &values);
    }

    /// What each position of a question costs: all sixteen places of looks, then
    /// of codes.
    fn costs(&mut self, label: &str, index: &[u8], way: u32, names: &[u32], room: usize) {
        let mut slots = vec![u32::MAX; room];
        let a = ask(index, way, names, &mut slots);
        let mut values = [a.number, a.place].map(u64::from).to_vec();
        values.extend(a.looks_at);
        values.extend(a.codes_at);
        self.keep(label, &values);
    }

    fn test(&mut self, label: &str, index: &[u8], name: u32, slot: u32) {
        let a = test(index, name, slot);
        self.keep(label, &[a.number, a.place, a.yes.into()].map(u64::from));
    }

    fn next(&mut self, label: &str, index: &[u8], name: u32, slot: u32) {
        let a = next(index, name, slot);
        self.keep(label, &[a.number, a.place, a.slot].map(u64::from));
    }

    fn count(&mut self, label: &str, index: &[u8], name: u32) {
        let a = count(index, name);
        self.keep(label, &[a.number, a.place, a.count].map(u64::from));
    }

    fn part(&mut self, label: &str, index: &[u8], name: u32) {
        let a = part(index, name);
        let values = [a.number, a.place, a.start, a.length];
        self.keep(label, &values.map(u64::from));
    }

    fn found(&mut self, label: &str, (j, looks): (u32, u64)) {
        self.keep(label, &[j.into(), looks]);
    }

    fn write(&mut self, label: &str, sizes: [u32; 3], slots: &[u32], room: usize) {
        let [u, block, cut] = sizes;
        let mut buffer = vec![DUST; room];
        let a = write(u, block, cut, slots, &mut buffer);
        self.keep(label, &[a.number, a.place, a.length].map(u64::from));
        if a.number == 0 {
            let record = &buffer[..a.length as usize];
            let bytes: String = record.iter().map(|byte| format!("{byte:02x}")).collect();
            let line = self.lines.last_mut().expect("the line just kept");
            *line += &format!(" {bytes}");
        }
    }

    /// The label tells all that is given.
    fn bound(&mut self, given: [u32; 4]) {
        let [u, block, cut, n] = given;
        let label = format!("bound {u} {block} {cut} {n}");
        let a = bound(u, block, cut, n);
        self.keep(&label, &[a.number, a.place, a.bytes].map(u64::from));
    }

    /// Also gives what the buffer holds afterwards.
    fn close(&mut self, label: &str, before: &[u8], sizes: [u32; 3], starts: &[u32]) -> Vec<u8> {
        let [u, block, total] = sizes;
        let mut buffer = before.to_vec();
        let a = close(&mut buffer, u, block, total, starts);
        self.keep(label, &[a.number, a.place, a.length].map(u64::from));
        buffer
    }
}

/// What buffers hold before anything is written to them.
const DUST: u8 = 0xA5;
