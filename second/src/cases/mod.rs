//! Cases to be tried on another implementation, with the answers of this one.
//!
//! A case is a line of fields parted by single spaces: the operation, what it
//! is given, what it answers, and behind a `#` what the case is there for.
//! Bytes are hexadecimal and numbers decimal, parted by commas; an empty one of
//! either is `-`. The README tells the fields of each operation.

mod asking;
mod bills;
mod bounds;
mod costs;
mod looking;
mod nexts;
mod others;
pub(crate) mod shape;

use crate::random::Random;
use crate::{ask, bound, close, count, lend, look, next, part, program, read_line, test, write};

/// All cases, the same on every run.
pub fn all() -> Vec<String> {
    let mut deck = Deck { lines: Vec::new() };
    let mut random = Random::new(0x510_7510_7510_7510);
    looking::add(&mut deck, &mut random);
    asking::add(&mut deck, &mut random);
    others::add(&mut deck, &mut random);
    costs::add(&mut deck, &mut random);
    bounds::add(&mut deck);
    nexts::add(&mut deck);
    bills::add(&mut deck, &mut random);
    deck.lines
}

/// Runs the operations and keeps the lines.
struct Deck {
    lines: Vec<String>,
}

impl Deck {
    fn keep(&mut self, operation: &str, fields: &[String], label: &str) {
        let fields = fields.join(" ");
        self.lines.push(format!("{operation} {fields} # {label}"));
    }

    fn look(&mut self, label: &str, index: &[u8]) {
        let a = look(index);
        let fields = [hex(index), a.number.to_string(), a.place.to_string()];
        self.keep("look", &fields, label);
    }

    fn ask(&mut self, label: &str, index: &[u8], way: u32, names: &[u32], before: &[u32]) {
        let mut slots = before.to_vec();
        let a = ask(index, way, names, &mut slots);
        // A refusal tells no costs at all.
        let told = if a.number == 0 { names.len() } else { 0 };
        let fields = [
            hex(index),
            way.to_string(),
            numbers(names),
            numbers(before),
            a.number.to_string(),
            a.place.to_string(),
            a.count.to_string(),
            a.looks.to_string(),
            a.codes.to_string(),
            numbers(&a.looks_at[..told]),
            numbers(&a.codes_at[..told]),
            numbers(&slots),
        ];
        self.keep("ask", &fields, label);
    }

    fn test(&mut self, label: &str, index: &[u8], name: u32, slot: u32) {
        let a = test(index, name, slot);
        let told = [a.number, a.place, u32::from(a.yes)];
        self.keep("test", &of_slot(index, name, slot, &told), label);
    }

    fn next(&mut self, label: &str, index: &[u8], name: u32, slot: u32) {
        let a = next(index, name, slot);
        let told = [a.number, a.place, a.slot];
        self.keep("next", &of_slot(index, name, slot, &told), label);
    }

    fn count(&mut self, label: &str, index: &[u8], name: u32) {
        let a = count(index, name);
        let fields = [
            hex(index),
            name.to_string(),
            a.number.to_string(),
            a.place.to_string(),
            a.count.to_string(),
        ];
        self.keep("count", &fields, label);
    }

    fn part(&mut self, label: &str, index: &[u8], name: u32) {
        let a = part(index, name);
        let fields = [
            hex(index),
            name.to_string(),
            a.number.to_string(),
            a.place.to_string(),
            a.start.to_string(),
            a.length.to_string(),
            hex(lend(index, name)),
        ];
        self.keep("part", &fields, label);
    }

    fn write(&mut self, label: &str, sizes: [u32; 3], slots: &[u32], before: &[u8]) {
        let [u, block, cut] = sizes;
        let mut room = before.to_vec();
        let a = write(u, block, cut, slots, &mut room);
        let fields = [
            u.to_string(),
            block.to_string(),
            cut.to_string(),
            numbers(slots),
            hex(before),
            a.number.to_string(),
            a.place.to_string(),
            a.length.to_string(),
            hex(&room),
        ];
        self.keep("write", &fields, label);
    }

    fn bound(&mut self, label: &str, sizes: [u32; 3], n: u32) {
        let [u, block, cut] = sizes;
        let a = bound(u, block, cut, n);
        let fields = [
            u.to_string(),
            block.to_string(),
            cut.to_string(),
            n.to_string(),
            a.number.to_string(),
            a.place.to_string(),
            a.bytes.to_string(),
        ];
        self.keep("bound", &fields, label);
    }

    fn close(&mut self, label: &str, before: &[u8], sizes: [u32; 3], starts: &[u32]) {
        let [u, block, total] = sizes;
        let mut room = before.to_vec();
        let a = close(&mut room, u, block, total, starts);
        let fields = [
            hex(before),
            u.to_string(),
            block.to_string(),
            total.to_string(),
            numbers(starts),
            a.number.to_string(),
            a.place.to_string(),
            a.length.to_string(),
            hex(&room),
        ];
        self.keep("close", &fields, label);
    }

    fn program(&mut self, label: &str, file: Option<&[u8]>, text: &[u8]) {
        let fields = [
            file.map_or("missing".to_string(), hex),
            hex(text),
            hex(&program(file, text)),
        ];
        self.keep("program", &fields, label);
    }

    fn line(&mut self, label: &str, text: &[u8]) {
        let read = match read_line(text) {
            Some((way, names)) => numbers(&[&[way], &names[..]].concat()),
            None => "usage".to_string(),
        };
        self.keep("line", &[hex(text), read], label);
    }
}

fn hex(bytes: &[u8]) -> String {
    if bytes.is_empty() {
        return "-".to_string();
    }
    bytes.iter().map(|byte| format!("{byte:02x}")).collect()
}

/// The fields of a case that is about one slot of a list.
fn of_slot(index: &[u8], name: u32, slot: u32, told: &[u32]) -> Vec<String> {
    let asked = [hex(index), name.to_string(), slot.to_string()];
    asked
        .into_iter()
        .chain(told.iter().map(u32::to_string))
        .collect()
}

fn numbers<T: ToString>(values: &[T]) -> String {
    if values.is_empty() {
        return "-".to_string();
    }
    let words: Vec<String> = values.iter().map(T::to_string).collect();
    words.join(",")
}
