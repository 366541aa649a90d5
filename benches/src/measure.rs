//! Measuring a group of rows: the answers are held equal, then the calls are timed.

use crate::call::{Call, Room};
use crate::clock::{Bench, Effort};
use crate::rack::Rack;
use crate::rows::{Group, Row};
use crate::side::Side;

/// Measures a group and prints a line for each of its rows and each side. Tells how many rows have different answers, and names them.
pub fn tell(sides: &mut [Box<dyn Side>], group: &Group, effort: Effort) -> usize {
    let rack = Rack::make(&group.spec);
    sides.iter_mut().for_each(|side| side.prepare(&rack));
    // The first is no row: it is looking, which is to be taken off the others.
    let mut calls = vec![Call::Look];
    calls.extend(group.rows.iter().map(|row| row.call.clone()));
    let mut rooms: Vec<Room> = calls.iter().map(|call| Room::new(&rack, call)).collect();
    let same: Vec<bool> = calls.iter().zip(&rooms).map(|(call, room)| alike(sides, &rack, call, room)).collect();
    let times = Bench { sides, rack: &rack, calls: &calls, rooms: &mut rooms }.time(effort);
    for (row, of_row) in group.rows.iter().zip(&times[1..]) {
        tell_row(sides, row, rack.index.len(), of_row, &times[0]);
    }
    let differing = group.rows.iter().zip(&same[1..]).filter(|(_, &row_same)| !row_same || !same[0]);
    differing.inspect(|(row, _)| eprintln!("different: {}", row.id())).count()
}

/// Whether the call is accepted, and all sides leave the same in the same room, as far as they can tell of it.
fn alike(sides: &[Box<dyn Side>], rack: &Rack, call: &Call, before: &Room) -> bool {
    let mut first = before.clone();
    sides[0].run(rack, call, &mut first);
    let mut same = first.out[0] == 0;
    for side in sides[1..].iter().filter(|side| side.has(call)) {
        let mut other = before.clone();
        side.run(rack, call, &mut other);
        other.out[side.fields()..].copy_from_slice(&first.out[side.fields()..]);
        same &= other == first;
    }
    same
}

fn tell_row(sides: &[Box<dyn Side>], row: &Row, bytes: usize, times: &[Option<f64>], looks: &[Option<f64>]) {
    let Row { topic, rack, what, x, .. } = row;
    let x = x.map(|x| x.to_string()).unwrap_or_default();
    for (side, (time, look)) in sides.iter().zip(times.iter().zip(looks)) {
        if let (Some(time), Some(look)) = (time, look) {
            println!("{topic}\t{rack}\t{what}\t{x}\t{bytes}\t{}\t{time:.1}\t{look:.1}", side.name());
        }
    }
}
