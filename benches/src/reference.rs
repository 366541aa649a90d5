//! The second implementation, in safe Rust.

use crate::call::{Call, Room};
use crate::rack::{Rack, U};
use crate::side::Side;
use second::MOST_NAMES;

pub struct Second;

impl Side for Second {
    fn name(&self) -> &'static str {
        "second"
    }

    fn run(&self, rack: &Rack, call: &Call, room: &mut Room) {
        let (number, place, answer) = match call {
            Call::Ask { way, names } => return ask(rack, *way, names, room),
            Call::Look => {
                let said = second::look(&rack.index);
                room.out[..2].copy_from_slice(&[said.number.into(), said.place.into()]);
                return;
            }
            Call::Test { name, slot } => {
                let said = second::test(&rack.index, *name, *slot);
                (said.number, said.place, said.yes.into())
            }
            Call::Next { name, slot } => {
                let said = second::next(&rack.index, *name, *slot);
                (said.number, said.place, said.slot)
            }
            Call::Count { name } => {
                let said = second::count(&rack.index, *name);
                (said.number, said.place, said.count)
            }
            Call::Write { name } => {
                let said = second::write(U, rack.block, rack.cuts[*name], &rack.lists[*name], &mut room.bytes);
                (said.number, said.place, said.length)
            }
            Call::Close => {
                let said = second::close(&mut room.bytes, U, rack.block, rack.total, &rack.starts);
                (said.number, said.place, said.length)
            }
        };
        room.out[..3].copy_from_slice(&[number.into(), place.into(), answer.into()]);
    }
}

/// The fields in the order of include/slots.h.
fn ask(rack: &Rack, way: u32, names: &[u32], room: &mut Room) {
    let said = second::ask(&rack.index, way, names, &mut room.slots);
    let first = [said.number.into(), said.place.into(), said.count.into(), said.looks, said.codes];
    let (front, places) = room.out.split_at_mut(first.len());
    let (looks, codes) = places.split_at_mut(MOST_NAMES);
    front.copy_from_slice(&first);
    looks.copy_from_slice(&said.looks_at);
    codes.copy_from_slice(&said.codes_at);
}
