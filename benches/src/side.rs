//! A side: one of the implementations that are timed beside each other.

use crate::call::{Call, Room, FIELDS};
use crate::rack::Rack;

pub trait Side {
    fn name(&self) -> &'static str;

    /// Is told of each rack once, before the calls, for what it has to have ready by then.
    fn prepare(&mut self, _rack: &Rack) {}

    /// Whether it has such a call at all.
    fn has(&self, _call: &Call) -> bool {
        true
    }

    /// Of how many fields of an answer it can tell.
    fn fields(&self) -> usize {
        FIELDS
    }

    /// Makes the call, and leaves its answer in the room.
    fn run(&self, rack: &Rack, call: &Call, room: &mut Room);
}
