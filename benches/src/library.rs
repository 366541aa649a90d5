//! The library: the archive that is linked with this program, and a shared library that may be loaded beside it.

use crate::call::{Call, Room};
use crate::load::Library;
use crate::rack::{Rack, U};
use crate::side::Side;

// The package is linked for the archive that it brings along.
use slots as _;

type Look = unsafe extern "C" fn(*const u8, usize, *mut u64, usize) -> u32;
type Ask = unsafe extern "C" fn(*const u8, usize, u32, *const u32, usize, *mut u32, usize, *mut u64, usize) -> u32;
type OfSlot = unsafe extern "C" fn(*const u8, usize, u32, u32, *mut u64, usize) -> u32;
type Count = unsafe extern "C" fn(*const u8, usize, u32, *mut u64, usize) -> u32;
type Write = unsafe extern "C" fn(u32, u32, u32, *const u32, usize, *mut u8, usize, *mut u64, usize) -> u32;
type Close = unsafe extern "C" fn(*mut u8, usize, u32, u32, u32, *const u32, usize, *mut u64, usize) -> u32;

#[rustfmt::skip]
extern "C" {
    fn slots_look(index: *const u8, index_len: usize, out: *mut u64, out_len: usize) -> u32;
    fn slots_ask(index: *const u8, index_len: usize, way: u32, names: *const u32, names_len: usize, slots: *mut u32, slots_len: usize, out: *mut u64, out_len: usize) -> u32;
    fn slots_test(index: *const u8, index_len: usize, name: u32, slot: u32, out: *mut u64, out_len: usize) -> u32;
    fn slots_next(index: *const u8, index_len: usize, name: u32, slot: u32, out: *mut u64, out_len: usize) -> u32;
    fn slots_count(index: *const u8, index_len: usize, name: u32, out: *mut u64, out_len: usize) -> u32;
    fn slots_write(u: u32, block: u32, cut: u32, slots: *const u32, slots_len: usize, room: *mut u8, room_len: usize, out: *mut u64, out_len: usize) -> u32;
    fn slots_close(room: *mut u8, room_len: usize, u: u32, block: u32, total: u32, starts: *const u32, starts_len: usize, out: *mut u64, out_len: usize) -> u32;
}

/// The functions of include/slots.h, by one build of the library.
pub struct Slots {
    name: &'static str,
    look: Look,
    ask: Ask,
    test: OfSlot,
    next: OfSlot,
    count: Count,
    write: Write,
    close: Close,
}

impl Slots {
    /// The archive.
    pub fn linked() -> Slots {
        Slots {
            name: "library",
            look: slots_look,
            ask: slots_ask,
            test: slots_test,
            next: slots_next,
            count: slots_count,
            write: slots_write,
            close: slots_close,
        }
    }

    /// Another build, from its shared library.
    pub fn beside(path: &str) -> Option<Slots> {
        let library = Library::open(path)?;
        // SAFETY: a shared library of this project, whose functions have the types of include/slots.h.
        unsafe {
            Some(Slots {
                name: "beside",
                look: library.function("slots_look"),
                ask: library.function("slots_ask"),
                test: library.function("slots_test"),
                next: library.function("slots_next"),
                count: library.function("slots_count"),
                write: library.function("slots_write"),
                close: library.function("slots_close"),
            })
        }
    }
}

impl Side for Slots {
    fn name(&self) -> &'static str {
        self.name
    }

    fn run(&self, rack: &Rack, call: &Call, room: &mut Room) {
        let (index, size) = (rack.index.as_ptr(), rack.index.len());
        let (out, fields) = (room.out.as_mut_ptr(), room.out.len());
        let (slots, places) = (room.slots.as_mut_ptr(), room.slots.len());
        let (bytes, free) = (room.bytes.as_mut_ptr(), room.bytes.len());
        // SAFETY: each pointer and the length behind it are of one slice or vector; those that are written to belong
        // to the room, which shares nothing with the rack or the call.
        unsafe {
            match call {
                Call::Look => (self.look)(index, size, out, fields),
                Call::Ask { way, names } => {
                    (self.ask)(index, size, *way, names.as_ptr(), names.len(), slots, places, out, fields)
                }
                Call::Test { name, slot } => (self.test)(index, size, *name, *slot, out, fields),
                Call::Next { name, slot } => (self.next)(index, size, *name, *slot, out, fields),
                Call::Count { name } => (self.count)(index, size, *name, out, fields),
                Call::Write { name } => {
                    let (list, cut) = (&rack.lists[*name], rack.cuts[*name]);
                    (self.write)(U, rack.block, cut, list.as_ptr(), list.len(), bytes, free, out, fields)
                }
                Call::Close => {
                    let starts = &rack.starts;
                    (self.close)(bytes, free, U, rack.block, rack.total, starts.as_ptr(), starts.len(), out, fields)
                }
            }
        };
    }
}
