//! CRoaring, where ./bench could compile roaring.c with it.

use crate::call::{Call, Room};
use crate::load::Library;
use crate::rack::Rack;
use crate::side::Side;

type Version = unsafe extern "C" fn() -> u32;
type Pack = unsafe extern "C" fn(*const u32, usize, *mut u8, usize) -> usize;
type Look = unsafe extern "C" fn(*const u8, *const u64, usize) -> u32;
type Ask = unsafe extern "C" fn(*const u8, *const u64, usize, *const u32, usize, *mut u32) -> i64;

pub struct Roaring {
    version: u32,
    pack: Pack,
    look: Look,
    ask: Ask,
    /// The lists of the rack at hand, and where each ends.
    bytes: Vec<u8>,
    ends: Vec<u64>,
}

impl Roaring {
    pub fn load(path: &str) -> Option<Roaring> {
        let library = Library::open(path)?;
        // SAFETY: roaring.c has these functions, with these types.
        unsafe {
            let version: Version = library.function("bench_version");
            Some(Roaring {
                version: version(),
                pack: library.function("bench_pack"),
                look: library.function("bench_look"),
                ask: library.function("bench_ask"),
                bytes: Vec::new(),
                ends: Vec::new(),
            })
        }
    }

    /// Its version, and whether it validates what it loads, in words.
    pub fn describe(&self) -> String {
        let [validates, major, minor, revision] = self.version.to_be_bytes();
        let how = if validates == 1 { "with" } else { "which has no" };
        format!("{major}.{minor}.{revision}, {how} validation of what is loaded")
    }

    fn pack_list(&mut self, slots: &[u32]) {
        // SAFETY: the pointers and lengths are those of slices; a room of length 0 is not written to.
        let size = unsafe { (self.pack)(slots.as_ptr(), slots.len(), std::ptr::null_mut(), 0) };
        let start = self.bytes.len();
        self.bytes.resize(start + size, 0);
        let room = &mut self.bytes[start..];
        // SAFETY: as above, and the room is exactly as long as was told.
        unsafe { (self.pack)(slots.as_ptr(), slots.len(), room.as_mut_ptr(), room.len()) };
        self.ends.push(self.bytes.len() as u64);
    }
}

impl Side for Roaring {
    fn name(&self) -> &'static str {
        "CRoaring"
    }

    fn prepare(&mut self, rack: &Rack) {
        self.bytes.clear();
        self.ends.clear();
        rack.lists.iter().for_each(|slots| self.pack_list(slots));
    }

    fn has(&self, call: &Call) -> bool {
        matches!(call, Call::Look | Call::Ask { .. })
    }

    /// Number, place and count: it knows no looks and no codes.
    fn fields(&self) -> usize {
        3
    }

    fn run(&self, _rack: &Rack, call: &Call, room: &mut Room) {
        let (bytes, ends, lists) = (self.bytes.as_ptr(), self.ends.as_ptr(), self.ends.len());
        match call {
            Call::Ask { names, .. } => {
                let slots = room.slots.as_mut_ptr();
                // SAFETY: the lists are those of `prepare`, the names are of its rack, and the room has as many slots
                // as the smallest list named.
                let count = unsafe { (self.ask)(bytes, ends, lists, names.as_ptr(), names.len(), slots) };
                room.out[..3].copy_from_slice(&[u64::from(count < 0), 0, count as u64]);
                room.slots[count.max(0) as usize..].fill(0);
            }
            _ => {
                // SAFETY: as above.
                let number = unsafe { (self.look)(bytes, ends, lists) };
                room.out[..2].copy_from_slice(&[number.into(), 0]);
            }
        }
    }
}
