//! The nine functions of the library as C has them, and a safe function over slices for each.
//!
//! All unsafe code of the package is in this file. The declarations are those of include/slots.h;
//! a declaration that is wrong breaks every promise, so tests/header.rs compares the two texts.
//!
//! What the header asks of a caller holds for every call below, whatever slices come in:
//!
//! - A pointer is aligned and leads to as many elements as the length says: both are of one slice.
//!   Rust's slices are never null, not even the empty ones.
//! - A slice that is written to shares no byte with another of the same call: it is a `&mut`, which
//!   overlaps no other reference that is in use. `out` is a variable of its own.
//! - Nobody changes any of them meanwhile: `&` and `&mut` exclude it until the call is over. The
//!   library keeps no pointer and no state, so the references may end there.

use crate::MOST_NAMES;

extern "C" {
    fn slots_look(index: *const u8, index_len: usize, out: *mut u64, out_len: usize) -> u32;
    fn slots_ask(
        index: *const u8,
        index_len: usize,
        way: u32,
        names: *const u32,
        names_len: usize,
        slots: *mut u32,
        slots_len: usize,
        out: *mut u64,
        out_len: usize,
    ) -> u32;
    fn slots_test(index: *const u8, index_len: usize, name: u32, slot: u32, out: *mut u64, out_len: usize) -> u32;
    fn slots_next(index: *const u8, index_len: usize, name: u32, slot: u32, out: *mut u64, out_len: usize) -> u32;
    fn slots_count(index: *const u8, index_len: usize, name: u32, out: *mut u64, out_len: usize) -> u32;
    fn slots_lend(index: *const u8, index_len: usize, name: u32, out: *mut u64, out_len: usize) -> u32;
    fn slots_bound(u: u32, block: u32, cut: u32, n: u32, out: *mut u64, out_len: usize) -> u32;
    fn slots_write(
        u: u32,
        block: u32,
        cut: u32,
        slots: *const u32,
        slots_len: usize,
        room: *mut u8,
        room_len: usize,
        out: *mut u64,
        out_len: usize,
    ) -> u32;
    fn slots_close(
        room: *mut u8,
        room_len: usize,
        u: u32,
        block: u32,
        total: u32,
        starts: *const u32,
        starts_len: usize,
        out: *mut u64,
        out_len: usize,
    ) -> u32;
}

/// What a field holds before the call. No answer has it, so a field that was not written shows.
const UNWRITTEN: u64 = u64::MAX;

/// Number and place.
pub(crate) fn look(index: &[u8]) -> [u64; 2] {
    let mut out = [UNWRITTEN; 2];
    // SAFETY: `index` is one slice, only read; `out` is written to, and is ours alone.
    let number = unsafe { slots_look(index.as_ptr(), index.len(), out.as_mut_ptr(), out.len()) };
    agreed(out, 0, number)
}

/// How many fields the answer of a question has: five, and looks and codes for each position.
const ASK_FIELDS: usize = 5 + 2 * MOST_NAMES;

/// Number, place, count, looks and codes; then the looks of each position, then the codes of each.
pub(crate) fn ask(index: &[u8], way: u32, names: &[u32], slots: &mut [u32]) -> [u64; ASK_FIELDS] {
    let mut out = [UNWRITTEN; ASK_FIELDS];
    // SAFETY: each pointer and the length behind it are of one slice. `index` and `names` are only
    // read; `slots` is a `&mut` and so overlaps neither of them; `out` is ours alone.
    let number = unsafe {
        slots_ask(
            index.as_ptr(),
            index.len(),
            way,
            names.as_ptr(),
            names.len(),
            slots.as_mut_ptr(),
            slots.len(),
            out.as_mut_ptr(),
            out.len(),
        )
    };
    agreed(out, 0, number)
}

/// Number, place, and 1 for yes or 0 for no.
pub(crate) fn test(index: &[u8], name: u32, slot: u32) -> [u64; 3] {
    let mut out = [UNWRITTEN; 3];
    // SAFETY: `index` is one slice, only read; `out` is written to, and is ours alone.
    let number = unsafe { slots_test(index.as_ptr(), index.len(), name, slot, out.as_mut_ptr(), out.len()) };
    agreed(out, 0, number)
}

/// Number, place, and the next slot or 0 for none.
pub(crate) fn next(index: &[u8], name: u32, slot: u32) -> [u64; 3] {
    let mut out = [UNWRITTEN; 3];
    // SAFETY: `index` is one slice, only read; `out` is written to, and is ours alone.
    let number = unsafe { slots_next(index.as_ptr(), index.len(), name, slot, out.as_mut_ptr(), out.len()) };
    agreed(out, 0, number)
}

/// Number, place and count.
pub(crate) fn count(index: &[u8], name: u32) -> [u64; 3] {
    let mut out = [UNWRITTEN; 3];
    // SAFETY: `index` is one slice, only read; `out` is written to, and is ours alone.
    let number = unsafe { slots_count(index.as_ptr(), index.len(), name, out.as_mut_ptr(), out.len()) };
    agreed(out, 0, number)
}

/// Start and length of the record; both are 0 where `count` refuses.
pub(crate) fn lend(index: &[u8], name: u32) -> [u64; 2] {
    let mut out = [UNWRITTEN; 2];
    // SAFETY: `index` is one slice, only read; `out` is written to, and is ours alone.
    let length = unsafe { slots_lend(index.as_ptr(), index.len(), name, out.as_mut_ptr(), out.len()) };
    agreed(out, 1, length)
}

/// Number, place and bytes.
pub(crate) fn bound(u: u32, block: u32, cut: u32, n: u32) -> [u64; 3] {
    let mut out = [UNWRITTEN; 3];
    // SAFETY: `out` is the only slice; it is written to, and is ours alone.
    let number = unsafe { slots_bound(u, block, cut, n, out.as_mut_ptr(), out.len()) };
    agreed(out, 0, number)
}

/// Number, place and length.
pub(crate) fn write(u: u32, block: u32, cut: u32, slots: &[u32], room: &mut [u8]) -> [u64; 3] {
    let mut out = [UNWRITTEN; 3];
    // SAFETY: each pointer and the length behind it are of one slice. `slots` is only read; `room` is
    // a `&mut` and so does not overlap it; `out` is ours alone.
    let number = unsafe {
        slots_write(
            u,
            block,
            cut,
            slots.as_ptr(),
            slots.len(),
            room.as_mut_ptr(),
            room.len(),
            out.as_mut_ptr(),
            out.len(),
        )
    };
    agreed(out, 0, number)
}

/// Number, place and length.
pub(crate) fn close(room: &mut [u8], u: u32, block: u32, total: u32, starts: &[u32]) -> [u64; 3] {
    let mut out = [UNWRITTEN; 3];
    // SAFETY: each pointer and the length behind it are of one slice. `starts` is only read; `room`,
    // which is read and written to, is a `&mut` and so does not overlap it; `out` is ours alone.
    let number = unsafe {
        slots_close(
            room.as_mut_ptr(),
            room.len(),
            u,
            block,
            total,
            starts.as_ptr(),
            starts.len(),
            out.as_mut_ptr(),
            out.len(),
        )
    };
    agreed(out, 0, number)
}

/// The fields of an answer, once all are found to be written and the field `at` to be what the function
/// returned. An archive that does not fit the declarations is likely to fail here.
fn agreed<const FIELDS: usize>(out: [u64; FIELDS], at: usize, returned: u32) -> [u64; FIELDS] {
    let whole = !out.contains(&UNWRITTEN) && out[at] == u64::from(returned);
    assert!(whole, "libslots.a is not the library of this package: {out:?}, {returned}");
    out
}
