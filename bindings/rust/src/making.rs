//! The calls that make an index: bound, which tells how much room a record can need; write and close in
//! a buffer of the caller's; and record and index_of, which own theirs.
//!
//! The latter learn the length of their buffer from the library. For a record that is the bound. An
//! index is closed with no room first, which is refused with the room needed, unless something else is
//! wrong. So no length of the format is worked out here.

use crate::answer::{Bound, Written};
use crate::raw;
use crate::refusal::{narrow, verdict, Refusal, Refused};

/// How many bytes a record can need, told before it is written.
///
/// - `u`, `block` and `cut` are those that [`write()`] is to be given.
/// - `n` is how many of the slots to be written lie above the cut.
///
/// No record that `write` makes with this `u`, `block` and `cut`, of slots of which `n` lie above the
/// cut, has more bytes. Some lists reach it, others do not. So a room of that length is never refused
/// with [`NoRoom`](Refusal::NoRoom): reserve it, then write once. [`record`] does that by itself.
///
/// ```
/// use slots::{bound, write};
///
/// // Of these slots three lie above the cut, which is 16.
/// let mut room = vec![0; bound(32, 4, 16, 3)?.bytes];
/// let written = write(32, 4, 16, &[3, 5, 12, 16, 26, 30, 31], &mut room)?;
/// room.truncate(written.length as usize);
/// # assert_eq!(room.len(), 24);
/// # Ok::<(), slots::Refused>(())
/// ```
///
/// # Errors
///
/// In this order: [`BadRange`](Refusal::BadRange), of `u` or `block`; [`BadCut`](Refusal::BadCut);
/// [`NotRising`](Refusal::NotRising), with place 0, where `n` is above u - cut, so that so many slots
/// cannot lie above the cut.
pub fn bound(u: u32, block: u32, cut: u32, n: u32) -> Result<Bound, Refused> {
    let [number, place, bytes] = raw::bound(u, block, cut, n);
    verdict(number, place)?;
    Ok(Bound { bytes: narrow(bytes) as usize })
}

/// Makes the record of one list, at the front of `room`.
///
/// - `u` is how many slots the rack has, 1 to 1,048,576. `block` is the B of the index, how many slots
///   a block of gaps has, 1 to 128. Both are the same for all lists of an index, and for its closing.
/// - `cut`, 0 to u, is how the list is packed: its slots up to the cut become bits, and those above it
///   gaps. 0 is gaps alone, and u bits alone. A crowded part of the rack is short as bits, and a thin
///   one as gaps. The choice changes the bytes and what a search costs, never what the list holds.
///   Bits beyond the cut, in the last byte of bits, are 0.
/// - `slots` are the list, lowest first, each once, all from 1 to u. There may be none.
/// - `room` is where the record is to stand. What it holds does not matter. As many bytes as [`bound`]
///   tells are enough, and no record has more than 11,665,420. An empty room is a way to learn how many
///   it has.
///
/// Where the call is accepted, the bytes of `room` behind the record are as they were.
///
/// # Errors
///
/// In this order: [`BadRange`](Refusal::BadRange), of `u` or `block`; [`BadCut`](Refusal::BadCut);
/// [`NotRising`](Refusal::NotRising), with the position of the first bad slot;
/// [`NoRoom`](Refusal::NoRoom), with the length of the record. `room` is then as it was.
pub fn write(u: u32, block: u32, cut: u32, slots: &[u32], room: &mut [u8]) -> Result<Written, Refused> {
    let fields = raw::write(u, block, cut, slots, room);
    written(fields, room)
}

/// Makes an index out of the records at the front of `room`.
///
/// - `room` has the records at its front, with nothing between them, and space behind them for four
///   bytes for each list and 24 more.
/// - `u` and `block` are those that the records were written with.
/// - `total` is where the last record ends: the sum of all lengths.
/// - `starts` says where each record begins, the first being 0. There are 1 to 4,096 of them, and
///   their order numbers the lists, from 0 on.
///
/// Where the call is accepted, the first `length` bytes of `room` are an index that
/// [`look`](crate::look) accepts. The records, and the bytes behind the index, are as they were.
///
/// ```
/// use slots::{close, write};
///
/// let mut room = [0; 111];
/// let empty = [1, 4, 5, 6, 8, 12, 15, 16, 18, 20, 25, 26, 27, 28, 30];
/// let first = write(32, 4, 0, &empty, &mut room)?.length;
/// let second = write(32, 4, 16, &[3, 5, 12, 16, 26, 30, 31], &mut room[first as usize..])?.length;
/// let index = close(&mut room, 32, 4, first + second, &[0, first])?;
/// assert_eq!((first, second, index.length), (55, 24, 111));
/// # Ok::<(), slots::Refused>(())
/// ```
///
/// # Errors
///
/// In this order: [`BadRange`](Refusal::BadRange), of `u`, `block` or the number of starts;
/// [`BadSize`](Refusal::BadSize), where the index would have more than 16,777,216 bytes;
/// [`NoRoom`](Refusal::NoRoom), with its length; [`BadParts`](Refusal::BadParts), of the starts; then
/// [`BadHead`](Refusal::BadHead), [`BadBits`](Refusal::BadBits), [`BadBlock`](Refusal::BadBlock),
/// [`BadCode`](Refusal::BadCode) or [`BadSlot`](Refusal::BadSlot), as [`look`](crate::look) would
/// find them. `room` is then as it was.
pub fn close(room: &mut [u8], u: u32, block: u32, total: u32, starts: &[u32]) -> Result<Written, Refused> {
    let fields = raw::close(room, u, block, total, starts);
    written(fields, room)
}

/// The bytes of one record, as [`write()`] makes them. The room for them is reserved by [`bound`], and
/// what the record leaves of it is given back.
///
/// # Errors
///
/// As [`write()`], but never [`NoRoom`](Refusal::NoRoom).
pub fn record(u: u32, block: u32, cut: u32, slots: &[u32]) -> Result<Vec<u8>, Refused> {
    let mut room = vec![0; room_for(u, block, cut, slots)];
    let written = write(u, block, cut, slots, &mut room)?;
    room.truncate(written.length as usize);
    room.shrink_to_fit();
    Ok(room)
}

/// The bytes of a finished index out of the records of its lists, as [`close`] makes them. Starts and
/// total are worked out; the order of the records numbers the lists, from 0 on.
///
/// ```
/// use slots::{ask_owned, index_of, record, Way};
///
/// // A rack of 1,000 slots, blocks of 64. Of the first list every slot is a bit, of the second a gap.
/// let tall: Vec<u32> = (1..=500).collect();
/// let records = [record(1000, 64, 1000, &tall)?, record(1000, 64, 0, &[7, 499, 501])?];
/// let index = index_of(1000, 64, &records)?;
/// assert_eq!(ask_owned(&index, Way::Plain, &[0, 1])?.slots, [7, 499]);
/// # Ok::<(), slots::Refused>(())
/// ```
///
/// # Errors
///
/// As [`close`], but never [`NoRoom`](Refusal::NoRoom).
pub fn index_of(u: u32, block: u32, records: &[impl AsRef<[u8]>]) -> Result<Vec<u8>, Refused> {
    let records: Vec<&[u8]> = records.iter().map(AsRef::as_ref).collect();
    let (starts, total) = laid_out(&records);
    let needed = room_needed(close(&mut [], u, block, total, &starts))?;
    let mut room = records.concat();
    room.resize(needed, 0);
    let written = close(&mut room, u, block, total, &starts)?;
    room.truncate(written.length as usize);
    Ok(room)
}

/// What the fields of an answer say. A length that leads out of the room is no answer.
fn written([number, place, length]: [u64; 3], room: &[u8]) -> Result<Written, Refused> {
    verdict(number, place)?;
    let length = narrow(length);
    assert!(length as usize <= room.len(), "libslots.a is not the library of this package: {length}");
    Ok(Written { length })
}

/// Where each record starts when they stand one behind the other, and where the last one ends.
///
/// What is too big for a u32 becomes the largest u32. No start and no record is judged then: `close`
/// checks the range and the size first, and no index is as long as that.
fn laid_out(records: &[&[u8]]) -> (Vec<u32>, u32) {
    let mut starts = Vec::with_capacity(records.len());
    let mut end: u32 = 0;
    for record in records {
        starts.push(end);
        end = end.saturating_add(u32::try_from(record.len()).unwrap_or(u32::MAX));
    }
    (starts, end)
}

/// The room that is enough for the record of these slots, by the bound.
///
/// It is 0 where the bound is refused. Then writing is refused too, and not for its room: it judges u,
/// block and cut as the bound does; and where more slots lie above the cut than u - cut, they do not
/// rise within 1..u. So what is wrong, and where, is for writing to tell. The same goes for slots that
/// do not rise while the bound is accepted: they are refused before the room is looked at.
fn room_for(u: u32, block: u32, cut: u32, slots: &[u32]) -> usize {
    let above = slots.iter().filter(|&&slot| slot > cut).count();
    let n = u32::try_from(above).unwrap_or(u32::MAX);
    bound(u, block, cut, n).map_or(0, |bound| bound.bytes)
}

/// The room that a call needs, by what it answered when it had none.
fn room_needed(tried: Result<Written, Refused>) -> Result<usize, Refused> {
    match tried {
        Err(Refused { refusal: Refusal::NoRoom, place }) => Ok(place as usize),
        Err(refused) => Err(refused),
        Ok(written) => Ok(written.length as usize),
    }
}
