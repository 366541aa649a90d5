//! Closing an index: directory and trailer behind finished records.

use crate::answer::{Verdict, Written};
use crate::bytes::put_number;
use crate::look::{self, finished_length, list_number, lists, sizes, spans};
use crate::{EDITION, LONGEST_INDEX, TAG};

/// Makes an index of the `total` bytes of records at the front of `room`.
pub fn close(room: &mut [u8], u: u32, block: u32, total: u32, starts: &[u32]) -> Written {
    let length = match judge(room, u, block, total, starts) {
        Ok(length) => length,
        Err(refusal) => return refusal.into(),
    };

    let ending = &mut room[total as usize..length as usize];
    let (directory, trailer) = ending.split_at_mut(4 * starts.len());
    for (place, start) in directory.chunks_exact_mut(4).zip(starts) {
        place.copy_from_slice(&start.to_le_bytes());
    }
    put_number(trailer, 0, EDITION);
    put_number(trailer, 4, u);
    put_number(trailer, 8, block);
    put_number(trailer, 12, starts.len() as u32);
    put_number(trailer, 16, total);
    trailer[20..].copy_from_slice(TAG);
    Written {
        number: 0,
        place: 0,
        length,
    }
}

/// All checks: 4, 1, 12, 5 and then the lists. Gives the finished length.
fn judge(room: &[u8], u: u32, block: u32, total: u32, starts: &[u32]) -> Result<u32, Verdict> {
    sizes(u, block)?;
    list_number(starts.len() as u64)?;
    let length = finished_length(total, starts.len() as u32);
    if length > LONGEST_INDEX {
        return Err(Verdict::plain(1));
    }
    let length = length as u32;
    if room.len() < length as usize {
        return Err(Verdict::at(12, length));
    }
    let spans = spans(starts.iter().copied(), total);
    look::starts(spans.clone())?;
    lists(&room[..total as usize], spans, u, block)?;
    Ok(length)
}
