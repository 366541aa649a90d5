//! Looking at an index: every check that needs nothing but its bytes, in the
//! order in which the paper wants the first fault found.

use crate::answer::Verdict;
use crate::bytes::number_at;
use crate::code;
use crate::record::Record;
use crate::{EDITION, HEAD, LONGEST_BLOCK, LONGEST_INDEX, MOST_LISTS, MOST_SLOTS, TAG, TRAILER};

/// An index that was looked at from end to end and found sound.
pub struct Index<'a> {
    pub u: u32,
    /// Start and length of each record.
    pub spans: Vec<(usize, usize)>,
    pub records: Vec<Record<'a>>,
}

/// Says whether an index is sound, or where its first fault is.
pub fn look(index: &[u8]) -> Verdict {
    match judged(index) {
        Ok(_) => Verdict::ACCEPTED,
        Err(refusal) => refusal,
    }
}

/// Looks at a whole index and hands it on cut into records.
pub fn open(index: &[u8]) -> Result<Index<'_>, Verdict> {
    let frame = judged(index)?;
    let spans: Vec<_> = frame
        .spans()
        .map(|(start, end)| (start, end - start))
        .collect();
    let records = (0..spans.len()).filter_map(|i| frame.record(i)).collect();
    Ok(Index {
        u: frame.u,
        spans,
        records,
    })
}

/// Looks at a whole index, and hands on what is needed to find its records.
pub fn judged(index: &[u8]) -> Result<Frame<'_>, Verdict> {
    let frame = Frame::of(index)?;
    lists(frame.records, frame.spans(), frame.u, frame.block)?;
    Ok(frame)
}

/// The parts of an index that rows 1 to 5 do not refuse.
#[derive(Clone, Copy)]
pub struct Frame<'a> {
    pub u: u32,
    block: u32,
    records: &'a [u8],
    directory: &'a [[u8; 4]],
}

impl<'a> Frame<'a> {
    fn of(index: &'a [u8]) -> Result<Frame<'a>, Verdict> {
        let length = index.len();
        if length < TRAILER || length as u64 > LONGEST_INDEX {
            return Err(Verdict::plain(1));
        }
        let (front, trailer) = index.split_at(length - TRAILER);
        if !trailer.ends_with(TAG) {
            return Err(Verdict::plain(2));
        }
        if number_at(trailer, 0) != EDITION {
            return Err(Verdict::plain(3));
        }
        let u = number_at(trailer, 4);
        let block = number_at(trailer, 8);
        let k = number_at(trailer, 12);
        sizes(u, block)?;
        list_number(u64::from(k))?;

        let directory = number_at(trailer, 16);
        if finished_length(directory, k) != length as u64 {
            return Err(Verdict::plain(5));
        }
        let (records, directory) = front.split_at(directory as usize);
        let frame = Frame {
            u,
            block,
            records,
            directory: directory.as_chunks().0,
        };
        starts(frame.spans())?;
        Ok(frame)
    }

    /// How many lists there are.
    pub fn lists(&self) -> usize {
        self.directory.len()
    }

    /// Start and end of each record.
    fn spans(&self) -> impl Iterator<Item = (usize, usize)> + Clone + 'a {
        let starts = self
            .directory
            .iter()
            .map(|&start| u32::from_le_bytes(start));
        spans(starts, self.records.len() as u32)
    }

    /// Start and end of one record.
    pub fn span(&self, i: usize) -> (usize, usize) {
        let start = |i: usize| u32::from_le_bytes(self.directory[i]) as usize;
        if i + 1 < self.lists() {
            (start(i), start(i + 1))
        } else {
            (start(i), self.records.len())
        }
    }

    /// One record, cut into its parts; `None` only where row 6 refuses it.
    pub fn record(&self, i: usize) -> Option<Record<'a>> {
        let (start, end) = self.span(i);
        Record::split(&self.records[start..end], self.u, self.block)
    }
}

/// The part of row 4 that concerns u and B.
pub fn sizes(u: u32, block: u32) -> Result<(), Verdict> {
    if (1..=MOST_SLOTS).contains(&u) && (1..=LONGEST_BLOCK).contains(&block) {
        Ok(())
    } else {
        Err(Verdict::plain(4))
    }
}

/// The part of row 4 that concerns k.
pub fn list_number(k: u64) -> Result<(), Verdict> {
    if (1..=u64::from(MOST_LISTS)).contains(&k) {
        Ok(())
    } else {
        Err(Verdict::plain(4))
    }
}

/// Bytes of an index whose directory begins at `directory`.
pub fn finished_length(directory: u32, k: u32) -> u64 {
    u64::from(directory) + 4 * u64::from(k) + TRAILER as u64
}

/// Where the records lie: each from its start up to the next one's, and the last up to
/// the directory.
pub fn spans(
    starts: impl Iterator<Item = u32> + Clone,
    directory: u32,
) -> impl Iterator<Item = (usize, usize)> + Clone {
    let ends = starts.clone().skip(1).chain([directory]);
    starts
        .zip(ends)
        .map(|(start, end)| (start as usize, end as usize))
}

/// The rest of row 5, judged for all records at once.
pub fn starts(mut spans: impl Iterator<Item = (usize, usize)> + Clone) -> Result<(), Verdict> {
    let from_0 = spans.clone().next().is_some_and(|(start, _)| start == 0);
    let long_enough = |(start, end): (usize, usize)| end.checked_sub(start) >= Some(HEAD);
    if from_0 && spans.all(long_enough) {
        Ok(())
    } else {
        Err(Verdict::plain(5))
    }
}

/// Rows 6 to 9 and 17, list by list.
pub fn lists(
    bytes: &[u8],
    spans: impl Iterator<Item = (usize, usize)>,
    u: u32,
    block: u32,
) -> Result<(), Verdict> {
    for (i, (start, end)) in spans.enumerate() {
        list(&bytes[start..end], u, block).map_err(|number| Verdict::at(number, i as u32))?;
    }
    Ok(())
}

/// One list: its parts, the bits that no slot has, then its blocks.
fn list(bytes: &[u8], u: u32, block: u32) -> Result<(), u32> {
    let record = Record::split(bytes, u, block).ok_or(6u32)?;
    if record.has_rubbish() {
        return Err(17);
    }
    let mut highest = record.cut;
    for b in 0..record.blocks() {
        highest = one_block(&record, b, highest, u)?;
    }
    Ok(())
}

/// One block, behind slots up to `highest`: its bounds, its first slot, its codes and
/// what is left behind them. Gives its last slot.
#[inline]
fn one_block(record: &Record, b: usize, highest: u32, u: u32) -> Result<u32, u32> {
    let start = record.offset(b);
    let end = record.end(b);
    let misplaced = b == 0 && start != 0;
    if misplaced || end < start || end > record.code_length() {
        return Err(7);
    }

    let mut slot = record.first(b);
    if slot <= highest || slot > u {
        return Err(9);
    }

    // A slot is at most u and a code below 2 to the 21st, so that no sum wraps.
    let mut codes = record.codes_of(b);
    for _ in 1..record.slots_in(b) {
        let (value, rest) = code::read(codes).ok_or(8u32)?;
        slot += value + 1;
        if slot > u {
            return Err(9);
        }
        codes = rest;
    }
    if codes.is_empty() {
        Ok(slot)
    } else {
        Err(8)
    }
}
