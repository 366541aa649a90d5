//! The answers of the calls where they are accepted, and the way of a question.
//!
//! A later version may add fields to an answer; so a pattern over one ends in `..`.

use crate::MOST_NAMES;
use std::fmt;

/// How a question goes through the lists. Both ways find the same slots.
#[derive(Debug, Clone, Copy, PartialEq, Eq, Hash)]
#[non_exhaustive]
pub enum Way {
    /// Each list is read along once. Looks and codes are 0.
    Plain = 0,
    /// What the smallest list holds is sought in the others by leaps over blocks. Looks and codes
    /// tell what that cost, in all and for each list.
    BySkips = 1,
}

/// What [`ask`](crate::ask) found.
#[derive(Debug, Clone, Copy, PartialEq, Eq)]
#[non_exhaustive]
pub struct Answer<'s> {
    /// The slots that every list named holds, lowest first, each once. They stand at the front of the
    /// slice that was lent, and every place behind them, to the end of that slice, holds 0.
    pub slots: &'s [u32],
    /// How often a search compared a skip entry with the slot that it sought: the total of
    /// [`looks_at`](Answer::looks_at). Exact; 0 by the plain way.
    pub looks: u64,
    /// How many codes were read in the blocks that searches led to: the total of
    /// [`codes_at`](Answer::codes_at). Exact; 0 by the plain way.
    pub codes: u64,
    pub(crate) looks_at: PerName,
    pub(crate) codes_at: PerName,
}

impl Answer<'_> {
    /// The looks of each name, at its position in the question: which list cost what. There are as
    /// many numbers as names. A list that is named twice has two of them, each with its own cost.
    ///
    /// One is always 0, that of the starting list: the smallest (of several smallest, or where it is
    /// named again: the one named first), whose slots are sought in the others. By the plain way all
    /// are 0.
    ///
    /// Where q slots are sought in a list of m blocks, there are at most q + 2qe + 2 * floor(m / 2^e)
    /// looks, for every whole e from 0 on. Those sought are the candidates above the list's cut.
    pub fn looks_at(&self) -> &[u64] {
        self.looks_at.as_slice()
    }

    /// The codes of each name, in the same way as [`looks_at`](Answer::looks_at).
    pub fn codes_at(&self) -> &[u64] {
        self.codes_at.as_slice()
    }
}

/// What [`ask_owned`](crate::ask_owned) found: an [`Answer`] that has its slots itself.
#[derive(Debug, Clone, PartialEq, Eq)]
#[non_exhaustive]
pub struct OwnedAnswer {
    /// The slots that every list named holds, lowest first, each once, and nothing behind them.
    pub slots: Vec<u32>,
    /// As in [`Answer`].
    pub looks: u64,
    /// As in [`Answer`].
    pub codes: u64,
    looks_at: PerName,
    codes_at: PerName,
}

impl OwnedAnswer {
    /// As [`Answer::looks_at`].
    pub fn looks_at(&self) -> &[u64] {
        self.looks_at.as_slice()
    }

    /// As [`Answer::codes_at`].
    pub fn codes_at(&self) -> &[u64] {
        self.codes_at.as_slice()
    }
}

impl From<Answer<'_>> for OwnedAnswer {
    fn from(answer: Answer<'_>) -> OwnedAnswer {
        let Answer { slots, looks, codes, looks_at, codes_at } = answer;
        OwnedAnswer { slots: slots.to_vec(), looks, codes, looks_at, codes_at }
    }
}

/// One number for each name of a question. It is held in place, so that an answer takes no memory but
/// its own and can be copied.
#[derive(Clone, Copy, PartialEq, Eq)]
pub(crate) struct PerName {
    numbers: [u64; MOST_NAMES],
    names: usize,
}

impl PerName {
    /// The first numbers of these, as many as there are names. Both are 16 at most.
    pub(crate) fn first(names: usize, of: &[u64]) -> PerName {
        let mut numbers = [0; MOST_NAMES];
        numbers[..names].copy_from_slice(&of[..names]);
        PerName { numbers, names }
    }

    fn as_slice(&self) -> &[u64] {
        &self.numbers[..self.names]
    }
}

/// As a slice: what stands behind the names is nobody's.
impl fmt::Debug for PerName {
    fn fmt(&self, f: &mut fmt::Formatter<'_>) -> fmt::Result {
        self.as_slice().fmt(f)
    }
}

/// What [`test`](crate::test) found.
#[derive(Debug, Clone, Copy, PartialEq, Eq)]
#[non_exhaustive]
pub struct Tested {
    /// Whether the list holds the slot.
    pub yes: bool,
}

/// What [`next`](crate::next) found.
#[derive(Debug, Clone, Copy, PartialEq, Eq)]
#[non_exhaustive]
pub struct Next {
    /// The least slot of the list that is not below the one asked about; `None` where the list holds
    /// none from there on.
    pub slot: Option<u32>,
}

/// What [`count`](crate::count) found.
#[derive(Debug, Clone, Copy, PartialEq, Eq)]
#[non_exhaustive]
pub struct Counted {
    /// How many slots the list holds.
    pub count: u32,
}

/// What [`lend`](crate::lend) found.
#[derive(Debug, Clone, Copy, PartialEq, Eq)]
#[non_exhaustive]
pub struct Lent<'i> {
    /// Where the record starts in the index.
    pub start: u32,
    /// The record: these very bytes of the index, at least 12 of them, and no copy.
    pub record: &'i [u8],
}

/// What [`bound`](crate::bound) found.
#[derive(Debug, Clone, Copy, PartialEq, Eq)]
#[non_exhaustive]
pub struct Bound {
    /// The most bytes that the record can have. A usize, which is what a buffer is made with.
    pub bytes: usize,
}

/// What [`write`](crate::write) and [`close`](crate::close) did.
#[derive(Debug, Clone, Copy, PartialEq, Eq)]
#[non_exhaustive]
pub struct Written {
    /// How many bytes the record or the index has. They stand at the front of the room. A u32, which
    /// is what `close` takes its starts and its total in.
    pub length: u32,
}
