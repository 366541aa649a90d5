//! What the operations hand back. Every one of these carries a number, where
//! 0 means accepted, and a place, and on a refusal nothing else.

use crate::MOST_NAMES;

/// The outcome of looking at an index. Also the reason of a refusal anywhere.
#[derive(Clone, Copy, Debug, PartialEq, Eq)]
pub struct Verdict {
    pub number: u32,
    pub place: u32,
}

impl Verdict {
    pub const ACCEPTED: Verdict = Verdict {
        number: 0,
        place: 0,
    };

    /// A refusal whose place is 0.
    pub fn plain(number: u32) -> Verdict {
        Verdict { number, place: 0 }
    }

    /// A refusal that points somewhere.
    pub fn at(number: u32, place: u32) -> Verdict {
        Verdict { number, place }
    }
}

/// The outcome of a question. `count` slots stand at the front of the slice.
/// `looks` and `codes` are the totals of the costs at each position of the
/// question as asked; the starting list's position and those without a name
/// have 0.
#[derive(Clone, Copy, Debug, PartialEq, Eq)]
pub struct Answer {
    pub number: u32,
    pub place: u32,
    pub count: u32,
    pub looks: u64,
    pub codes: u64,
    pub looks_at: [u64; MOST_NAMES],
    pub codes_at: [u64; MOST_NAMES],
}

/// The outcome of testing one slot.
#[derive(Clone, Copy, Debug, PartialEq, Eq)]
pub struct Tested {
    pub number: u32,
    pub place: u32,
    pub yes: bool,
}

/// The next slot of one list; 0 where it has no more, and on a refusal.
#[derive(Clone, Copy, Debug, PartialEq, Eq)]
pub struct Next {
    pub number: u32,
    pub place: u32,
    pub slot: u32,
}

/// The outcome of counting one list.
#[derive(Clone, Copy, Debug, PartialEq, Eq)]
pub struct Counted {
    pub number: u32,
    pub place: u32,
    pub count: u32,
}

/// Where one list's record lies in the index; both 0 on a refusal.
#[derive(Clone, Copy, Debug, PartialEq, Eq)]
pub struct Part {
    pub number: u32,
    pub place: u32,
    pub start: u32,
    pub length: u32,
}

/// The outcome of writing a record or closing an index.
#[derive(Clone, Copy, Debug, PartialEq, Eq)]
pub struct Written {
    pub number: u32,
    pub place: u32,
    pub length: u32,
}

/// How many bytes a record needs at most; 0 on a refusal.
#[derive(Clone, Copy, Debug, PartialEq, Eq)]
pub struct Bound {
    pub number: u32,
    pub place: u32,
    pub bytes: u32,
}

impl From<Verdict> for Answer {
    fn from(v: Verdict) -> Answer {
        Answer {
            number: v.number,
            place: v.place,
            count: 0,
            looks: 0,
            codes: 0,
            looks_at: [0; MOST_NAMES],
            codes_at: [0; MOST_NAMES],
        }
    }
}

impl From<Verdict> for Tested {
    fn from(v: Verdict) -> Tested {
        Tested {
            number: v.number,
            place: v.place,
            yes: false,
        }
    }
}

impl From<Verdict> for Next {
    fn from(v: Verdict) -> Next {
        Next {
            number: v.number,
            place: v.place,
            slot: 0,
        }
    }
}

impl From<Verdict> for Counted {
    fn from(v: Verdict) -> Counted {
        Counted {
            number: v.number,
            place: v.place,
            count: 0,
        }
    }
}

impl From<Verdict> for Part {
    fn from(v: Verdict) -> Part {
        Part {
            number: v.number,
            place: v.place,
            start: 0,
            length: 0,
        }
    }
}

impl From<Verdict> for Written {
    fn from(v: Verdict) -> Written {
        Written {
            number: v.number,
            place: v.place,
            length: 0,
        }
    }
}

impl From<Verdict> for Bound {
    fn from(v: Verdict) -> Bound {
        Bound {
            number: v.number,
            place: v.place,
            bytes: 0,
        }
    }
}
