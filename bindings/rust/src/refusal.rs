//! Why a call is refused, and how that is said to a person.
//!
//! The words of `Refusal::reason` are those of slots_reason in include/slots.h; tests/header.rs
//! compares them.

use std::error::Error;
use std::fmt;

/// Why a call is refused. Each function says which of these it can give, and in which order it checks
/// for them.
#[derive(Debug, Clone, Copy, PartialEq, Eq, Hash)]
#[non_exhaustive]
pub enum Refusal {
    /// 1: the index has fewer than 24 or more than 16,777,216 bytes, or would have when closed.
    BadSize,
    /// 2: the index does not end in the tag `SLOT`.
    BadTag,
    /// 3: the edition is not 1.
    BadEdition,
    /// 4: u is not from 1 to 1,048,576, B not from 1 to 128, or the number of lists not from 1 to 4,096.
    BadRange,
    /// 5: the parts do not make up the size of the index, the first start is not 0, or a record has
    /// fewer than 12 bytes.
    BadParts,
    /// 6: the head of a record does not fit u or the size of the record. The place is the list.
    BadHead,
    /// 7: the codes of a block do not lie where they should. The place is the list.
    BadBlock,
    /// 8: a code is damaged, or bytes remain behind the codes of a block. The place is the list.
    BadCode,
    /// 9: a slot is above u or out of order. The place is the list.
    BadSlot,
    /// 10: the question has no name, or more than 16.
    BadNames,
    /// 11: there is no list of that name. The place is the position of the first such name among the
    /// names of the question, and 0 where the call takes only one name.
    NoList,
    /// 12: the room is too small. The place is the room needed: slots for a question, bytes for a
    /// record or an index.
    NoRoom,
    /// 13: a slot to be written is not from 1 to u, or not above the one before it. The place is the
    /// position of the first such slot. [`bound`](crate::bound) gives it where so many slots cannot lie
    /// above the cut; the place is then 0, and no position.
    NotRising,
    /// 14: the way is neither plain nor by skips. A [`Way`](crate::Way) is always one of them, so this
    /// package never gives it.
    BadWay,
    /// 15: the cut is above u.
    BadCut,
    /// 16: the slot asked about is not from 1 to u.
    Outside,
    /// 17: a bit beyond the cut is set, in the last byte of a record's bits. The place is the list.
    BadBits,
    /// A number that is none of these, from a newer library. A refusal like the others.
    Unknown(u32),
}

impl Refusal {
    /// The number, as the format's table and the C header have it.
    pub fn number(self) -> u32 {
        match self {
            Refusal::BadSize => 1,
            Refusal::BadTag => 2,
            Refusal::BadEdition => 3,
            Refusal::BadRange => 4,
            Refusal::BadParts => 5,
            Refusal::BadHead => 6,
            Refusal::BadBlock => 7,
            Refusal::BadCode => 8,
            Refusal::BadSlot => 9,
            Refusal::BadNames => 10,
            Refusal::NoList => 11,
            Refusal::NoRoom => 12,
            Refusal::NotRising => 13,
            Refusal::BadWay => 14,
            Refusal::BadCut => 15,
            Refusal::Outside => 16,
            Refusal::BadBits => 17,
            Refusal::Unknown(number) => number,
        }
    }

    /// The words for it, the same as those of the C header. A range in them, such as 1..u, has both of
    /// its ends.
    pub fn reason(self) -> &'static str {
        match self {
            Refusal::BadSize => "the index has fewer than 24 or more than 16,777,216 bytes",
            Refusal::BadTag => "the index does not end in the tag SLOT",
            Refusal::BadEdition => "the edition is not 1",
            Refusal::BadRange => "u is not in 1..1,048,576, B not in 1..128, or the number of lists not in 1..4,096",
            Refusal::BadParts => {
                "the parts do not make up the size of the index, the first start is not 0, \
                 or a record has fewer than 12 bytes"
            }
            Refusal::BadHead => "the head of a record does not fit u or the size of the record",
            Refusal::BadBlock => "the codes of a block do not lie where they should",
            Refusal::BadCode => "a code is damaged, or bytes remain behind the codes of a block",
            Refusal::BadSlot => "a slot is above u or out of order",
            Refusal::BadNames => "the question has no name, or more than 16",
            Refusal::NoList => "there is no list of that name",
            Refusal::NoRoom => "the room is too small",
            Refusal::NotRising => "the slots to be written do not rise strictly within 1..u, or more are to lie above the cut than there are slots there",
            Refusal::BadWay => "the way is neither 0 (plain) nor 1 (by skips)",
            Refusal::BadCut => "the cut is above u",
            Refusal::Outside => "the slot asked about is not in 1..u",
            Refusal::BadBits => "a bit beyond the cut is set",
            Refusal::Unknown(_) => "a number that this package does not know",
        }
    }
}

/// The refusal that has this number. 0, which says accepted and is no refusal, becomes
/// `Unknown(0)`; no call gives that.
impl From<u32> for Refusal {
    fn from(number: u32) -> Refusal {
        match number {
            1 => Refusal::BadSize,
            2 => Refusal::BadTag,
            3 => Refusal::BadEdition,
            4 => Refusal::BadRange,
            5 => Refusal::BadParts,
            6 => Refusal::BadHead,
            7 => Refusal::BadBlock,
            8 => Refusal::BadCode,
            9 => Refusal::BadSlot,
            10 => Refusal::BadNames,
            11 => Refusal::NoList,
            12 => Refusal::NoRoom,
            13 => Refusal::NotRising,
            14 => Refusal::BadWay,
            15 => Refusal::BadCut,
            16 => Refusal::Outside,
            17 => Refusal::BadBits,
            other => Refusal::Unknown(other),
        }
    }
}

/// A call that was refused: why, and where. Nothing that was lent to the call has changed.
///
/// As text it is the number, the words, and the place where there is one, such as
/// `11: there is no list of that name (name at position 1)`.
#[derive(Debug, Clone, Copy, PartialEq, Eq, Hash)]
pub struct Refused {
    /// Why.
    pub refusal: Refusal,
    /// Where. What it counts is said at each [`Refusal`]; it is 0 for those that have no place.
    pub place: u32,
}

impl Refused {
    /// The number of the refusal.
    pub fn number(&self) -> u32 {
        self.refusal.number()
    }
}

impl fmt::Display for Refused {
    fn fmt(&self, f: &mut fmt::Formatter<'_>) -> fmt::Result {
        write!(f, "{}: {}", self.number(), self.refusal.reason())?;
        let place = self.place;
        match self.refusal {
            Refusal::BadHead | Refusal::BadBlock | Refusal::BadCode | Refusal::BadSlot | Refusal::BadBits => {
                write!(f, " (list {place})")
            }
            Refusal::NoList => write!(f, " (name at position {place})"),
            Refusal::NoRoom => write!(f, " (room needed: {place})"),
            Refusal::NotRising => write!(f, " (position {place})"),
            _ => Ok(()),
        }
    }
}

impl Error for Refused {}

/// What number and place say, the first two fields of an answer: accepted where the number is 0.
pub(crate) fn verdict(number: u64, place: u64) -> Result<(), Refused> {
    match narrow(number) {
        0 => Ok(()),
        number => Err(Refused { refusal: number.into(), place: narrow(place) }),
    }
}

/// A field that is a u32 by the contract of every function. (Looks and codes alone may be more.)
pub(crate) fn narrow(field: u64) -> u32 {
    u32::try_from(field).expect("libslots.a is not the library of this package: a field is too big")
}
