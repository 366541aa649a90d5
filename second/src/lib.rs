//! A second implementation of the slot index, written from the paper and the
//! orders that followed it alone.
//!
//! It exists so that another implementation can be held against it. Everything
//! is done in a direct way: a list is cut into its parts, each part is judged,
//! and the judged parts are decoded as they are needed, into what the caller has
//! lent. Every operation takes any input whatever and gives an answer. Only `seek`, the search that stands within them,
//! wants a slot and a finger that fit the list, which comes from an index that was
//! opened and so is sound.
#![forbid(unsafe_code)]

mod answer;
mod bill;
mod bound;
mod bytes;
pub mod cases;
mod close;
mod code;
pub mod examples;
mod look;
mod program;
mod question;
pub mod random;
mod record;
mod search;
mod seek;
mod write;

pub use answer::{Answer, Bound, Counted, Next, Part, Tested, Verdict, Written};
pub use bill::{best, bill, Charge};
pub use bound::bound;
pub use close::close;
pub use look::{look, open, Index};
pub use program::{program, read_line};
pub use question::{ask, charges, count, lend, next, part, test};
pub use search::search;
pub use seek::{seek, Sought};
pub use write::write;

/// The largest index, in bytes.
pub const LONGEST_INDEX: u64 = 16_777_216;
/// The largest slot number an index may have room for.
pub const MOST_SLOTS: u32 = 1_048_576;
/// The longest block.
pub const LONGEST_BLOCK: u32 = 128;
/// The most lists in one index.
pub const MOST_LISTS: u32 = 4_096;
/// The most names in one question.
pub const MOST_NAMES: usize = 16;
/// The only edition there is.
pub const EDITION: u32 = 1;
/// The bytes that close every index.
pub const TAG: &[u8; 4] = b"SLOT";
/// Bytes in the trailer.
pub const TRAILER: usize = 24;
/// Bytes in front of a record's bits.
pub const HEAD: usize = 12;
/// Bytes of one skip entry.
pub const SKIP: usize = 8;
/// Slots for which the small program offers room.
pub const PROGRAM_ROOM: usize = 16_384;
/// The longest file the small program takes.
pub const LONGEST_FILE: usize = 65_536;
/// The longest line the small program takes.
pub const LONGEST_LINE: usize = 256;
