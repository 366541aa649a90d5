//! An index of packed lists of slots: looked at, asked, tested, stepped through, counted, lent from,
//! and made.
//!
//! A rack has slots numbered 1 to u. A *list* is a set of slots: the empty ones, the tall ones, those
//! within reach. An *index* packs 1 to 4,096 lists, numbered from 0, into one run of bytes. Which
//! slots stand in all of several lists is a *question*. Lists, positions and places count from 0.
//!
//! | function | answers |
//! |---|---|
//! | [`look`] | whether an index is sound |
//! | [`ask`], [`ask_owned`] | which slots all lists named hold, and what finding them cost, list by list |
//! | [`test()`] | whether a list holds a slot |
//! | [`next`] | which slot of a list comes next, from a slot on |
//! | [`count`] | how many slots a list holds |
//! | [`lend`] | the bytes of a list's record |
//! | [`bound`] | how many bytes a record can need, before it is written |
//! | [`write()`], [`record`] | the record of one list, out of its slots |
//! | [`close`], [`index_of`] | an index, out of the records of its lists |
//!
//! The first of each pair works in a buffer that the caller lends. The second has a buffer of its own,
//! and learns by one call more how long that has to be: [`record`] from [`bound`], the others from a
//! call with no room.
//!
//! # An answer is right, or it is a refusal
//!
//! Every call gets an answer, whatever bytes and numbers it is given. Where something is wrong the
//! answer is [`Refused`]: which [`Refusal`], and the place. Nothing else is then known (a refused
//! question is not the answer "no slot"), and no buffer that was lent has changed.
//!
//! Each function that takes an index looks at the whole of it before anything else, and refuses it as
//! [`look`] does. There is no need to call `look` before the others, but to tell a damaged index from
//! a refused question; and each call takes at least as long as `look` does.
//!
//! # What stands behind it
//!
//! The functions of `libslots.a`, of which `include/slots.h` has the contracts and `docs/FORMAT.md`
//! the format; they are proved to keep both. This package calls them through references, so what the
//! header leaves to the caller (pointers that are aligned and long enough, buffers that do not
//! overlap, no change from another thread) holds by the rules of Rust. They keep nothing from call to
//! call: any number of threads may call at once.
//!
//! No input makes a function panic. A panic says that the archive is not the one that this package
//! was written for.

#![deny(unsafe_code)]
#![deny(unsafe_op_in_unsafe_fn)]
#![warn(missing_docs)]

mod answer;
mod making;
#[allow(unsafe_code)]
mod raw;
mod reading;
mod refusal;

pub use answer::{Answer, Bound, Counted, Lent, Next, OwnedAnswer, Tested, Way, Written};
pub use making::{bound, close, index_of, record, write};
pub use reading::{ask, ask_owned, count, lend, look, next, test};
pub use refusal::{Refusal, Refused};

/// The most bytes that an index may have.
pub const MOST_BYTES: usize = 16_777_216;
/// The most slots that a rack may have: the largest u.
pub const MOST_SLOTS: u32 = 1_048_576;
/// The largest B: how many slots a block may have.
pub const MOST_BLOCK: u32 = 128;
/// The most lists that an index may have.
pub const MOST_LISTS: usize = 4_096;
/// The most names that a question may have.
pub const MOST_NAMES: usize = 16;
/// No record that [`write()`] makes has more bytes. For a list at hand [`bound`] tells a closer number.
pub const MOST_RECORD: usize = 11_665_420;

// The library's lengths have 64 bits. So a `usize` is one as it is, and a number of the library, a u32,
// becomes a `usize` by `as` in this package without a loss.
const _: () = assert!(usize::BITS == 64);
