//! Answers falsified on purpose: each must be noticed.

use crate::case::{Call, Case, Outcome, CODES_AT, LOOKS_AT};
use crate::make::one_of;
use crate::wire::{Frame, Part};
use second::random::Random;
use std::ops::Range;

/// What a lie alters.
pub const LIES: [&str; 12] = [
    "the number returned",
    "a number of the answer",
    "a slot of the answer",
    "a byte of an index",
    "a byte behind what was written",
    "a name, start or slot given",
    "a guard before",
    "a guard behind",
    "the last zero behind the slots",
    "the cost of a position",
    "the bytes of a bound",
    "the next slot",
];

/// An answer with one byte changed, where the case has such a byte.
pub fn told(
    random: &mut Random,
    which: usize,
    case: &Case,
    outcome: &Outcome,
    frame: &Frame,
    answer: &[u8],
) -> Option<Vec<u8>> {
    let guarded = random.below(4) as usize;
    let part = |part, field| frame.range(&case.before, part, field);
    let range = match which {
        0 => part(Part::Returned, 0),
        1 => part(Part::Within, 3),
        2 => part(Part::Within, 2),
        3 => part(Part::Within, 0),
        4 => behind_record(case, outcome, part(Part::Within, 0)),
        5 => part(Part::Within, 1),
        6 => part(Part::Before, guarded),
        7 => part(Part::Behind, guarded),
        8 => {
            let slots = part(Part::Within, 2);
            slots.end.saturating_sub(4).max(slots.start)..slots.end
        }
        9 => costs(case, part(Part::Within, 3)),
        10 if matches!(case.call, Call::Bound(_)) => third_number(part(Part::Within, 3)),
        11 if matches!(case.call, Call::Next { .. }) => third_number(part(Part::Within, 3)),
        _ => 0..0,
    };
    if range.is_empty() {
        return None;
    }
    let mut lie = answer.to_vec();
    let at = range.start + random.below(range.len() as u32) as usize;
    lie[at] ^= one_of(random, &[1, 16, 128, 255]);
    Some(lie)
}

/// The places of a question's costs, as far as there are any in the slice.
fn costs(case: &Case, out: Range<usize>) -> Range<usize> {
    match case.call {
        Call::Ask { .. } => {
            let from = out.start + 8 * LOOKS_AT.start;
            from..out.end.min(out.start + 8 * CODES_AT.end)
        }
        _ => 0..0,
    }
}

/// What stands behind number and place, where the slice has a place for it.
fn third_number(out: Range<usize>) -> Range<usize> {
    out.start + 8 * 2..out.end.min(out.start + 8 * 3)
}

/// The byte behind a written record or a closed index.
fn behind_record(case: &Case, outcome: &Outcome, room: Range<usize>) -> Range<usize> {
    match case.call {
        Call::Write { .. } | Call::Close { .. } => {
            let from = room.start + outcome.numbers[2] as usize;
            from..room.end.min(from + 1)
        }
        _ => 0..0,
    }
}
