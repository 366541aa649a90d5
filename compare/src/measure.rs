//! How large a record can be, counted out piece by piece; and what is met where
//! that is asked, and where a writing is held to it.

use crate::case::{Sizes, Verdict};
use crate::make::MOST_SLOTS;
use crate::pack::List;
use std::collections::BTreeSet;

/// The least differences of two slots whose codes have two bytes, and three.
pub const TWO: u32 = 129;
pub const THREE: u32 = 16_385;

/// An event, and whether it happened.
pub type Row = (&'static str, bool);

impl Sizes {
    /// The most bytes of a record, for good sizes: the head, a byte for up to
    /// eight bits, an entry with codes of one byte behind it for up to B slots,
    /// and a byte more as often as the slots above the cut have room for a code
    /// that needs it.
    pub fn most(self) -> u64 {
        let bits = portions(self.cut, 8).count() as u64;
        let blocks = portions(self.n, self.block).map(|slots| 8 + u64::from(slots - 1));
        let above = self.u - self.cut;
        12 + bits + blocks.sum::<u64>() + whole_portions(above, TWO) + whole_portions(above, THREE)
    }

    /// What must be told of these sizes. The sum has the bits that it needs.
    pub fn verdict(self) -> Verdict {
        let number = if self.bad_u() || self.bad_block() {
            4
        } else if self.cut > self.u {
            15
        } else if u64::from(self.cut) + u64::from(self.n) > u64::from(self.u) {
            13
        } else {
            0
        };
        (number, 0)
    }

    fn bad_u(self) -> bool {
        self.u == 0 || self.u > MOST_SLOTS
    }

    fn bad_block(self) -> bool {
        self.block == 0 || self.block > 128
    }

    /// What good sizes are like.
    fn accepted(self) -> [Row; 16] {
        let Sizes { u, block, cut, n } = self;
        let above = u - cut;
        let next = above + 1;
        let times = |many: u32, of: u32| many > 0 && many.is_multiple_of(of);
        // In blocks of one slot every number of slots is one of whole blocks.
        let blocks = |many: u32| block > 1 && times(many, block);
        [
            ("bound: n = 0, U 16,385 or more", n == 0 && above >= THREE),
            ("bound: n = U", n > 0 && n == above),
            ("bound: n of whole blocks", blocks(n)),
            ("bound: n one above whole blocks", n > 0 && blocks(n - 1)),
            ("bound: n one below whole blocks", blocks(n + 1)),
            ("bound: U a multiple of 129", times(above, TWO)),
            ("bound: U one below one of 129", times(next, TWO)),
            ("bound: U a multiple of 16,385", times(above, THREE)),
            ("bound: U one below one of 16,385", times(next, THREE)),
            ("bound: cut = u", cut == u),
            ("bound: a cut inside a byte", !cut.is_multiple_of(8)),
            ("bound: a cut at a byte's end", times(cut, 8)),
            ("bound: u = 1", u == 1),
            ("bound: u = 1,048,576", u == MOST_SLOTS),
            ("bound: B = 1", block == 1),
            ("bound: B = 128", block == 128),
        ]
    }

    /// Why such sizes are refused.
    fn refused(self, number: u32) -> [Row; 7] {
        let Sizes { u, cut, n, .. } = self;
        let next = |number: u32, end: u32| end.checked_add(1) == Some(number);
        let next_cut = number == 15 && next(cut, u);
        let next_n = number == 13 && next(n, u - cut);
        let wraps = number == 13 && n.wrapping_add(cut) <= u;
        [
            ("bound refused: 4 by u", number == 4 && self.bad_u()),
            ("bound refused: 4 by B", number == 4 && self.bad_block()),
            ("bound refused: 15", number == 15),
            ("bound refused: 15, the cut one above u", next_cut),
            ("bound refused: 13", number == 13),
            ("bound refused: 13, n one above U", next_n),
            ("bound refused: 13, n + cut wraps to u or less", wraps),
        ]
    }

    /// What is met where these sizes are asked about, accepted and told in so
    /// many places, or refused.
    pub fn met(self, number: u32, out: usize) -> BTreeSet<&'static str> {
        if number == 0 {
            happened(self.accepted().into_iter().chain(ended(out)))
        } else {
            happened(self.refused(number))
        }
    }
}

/// So many things dealt out in portions, of which the last may be smaller.
fn portions(many: u32, size: u32) -> impl Iterator<Item = u32> {
    let mut left = many;
    std::iter::from_fn(move || {
        let portion = left.min(size);
        left -= portion;
        (portion > 0).then_some(portion)
    })
}

fn whole_portions(many: u32, size: u32) -> u64 {
    portions(many, size).filter(|&many| many == size).count() as u64
}

/// Where the slice for the three numbers of an accepted question ends.
fn ended(places: usize) -> [Row; 4] {
    [
        ("bound: out without a place", places == 0),
        ("bound: out of one place", places == 1),
        ("bound: out of two places", places == 2),
        ("bound: out of more than three", places > 3),
    ]
}

/// How a written record and its room compare with the bound, by whether it has
/// codes of two bytes and of three.
fn written(long: [bool; 2], length: u64, room: u64, most: u64) -> [Row; 3] {
    let reached = long[0] && length == most;
    let both = long == [true; 2] && room == most;
    [
        ("written: as long as the bound, codes of two bytes", reached),
        ("written: shorter than the bound", length < most),
        ("written: room of the bound, codes of two and three", both),
    ]
}

/// How a record that was needed and a room too small for it compare with the
/// bound.
fn unwritten(length: u64, room: u64, most: u64) -> [Row; 1] {
    let reached = length == most && room + 1 == most;
    [("refused: room one less than a bound reached", reached)]
}

/// Holds a written record to its bound.
pub fn met_by_length(
    list: &List,
    length: u64,
    room: u64,
    most: u64,
) -> Result<BTreeSet<&'static str>, String> {
    if length > most {
        return Err(format!("{length} bytes written, the bound is {most}"));
    }
    let codes = || list.blocks.iter().flat_map(|block| &block.codes);
    let long = [2, 3].map(|many| codes().any(|code| code.len() == many));
    Ok(happened(written(long, length, room, most)))
}

/// Holds a room that was called too small to the bound.
pub fn met_by_room(length: u64, room: u64, most: u64) -> Result<BTreeSet<&'static str>, String> {
    if length > most || room >= most {
        return Err(format!(
            "{length} bytes needed and {room} too few, the bound is {most}"
        ));
    }
    Ok(happened(unwritten(length, room, most)))
}

pub fn happened(rows: impl IntoIterator<Item = Row>) -> BTreeSet<&'static str> {
    let rows = rows.into_iter().filter(|row| row.1);
    rows.map(|row| row.0).collect()
}

/// What must be met somewhere in a run: the names of all rows, whatever they
/// are made of.
pub fn required() -> impl Iterator<Item = &'static str> {
    let any = Sizes {
        u: 1,
        block: 1,
        cut: 0,
        n: 0,
    };
    let asked = any.accepted().into_iter().chain(ended(0));
    let rooms = written([false; 2], 0, 0, 0).into_iter();
    let rows = asked.chain(any.refused(0)).chain(rooms);
    rows.chain(unwritten(0, 0, 0)).map(|row| row.0)
}

#[cfg(test)]
mod tests {
    use super::*;

    fn sizes(u: u32, block: u32, cut: u32, n: u32) -> Sizes {
        Sizes { u, block, cut, n }
    }

    #[test]
    fn sums_by_hand() {
        // The head, an entry, a code, and one difference of 129.
        assert_eq!(sizes(130, 128, 0, 2).most(), 22);
        assert_eq!(sizes(129, 128, 0, 2).most(), 22);
        assert_eq!(sizes(128, 128, 0, 2).most(), 21);
        // 127 times 129 is 16,383.
        assert_eq!(sizes(16_384, 1, 0, 0).most(), 12 + 127);
        assert_eq!(sizes(16_385, 1, 0, 0).most(), 12 + 127 + 1);
        // Two bytes of bits, two entries, 127 codes, and 16,384 slots above.
        let sum = 12 + 2 + 16 + 127 + 127;
        assert_eq!(sizes(16_393, 128, 9, 129).most(), sum);
        // All bits, and none above them.
        assert_eq!(sizes(1, 1, 1, 0).most(), 13);
        assert_eq!(sizes(MOST_SLOTS, 1, MOST_SLOTS, 0).most(), 12 + 131_072);
        // 8,128 times 129 is 1,048,512; 63 times 16,385 is 1,032,255.
        let sum = 12 + 8 * 1_048_576 + 8_128 + 63;
        assert_eq!(sizes(MOST_SLOTS, 1, 0, MOST_SLOTS).most(), sum);
    }

    #[test]
    fn the_papers_records() {
        let zero = [1, 4, 5, 6, 8, 12, 15, 16, 18, 20, 25, 26, 27, 28, 30];
        let one = [3, 5, 12, 16, 26, 30, 31];
        for (cut, slots) in [(0, &zero[..]), (16, &one)] {
            let list = List::of(4, cut, slots);
            let most = sizes(32, 4, cut, list.tail).most();
            assert_eq!(list.bytes().len() as u64, most);
        }
    }

    #[test]
    fn refusals_in_their_order() {
        let most = u32::MAX;
        assert_eq!(sizes(0, 4, most, most).verdict(), (4, 0));
        assert_eq!(sizes(MOST_SLOTS + 1, 4, 0, 0).verdict(), (4, 0));
        assert_eq!(sizes(32, 0, 33, 0).verdict(), (4, 0));
        assert_eq!(sizes(32, 129, 0, 0).verdict(), (4, 0));
        assert_eq!(sizes(32, 4, 33, most).verdict(), (15, 0));
        assert_eq!(sizes(32, 4, 16, 17).verdict(), (13, 0));
        assert_eq!(sizes(32, 4, 1, most).verdict(), (13, 0));
        assert_eq!(sizes(32, 4, 16, 16).verdict(), (0, 0));
        assert_eq!(sizes(MOST_SLOTS, 128, MOST_SLOTS, 0).verdict(), (0, 0));
    }

    #[test]
    fn what_is_longer_than_its_bound() {
        let list = List::of(4, 0, &[1, 130]);
        assert!(met_by_length(&list, 22, 22, 22).is_ok());
        assert!(met_by_length(&list, 23, 23, 22).is_err());
        assert!(met_by_room(22, 21, 22).is_ok());
        assert!(met_by_room(23, 22, 22).is_err());
        assert!(met_by_room(22, 22, 22).is_err());
    }
}
