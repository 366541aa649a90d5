//! The largest things: few, since each is long.

use crate::case::{Call, Case, Sizes, Verdict};
use crate::make::{Shelf, MOST_SLOTS};
use crate::pack::{index, starts, List};
use second::random::Random;

const LONGEST: usize = 16_777_216;

/// The sizes of the largest bound: every slot in a block of its own.
const LARGEST: Sizes = Sizes {
    u: MOST_SLOTS,
    block: 1,
    cut: 0,
    n: MOST_SLOTS,
};

/// An index of exactly the greatest length: 127 lists of bits for every slot,
/// and one list of bits that fills the rest.
pub struct Limits {
    records: Vec<Vec<u8>>,
    index: Vec<u8>,
}

impl Limits {
    pub fn new(random: &mut Random) -> Limits {
        let full = |cut: u32, random: &mut Random| {
            let mut list = List::of(1, cut, &[]);
            for bits in list.bits.chunks_mut(8) {
                bits.copy_from_slice(&random.bits().to_le_bytes()[..bits.len()]);
            }
            list.bytes()
        };
        let mut records: Vec<Vec<u8>> = (0..127).map(|_| full(MOST_SLOTS, random)).collect();
        let left = LONGEST - 24 - 4 * 128 - records.concat().len() - 12;
        records.push(full(8 * left as u32, random));
        let index = index(MOST_SLOTS, 1, &records);
        assert_eq!(index.len(), LONGEST);
        Limits { records, index }
    }

    /// The cases one by one, until there are no more. Each has room for all of
    /// its answer, since there are so few of them.
    pub fn case(&self, number: u64, random: &mut Random) -> Option<Case> {
        let case = match number {
            0..=16 => self.of_the_longest(number, random),
            17..=37 => of_many(number, random),
            38..=43 => self.of_next(number),
            _ => return None,
        };
        Some(case.whole_out(random))
    }

    /// 16,777,216 bytes, and one more.
    fn of_the_longest(&self, number: u64, random: &mut Random) -> Case {
        let look = |bytes, aim| Case::new("limit: look", Call::Look, bytes).refused_by(aim);
        let one = |call| Case::new("limit", call, self.index.clone()).accepted();
        match number {
            0 => look(vec![0; LONGEST], &[(2, 0)]),
            1 => look(vec![0; LONGEST + 1], &[(1, 0), (2, 0)]),
            2 => look(self.index.clone(), &[]),
            3 => self.too_long(Call::Look),
            4 => self.too_long(Call::Ask { way: 1 }),
            5 => self.too_long(Call::Test { name: 0, slot: 1 }),
            6 => self.too_long(Call::Count { name: 0 }),
            7 => self.too_long(Call::Lend { name: 0 }),
            8 => one(Call::Count { name: 127 }),
            9 => one(Call::Lend { name: 126 }),
            10 => one(Call::Test {
                name: 127,
                slot: MOST_SLOTS,
            }),
            11 => self.ask(random, 1),
            12 => self.ask(random, 0),
            13 => self.ask_short(random),
            14 => self.close(0, LONGEST, &[]),
            15 => self.close(0, LONGEST - 1, &[(12, LONGEST as u32)]),
            _ => self.close(1, LONGEST + 1, &[(1, 0)]),
        }
    }

    /// The next slot: in an index of a byte too many, in the last list of the
    /// longest, in the last of many lists, and behind as many bits as can be.
    fn of_next(&self, number: u64) -> Case {
        let next = |name, slot| Call::Next { name, slot };
        match number {
            38 => self.too_long(next(0, 1)),
            39 => Case::new("limit: next", next(127, 1_000_000), self.index.clone()).accepted(),
            40 => last_of_many(next(4_095, 18)),
            41 => over_bits(MOST_SLOTS, &[MOST_SLOTS]),
            42 => over_bits(MOST_SLOTS - 1, &[MOST_SLOTS]),
            _ => over_bits(MOST_SLOTS - 1, &[]),
        }
    }

    fn ask(&self, random: &mut Random, way: u32) -> Case {
        Case::new("limit: ask", Call::Ask { way }, self.index.clone())
            .given(vec![127, 0, 64])
            .room(random, MOST_SLOTS as usize)
            .accepted()
    }

    /// One byte more than an index may have.
    fn too_long(&self, call: Call) -> Case {
        let bytes = [&[0], &self.index[..]].concat();
        let names = if let Call::Ask { .. } = call {
            vec![0, 1]
        } else {
            vec![]
        };
        Case::new("limit: too long", call, bytes)
            .given(names)
            .refused_by(&[(1, 0), (5, 0)])
    }

    /// Room for one slot less than the smallest of some long lists has.
    fn ask_short(&self, random: &mut Random) -> Case {
        let names = vec![126, 0, 64];
        let ones = |name: &u32| {
            let bits = self.records[*name as usize][12..].iter();
            bits.map(|byte| byte.count_ones()).sum::<u32>()
        };
        let need = names.iter().map(ones).min().unwrap_or(0);
        Case::new("limit: ask", Call::Ask { way: 1 }, self.index.clone())
            .given(names)
            .room(random, need as usize - 1)
            .refused_by(&[(12, need)])
    }

    /// Closes the records with so many bytes more than they have.
    fn close(&self, more: u32, room: usize, aim: &[Verdict]) -> Case {
        let mut bytes = self.records.concat();
        let total = bytes.len() as u32 + more;
        bytes.resize(room, 0xA5);
        let call = Call::Close {
            u: MOST_SLOTS,
            block: 1,
            total,
        };
        Case::new("limit: close", call, bytes)
            .given(starts(&self.records))
            .refused_by(aim)
    }
}

/// Many lists, and lists of many slots.
fn of_many(number: u64, random: &mut Random) -> Case {
    match number {
        17 => crowd(4_096, &[]),
        18 => crowd(4_097, &[(4, 0)]),
        19 => last_of_many(Call::Count { name: 4_095 }),
        20 => last_of_many(Call::Lend { name: 4_095 }),
        21 => last_of_many(Call::Ask { way: 1 })
            .given(vec![4_095, 4_094])
            .room(random, 18),
        22 => many_closed(4_096, &[]),
        23 => many_closed(4_097, &[(4, 0)]),
        24 => every_slot(1, 0, &[]),
        25 => every_slot(1, 1, &[(12, 12 + 8 * MOST_SLOTS)]),
        26 => every_slot(128, 0, &[]),
        27 => last_slot_again(),
        28 => every_slot_counted(),
        29 => every_slot_asked(random, 1),
        30 => every_slot_asked(random, 0),
        31 => many_looks(random),
        32 => long_bits(Call::Look, 0, &[]),
        33 => long_bits(Call::Look, 1, &[(17, 0)]),
        34 => long_bits(Call::Count { name: 0 }, 0, &[]),
        35 => last_of_many_soiled(),
        36 => Case::new("limit: bound", Call::Bound(LARGEST), Vec::new()).accepted(),
        _ => every_slot_reserved(),
    }
}

/// So many empty lists.
fn crowd(k: usize, aim: &[Verdict]) -> Case {
    let bytes = index(7, 128, &vec![vec![0; 12]; k]);
    Case::new("limit: lists", Call::Look, bytes).refused_by(aim)
}

/// 4,096 lists, of which each has its own slots. The last one's cut is 7.
fn many_lists() -> Vec<List> {
    let list = |i: u32| {
        let slots: Vec<u32> = (1..=2 + i / 256).chain([20 + i]).collect();
        List::of(2, i % 8, &slots)
    };
    (0..4_096).map(list).collect()
}

/// The last of these.
fn last_of_many(call: Call) -> Case {
    let records: Vec<Vec<u8>> = many_lists().iter().map(List::bytes).collect();
    Case::new("limit: lists", call, index(9_000, 2, &records)).accepted()
}

/// The same lists, of which the last has the only bit behind its cut set.
fn last_of_many_soiled() -> Case {
    let mut lists = many_lists();
    lists[4_095].bits[0] |= 1;
    let records: Vec<Vec<u8>> = lists.iter().map(List::bytes).collect();
    Case::new("limit: lists", Call::Look, index(9_000, 2, &records)).refused_by(&[(17, 4_095)])
}

/// As many bits as can be but one, all set up to the cut, and that one as given.
fn long_bits(call: Call, behind: u8, aim: &[Verdict]) -> Case {
    let cut = MOST_SLOTS - 1;
    let all: Vec<u32> = (1..=cut).collect();
    let mut list = List::of(1, cut, &all);
    list.bits[131_071] |= behind;
    let bytes = index(MOST_SLOTS, 1, &[list.bytes()]);
    Case::new("limit: bits", call, bytes).refused_by(aim)
}

/// The next slot from the first one on, in a list whose bits have 131,072 bytes.
fn over_bits(cut: u32, slots: &[u32]) -> Case {
    let bytes = index(MOST_SLOTS, 1, &[List::of(1, cut, slots).bytes()]);
    let call = Call::Next { name: 0, slot: 1 };
    Case::new("limit: next", call, bytes).accepted()
}

/// So many empty lists, closed.
fn many_closed(k: u32, aim: &[Verdict]) -> Case {
    let mut bytes = vec![0; 12 * k as usize];
    bytes.resize(16 * k as usize + 24 + 5, 0xA5);
    let call = Call::Close {
        u: 7,
        block: 128,
        total: 12 * k,
    };
    Case::new("limit: lists closed", call, bytes)
        .given((0..k).map(|i| 12 * i).collect())
        .refused_by(aim)
}

/// A question whose looks no sixteen bits hold: a tail of one slot a block.
fn many_looks(random: &mut Random) -> Case {
    let all: Vec<u32> = (1..=MOST_SLOTS).collect();
    let some: Vec<u32> = (1..=MOST_SLOTS).step_by(16).collect();
    let records = [
        List::of(1, 0, &all).bytes(),
        List::of(1, MOST_SLOTS, &some).bytes(),
    ];
    Case::new(
        "limit: looks",
        Call::Ask { way: 1 },
        index(MOST_SLOTS, 1, &records),
    )
    .given(vec![0, 1])
    .room(random, some.len())
    .accepted()
}

/// A record of every slot there can be, with room short by `short` bytes.
fn every_slot(block: u32, short: usize, aim: &[Verdict]) -> Case {
    let slots: Vec<u32> = (1..=MOST_SLOTS).collect();
    let length = List::of(block, 0, &slots).bytes().len();
    let call = Call::Write {
        u: MOST_SLOTS,
        block,
        cut: 0,
    };
    Case::new("limit: write", call, vec![0x5A; length - short])
        .given(slots)
        .refused_by(aim)
}

/// Every slot there can be, in a room of just the bound.
fn every_slot_reserved() -> Case {
    let call = Call::Write {
        u: LARGEST.u,
        block: LARGEST.block,
        cut: LARGEST.cut,
    };
    let room = vec![0x5A; LARGEST.most() as usize];
    Case::new("limit: write", call, room)
        .given((1..=MOST_SLOTS).collect())
        .accepted()
}

/// Every slot there can be, but the last one is the one before it once more.
fn last_slot_again() -> Case {
    let slots = (1..MOST_SLOTS).chain([MOST_SLOTS - 1]).collect();
    let call = Call::Write {
        u: MOST_SLOTS,
        block: 128,
        cut: 0,
    };
    Case::new("limit: write", call, Vec::new())
        .given(slots)
        .refused_by(&[(13, MOST_SLOTS - 1), (12, 0)])
}

/// The count of a list of all slots, most of them in its tail.
fn every_slot_counted() -> Case {
    let all: Vec<u32> = (1..=MOST_SLOTS).collect();
    let bytes = index(MOST_SLOTS, 128, &[List::of(128, 99, &all).bytes()]);
    Case::new("limit: count", Call::Count { name: 0 }, bytes).accepted()
}

/// A question to two long lists.
fn every_slot_asked(random: &mut Random, way: u32) -> Case {
    let all: Vec<u32> = (1..=MOST_SLOTS).collect();
    let some: Vec<u32> = (1..=MOST_SLOTS).step_by(977).collect();
    let shelf = Shelf {
        u: MOST_SLOTS,
        block: 128,
        lists: vec![List::of(128, 100, &all), List::of(128, 5_000, &some)],
        held: vec![all, some],
    };
    Case::new("limit: ask", Call::Ask { way }, shelf.index())
        .given(vec![0, 1])
        .room(random, shelf.count(1))
        .accepted()
}
