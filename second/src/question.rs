//! Questions to an index: intersecting lists, testing a slot, telling the next one,
//! counting a list and lending its record.

use crate::answer::{Answer, Counted, Next, Part, Tested, Verdict};
use crate::bill::Charge;
use crate::look::{judged, Frame};
use crate::record::Record;
use crate::seek::seek;
use crate::MOST_NAMES;

const PLAIN: u32 = 0;
const SKIPS: u32 = 1;

/// What searching in the list of one position of the question has cost.
#[derive(Clone, Copy, Default)]
struct Cost {
    searches: u64,
    looks: u64,
    codes: u64,
}

/// One list of a question.
struct Named<'a> {
    /// Where its name stands in the question.
    position: usize,
    list: Record<'a>,
    count: u32,
}

/// The cost of each position of a question.
type Costs = [Cost; MOST_NAMES];

/// Puts the slots that stand in every named list at the front of `slots` and
/// zeros behind them.
pub fn ask(index: &[u8], way: u32, names: &[u32], slots: &mut [u32]) -> Answer {
    let lists = match judge(index, way, names, slots.len()) {
        Ok(lists) => lists,
        Err(refusal) => return refusal.into(),
    };
    let (count, costs) = if way == PLAIN {
        (plainly(&lists, slots), Costs::default())
    } else {
        by_skips(&lists, slots)
    };
    slots[count..].fill(0);
    accepted(count, &costs)
}

/// The answer, with the cost of each position and the totals.
fn accepted(count: usize, costs: &Costs) -> Answer {
    let mut answer = Answer::from(Verdict::ACCEPTED);
    answer.count = count as u32;
    for (position, cost) in costs.iter().enumerate() {
        answer.looks_at[position] = cost.looks;
        answer.codes_at[position] = cost.codes;
        answer.looks += cost.looks;
        answer.codes += cost.codes;
    }
    answer
}

/// The checks of a question: the index, 14, 10, 11 and 12. Gives the lists by rising
/// count, of two with the same count the one named earlier first. The first is where
/// the candidates come from.
fn judge<'a>(
    index: &'a [u8],
    way: u32,
    names: &[u32],
    room: usize,
) -> Result<Vec<Named<'a>>, Verdict> {
    let index = judged(index)?;
    if way != PLAIN && way != SKIPS {
        return Err(Verdict::plain(14));
    }
    if names.is_empty() || names.len() > MOST_NAMES {
        return Err(Verdict::plain(10));
    }
    let lists = names.iter().enumerate().map(|(position, &name)| {
        let list = named(&index, name, position)?;
        let count = list.count();
        Ok(Named {
            position,
            list,
            count,
        })
    });
    let mut lists = lists.collect::<Result<Vec<_>, _>>()?;
    lists.sort_by_key(|named| named.count);
    let needed = lists[0].count;
    if (room as u64) < u64::from(needed) {
        return Err(Verdict::at(12, needed));
    }
    Ok(lists)
}

/// The list that a name at some position means, or 11.
fn named<'a>(index: &Frame<'a>, name: u32, position: usize) -> Result<Record<'a>, Verdict> {
    let there_is = (name as usize) < index.lists();
    let record = there_is.then(|| index.record(name as usize)).flatten();
    record.ok_or(Verdict::at(11, position as u32))
}

/// Puts the slots of the starting list at the front of `slots`: the candidates. Gives
/// how many they are, and the other lists.
fn candidates<'l, 'a>(lists: &'l [Named<'a>], slots: &mut [u32]) -> (usize, &'l [Named<'a>]) {
    let (start, others) = lists.split_first().expect("a question has a name");
    let count = start.count as usize;
    start.list.gather(&mut slots[..count]);
    (count, others)
}

/// The intersection by reading each list along once. Gives how many slots are left at
/// the front of `slots`.
fn plainly(lists: &[Named], slots: &mut [u32]) -> usize {
    let (mut count, others) = candidates(lists, slots);
    for other in others {
        count = merge(&other.list, &mut slots[..count]);
    }
    count
}

/// The intersection by searching for the slots of the smallest list, and what each
/// position has cost.
fn by_skips(lists: &[Named], slots: &mut [u32]) -> (usize, Costs) {
    let (mut count, others) = candidates(lists, slots);
    let mut costs = Costs::default();
    for other in others {
        (count, costs[other.position]) = sift(&other.list, &mut slots[..count]);
    }
    (count, costs)
}

/// Moves the candidates that are held to the front, in their order, and tells how many
/// they are.
#[inline]
fn keep(candidates: &mut [u32], mut held: impl FnMut(u32) -> bool) -> usize {
    let mut kept = 0;
    for i in 0..candidates.len() {
        let x = candidates[i];
        candidates[kept] = x;
        kept += usize::from(held(x));
    }
    kept
}

/// Keeps the candidates that one list holds: up to the cut by their bits, behind it by
/// going along with the tail.
fn merge(list: &Record, candidates: &mut [u32]) -> usize {
    let mut tail = list.tail();
    let mut slot = 0;
    keep(candidates, |x| {
        if x <= list.cut {
            return list.bit(x);
        }
        while slot < x {
            match tail.next() {
                Some(next) => slot = next,
                None => return false,
            }
        }
        slot == x
    })
}

/// Keeps the candidates that one list holds, and tells what finding them has cost. A
/// candidate is held exactly where it is itself the next slot. Up to the cut its bit
/// tells that, which is no search.
fn sift(list: &Record, candidates: &mut [u32]) -> (usize, Cost) {
    let mut cost = Cost::default();
    let mut finger = 0;
    let kept = keep(candidates, |x| {
        if x <= list.cut {
            return list.bit(x);
        }
        let sought = seek(list, finger, x);
        finger = sought.finger;
        cost.searches += 1;
        cost.looks += sought.looks;
        cost.codes += sought.codes;
        sought.next == x
    });
    (kept, cost)
}

/// What a question by skips is charged for at each position but the starting list's,
/// in the order named. It is refused as the question is; its room is taken to be
/// large enough.
pub fn charges(index: &[u8], names: &[u32]) -> Result<Vec<Charge>, Verdict> {
    let lists = judge(index, SKIPS, names, usize::MAX)?;
    let mut slots = vec![0; lists[0].count as usize];
    let (_, costs) = by_skips(&lists, &mut slots);
    let charge = |named: &Named| Charge {
        position: named.position,
        searches: costs[named.position].searches,
        blocks: named.list.blocks() as u64,
        looks: costs[named.position].looks,
    };
    let mut charges: Vec<Charge> = lists[1..].iter().map(charge).collect();
    charges.sort_by_key(|charge| charge.position);
    Ok(charges)
}

/// The checks where a slot is given too: the index, 11 and 16. Gives the list.
fn chosen_for(index: &[u8], name: u32, slot: u32) -> Result<Record<'_>, Verdict> {
    let index = judged(index)?;
    let list = named(&index, name, 0)?;
    if slot < 1 || slot > index.u {
        return Err(Verdict::plain(16));
    }
    Ok(list)
}

/// Tells whether a list holds a slot: by its bit, or by one search.
pub fn test(index: &[u8], name: u32, slot: u32) -> Tested {
    match chosen_for(index, name, slot) {
        Ok(list) => Tested {
            number: 0,
            place: 0,
            yes: holds(&list, slot),
        },
        Err(refusal) => refusal.into(),
    }
}

fn holds(list: &Record, slot: u32) -> bool {
    if slot <= list.cut {
        list.bit(slot)
    } else {
        seek(list, 0, slot).next == slot
    }
}

/// Tells the least slot of a list that is not below a slot, itself included. It is
/// one search from the front of the list, whose cost nobody is told.
pub fn next(index: &[u8], name: u32, slot: u32) -> Next {
    match chosen_for(index, name, slot) {
        Ok(list) => Next {
            number: 0,
            place: 0,
            slot: seek(&list, 0, slot).next,
        },
        Err(refusal) => refusal.into(),
    }
}

/// Tells how many slots a list holds.
pub fn count(index: &[u8], name: u32) -> Counted {
    match judged(index).and_then(|index| named(&index, name, 0)) {
        Ok(list) => Counted {
            number: 0,
            place: 0,
            count: list.count(),
        },
        Err(refusal) => refusal.into(),
    }
}

/// Tells where a list's record lies in the index.
pub fn part(index: &[u8], name: u32) -> Part {
    let span = judged(index).and_then(|index| {
        named(&index, name, 0)?;
        Ok(index.span(name as usize))
    });
    match span {
        Ok((start, end)) => Part {
            number: 0,
            place: 0,
            start: start as u32,
            length: (end - start) as u32,
        },
        Err(refusal) => refusal.into(),
    }
}

/// Lends a list's record, or nothing at all.
pub fn lend(index: &[u8], name: u32) -> &[u8] {
    let lying = part(index, name);
    let start = lying.start as usize;
    &index[start..start + lying.length as usize]
}
