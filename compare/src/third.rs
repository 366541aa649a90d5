//! What is known of an answer without either implementation: the refusal that
//! a case was made for, and for accepted calls a plain reading of the bytes.

use crate::bill;
use crate::case::{Call, Case, Outcome, Sizes, Verdict, CODES_AT, LOOKS_AT};
use crate::fast::{met_by_cut, met_by_plain};
use crate::measure::{met_by_length, met_by_room};
use crate::next;
use crate::pack::{ending, List};
use crate::read::{self, Seen};
use crate::trace::{common, met_by_costs, met_by_count, met_by_list, met_by_names, walk};
use crate::trace::{WRITTEN_CUT, WRITTEN_THREE, WRITTEN_TWO};
use std::collections::{BTreeMap, BTreeSet};
use std::panic::catch_unwind;

/// What a case has met on its way.
pub type Met = BTreeSet<&'static str>;

pub const REFUSED_ZEROS: &str = "refused: all 32 places of the costs made 0";
pub const PLAIN_ZEROS: &str = "plain: all 32 made 0, where skips would cost";

/// Holds an answer against what is known of it, in words where they differ. The
/// plain reading takes it that an index is one. Where it fails, the index was none,
/// and the answer should have said so; a run has to go on and tell that.
pub fn check(case: &Case, outcome: &Outcome) -> Result<Met, String> {
    let held = catch_unwind(|| by_all(case, outcome));
    held.unwrap_or_else(|_| Err("what was taken for an index cannot be read".to_string()))
}

fn by_all(case: &Case, outcome: &Outcome) -> Result<Met, String> {
    if let Some(aim) = case.aim {
        if aim != outcome.verdict {
            return Err(format!("made for {aim:?}, answered {:?}", outcome.verdict));
        }
    }
    if let Some(must) = by_the_numbers(case, outcome) {
        if must != outcome.verdict {
            return Err(format!("must be {must:?}, is {:?}", outcome.verdict));
        }
    }
    if outcome.verdict != (0, 0) {
        return refused(case, outcome);
    }
    by_the_bytes(case, outcome)
}

/// The verdict by the plain arguments, where these tell it: always that of a
/// bound, and where the index was found sound that of a name and a slot.
fn by_the_numbers(case: &Case, outcome: &Outcome) -> Option<Verdict> {
    let sound = matches!(outcome.verdict.0, 0 | 11 | 16);
    match case.call {
        Call::Bound(sizes) => Some(sizes.verdict()),
        Call::Test { name, slot } | Call::Next { name, slot } if sound => {
            Some(next::verdict(&case.before.bytes, name, slot))
        }
        _ => None,
    }
}

/// A refusal tells its number and place and zeros, a part not lent only zeros.
fn refused(case: &Case, outcome: &Outcome) -> Result<Met, String> {
    let told = match case.call {
        Call::Lend { .. } => 0,
        _ => 2,
    };
    if outcome.numbers[told..].iter().any(|&number| number != 0) {
        return Err("refused, and not all else is 0".to_string());
    }
    let number = outcome.verdict.0;
    match case.call {
        Call::Bound(sizes) => Ok(sizes.met(number, case.before.out.len())),
        Call::Next { name, slot } => Ok(next::refused(&case.before.bytes, number, name, slot)),
        Call::Write { u, block, cut } if number == 12 => {
            let room = case.before.bytes.len() as u64;
            met_by_room(outcome.numbers[1], room, bound_of(case, u, block, cut))
        }
        _ => Ok(zeros(case, REFUSED_ZEROS)),
    }
}

/// The most bytes that a writing can need.
fn bound_of(case: &Case, u: u32, block: u32, cut: u32) -> u64 {
    let above = case.before.given.iter().filter(|&&slot| slot > cut);
    let n = above.count() as u32;
    Sizes { u, block, cut, n }.most()
}

/// Meets the event where the answer has places for the costs of several names.
/// None of them held a zero before, so the zeros were written.
fn zeros(case: &Case, event: &'static str) -> Met {
    let asked = matches!(case.call, Call::Ask { .. }) && case.before.given.len() > 1;
    let places = case.before.out.get(LOOKS_AT.start..CODES_AT.end);
    if asked && places.is_some_and(|places| !places.contains(&0)) {
        Met::from([event])
    } else {
        Met::new()
    }
}

/// The same of an accepted call, by a plain reading.
fn by_the_bytes(case: &Case, outcome: &Outcome) -> Result<Met, String> {
    let index = &case.before.bytes;
    match case.call {
        Call::Look => clean(index),
        Call::Ask { way } => question(case, outcome, way),
        Call::Test { name, slot } => {
            let list = accepted(index, name)?;
            let yes = list.held.contains(&slot);
            same("yes", outcome.numbers[2], u64::from(yes))?;
            Ok(met_by_list(&list))
        }
        Call::Count { name } => {
            let list = accepted(index, name)?;
            same("count", outcome.numbers[2], list.held.len() as u64)?;
            Ok(&met_by_list(&list) | &met_by_count(&list))
        }
        Call::Lend { name } => {
            let list = accepted(index, name)?;
            same("start", outcome.numbers[0], list.start as u64)?;
            same("length", outcome.numbers[1], list.length as u64)?;
            Ok(met_by_list(&list))
        }
        Call::Write { u, block, cut } => writing(case, outcome, u, block, cut),
        Call::Close { u, block, total } => {
            let ending = ending(u, block, total, &case.before.given);
            in_front(case, outcome, total as usize, &ending)?;
            clean(&outcome.after.bytes[..outcome.numbers[2] as usize])
        }
        Call::Bound(sizes) => {
            same("bytes", outcome.numbers[2], sizes.most())?;
            Ok(sizes.met(0, case.before.out.len()))
        }
        Call::Next { name, slot } => next_slot(case, outcome, name, slot),
    }
}

fn next_slot(case: &Case, outcome: &Outcome, name: u32, slot: u32) -> Result<Met, String> {
    let index = &case.before.bytes;
    let list = accepted(index, name)?;
    let must = next::least(&list.held, slot);
    same("slot", outcome.numbers[2], u64::from(must))?;
    let met = next::met(&list, read::u(index), slot, case.before.out.len());
    Ok(&met_by_list(&list) | &met)
}

/// No list of an accepted index has a bit set behind its cut.
fn clean(index: &[u8]) -> Result<Met, String> {
    match read::rubbish(index) {
        Some(list) => Err(format!("accepted: a bit behind the cut of list {list}")),
        None => Ok(Met::new()),
    }
}

/// One list of an accepted index. Its record must be the one that its cut and
/// its slots have.
fn accepted(index: &[u8], name: u32) -> Result<Seen, String> {
    clean(index)?;
    let list = read::list(index, name);
    let packed = List::of(read::block(index), list.cut, &list.held);
    if packed.bytes() == index[list.start..list.start + list.length] {
        Ok(list)
    } else {
        Err(format!(
            "accepted: another record than that of list {name}'s slots"
        ))
    }
}

fn same(what: &str, is: u64, must: u64) -> Result<Met, String> {
    if is == must {
        Ok(Met::new())
    } else {
        Err(format!("{what}: must be {must}, is {is}"))
    }
}

/// Nothing but `bytes` was put into the room, at `at`, and the length tells
/// where they end.
fn in_front(case: &Case, outcome: &Outcome, at: usize, bytes: &[u8]) -> Result<Met, String> {
    let mut room = case.before.bytes.clone();
    let end = at + bytes.len();
    room[at..end].copy_from_slice(bytes);
    if room != outcome.after.bytes {
        return Err("other bytes than known".to_string());
    }
    same("length", outcome.numbers[2], end as u64)
}

/// A writing: the record is another packer's, and no longer than its bound.
fn writing(case: &Case, outcome: &Outcome, u: u32, block: u32, cut: u32) -> Result<Met, String> {
    let list = List::of(block, cut, &case.before.given);
    in_front(case, outcome, 0, &list.bytes())?;
    let room = case.before.bytes.len() as u64;
    let most = bound_of(case, u, block, cut);
    let met = met_by_length(&list, outcome.numbers[2], room, most)?;
    let mut met = &met_by_writing(&list) | &met;
    met.extend(met_by_cut(cut, &case.before.given));
    Ok(met)
}

/// What a record that is written is like.
fn met_by_writing(list: &List) -> Met {
    let mut met = Met::new();
    for code in list.blocks.iter().flat_map(|block| &block.codes) {
        match code.len() {
            2 => met.insert(WRITTEN_TWO),
            3 => met.insert(WRITTEN_THREE),
            _ => false,
        };
    }
    if list.idle_bits() != 0 {
        met.insert(WRITTEN_CUT);
    }
    met
}

/// An accepted question: the slots as sets, and the walk for looks and codes.
fn question(case: &Case, outcome: &Outcome, way: u32) -> Result<Met, String> {
    let names = &case.before.given;
    let mut read: BTreeMap<u32, Seen> = BTreeMap::new();
    for name in BTreeSet::from_iter(names.iter().copied()) {
        read.insert(name, accepted(&case.before.bytes, name)?);
    }
    let lists: Vec<&Seen> = names.iter().map(|name| &read[name]).collect();
    let slots = common(&lists);
    let mut must = slots.clone();
    must.resize(case.before.slots.len(), 0);
    if must != outcome.after.slots || case.known.as_ref().is_some_and(|known| *known != slots) {
        return Err("other slots than the sets have in common".to_string());
    }
    same("count", outcome.numbers[2], slots.len() as u64)?;
    let walk = walk(&lists);
    if walk.slots != slots {
        return Err("the walk finds other slots".to_string());
    }
    let mut met: Met = lists.iter().flat_map(|list| met_by_list(list)).collect();
    if way == 0 {
        costs(outcome, &[], &[])?;
        met.extend(met_by_plain(&walk, &lists));
        if walk.looks.iter().any(|&looks| looks > 0) {
            met.extend(zeros(case, PLAIN_ZEROS));
        }
        return Ok(met);
    }
    // Looks above a bill are other looks than the walk's as well, so the bill comes first.
    let billed = bill::check(&outcome.numbers[LOOKS_AT], &walk.loads)?;
    costs(outcome, &walk.looks, &walk.codes)?;
    met.extend(met_by_names(names, &lists));
    met.extend(billed);
    met.extend(met_by_costs(names, &walk));
    met.extend(walk.met);
    Ok(met)
}

/// The answer has these looks and codes at the positions, 0 behind them, and
/// their totals.
fn costs(outcome: &Outcome, looks: &[u64], codes: &[u64]) -> Result<Met, String> {
    same("looks", outcome.numbers[3], looks.iter().sum())?;
    same("codes", outcome.numbers[4], codes.iter().sum())?;
    for position in 0..LOOKS_AT.len() {
        let must = |costs: &[u64]| costs.get(position).copied().unwrap_or(0);
        let (l, c) = (LOOKS_AT.start + position, CODES_AT.start + position);
        same(
            &format!("looks at position {position}"),
            outcome.numbers[l],
            must(looks),
        )?;
        same(
            &format!("codes at position {position}"),
            outcome.numbers[c],
            must(codes),
        )?;
    }
    Ok(Met::new())
}

#[cfg(test)]
mod tests {
    use super::*;

    /// The next slot of some bytes, answered by such a verdict and such a slot.
    fn told(bytes: &[u8], verdict: Verdict, slot: u64) -> Result<Met, String> {
        let call = Call::Next { name: 0, slot: 2 };
        let case = Case::new("a test", call, bytes.to_vec());
        let outcome = Outcome {
            verdict,
            numbers: vec![verdict.0.into(), verdict.1.into(), slot],
            returned: verdict.0,
            after: case.before.clone(),
        };
        check(&case, &outcome)
    }

    #[test]
    fn a_next_slot_is_held_to_the_bytes() {
        let bytes = crate::pack::index(3, 1, &[List::of(1, 1, &[3]).bytes()]);
        assert!(told(&bytes, (0, 0), 3).is_ok());
        assert!(told(&bytes, (0, 0), 0).is_err());
        assert!(told(&bytes, (0, 0), 2).is_err());
        assert!(told(&bytes, (16, 0), 0).is_err());
        assert!(told(&bytes, (11, 0), 0).is_err());
        // The unused bits are set.
        let mut soiled = List::of(1, 1, &[3]);
        soiled.bits[0] |= 127;
        let bytes = crate::pack::index(3, 1, &[soiled.bytes()]);
        assert!(told(&bytes, (0, 0), 3).is_err());
        assert!(told(&bytes, (17, 0), 0).is_ok());
        assert!(told(&bytes, (17, 0), 3).is_err());
    }

    /// A question by skips about 31 blocks and three slots, its looks told so.
    fn charged(looks: u64) -> Result<Met, String> {
        let even: Vec<u32> = (1..=31).map(|i| 2 * i).collect();
        let lists = [List::of(1, 0, &even), List::of(1, 0, &[16, 32, 48])];
        let index = crate::pack::index(64, 1, &lists.map(|list| list.bytes()));
        let mut case = Case::new("a test", Call::Ask { way: 1 }, index);
        case.before.given = vec![0, 1];
        case.before.slots = vec![7; 3];
        let mut outcome = case.outcome();
        outcome.numbers[3] = looks;
        outcome.numbers[LOOKS_AT.start] = looks;
        check(&case, &outcome)
    }

    #[test]
    fn looks_are_held_to_their_bill() {
        assert!(charged(8 + 8 + 7).is_ok());
        // From 27 on the bill is spent, though the one for e = 0 is 65.
        let above = "looks at position 0: 28, the bill for e = 3 is 27";
        assert_eq!(charged(28), Err(above.to_string()));
        assert_eq!(charged(27), Err("looks: must be 23, is 27".to_string()));
    }

    #[test]
    fn what_cannot_be_read_must_be_refused() {
        assert!(told(&[], (1, 0), 0).is_ok());
        for number in [0, 11, 16] {
            assert!(told(&[], (number, 0), 0).is_err());
            assert!(told(&[255; 30], (number, 0), 0).is_err());
        }
    }
}
