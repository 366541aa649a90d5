//! The calls that read an index: look, ask, test, next, count, lend.
//!
//! Each hands its slices to the library and puts the fields of the answer into words of Rust. Ordinary
//! slicing checks what the library says of a caller's slice, so no answer can lead out of one.

use crate::answer::{Answer, Counted, Lent, Next, OwnedAnswer, PerName, Tested, Way};
use crate::raw;
use crate::refusal::{narrow, verdict, Refusal, Refused};
use crate::MOST_NAMES;

/// Whether the index is sound.
///
/// # Errors
///
/// [`BadSize`](Refusal::BadSize), [`BadTag`](Refusal::BadTag), [`BadEdition`](Refusal::BadEdition),
/// [`BadRange`](Refusal::BadRange) and [`BadParts`](Refusal::BadParts), in this order, of the index as
/// a whole. Then, list by list, the first fault there is: [`BadHead`](Refusal::BadHead),
/// [`BadBits`](Refusal::BadBits), and of its blocks [`BadBlock`](Refusal::BadBlock),
/// [`BadCode`](Refusal::BadCode) or [`BadSlot`](Refusal::BadSlot), with the list as the place. "The
/// order of looking" in docs/FORMAT.md has every detail.
pub fn look(index: &[u8]) -> Result<(), Refused> {
    let [number, place] = raw::look(index);
    verdict(number, place)
}

/// Which slots stand in all lists named.
///
/// - `way` is how the lists are gone through. It changes what the answer costs, never its slots.
/// - `names` are 1 to 16 lists by their numbers, in any order; one list may be named more than once.
/// - `slots` is the room for the answer. It needs as many places as the smallest list named has slots,
///   even where the answer is shorter; as many as the rack has slots are always enough. What it holds
///   before does not matter. [`ask_owned`] finds the room by itself.
///
/// Where the question is accepted, the slots found stand at the front of `slots`, and every place
/// behind them holds 0.
///
/// ```
/// use slots::{ask, index_of, record, Way};
///
/// // A rack of 32 slots, blocks of 4. List 0 is packed as gaps, list 1 as bits up to slot 16.
/// let empty = record(32, 4, 0, &[1, 4, 5, 6, 8, 12, 15, 16, 18, 20, 25, 26, 27, 28, 30])?;
/// let tall = record(32, 4, 16, &[3, 5, 12, 16, 26, 30, 31])?;
/// let index = index_of(32, 4, &[empty, tall])?;
///
/// let mut slots = [0; 32];
/// let answer = ask(&index, Way::BySkips, &[0, 1], &mut slots)?;
/// assert_eq!(answer.slots, [5, 12, 16, 26, 30]);
/// assert_eq!((answer.looks, answer.codes), (9, 14));
///
/// // Which list cost what: list 1 is the smaller, so its slots are sought in list 0.
/// assert_eq!(answer.looks_at(), [9, 0]);
/// assert_eq!(answer.codes_at(), [14, 0]);
///
/// // There is no list 2, and its name stands at position 1.
/// let refused = ask(&index, Way::BySkips, &[0, 2], &mut slots).unwrap_err();
/// assert_eq!(refused.to_string(), "11: there is no list of that name (name at position 1)");
/// # Ok::<(), slots::Refused>(())
/// ```
///
/// # Errors
///
/// In this order: those of [`look`]; [`BadNames`](Refusal::BadNames); [`NoList`](Refusal::NoList),
/// with the position of the first such name; [`NoRoom`](Refusal::NoRoom), with the room needed.
/// `slots` is then as it was.
pub fn ask<'s>(index: &[u8], way: Way, names: &[u32], slots: &'s mut [u32]) -> Result<Answer<'s>, Refused> {
    let [number, place, count, looks, codes, at @ ..] = raw::ask(index, way as u32, names, slots);
    verdict(number, place)?;
    let slots = &slots[..narrow(count) as usize];
    let (looks_at, codes_at) = at.split_at(MOST_NAMES);
    let looks_at = PerName::first(names.len(), looks_at);
    let codes_at = PerName::first(names.len(), codes_at);
    Ok(Answer { slots, looks, codes, looks_at, codes_at })
}

/// As [`ask`], with a buffer of its own for the answer.
///
/// It asks once with no room at all. The library refuses that with the room needed, which is then
/// there when it asks again; where the smallest list named is empty the first answer is the answer.
///
/// # Errors
///
/// As [`ask`], but never [`NoRoom`](Refusal::NoRoom).
pub fn ask_owned(index: &[u8], way: Way, names: &[u32]) -> Result<OwnedAnswer, Refused> {
    match ask(index, way, names, &mut []) {
        Err(Refused { refusal: Refusal::NoRoom, place: needed }) => {
            let mut slots = vec![0; needed as usize];
            ask(index, way, names, &mut slots).map(OwnedAnswer::from)
        }
        answered => answered.map(OwnedAnswer::from),
    }
}

/// Whether the list `name` holds the slot `slot`.
///
/// # Errors
///
/// In this order: those of [`look`]; [`NoList`](Refusal::NoList), with place 0;
/// [`Outside`](Refusal::Outside).
pub fn test(index: &[u8], name: u32, slot: u32) -> Result<Tested, Refused> {
    let [number, place, yes] = raw::test(index, name, slot);
    verdict(number, place)?;
    let yes = match yes {
        0 => false,
        1 => true,
        _ => panic!("libslots.a is not the library of this package: neither yes nor no"),
    };
    Ok(Tested { yes })
}

/// Which slot of the list `name` comes next, from `slot` on: the least that is not below it, so `slot`
/// itself where the list holds it.
///
/// To step through a list, ask from 1, and then each time from one above the slot told, unless that was
/// the last slot of the rack. Every call looks at the whole index: [`ask_owned`] with this one name
/// gives all slots of the list at once.
///
/// ```
/// use slots::{index_of, next, record};
///
/// // The first four slots are bits, the others gaps.
/// let index = index_of(32, 4, &[record(32, 4, 4, &[1, 4, 5, 6, 8, 12, 15])?])?;
///
/// assert_eq!(next(&index, 0, 2)?.slot, Some(4));
/// assert_eq!(next(&index, 0, 8)?.slot, Some(8));
/// assert_eq!(next(&index, 0, 9)?.slot, Some(12));
/// assert_eq!(next(&index, 0, 16)?.slot, None);
/// # Ok::<(), slots::Refused>(())
/// ```
///
/// # Errors
///
/// As [`test()`].
pub fn next(index: &[u8], name: u32, slot: u32) -> Result<Next, Refused> {
    let [number, place, least] = raw::next(index, name, slot);
    verdict(number, place)?;
    let least = narrow(least);
    Ok(Next { slot: (least != 0).then_some(least) })
}

/// How many slots the list `name` holds.
///
/// # Errors
///
/// In this order: those of [`look`]; [`NoList`](Refusal::NoList), with place 0.
pub fn count(index: &[u8], name: u32) -> Result<Counted, Refused> {
    let [number, place, count] = raw::count(index, name);
    verdict(number, place)?;
    Ok(Counted { count: narrow(count) })
}

/// Which bytes of the index are the record of the list `name`.
///
/// # Errors
///
/// As [`count`].
pub fn lend(index: &[u8], name: u32) -> Result<Lent<'_>, Refused> {
    let [start, length] = raw::lend(index, name);
    let (start, length) = (narrow(start), narrow(length));
    if length == 0 {
        // Lending has no number of its own: it gives no bytes exactly where counting is refused.
        let refused = count(index, name).expect_err("what cannot be lent from cannot be counted");
        return Err(refused);
    }
    let record = &index[start as usize..][..length as usize];
    Ok(Lent { start, record })
}
