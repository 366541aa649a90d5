//! Lists of all kinds into an index and out again, against sets of the standard library.
//!
//! The lists come from a small generator with a fixed seed, so that every run is the same. Nothing of
//! what is expected comes from the package: an answer is an intersection of sets.

mod common;

use common::{refused, Random};
use slots::{ask, ask_owned, count, index_of, lend, look, next, record, test, Refusal, Way};
use std::collections::BTreeSet;

/// An index, and what was put into it.
struct Made {
    u: u32,
    lists: Vec<BTreeSet<u32>>,
    records: Vec<Vec<u8>>,
    index: Vec<u8>,
}

fn made(random: &mut Random) -> Made {
    let largest = random.one_of(&[3, 40, 3000]);
    let u = random.between(1, largest);
    let largest = random.one_of(&[3, 128]);
    let block = random.between(1, largest);
    let lists: Vec<_> = (0..random.between(1, 6)).map(|_| random.list(u)).collect();
    let mut pack = |list: &BTreeSet<u32>| {
        let any = random.between(0, u);
        let cut = random.one_of(&[0, any, u]);
        let slots: Vec<u32> = list.iter().copied().collect();
        record(u, block, cut, &slots).expect("a list in order")
    };
    let records: Vec<_> = lists.iter().map(&mut pack).collect();
    let index = index_of(u, block, &records).expect("records of this u and block");
    Made { u, lists, records, index }
}

/// Each list by itself: its record, its count, whether it holds some slots or not, and what comes next
/// from them on.
fn check_lists(random: &mut Random, made: &Made) {
    let Made { u, lists, records, index } = made;
    for (name, (list, record)) in (0..).zip(lists.iter().zip(records)) {
        assert_eq!(lend(index, name).unwrap().record, record);
        assert_eq!(count(index, name).unwrap().count as usize, list.len());
        for slot in (0..20).map(|_| random.between(1, *u)) {
            assert_eq!(test(index, name, slot).unwrap().yes, list.contains(&slot));
            assert_eq!(next(index, name, slot).unwrap().slot, list.range(slot..).next().copied());
        }
    }
}

/// A question over some of the lists, asked both ways with room that is too small by one, exact, and
/// larger than needed.
fn check_question(random: &mut Random, made: &Made) {
    let last = u32::try_from(made.lists.len() - 1).expect("few lists");
    let names: Vec<u32> = (0..random.between(1, 16)).map(|_| random.between(0, last)).collect();
    let named: Vec<_> = names.iter().map(|&name| &made.lists[name as usize]).collect();
    let in_all = |slot: &u32| named.iter().all(|list| list.contains(slot));
    let expected: Vec<u32> = named[0].iter().copied().filter(in_all).collect();
    let needed = named.iter().map(|list| list.len()).min().expect("one name at least");
    for way in [Way::Plain, Way::BySkips] {
        check_rooms(&made.index, way, &names, &expected, needed);
    }
    let starting = named.iter().position(|list| list.len() == needed).expect("the smallest is one of them");
    check_costs(&made.index, &names, starting);
}

/// The totals are those of the positions, and the starting list costs nothing.
fn check_costs(index: &[u8], names: &[u32], starting: usize) {
    let found = ask_owned(index, Way::BySkips, names).unwrap();
    assert_eq!((found.looks_at().len(), found.codes_at().len()), (names.len(), names.len()));
    assert_eq!((found.looks_at()[starting], found.codes_at()[starting]), (0, 0));
    assert_eq!((found.looks_at().iter().sum(), found.codes_at().iter().sum()), (found.looks, found.codes));
}

fn check_rooms(index: &[u8], way: Way, names: &[u32], expected: &[u32], needed: usize) {
    let owned = ask_owned(index, way, names).unwrap();
    assert_eq!(owned.slots, expected);
    if way == Way::Plain {
        assert_eq!((owned.looks, owned.codes), (0, 0));
    }
    for room in [needed, needed + 5] {
        let mut slots = vec![u32::MAX; room];
        assert_eq!(ask(index, way, names, &mut slots).unwrap().slots, expected);
        assert!(slots[expected.len()..].iter().all(|&slot| slot == 0));
    }
    if let Some(room) = needed.checked_sub(1) {
        let mut slots = vec![u32::MAX; room];
        let place = u32::try_from(needed).expect("a count of slots");
        assert_eq!(ask(index, way, names, &mut slots), refused(Refusal::NoRoom, place));
        assert!(slots.iter().all(|&slot| slot == u32::MAX));
    }
}

#[test]
fn what_goes_into_an_index_comes_out() {
    let mut random = Random(0x51_07_5E_ED);
    for _ in 0..400 {
        let made = made(&mut random);
        assert_eq!(look(&made.index), Ok(()));
        check_lists(&mut random, &made);
        for _ in 0..4 {
            check_question(&mut random, &made);
        }
    }
}

/// An index with one byte changed is refused, or it still is an index; nothing panics, and what is
/// refused to one call is refused to the others.
#[test]
fn damage_is_refused_or_leaves_an_index() {
    let mut random = Random(0xDA_3A_6E);
    for _ in 0..2000 {
        let mut made = made(&mut random);
        let last = u32::try_from(made.index.len() - 1).expect("a short index");
        let at = random.between(0, last) as usize;
        made.index[at] ^= 1 << random.between(0, 7);
        let looked = look(&made.index);
        for way in [Way::Plain, Way::BySkips] {
            assert_eq!(ask_owned(&made.index, way, &[0]).map(|_| ()), looked);
        }
        assert_eq!(count(&made.index, 0).map(|_| ()), looked);
        assert_eq!(lend(&made.index, 0).map(|_| ()), looked);
        assert_eq!(test(&made.index, 0, 1).map(|_| ()), looked);
        assert_eq!(next(&made.index, 0, 1).map(|_| ()), looked);
    }
}
