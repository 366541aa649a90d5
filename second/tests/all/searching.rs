//! The doubling search on plain entries: where it ends, what it costs, and the
//! bounds on its cost.

use crate::model::tell;
use crate::tools::WILD;
use second::random::Random;
use second::search;
use std::cell::RefCell;

fn digits(d: u32) -> u64 {
    u64::from(32 - d.leading_zeros())
}

/// Searches, checks the end, the positions looked at and the bound, and gives
/// the end and the looks.
#[track_caller]
fn checked(entries: &[u32], finger: u32, x: u32) -> (u32, u64) {
    let m = entries.len() as u32;
    let asked = RefCell::new(Vec::new());
    let (j, looks) = search(
        |position| {
            asked.borrow_mut().push(position as usize);
            entries[position as usize - 1]
        },
        m,
        finger,
        x,
    );
    let told = tell(entries, finger as usize, x);
    assert_eq!(asked.into_inner(), [told.doubling, told.halving].concat());

    let good = entries.iter().filter(|&&entry| entry <= x).count() as u32;
    assert_eq!(j, good.max(finger));
    let d = j - finger;
    assert!(looks <= if d == 0 { 1 } else { 2 * digits(d) });
    (j, looks)
}

#[test]
fn every_small_search() {
    for m in 0..=40u32 {
        let entries: Vec<u32> = (1..=m).map(|i| 2 * i).collect();
        for finger in 0..=m {
            // A finger stands on an entry that is at most the slot.
            for x in 2 * finger..=2 * m + 3 {
                checked(&entries, finger, x);
            }
        }
    }
}

#[test]
fn one_look_or_none_when_nothing_moves() {
    assert_eq!(checked(&[], 0, 5), (0, 0));
    assert_eq!(checked(&[7], 0, 6), (0, 1));
    assert_eq!(checked(&[7], 0, 7), (1, 1));
    assert_eq!(checked(&[7], 1, 9), (1, 0));
    assert_eq!(checked(&[7, 9], 1, 8), (1, 1));
}

#[test]
fn long_runs_of_searches() {
    let mut random = Random::new(3);
    for _ in 0..300 {
        let m = random.between(0, 200);
        let high = 1 + random.between(m.max(1), 2_000);
        let entries = random.ascending(m, 1, high);
        let q = random.between(0, 60).min(high);
        let mut finger = 0;
        let mut total = 0;
        for x in random.ascending(q, 1, high) {
            let (j, looks) = checked(&entries, finger, x);
            finger = j;
            total += looks;
        }
        assert!(total <= u64::from(q) + 2 * u64::from(m));
    }
}

#[test]
fn the_sum_over_short_lists() {
    // Every set of candidates over seven blocks.
    let entries: Vec<u32> = (1..=7).collect();
    for set in 0u32..1 << 8 {
        let wanted = (0..8u32).filter(|x| set >> x & 1 == 1);
        let mut finger = 0;
        let mut total = 0;
        let mut q = 0;
        for x in wanted {
            let (j, looks) = checked(&entries, finger, x);
            finger = j;
            total += looks;
            q += 1;
        }
        assert!(total <= q + 2 * 7, "{set:b}");
    }
}

#[test]
fn numbers_at_the_end_of_four_bytes() {
    // 32 doublings pass the last position; nothing wraps.
    let (j, looks) = search(|i| i, WILD, 0, WILD);
    assert_eq!(j, WILD);
    assert_eq!(looks, 32 + 31);
    assert_eq!(search(|i| i, WILD, WILD, WILD), (WILD, 0));
    assert_eq!(search(|i| i, WILD, WILD - 1, WILD), (WILD, 1));
    assert_eq!(search(|i| i, 3, WILD, 0), (WILD, 0));
}
