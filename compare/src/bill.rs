//! The bill for looks: for every whole e, q searches in a list of m blocks may cost
//! q + 2qe + 2 floor(m / 2^e) looks and no more, at each position of a question.

use std::collections::{BTreeMap, BTreeSet};

/// No list has 2^21 blocks, so that from e = 21 on nothing is left of m. The e behind
/// it are tried all the same: they must hold too.
const MOST_E: u64 = 24;

// But for the fourth, a position counts only where something was sought: where
// nothing was, the smallest bill is 0 for any m, and so are the looks.
const SHARPER: &str = "bill: below q + 2m for some e";
const NEAR: &str = "bill: below q + 2m, q + 1 looks or fewer to spare";
const STEEP: &str = "bill: smallest for no e below 3";
const IDLE: &str = "bill: q = 0 with m > 0, bit tests alone";
const FEW: &str = "bill: q up to 2, m from 16 on";
const DEAR: &str = "bill: more than q + m looks";

/// What must be met somewhere in a run.
pub fn required() -> impl Iterator<Item = &'static str> {
    [SHARPER, NEAR, STEEP, IDLE, FEW, DEAR].into_iter()
}

/// What one position of a walk by skips had to do.
#[derive(Clone, Copy, Debug, Default, PartialEq)]
pub struct Load {
    /// Candidates up to the cut.
    pub tests: u64,
    /// Candidates above it: q.
    pub searches: u64,
    /// The blocks of the list: m.
    pub blocks: u64,
}

impl Load {
    /// The bills for e = 0, 1, 2 and so on. With each e a search may cost two looks
    /// more, and of the blocks, of which each may cost two, one of two is left.
    fn bills(&self) -> Vec<u64> {
        let mut each = 1;
        let mut blocks = self.blocks;
        let mut bills = Vec::new();
        for _ in 0..=MOST_E {
            bills.push(each * self.searches + 2 * blocks);
            each += 2;
            blocks /= 2;
        }
        bills
    }

    /// Holds so many looks to every bill, and tells what they are like.
    fn held(&self, looks: u64) -> Result<BTreeSet<&'static str>, String> {
        let bills = self.bills();
        match bills.iter().position(|&most| looks > most) {
            Some(e) => Err(format!("{looks}, the bill for e = {e} is {}", bills[e])),
            None => Ok(self.met(looks, &bills)),
        }
    }

    fn met(&self, looks: u64, bills: &[u64]) -> BTreeSet<&'static str> {
        let (q, m) = (self.searches, self.blocks);
        let best = (0..bills.len()).min_by_key(|&e| bills[e]).unwrap_or(0);
        let sharper = q > 0 && best > 0;
        let events = [
            (SHARPER, sharper),
            (NEAR, sharper && looks + q + 1 >= bills[best]),
            (STEEP, sharper && best >= 3),
            (IDLE, q == 0 && m > 0 && self.tests > 0),
            (FEW, (1..=2).contains(&q) && m >= 16),
            (DEAR, q > 0 && looks > q + m),
        ];
        let met = events.into_iter().filter(|event| event.1);
        met.map(|event| event.0).collect()
    }
}

/// Holds the looks that are told for the positions to their bills. Only positions
/// where lists were searched have a load.
pub fn check(
    looks_at: &[u64],
    loads: &BTreeMap<usize, Load>,
) -> Result<BTreeSet<&'static str>, String> {
    let mut met = BTreeSet::new();
    for (&position, load) in loads {
        let held = load.held(looks_at[position]);
        met.extend(held.map_err(|why| format!("looks at position {position}: {why}"))?);
    }
    Ok(met)
}

#[cfg(test)]
mod tests {
    use super::*;

    fn load(searches: u64, blocks: u64) -> Load {
        Load {
            tests: 0,
            searches,
            blocks,
        }
    }

    #[test]
    fn bills_by_hand() {
        let three = [
            3 + 62,
            3 + 6 + 30,
            3 + 12 + 14,
            3 + 18 + 6,
            3 + 24 + 2,
            3 + 30,
        ];
        assert_eq!(load(3, 31).bills()[..6], three);
        assert_eq!(load(1, 15).bills()[..5], [31, 17, 11, 9, 9]);
        assert_eq!(load(0, 5).bills()[..4], [10, 4, 2, 0]);
        assert_eq!(load(2, 0).bills()[..3], [2, 6, 10]);
        assert_eq!(load(1, 1 << 20).bills()[24], 49);
        assert_eq!(load(1, 1 << 20).bills().len(), 25);
    }

    #[test]
    fn one_look_above_a_bill_is_noticed() {
        for (q, m, most, e) in [
            (3, 31, 27, 3),
            (1, 15, 9, 3),
            (2, 27, 20, 3),
            (7, 4, 15, 0),
            (0, 12, 0, 4),
            (5, 0, 5, 0),
        ] {
            assert!(load(q, m).held(most).is_ok(), "{q} {m}");
            let above = load(q, m).held(most + 1).unwrap_err();
            let told = format!("{}, the bill for e = {e} is {most}", most + 1);
            assert_eq!(above, told);
        }
    }

    #[test]
    fn every_position_is_held() {
        let loads = BTreeMap::from([(0, load(3, 31)), (2, load(1, 15))]);
        let met = check(&[23, 99, 7], &loads).unwrap();
        assert_eq!(met, BTreeSet::from([SHARPER, NEAR, STEEP]));
        assert!(check(&[28, 0, 7], &loads).is_err());
        assert!(check(&[23, 0, 10], &loads).is_err());
    }

    #[test]
    fn what_loads_are_like() {
        let met = |load: Load, looks: u64| load.held(looks).unwrap();
        let near = BTreeSet::from([SHARPER, NEAR, STEEP]);
        assert_eq!(met(load(3, 31), 23), near);
        assert_eq!(met(load(3, 31), 22), BTreeSet::from([SHARPER, STEEP]));
        assert_eq!(met(load(2, 16), 9), BTreeSet::from([SHARPER, FEW]));
        assert_eq!(met(load(2, 15), 9), BTreeSet::from([SHARPER]));
        assert_eq!(met(load(7, 4), 9), BTreeSet::new());
        assert_eq!(met(load(7, 4), 12), BTreeSet::from([DEAR]));
        assert_eq!(met(load(0, 40), 0), BTreeSet::new());
        let bits = Load {
            tests: 1,
            searches: 0,
            blocks: 1,
        };
        assert_eq!(met(bits, 0), BTreeSet::from([IDLE]));
    }
}
