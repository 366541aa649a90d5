//! The bill for looks: how many of them the searches in one list may cost at most.
//! No answer depends on it; it is what the looks that are told are held to.

/// For every whole e, q searches by skips in one list of m blocks cost at most so
/// many looks: q + 2qe + 2 floor(m / 2^e). Where 2^e is above m, nothing is left of
/// m. A sum that eight bytes do not hold is told as the largest that they do.
pub fn bill(e: u32, q: u64, m: u64) -> u64 {
    let parts = m.checked_shr(e).unwrap_or(0);
    let for_e = q.saturating_mul(2).saturating_mul(u64::from(e));
    let for_m = parts.saturating_mul(2);
    q.saturating_add(for_e).saturating_add(for_m)
}

/// The smallest bill over all e, and the smallest e that has it. Where e is the
/// number of m's binary digits, 2^e is above m, so that q + 2qe is left; a larger e
/// adds to that or, where q is 0, leaves it as it is. So no e needs to be tried
/// behind that one.
pub fn best(q: u64, m: u64) -> (u32, u64) {
    let digits = u64::BITS - m.leading_zeros();
    let mut best = (0, bill(0, q, m));
    for e in 1..=digits {
        let other = bill(e, q, m);
        if other < best.1 {
            best = (e, other);
        }
    }
    best
}

/// What one position of a question by skips is charged for, and how much.
#[derive(Clone, Copy, Debug, PartialEq, Eq)]
pub struct Charge {
    /// Where its name stands in the question, counted from 0.
    pub position: usize,
    /// The candidates above the list's cut that come to it: q. A bit test is no
    /// search.
    pub searches: u64,
    /// The blocks of its list: m.
    pub blocks: u64,
    pub looks: u64,
}

impl Charge {
    /// The most looks that its searches may cost, for one e.
    pub fn bill(&self, e: u32) -> u64 {
        bill(e, self.searches, self.blocks)
    }

    /// The smallest e whose bill is the smallest, and that bill.
    pub fn best(&self) -> (u32, u64) {
        best(self.searches, self.blocks)
    }
}
