//! The doubling search over skip entries.

/// Finds the last position from `finger` up to `m` whose entry is at most `x`,
/// and tells how many entries were compared with `x`. `entry(i)` is asked for
/// positions above the finger only, so position 0 is never asked for.
#[inline]
pub fn search(entry: impl Fn(u32) -> u32, m: u32, finger: u32, x: u32) -> (u32, u64) {
    let p = u64::from(finger);
    let m = u64::from(m);
    let at_most_x = |position: u64| entry(position as u32) <= x;

    let mut looks = 0;
    let mut lo = p;
    let mut step = 1;
    let hi = loop {
        let position = p + step;
        if position > m {
            break m + 1;
        }
        looks += 1;
        if !at_most_x(position) {
            break position;
        }
        lo = position;
        step *= 2;
    };
    if lo == p {
        return (finger, looks);
    }
    let (j, more) = halve(at_most_x, lo, hi);
    (j as u32, looks + more)
}

/// The halving: `lo` is good, `hi` is not or lies behind the last entry.
#[inline]
fn halve(at_most_x: impl Fn(u64) -> bool, mut lo: u64, mut hi: u64) -> (u64, u64) {
    let mut looks = 0;
    while hi - lo > 1 {
        let middle = lo + (hi - lo) / 2;
        looks += 1;
        if at_most_x(middle) {
            lo = middle;
        } else {
            hi = middle;
        }
    }
    (lo, looks)
}
