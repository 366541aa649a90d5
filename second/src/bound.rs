//! How large a record can be, told before it is written.

use crate::answer::{Bound, Verdict};
use crate::look::sizes;
use crate::{HEAD, SKIP};

/// The least differences whose codes have two bytes, and three. All differences
/// of a tail come to less than U, the number of slots behind the cut, so that no
/// more of them can be as large as this than go into U.
const TWO_BYTES: u64 = 129;
const THREE_BYTES: u64 = 16_385;

/// Tells how many bytes suffice for any record of this cut that has `n` slots in
/// its tail.
pub fn bound(u: u32, block: u32, cut: u32, n: u32) -> Bound {
    match judge(u, block, cut, n) {
        Ok(()) => Bound {
            number: 0,
            place: 0,
            bytes: most(u, block, cut, n),
        },
        Err(refusal) => refusal.into(),
    }
}

/// The checks in the order of writing: 4, 15 and 13. A count has no positions, so
/// 13 points nowhere.
fn judge(u: u32, block: u32, cut: u32, n: u32) -> Result<(), Verdict> {
    sizes(u, block)?;
    if cut > u {
        return Err(Verdict::plain(15));
    }
    if n > u - cut {
        return Err(Verdict::plain(13));
    }
    Ok(())
}

/// The sum, for numbers that have been judged: head, bits, entries, a byte for
/// each code, and the further bytes of the codes that can be longer. The largest
/// u keeps it below nine million.
fn most(u: u32, block: u32, cut: u32, n: u32) -> u32 {
    let slots = u64::from(u - cut);
    let n = u64::from(n);
    let m = n.div_ceil(u64::from(block));
    let bits = u64::from(cut).div_ceil(8);
    let longer = slots / TWO_BYTES + slots / THREE_BYTES;
    (HEAD as u64 + bits + SKIP as u64 * m + (n - m) + longer) as u32
}
