//! Writing one record.

use crate::answer::{Verdict, Written};
use crate::bytes::put_number;
use crate::code;
use crate::look::sizes;
use crate::{HEAD, SKIP};

/// Writes the record of `slots` at the front of `room`. How long it gets is measured
/// first, as a room that is too small must stay as it is.
pub fn write(u: u32, block: u32, cut: u32, slots: &[u32], room: &mut [u8]) -> Written {
    if let Err(refusal) = judge(u, block, cut, slots) {
        return refusal.into();
    }
    let (low, high) = slots.split_at(slots.partition_point(|&slot| slot <= cut));
    let bit_bytes = cut.div_ceil(8) as usize;
    let skip_bytes = SKIP * high.len().div_ceil(block as usize);
    let code_bytes: u32 = high.chunks(block as usize).map(measure).sum();
    let length = HEAD + bit_bytes + skip_bytes + code_bytes as usize;
    let Some(record) = room.get_mut(..length) else {
        return Verdict::at(12, length as u32).into();
    };

    let (head, rest) = record.split_at_mut(HEAD);
    let (bits, rest) = rest.split_at_mut(bit_bytes);
    let (skips, codes) = rest.split_at_mut(skip_bytes);
    put_number(head, 0, cut);
    put_number(head, 4, high.len() as u32);
    put_number(head, 8, code_bytes);
    put_bits(bits, low);
    put_tail(skips, codes, high, block);
    Written {
        number: 0,
        place: 0,
        length: length as u32,
    }
}

/// The checks that come before the room: 4, 15 and 13.
fn judge(u: u32, block: u32, cut: u32, slots: &[u32]) -> Result<(), Verdict> {
    sizes(u, block)?;
    if cut > u {
        return Err(Verdict::plain(15));
    }
    let mut last = 0;
    for (position, &slot) in slots.iter().enumerate() {
        if slot <= last || slot > u {
            return Err(Verdict::at(13, position as u32));
        }
        last = slot;
    }
    Ok(())
}

/// How many bytes the codes of one block have.
fn measure(of_block: &[u32]) -> u32 {
    let pairs = of_block.windows(2);
    pairs.map(|pair| code::length(pair[1] - pair[0] - 1)).sum()
}

/// Bits behind the cut stay zero: row 17 refuses any other.
fn put_bits(bits: &mut [u8], low: &[u32]) {
    bits.fill(0);
    for &slot in low {
        let i = slot as usize - 1;
        bits[i / 8] |= 0x80 >> (i % 8);
    }
}

/// The skip entries and the codes of all blocks.
fn put_tail(skips: &mut [u8], codes: &mut [u8], high: &[u32], block: u32) {
    let whole = codes.len();
    let mut places = codes.iter_mut();
    for (of_block, entry) in high
        .chunks(block as usize)
        .zip(skips.chunks_exact_mut(SKIP))
    {
        put_number(entry, 0, of_block[0]);
        put_number(entry, 4, (whole - places.len()) as u32);
        for pair in of_block.windows(2) {
            code::put(&mut places, pair[1] - pair[0] - 1);
        }
    }
}
