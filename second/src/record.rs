//! One list's record, cut into its parts.

use crate::bytes::number_at;
use crate::code;
use crate::{HEAD, SKIP};

/// Bits are read by words of so many bytes.
const WORD: usize = 8;

/// The parts of a record whose lengths were found to fit. Blocks count from 0.
#[derive(Clone, Copy, Debug)]
pub struct Record<'a> {
    /// Slots up to this one are kept as bits.
    pub cut: u32,
    /// How many slots lie in the tail.
    pub tail: u32,
    block: u32,
    bits: &'a [u8],
    skips: &'a [[u8; SKIP]],
    codes: &'a [u8],
}

impl<'a> Record<'a> {
    /// Cuts a record up, or gives `None` where row 6 of the table refuses it.
    pub fn split(bytes: &'a [u8], u: u32, block: u32) -> Option<Record<'a>> {
        if bytes.len() < HEAD {
            return None;
        }
        let cut = number_at(bytes, 0);
        let tail = number_at(bytes, 4);
        let code_length = number_at(bytes, 8);
        if cut > u || tail > u - cut {
            return None;
        }
        if tail == 0 && code_length > 0 {
            return None;
        }
        let bit_bytes = u64::from(cut.div_ceil(8));
        let skip_bytes = u64::from(tail.div_ceil(block)) * SKIP as u64;
        let whole = HEAD as u64 + bit_bytes + skip_bytes + u64::from(code_length);
        if whole != bytes.len() as u64 {
            return None;
        }
        let (bits, rest) = bytes[HEAD..].split_at(bit_bytes as usize);
        let (skips, codes) = rest.split_at(skip_bytes as usize);
        Some(Record {
            cut,
            tail,
            block,
            bits,
            skips: skips.as_chunks().0,
            codes,
        })
    }

    /// How many blocks the tail has.
    pub fn blocks(&self) -> usize {
        self.skips.len()
    }

    /// How many code bytes there are.
    pub fn code_length(&self) -> u32 {
        self.codes.len() as u32
    }

    /// The first slot of block `b`.
    #[inline]
    pub fn first(&self, b: usize) -> u32 {
        number_at(&self.skips[b], 0)
    }

    /// Where the codes of block `b` begin.
    #[inline]
    pub fn offset(&self, b: usize) -> u32 {
        number_at(&self.skips[b], 4)
    }

    /// Where the codes of block `b` end.
    #[inline]
    pub fn end(&self, b: usize) -> u32 {
        if b + 1 < self.blocks() {
            self.offset(b + 1)
        } else {
            self.code_length()
        }
    }

    /// How many slots block `b` has, its first one included.
    #[inline]
    pub fn slots_in(&self, b: usize) -> u32 {
        let before = b as u32 * self.block;
        (self.tail - before).min(self.block)
    }

    /// The code bytes of block `b`. Its ends must have been judged.
    #[inline]
    pub fn codes_of(&self, b: usize) -> &'a [u8] {
        &self.codes[self.offset(b) as usize..self.end(b) as usize]
    }

    /// Whether bit `x` is set, for 1 up to the last bit there is. Up to the cut
    /// it is the bit of slot `x`.
    #[inline]
    pub fn bit(&self, x: u32) -> bool {
        let i = x as usize - 1;
        self.bits[i / 8] & (0x80 >> (i % 8)) != 0
    }

    /// Whether row 17 of the table refuses the record: a bit is set that lies
    /// behind the cut and so is no slot's. Such bits are in the last byte.
    pub fn has_rubbish(&self) -> bool {
        let used = self.cut % 8;
        let last = self.bits.last().copied().unwrap_or(0);
        used > 0 && last & (0xFF >> used) != 0
    }

    /// The first set bit that is not below `x`, if there is one. Empty words and then
    /// empty bytes are passed over without a look at their bits.
    pub fn next_bit(&self, x: u32) -> Option<u32> {
        let i = x as usize - 1;
        let here = self.bits[i / 8] & (0xFF >> (i % 8));
        if here != 0 {
            return Some(slot_of(i / 8, here));
        }
        let behind = i / 8 + 1;
        let (words, _) = self.bits[behind..].as_chunks::<WORD>();
        let empty = words.iter().take_while(|&&word| word == [0; WORD]);
        let from = behind + WORD * empty.count();
        let at = from + self.bits[from..].iter().position(|&byte| byte != 0)?;
        Some(slot_of(at, self.bits[at]))
    }

    /// The bits by words, in which the lowest bit is that of the lowest slot.
    fn words(&self) -> impl Iterator<Item = u64> + 'a {
        let (words, rest) = self.bits.as_chunks::<WORD>();
        let mut last = [0; WORD];
        last[..rest.len()].copy_from_slice(rest);
        let words = words.iter().copied().chain([last]);
        words.map(|word| u64::from_be_bytes(word).reverse_bits())
    }

    /// How many slots the list holds, once the record has been found sound: then no
    /// bit is set behind the cut.
    pub fn count(&self) -> u32 {
        let set: u32 = self.words().map(u64::count_ones).sum();
        set + self.tail
    }

    /// Puts all slots of the list, ascending, into places that are as many as it
    /// holds, once the record has been found sound.
    pub fn gather(&self, places: &mut [u32]) {
        let (low, high) = places.split_at_mut(places.len() - self.tail as usize);
        self.gather_bits(low);
        self.gather_tail(high);
    }

    fn gather_bits(&self, places: &mut [u32]) {
        let mut places = places.iter_mut();
        for (word, before) in self.words().zip((0..).step_by(8 * WORD)) {
            for (bit, place) in ones(word).zip(places.by_ref()) {
                *place = before + bit + 1;
            }
        }
    }

    fn gather_tail(&self, places: &mut [u32]) {
        for (place, slot) in places.iter_mut().zip(self.tail()) {
            *place = slot;
        }
    }

    /// The slots of the tail, ascending, once the record has been found sound.
    pub fn tail(&self) -> Tail<'a> {
        Tail {
            entries: self.skips.iter(),
            codes: self.codes,
            block: self.block,
            left: 0,
            slot: 0,
        }
    }
}

/// The slots of a tail, decoded as they are asked for. The codes of its blocks lie one
/// behind the other, so that they are one run; they end with the last block, also where
/// that is a shorter one.
pub struct Tail<'a> {
    entries: std::slice::Iter<'a, [u8; SKIP]>,
    codes: &'a [u8],
    block: u32,
    /// How many slots of the block are still to come, if it is a whole one.
    left: u32,
    slot: u32,
}

impl Iterator for Tail<'_> {
    type Item = u32;

    #[inline]
    fn next(&mut self) -> Option<u32> {
        if self.left == 0 {
            self.slot = number_at(self.entries.next()?, 0);
            self.left = self.block;
        } else {
            let (value, rest) = code::read(self.codes)?;
            self.slot += value + 1;
            self.codes = rest;
        }
        self.left -= 1;
        Some(self.slot)
    }
}

/// The slot of the highest bit that is set in one byte of the bits.
fn slot_of(at: usize, byte: u8) -> u32 {
    8 * at as u32 + byte.leading_zeros() + 1
}

/// Which bits of a word are set, from the lowest on, which is 0.
#[inline]
fn ones(mut word: u64) -> impl Iterator<Item = u32> {
    std::iter::from_fn(move || {
        let lowest = (word != 0).then(|| word.trailing_zeros())?;
        word &= word - 1;
        Some(lowest)
    })
}
