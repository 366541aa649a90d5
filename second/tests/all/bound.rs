//! How large a record can be: the sum by hand, the refusals in their order, and
//! that no record that is written is larger.

use crate::model;
use crate::tools::*;
use second::random::Random;
use second::{bound, write, Bound};

const MOST: u32 = 1_048_576;

/// The bound must be accepted and come to these bytes.
#[track_caller]
fn bounds(sizes: [u32; 3], n: u32, bytes: u32) {
    let [u, block, cut] = sizes;
    let expected = Bound {
        number: 0,
        place: 0,
        bytes,
    };
    assert_eq!(bound(u, block, cut, n), expected, "{sizes:?} {n}");
}

/// The bound must be refused with this number, and with zeros behind it.
#[track_caller]
fn bounds_not(sizes: [u32; 3], n: u32, number: u32) {
    let [u, block, cut] = sizes;
    let expected = Bound {
        number,
        place: 0,
        bytes: 0,
    };
    assert_eq!(bound(u, block, cut, n), expected, "{sizes:?} {n}");
}

#[test]
fn head_and_bits() {
    bounds([1, 1, 0], 0, 12);
    bounds([1, 1, 1], 0, 13);
    for (cut, bytes) in [(0, 12), (1, 13), (7, 13), (8, 13), (9, 14), (16, 14)] {
        bounds([32, 4, cut], 0, bytes);
    }
    bounds([32, 4, 17], 0, 15);
    bounds([32, 4, 32], 0, 16);
}

#[test]
fn blocks_and_their_codes() {
    // A block is 8 bytes for its first slot and a byte for each other one.
    for (n, bytes) in [
        (1, 20),
        (2, 21),
        (3, 22),
        (4, 23),
        (5, 31),
        (8, 34),
        (9, 42),
    ] {
        bounds([32, 4, 0], n, bytes);
    }
    for (n, bytes) in [(1, 20), (2, 28), (32, 268)] {
        bounds([32, 1, 0], n, bytes);
    }
    for (n, bytes) in [(127, 146), (128, 147)] {
        bounds([128, 128, 0], n, bytes);
    }
    // With 129 slots behind the cut a code may be longer: 12 + 16 + 127 + 1.
    bounds([129, 128, 0], 129, 156);
}

#[test]
fn longer_codes() {
    // Without a tail the sum keeps what the slots behind the cut could cost.
    for (u, bytes) in [
        (127, 12),
        (128, 12),
        (129, 13),
        (130, 13),
        (257, 13),
        (258, 14),
        // 127 times 129 is 16,383, and 128 times 129 is 16,512.
        (16_382, 138),
        (16_383, 139),
        (16_384, 139),
        (16_385, 140),
        (16_386, 140),
        (16_511, 140),
        (16_512, 141),
        // 254 times 129 is 32,766, and 2 times 16,385 is 32,770.
        (32_769, 267),
        (32_770, 268),
    ] {
        bounds([u, 4, 0], 0, bytes);
    }
}

#[test]
fn slots_behind_the_cut() {
    // 17 bits are 3 bytes. Behind them lie 128, 129 and 16,385 slots.
    bounds([145, 2, 17], 3, 12 + 3 + 16 + 1);
    bounds([146, 2, 17], 3, 12 + 3 + 16 + 1 + 1);
    bounds([16_402, 2, 17], 3, 12 + 3 + 16 + 1 + 127 + 1);
    bounds([130, 5, 2], 128, 12 + 1 + 8 * 26 + 102);
}

#[test]
fn the_largest() {
    // 8,128 times 129 is 1,048,512, and 63 times 16,385 is 1,032,255.
    bounds([MOST, 128, 0], 0, 12 + 8_128 + 63);
    bounds([MOST, 1, 0], MOST, 8_396_811);
    bounds([MOST, 128, 0], MOST, 1_114_123);
    bounds([MOST, 128, MOST], 0, 131_084);
    bounds([MOST, 1, MOST - 1], 1, 131_092);
}

#[test]
fn refusals() {
    for u in [0, MOST + 1, 1 << 31, WILD] {
        bounds_not([u, 4, 0], 0, 4);
    }
    for block in [0, 129, 1 << 31, WILD] {
        bounds_not([32, block, 0], 0, 4);
    }
    for cut in [33, 1 << 31, WILD] {
        bounds_not([32, 4, cut], 0, 15);
    }
    for n in [33, 1 << 31, WILD] {
        bounds_not([32, 4, 0], n, 13);
    }
    bounds_not([32, 4, 16], 17, 13);
    bounds_not([32, 4, 32], 1, 13);
    // The cut and n, or n made up to whole blocks, would come round to little.
    bounds_not([32, 4, 32], WILD, 13);
    bounds_not([32, 128, 1], WILD - 1, 13);
}

#[test]
fn refusals_in_their_order() {
    bounds_not([0, 4, WILD], WILD, 4);
    bounds_not([0, 0, 0], 0, 4);
    bounds_not([MOST + 1, 4, WILD], 0, 4);
    bounds_not([MOST + 1, 4, 0], WILD, 4);
    bounds_not([32, 129, 33], 0, 4);
    bounds_not([32, 0, 0], 33, 4);
    bounds_not([32, 4, 33], 1, 15);
    bounds_not([32, 4, 33], WILD, 15);
    bounds_not([32, 4, WILD], WILD, 15);
}

/// Numbers at which something changes, and wild ones.
const EDGES: [u32; 20] = [
    0,
    1,
    2,
    8,
    9,
    128,
    129,
    130,
    257,
    258,
    16_384,
    16_385,
    16_386,
    MOST - 1,
    MOST,
    MOST + 1,
    1 << 31,
    WILD - 128,
    WILD - 1,
    WILD,
];

/// The first reason to refuse, told in sums that cannot wrap, or 0.
fn reason(sizes: [u32; 3], n: u32) -> u32 {
    let [u, block, cut] = sizes.map(u64::from);
    let sound = (1..=1_048_576).contains(&u) && (1..=128).contains(&block);
    match (sound, cut <= u, cut + u64::from(n) <= u) {
        (false, _, _) => 4,
        (_, false, _) => 15,
        (_, _, false) => 13,
        _ => 0,
    }
}

/// Four numbers of any kind get the answer that follows from them. For the sizes
/// alone writing must agree.
fn answered(sizes: [u32; 3], n: u32) {
    let [u, block, cut] = sizes;
    let number = reason(sizes, n);
    if number == 0 {
        bounds(sizes, n, model::most(u, block, cut, n));
    } else {
        bounds_not(sizes, n, number);
    }
    if n == 0 {
        let empty = write(u, block, cut, &[], &mut []);
        let expected = if number == 0 { 12 } else { number };
        assert_eq!(empty.number, expected, "{sizes:?}");
    }
}

#[test]
fn any_numbers_get_an_answer() {
    for u in EDGES {
        for block in [0, 1, 2, 127, 128, 129, 1 << 31, WILD] {
            for cut in EDGES {
                for n in EDGES {
                    answered([u, block, cut], n);
                }
            }
        }
    }
}

/// Writes a record, checks that it is not above the bound of its cut and its
/// tail's count, and that a room of just the bound is not refused. Gives the
/// record and the bound.
#[track_caller]
fn kept(sizes: [u32; 3], slots: &[u32]) -> (Vec<u8>, usize) {
    let [u, block, cut] = sizes;
    let tail = slots.iter().filter(|&&slot| slot > cut).count();
    let told = bound(u, block, cut, tail as u32);
    assert_eq!((told.number, told.place), (0, 0), "{sizes:?} {tail}");
    let record = written(u, block, cut, slots);
    let bytes = told.bytes as usize;
    assert!(record.len() <= bytes, "{sizes:?} {slots:?}");

    let mut room = vec![DUST; bytes];
    let answer = write(u, block, cut, slots, &mut room);
    assert_eq!(answer, wrote(0, 0, record.len() as u32));
    assert_eq!(room[..record.len()], record);
    (record, bytes)
}

/// The same for a record that must be as large as its bound.
#[track_caller]
fn reached(sizes: [u32; 3], slots: &[u32], bytes: usize) {
    let (record, told) = kept(sizes, slots);
    assert_eq!((record.len(), told), (bytes, bytes));
}

#[test]
fn records_as_large_as_the_bound() {
    reached([130, 128, 0], &[1, 130], 22);
    reached([32, 4, 0], &LIST_0, 55);
    reached([32, 4, 16], &LIST_1, 24);
    reached([32, 4, 32], &LIST_0, 16);
    reached([259, 3, 0], &[1, 130, 259], 24);
    reached([276, 3, 17], &[5, 18, 147, 276], 27);
    // A whole block of 128 slots, each 129 behind the one before: 127 codes of
    // two bytes.
    let far: Vec<u32> = (0..128).map(|i| 1 + 129 * i).collect();
    assert_eq!(far[127], 16_384);
    reached([16_384, 128, 0], &far, 12 + 8 + 127 * 2);
}

#[test]
fn every_small_list() {
    for u in 1..=12 {
        for set in 0u32..1 << u {
            let slots: Vec<u32> = (1..=u).filter(|x| set >> (x - 1) & 1 == 1).collect();
            for block in 1..=4 {
                for cut in 0..=u {
                    // No code is longer than a byte, so nothing is to spare.
                    let (record, bytes) = kept([u, block, cut], &slots);
                    assert_eq!(record.len(), bytes);
                }
            }
        }
    }
}

/// Differences at which a code grows, and those beside them.
const STEPS: [u32; 8] = [1, 2, 127, 128, 129, 16_384, 16_385, 16_386];

#[test]
fn every_short_list_of_such_steps() {
    for choice in 0..8usize.pow(4) {
        let step = |place: u32| STEPS[choice / 8usize.pow(place) % 8];
        let mut slots = vec![1];
        for place in 0..4 {
            slots.push(slots[place as usize] + step(place));
        }
        for block in 1..=5 {
            for cut in [0, slots[0], slots[1] - 1] {
                kept([slots[4], block, cut], &slots);
            }
        }
    }
}

/// A difference of one of several kinds.
fn some_step(random: &mut Random, kind: u32) -> u32 {
    match kind {
        0 => random.between(1, 3),
        1 => random.between(126, 131),
        2 => 129,
        3 => random.between(16_382, 16_387),
        4 => random.between(1, 60_000),
        _ => STEPS[random.below(8) as usize],
    }
}

/// A list of up to 1,500 slots, most of them as far apart as its kind says.
fn some_slots(random: &mut Random) -> Vec<u32> {
    let kind = random.below(6);
    let many = random.below(1_500) as usize;
    let mut slots = Vec::new();
    let mut slot = random.between(1, 200);
    while slots.len() < many && slot <= MOST {
        slots.push(slot);
        let kind = if random.below(20) == 0 { 5 } else { kind };
        slot += some_step(random, kind);
    }
    slots
}

/// Sizes that suit a list: u at its end or behind it, and a cut at either end, at
/// one of the slots, or anywhere.
fn some_sizes(random: &mut Random, slots: &[u32]) -> [u32; 3] {
    let last = slots.last().copied().unwrap_or(1);
    let u = match random.below(3) {
        0 => last,
        1 => random.between(last, MOST.min(last + 300)),
        _ => random.between(last, MOST),
    };
    let block = match random.below(3) {
        0 => random.between(1, 5),
        1 => random.between(6, 128),
        _ => 128,
    };
    let cut = match random.below(6) {
        0..=2 => 0,
        3 if !slots.is_empty() => slots[random.below(slots.len() as u32) as usize],
        4 => u,
        _ => random.below(u + 1),
    };
    [u, block, cut]
}

/// How many codes of a record have a second byte, and how many a third.
fn longer(record: &[u8]) -> [usize; 2] {
    let length = u32::from_le_bytes(record[8..12].try_into().unwrap());
    let codes = &record[record.len() - length as usize..];
    let goes_on = |byte: &u8| *byte >= 0x80;
    let further = codes.iter().filter(|byte| goes_on(byte)).count();
    let pairs = codes.windows(2);
    let third = pairs.filter(|pair| pair.iter().all(goes_on)).count();
    [further - third, third]
}

#[test]
fn many_large_lists() {
    let mut random = Random::new(27);
    let mut sums = [0; 2];
    let mut least_spare = usize::MAX;
    let mut large = 0;
    for _ in 0..3_000 {
        let slots = some_slots(&mut random);
        let sizes = some_sizes(&mut random, &slots);
        let (record, bytes) = kept(sizes, &slots);

        // Each of the two last parts of the sum suffices for itself.
        let behind = (sizes[0] - sizes[2]) as usize;
        let [second, third] = longer(&record);
        assert!(second <= behind / 129 && third <= behind / 16_385);

        sums = [sums[0] + second, sums[1] + third];
        if second > 20 {
            least_spare = least_spare.min(bytes - record.len());
        }
        large += usize::from(sizes[0] > 500_000 && behind > 500_000);
    }
    assert!(sums.iter().all(|&sum| sum > 10_000), "{sums:?}");
    assert!(least_spare <= 2 && large > 300, "{least_spare} {large}");
}

#[test]
fn the_longest_lists() {
    for step in STEPS {
        let slots: Vec<u32> = (1..=MOST).step_by(step as usize).collect();
        for (block, cut) in [(1, 0), (128, 0), (128, 1), (7, MOST / 2), (128, MOST)] {
            kept([MOST, block, cut], &slots);
        }
    }
}
