//! Short ways to say what is given and what is expected.

use second::{Answer, Counted, Next, Part, Tested, Verdict, Written};

/// A number near the end of what four bytes hold.
pub const WILD: u32 = u32::MAX;
/// What slices of slots are filled with before an operation.
pub const OLD: u32 = 0xDEAD_BEEF;
/// What buffers are filled with before an operation.
pub const DUST: u8 = 0xA5;

/// Bytes from hexadecimal digits; anything else in the text is skipped.
pub fn hex(text: &str) -> Vec<u8> {
    let digits: Vec<u32> = text.chars().filter_map(|c| c.to_digit(16)).collect();
    assert_eq!(digits.len() % 2, 0, "{text}");
    digits
        .chunks(2)
        .map(|pair| (pair[0] * 16 + pair[1]) as u8)
        .collect()
}

/// Four bytes of a number.
pub fn le(value: u32) -> [u8; 4] {
    value.to_le_bytes()
}

/// The paper's index as it is printed there.
pub fn paper() -> Vec<u8> {
    [paper_0(), paper_1(), paper_end()].concat()
}

pub fn paper_0() -> Vec<u8> {
    hex(
        "00000000 0F000000 0B000000 01000000 00000000 08000000 03000000
         12000000 06000000 1B000000 09000000 02 00 00 03 02 00 01 04 00 00 01",
    )
}

pub fn paper_1() -> Vec<u8> {
    hex("10000000 03000000 02000000 28 11 1A000000 00000000 03 00")
}

pub fn paper_end() -> Vec<u8> {
    hex("00000000 37000000 01000000 20000000 04000000 02000000 4F000000 534C4F54")
}

pub const LIST_0: [u32; 15] = [1, 4, 5, 6, 8, 12, 15, 16, 18, 20, 25, 26, 27, 28, 30];
pub const LIST_1: [u32; 7] = [3, 5, 12, 16, 26, 30, 31];
pub const IN_BOTH: [u32; 5] = [5, 12, 16, 26, 30];

/// A record put together from any numbers and parts.
pub fn raw(c: u32, n: u32, l: u32, bits: &[u8], skips: &[(u32, u32)], codes: &[u8]) -> Vec<u8> {
    let mut bytes = [le(c), le(n), le(l)].concat();
    bytes.extend(bits);
    for &(first, offset) in skips {
        bytes.extend(le(first));
        bytes.extend(le(offset));
    }
    bytes.extend(codes);
    bytes
}

/// A record without bits, its code length right.
pub fn gaps(n: u32, skips: &[(u32, u32)], codes: &[u8]) -> Vec<u8> {
    raw(0, n, codes.len() as u32, &[], skips, codes)
}

/// An index put together from any records.
pub fn join(u: u32, block: u32, records: &[Vec<u8>]) -> Vec<u8> {
    let mut bytes = records.concat();
    let end = bytes.len() as u32;
    let mut start = 0;
    for record in records {
        bytes.extend(le(start));
        start += record.len() as u32;
    }
    for number in [1, u, block, records.len() as u32, end] {
        bytes.extend(le(number));
    }
    bytes.extend(b"SLOT");
    bytes
}

/// A written record.
pub fn written(u: u32, block: u32, cut: u32, slots: &[u32]) -> Vec<u8> {
    let mut room = vec![DUST; 12 + cut.div_ceil(8) as usize + 11 * slots.len()];
    let answer = second::write(u, block, cut, slots, &mut room);
    assert_eq!(answer.number, 0);
    room.truncate(answer.length as usize);
    room
}

/// An index of lists, each with its cut.
pub fn lists(u: u32, block: u32, lists: &[(u32, &[u32])]) -> Vec<u8> {
    let records: Vec<Vec<u8>> = lists
        .iter()
        .map(|(cut, slots)| written(u, block, *cut, slots))
        .collect();
    join(u, block, &records)
}

/// The bytes with the number at `at` changed.
pub fn put(bytes: &[u8], at: usize, value: u32) -> Vec<u8> {
    let mut bytes = bytes.to_vec();
    bytes[at..at + 4].copy_from_slice(&le(value));
    bytes
}

/// The bytes with one byte changed.
pub fn poke(bytes: &[u8], at: usize, value: u8) -> Vec<u8> {
    let mut bytes = bytes.to_vec();
    bytes[at] = value;
    bytes
}

/// Looks at an index that must be judged so.
#[track_caller]
pub fn looks_like(index: &[u8], number: u32, place: u32) {
    assert_eq!(second::look(index), Verdict { number, place });
}

/// Sixteen places of which the first hold these, and the others 0.
pub fn places(first: &[u64]) -> [u64; 16] {
    let mut all = [0; 16];
    all[..first.len()].copy_from_slice(first);
    all
}

/// Asks a question that must be answered, checks the whole slice and the
/// totals, and that the places of the names come to them.
#[track_caller]
pub fn answers(
    index: &[u8],
    way: u32,
    names: &[u32],
    room: usize,
    slots: &[u32],
    cost: (u64, u64),
) -> Answer {
    let mut slice = vec![OLD; room];
    let answer = second::ask(index, way, names, &mut slice);
    let sum = |places: &[u64]| places.iter().sum::<u64>();
    let named = (
        sum(&answer.looks_at[..names.len()]),
        sum(&answer.codes_at[..names.len()]),
    );
    let expected = Answer {
        number: 0,
        place: 0,
        count: slots.len() as u32,
        looks: cost.0,
        codes: cost.1,
        looks_at: places(&answer.looks_at[..names.len()]),
        codes_at: places(&answer.codes_at[..names.len()]),
    };
    assert_eq!(answer, expected);
    assert_eq!(named, cost);
    assert_eq!(&slice[..slots.len()], slots);
    assert!(slice[slots.len()..].iter().all(|&slot| slot == 0));
    answer
}

/// Asks a question that must be refused, and checks the slice is as before.
#[track_caller]
pub fn refuses(index: &[u8], way: u32, names: &[u32], room: usize, number: u32, place: u32) {
    let mut slice = vec![OLD; room];
    let answer = second::ask(index, way, names, &mut slice);
    let expected = Answer {
        number,
        place,
        count: 0,
        looks: 0,
        codes: 0,
        looks_at: [0; 16],
        codes_at: [0; 16],
    };
    assert_eq!(answer, expected);
    assert_eq!(slice, vec![OLD; room]);
}

pub fn tested(number: u32, place: u32, yes: bool) -> Tested {
    Tested { number, place, yes }
}

pub fn follows(number: u32, place: u32, slot: u32) -> Next {
    Next {
        number,
        place,
        slot,
    }
}

pub fn counted(number: u32, place: u32, count: u32) -> Counted {
    Counted {
        number,
        place,
        count,
    }
}

pub fn lies(number: u32, place: u32, start: u32, length: u32) -> Part {
    Part {
        number,
        place,
        start,
        length,
    }
}

pub fn wrote(number: u32, place: u32, length: u32) -> Written {
    Written {
        number,
        place,
        length,
    }
}

/// Writes a record that must come out as these bytes, with room to spare.
#[track_caller]
pub fn writes(sizes: [u32; 3], slots: &[u32], record: &[u8]) {
    let [u, block, cut] = sizes;
    for spare in [0, 1, 9] {
        let mut room = vec![DUST; record.len() + spare];
        let answer = second::write(u, block, cut, slots, &mut room);
        assert_eq!(answer, wrote(0, 0, record.len() as u32));
        assert_eq!(&room[..record.len()], record);
        assert!(room[record.len()..].iter().all(|&byte| byte == DUST));
    }
}

/// Writes a record that must be refused, and checks the buffer is as before.
#[track_caller]
pub fn writes_not(sizes: [u32; 3], slots: &[u32], room: usize, number: u32, place: u32) {
    let [u, block, cut] = sizes;
    let mut buffer = vec![DUST; room];
    let answer = second::write(u, block, cut, slots, &mut buffer);
    assert_eq!(answer, wrote(number, place, 0));
    assert_eq!(buffer, vec![DUST; room]);
}
