//! How many bytes a record can need, and the room that is reserved by it. The numbers expected are summed
//! up by hand: 12 for the head, a byte for each eight slots up to the cut, 8 for each block, 1 for every
//! other slot above the cut, and one more for each 129 and for each 16,385 slots above the cut.

mod common;

use common::{refused, Random, BLOCK, LIST_0, LIST_1, U};
use slots::{bound, record, write, Bound, Refusal, Refused, MOST_RECORD, MOST_SLOTS};

/// How many of the slots lie above the cut.
fn above(cut: u32, slots: &[u32]) -> u32 {
    u32::try_from(slots.iter().filter(|&&slot| slot > cut).count()).expect("a count of slots")
}

fn bytes(u: u32, block: u32, cut: u32, n: u32) -> usize {
    bound(u, block, cut, n).expect("a bound").bytes
}

#[test]
fn the_bound_is_a_sum() {
    // Both lists of the example are as long as they can be.
    assert_eq!(bytes(U, BLOCK, 0, 15), 12 + 4 * 8 + 11);
    assert_eq!(bytes(U, BLOCK, 16, 3), 12 + 2 + 8 + 2);
    // All slots above the cut, and none.
    assert_eq!(bytes(U, BLOCK, 16, 16), 12 + 2 + 4 * 8 + 12);
    assert_eq!(bytes(U, BLOCK, 0, 32), 12 + 8 * 8 + 24);
    assert_eq!(bytes(U, BLOCK, 16, 0), 12 + 2);
    // Bits alone, and a byte of them begun.
    assert_eq!(bytes(U, BLOCK, 32, 0), 12 + 4);
    assert_eq!(bytes(U, BLOCK, 8, 0), 12 + 1);
    assert_eq!(bytes(U, BLOCK, 9, 0), 12 + 2);
    // A block begun is a block.
    assert_eq!(bytes(U, BLOCK, 0, 4), 12 + 8 + 3);
    assert_eq!(bytes(U, BLOCK, 0, 5), 12 + 2 * 8 + 3);
    assert_eq!(bytes(U, 1, 0, 5), 12 + 5 * 8);
    assert_eq!(bytes(U, 128, 0, 5), 12 + 8 + 4);
    assert_eq!(bytes(1, 1, 0, 0), 12);
    assert_eq!(bytes(1, 1, 0, 1), 12 + 8);
    assert_eq!(bytes(1, 1, 1, 0), 12 + 1);
}

#[test]
fn the_last_two_terms_go_by_the_slots_above_the_cut() {
    assert_eq!(bytes(130, 128, 0, 2), 12 + 8 + 1 + 1);
    // Also where there is no slot.
    assert_eq!(bytes(128, 1, 0, 0), 12);
    assert_eq!(bytes(129, 1, 0, 0), 12 + 1);
    assert_eq!(bytes(140, 1, 11, 0), 12 + 2 + 1);
    assert_eq!(bytes(140, 1, 12, 0), 12 + 2);
    assert_eq!(bytes(257, 1, 0, 0), 12 + 1);
    assert_eq!(bytes(258, 1, 0, 0), 12 + 2);
    // 16,384 is 129 * 127 + 1.
    assert_eq!(bytes(16_384, 1, 0, 0), 12 + 127);
    assert_eq!(bytes(16_385, 1, 0, 0), 12 + 127 + 1);
    assert_eq!(bytes(16_385, 1, 1, 0), 12 + 1 + 127);
}

#[test]
fn the_bounds_of_the_largest_rack() {
    // 1,048,576 is 129 * 8,128 + 64, and 16,385 * 63 + 16,321.
    assert_eq!(bytes(MOST_SLOTS, 1, 0, MOST_SLOTS), 12 + 8 * 1_048_576 + 8_128 + 63);
    assert_eq!(bytes(MOST_SLOTS, 128, 0, MOST_SLOTS), 12 + 8_192 * (8 + 127) + 8_128 + 63);
    assert_eq!(bytes(MOST_SLOTS, 128, MOST_SLOTS, 0), 12 + 131_072);
    assert!(bytes(MOST_SLOTS, 1, 0, MOST_SLOTS) <= MOST_RECORD);
    let all: Vec<u32> = (1..=MOST_SLOTS).collect();
    for (block, cut) in [(1, 0), (128, 0), (128, 500_000), (128, MOST_SLOTS)] {
        reserved(MOST_SLOTS, block, cut, &all);
    }
}

#[test]
fn a_bound_is_refused_in_order() {
    let far = u32::MAX;
    let cases = [
        (bound(0, 0, far, far), Refusal::BadRange),
        (bound(0, BLOCK, 1, 1), Refusal::BadRange),
        (bound(1_048_577, BLOCK, far, far), Refusal::BadRange),
        (bound(far, BLOCK, 0, 0), Refusal::BadRange),
        (bound(U, 0, far, far), Refusal::BadRange),
        (bound(U, 129, 33, 33), Refusal::BadRange),
        (bound(U, far, 0, 0), Refusal::BadRange),
        (bound(U, BLOCK, far, far), Refusal::BadCut),
        (bound(U, BLOCK, 33, 0), Refusal::BadCut),
        (bound(U, BLOCK, 32, far), Refusal::NotRising),
        (bound(U, BLOCK, 32, 1), Refusal::NotRising),
        (bound(U, BLOCK, 16, 17), Refusal::NotRising),
        (bound(U, BLOCK, 0, 33), Refusal::NotRising),
    ];
    for (result, refusal) in cases {
        assert_eq!(result, refused(refusal, 0));
    }
}

/// The same sum and the same refusals, in numbers that cannot overflow.
fn expected(u: u32, block: u32, cut: u32, n: u32) -> Result<usize, Refused> {
    let [u, block, cut, n] = [u, block, cut, n].map(|number| usize::try_from(number).expect("64 bits"));
    if !(1..=1_048_576).contains(&u) || !(1..=128).contains(&block) {
        return refused(Refusal::BadRange, 0);
    }
    if cut > u {
        return refused(Refusal::BadCut, 0);
    }
    if n > u - cut {
        return refused(Refusal::NotRising, 0);
    }
    let (m, left) = (n.div_ceil(block), u - cut);
    Ok(12 + cut.div_ceil(8) + 8 * m + (n - m) + left / 129 + left / 16_385)
}

#[test]
fn wild_numbers_get_an_answer() {
    let wild = [0, 1, 2, 7, 8, 127, 128, 129, 130, 16_385, 1_048_575, 1_048_576, 1_048_577, 1 << 31, u32::MAX];
    for u in wild {
        for block in wild {
            for cut in wild {
                for n in wild {
                    let found = bound(u, block, cut, n).map(|bound| bound.bytes);
                    assert_eq!(found, expected(u, block, cut, n), "{u} {block} {cut} {n}");
                }
            }
        }
    }
}

/// Writes the slots into exactly the room that is reserved for them, which must do, and gives how many
/// bytes of it are left. What [`record`] gives back is the same record.
fn reserved(u: u32, block: u32, cut: u32, slots: &[u32]) -> usize {
    let mut room = vec![0xA5; bytes(u, block, cut, above(cut, slots))];
    let length = write(u, block, cut, slots, &mut room).expect("a list in order, and room for it").length as usize;
    assert!(record(u, block, cut, slots).expect("a list in order") == room[..length], "{u} {block} {cut}");
    assert!(room[length..].iter().all(|&byte| byte == 0xA5), "behind the record");
    room.len() - length
}

#[test]
fn some_records_need_all_of_it() {
    assert_eq!(reserved(U, BLOCK, 0, &LIST_0), 0);
    assert_eq!(reserved(U, BLOCK, 16, &LIST_1), 0);
    // The code of a slot that lies 129 above the one before has two bytes.
    assert_eq!(reserved(130, 128, 0, &[1, 130]), 0);
    assert_eq!(reserved(131, 128, 1, &[2, 131]), 0);
    // As many such codes as one block can have: 12 + 8 + 2 * 127.
    let far: Vec<u32> = (0..128).map(|step| 1 + 129 * step).collect();
    assert_eq!(record(16_384, 128, 0, &far).unwrap().len(), 274);
    assert_eq!(reserved(16_384, 128, 0, &far), 0);
}

#[test]
fn others_leave_some_of_it() {
    // One slot less above the one before, and the code has one byte.
    assert_eq!(reserved(130, 128, 0, &[1, 129]), 1);
    // A code of three bytes: 12 + 8 + 3, where 12 + 8 + 1 + 127 + 1 are reserved.
    assert_eq!(reserved(16_386, 2, 0, &[1, 16_386]), 126);
    // No slot at all, of 1,048,576: the head.
    assert_eq!(reserved(MOST_SLOTS, 1, 0, &[]), 8_128 + 63);
}

#[test]
fn every_list_of_a_small_rack_fits() {
    let u = 8;
    for held in 0..1_u32 << u {
        let slots: Vec<u32> = (1..=u).filter(|slot| held >> (slot - 1) & 1 == 1).collect();
        for cut in 0..=u {
            for block in 1..=5 {
                // No gap is wide here, so that every record is as long as it can be.
                assert_eq!(reserved(u, block, cut, &slots), 0);
            }
        }
    }
}

#[test]
fn lists_made_at_random_fit() {
    let mut random = Random(0xB0_55_ED);
    for _ in 0..600 {
        let largest = random.one_of(&[40, 3_000, 40_000]);
        let u = random.between(1, largest);
        let largest = random.one_of(&[3, 128]);
        let block = random.between(1, largest);
        let one_in = random.one_of(&[1, 3, 129, 20_000]);
        let slots: Vec<u32> = (1..=u).filter(|_| random.between(1, one_in) == 1).collect();
        let any = random.between(0, u);
        reserved(u, block, random.one_of(&[0, any, u]), &slots);
    }
}

/// What [`record`] answers is what writing says with no room, but that there is room.
fn as_writing_says(u: u32, block: u32, cut: u32, slots: &[u32]) -> Result<usize, Refused> {
    let expected = match write(u, block, cut, slots, &mut []) {
        Err(Refused { refusal: Refusal::NoRoom, place }) => Ok(place as usize),
        other => other.map(|written| written.length as usize),
    };
    let found = record(u, block, cut, slots).map(|record| record.len());
    assert_eq!(found, expected, "{u} {block} {cut} {slots:?}");
    found
}

#[test]
fn a_record_of_wrong_slots_is_refused_as_writing_is() {
    let not_rising = |place| refused(Refusal::NotRising, place);
    // Slots that do not rise, none of them or all of them above the cut; 0; above u.
    assert_eq!(as_writing_says(U, BLOCK, 0, &[4, 5, 3]), not_rising(2));
    assert_eq!(as_writing_says(U, BLOCK, 32, &[4, 5, 5]), not_rising(2));
    assert_eq!(as_writing_says(U, BLOCK, 16, &[0, 17]), not_rising(0));
    assert_eq!(as_writing_says(U, BLOCK, 16, &[17, 33]), not_rising(1));
    assert_eq!(as_writing_says(U, BLOCK, 16, &[u32::MAX]), not_rising(0));
    // More slots above the cut than there can be, of which the first bad one is told.
    assert_eq!(as_writing_says(U, BLOCK, 32, &[1, 2, 33]), not_rising(2));
    assert_eq!(as_writing_says(U, BLOCK, 31, &[5, 32, 32]), not_rising(2));
    assert_eq!(as_writing_says(U, BLOCK, 31, &[5, 5, 33, 34]), not_rising(1));
    assert_eq!(as_writing_says(1, 1, 0, &[1; 100]), not_rising(1));
    // What comes before the slots.
    assert_eq!(as_writing_says(U, BLOCK, 33, &[5, 5]), refused(Refusal::BadCut, 0));
    assert_eq!(as_writing_says(U, BLOCK, u32::MAX, &[]), refused(Refusal::BadCut, 0));
    assert_eq!(as_writing_says(0, BLOCK, 0, &[]), refused(Refusal::BadRange, 0));
    assert_eq!(as_writing_says(0, 0, 9, &[5, 5]), refused(Refusal::BadRange, 0));
    assert_eq!(as_writing_says(u32::MAX, BLOCK, 0, &[1]), refused(Refusal::BadRange, 0));
    assert_eq!(as_writing_says(U, 129, 0, &[1]), refused(Refusal::BadRange, 0));
}

#[test]
fn records_of_anything_are_refused_as_writing_is() {
    let mut random = Random(0x5107);
    let mut accepted = 0;
    for _ in 0..20_000 {
        let u = random.one_of(&[0, 1, 2, 5, 9, 9, 9, 1_048_577]);
        let block = random.one_of(&[0, 1, 2, 4, 128, 129]);
        let cut = random.between(0, 10);
        let many = random.between(0, 4);
        let mut slots: Vec<u32> = (0..many).map(|_| random.between(0, 11)).collect();
        if random.between(0, 1) == 1 {
            slots.sort_unstable();
        }
        accepted += u32::from(as_writing_says(u, block, cut, &slots).is_ok());
    }
    assert!((2_000..18_000).contains(&accepted), "{accepted} accepted");
}

#[test]
fn a_bound_can_be_kept_and_compared() {
    let one: Bound = bound(U, BLOCK, 16, 3).unwrap();
    assert_eq!(one, bound(U, BLOCK, 16, 3).unwrap());
    assert_ne!(one, bound(U, BLOCK, 16, 4).unwrap());
    assert_eq!(format!("{one:?}"), "Bound { bytes: 24 }");
}
