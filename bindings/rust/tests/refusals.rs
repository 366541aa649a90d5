//! Every number of refusal brought about through the calls, with its place and its words.
//!
//! 14 is missing among them: it says that the way is neither plain nor by skips, and a `Way` is always
//! one of the two.

mod common;

use common::{example, refused, spoilt, BLOCK, LIST_1, U};
use slots::{ask, ask_owned, bound, close, look, next, record, test, write, Refusal, Refused, Way};
use std::error::Error;
use std::fmt::Debug;

/// Expects a refusal with this number and place, and these words for people.
fn expect<T: Debug>(result: Result<T, Refused>, number: u32, place: u32, words: &str) {
    let refused = result.expect_err("a refusal");
    assert_eq!((refused.number(), refused.place), (number, place));
    assert_eq!(refused.to_string(), format!("{number}: {words}"));
}

#[test]
fn of_the_index_as_a_whole() {
    let size = "the index has fewer than 24 or more than 16,777,216 bytes";
    expect(look(&[0; 23]), 1, 0, size);
    expect(look(&spoilt(110, b't')), 2, 0, "the index does not end in the tag SLOT");
    expect(look(&spoilt(87, 2)), 3, 0, "the edition is not 1");
    // u, B and k in the trailer.
    let range = "u is not in 1..1,048,576, B not in 1..128, or the number of lists not in 1..4,096";
    expect(look(&spoilt(91, 0)), 4, 0, range);
    expect(look(&spoilt(95, 129)), 4, 0, range);
    expect(look(&spoilt(99, 0)), 4, 0, range);
    // D in the trailer; the first start; the second, which leaves 11 bytes to its record.
    let parts = "the parts do not make up the size of the index, the first start is not 0, \
                 or a record has fewer than 12 bytes";
    expect(look(&spoilt(103, 80)), 5, 0, parts);
    expect(look(&spoilt(79, 1)), 5, 0, parts);
    expect(look(&spoilt(83, 68)), 5, 0, parts);
}

/// Expects a refusal of the example with one byte changed, for the sake of this list.
fn expect_of_list(list: u32, at: usize, byte: u8, number: u32, words: &str) {
    expect(look(&spoilt(at, byte)), number, list, &format!("{words} (list {list})"));
}

#[test]
fn of_a_record() {
    // The cut of each list, where u is 32.
    let head = "the head of a record does not fit u or the size of the record";
    expect_of_list(0, 0, 33, 6, head);
    expect_of_list(1, 55, 33, 6, head);
    // List 1 cut at 15, where the last bit of its bits, 28 11, was slot 16.
    expect_of_list(1, 55, 15, 17, "a bit beyond the cut is set");
    // The offset of block 0 of each list, which must be 0.
    let block = "the codes of a block do not lie where they should";
    expect_of_list(0, 16, 1, 7, block);
    expect_of_list(1, 73, 1, 7, block);
    // The last code byte of each list says that another byte follows, and none does.
    let code = "a code is damaged, or bytes remain behind the codes of a block";
    expect_of_list(0, 54, 0x80, 8, code);
    expect_of_list(1, 78, 0x80, 8, code);
    // Block 1 of list 0 begins with 6, which block 0 ends with; list 1's last step leads to 33.
    let slot = "a slot is above u or out of order";
    expect_of_list(0, 20, 6, 9, slot);
    expect_of_list(1, 78, 2, 9, slot);
}

#[test]
fn of_a_question() {
    let index = example();
    let names = "the question has no name, or more than 16";
    expect(ask_owned(&index, Way::Plain, &[]), 10, 0, names);
    expect(ask_owned(&index, Way::Plain, &[0; 17]), 10, 0, names);
    let list = "there is no list of that name";
    let asked = ask_owned(&index, Way::BySkips, &[0, 1, 0, 9]);
    expect(asked, 11, 3, &format!("{list} (name at position 3)"));
    expect(test(&index, 2, 1), 11, 0, &format!("{list} (name at position 0)"));
    expect(next(&index, 2, 1), 11, 0, &format!("{list} (name at position 0)"));
    let asked = ask(&index, Way::Plain, &[0, 1], &mut [0; 6]).map(|_| ());
    expect(asked, 12, 7, "the room is too small (room needed: 7)");
    let outside = "the slot asked about is not in 1..u";
    expect(test(&index, 0, 33), 16, 0, outside);
    expect(next(&index, 0, 33), 16, 0, outside);
}

#[test]
fn of_a_record_to_be_measured() {
    let range = "u is not in 1..1,048,576, B not in 1..128, or the number of lists not in 1..4,096";
    expect(bound(0, BLOCK, 0, 0), 4, 0, range);
    expect(bound(U, BLOCK, 33, 0), 15, 0, "the cut is above u");
    // There are no 17 slots in 17..32.
    let refused = bound(U, BLOCK, 16, 17).unwrap_err();
    assert_eq!((refused.number(), refused.place), (13, 0));
    assert_eq!(
        refused.refusal.reason(),
        "the slots to be written do not rise strictly within 1..u, or more are to lie above the cut than there are slots there"
    );
}

#[test]
fn of_a_record_to_be_written() {
    let range = "u is not in 1..1,048,576, B not in 1..128, or the number of lists not in 1..4,096";
    expect(record(U, 0, 0, &[]), 4, 0, range);
    let written = write(U, BLOCK, 16, &LIST_1, &mut [0; 23]);
    expect(written, 12, 24, "the room is too small (room needed: 24)");
    let rising = "the slots to be written do not rise strictly within 1..u, or more are to lie above the cut than there are slots there (position 2)";
    expect(record(U, BLOCK, 0, &[4, 5, 3]), 13, 2, rising);
    expect(record(U, BLOCK, 33, &[]), 15, 0, "the cut is above u");
}

#[test]
fn of_an_index_to_be_closed() {
    // With one list, 4 bytes of directory and 24 of trailer come on top of the total.
    let size = "the index has fewer than 24 or more than 16,777,216 bytes";
    expect(close(&mut [], U, BLOCK, 16_777_189, &[0]), 1, 0, size);
    let room = "the room is too small (room needed: 16777216)";
    expect(close(&mut [], U, BLOCK, 16_777_188, &[0]), 12, 16_777_216, room);
}

#[test]
fn an_index_has_at_most_16777216_bytes() {
    // Zeros only, so that where the size is right the tag is what is wrong.
    let zeros = vec![0; 16_777_217];
    assert_eq!(look(&zeros), refused(Refusal::BadSize, 0));
    assert_eq!(look(&zeros[1..]), refused(Refusal::BadTag, 0));
    assert_eq!(look(&zeros[..24]), refused(Refusal::BadTag, 0));
}

#[test]
fn a_number_that_is_not_known_is_a_refusal_too() {
    for number in [0, 18, 1000, u32::MAX] {
        let refusal = Refusal::from(number);
        assert_eq!(refusal, Refusal::Unknown(number));
        assert_eq!(refusal.number(), number);
    }
    let refused = Refused { refusal: Refusal::Unknown(18), place: 3 };
    assert_eq!(refused.to_string(), "18: a number that this package does not know");
}

#[test]
fn the_number_that_cannot_come_up_has_words_all_the_same() {
    let refused = Refused { refusal: Refusal::from(14), place: 0 };
    assert_eq!(refused.to_string(), "14: the way is neither 0 (plain) nor 1 (by skips)");
}

#[test]
fn a_refusal_is_an_error_like_others() {
    let boxed: Box<dyn Error + Send + Sync> = Box::new(look(&[]).unwrap_err());
    let refused = boxed.downcast::<Refused>().expect("what was put in");
    assert_eq!(*refused, Refused { refusal: Refusal::BadSize, place: 0 });
}
