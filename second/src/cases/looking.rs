//! Cases of looking, one for each reason the table knows and for their order.

use super::shape::*;
use super::Deck;
use crate::random::Random;

pub fn add(deck: &mut Deck, random: &mut Random) {
    accepted(deck, random);
    trailer(deck);
    directory(deck);
    parts(deck);
    unused(deck);
    offsets(deck);
    codes(deck);
    order(deck);
}

fn accepted(deck: &mut Deck, random: &mut Random) {
    deck.look("the paper's index", &paper());
    deck.look("smallest u and B, an empty list", &one(1, 1, vec![0; 12]));
    let far = record(
        1_048_576,
        8,
        0,
        &[1, 129, 258, 16_642, 33_027, 49_539, 1_048_576],
    );
    deck.look(
        "codes of one, two and three bytes, largest u",
        &one(1_048_576, 8, far),
    );
    let full = record(13, 128, 13, &[1, 2, 8, 13]);
    deck.look("cut = u within a byte, B 128", &one(13, 128, full));
    let slots: Vec<u32> = (9..=16).chain([20]).collect();
    let whole = record(32, 4, 16, &slots);
    deck.look("a full last byte of bits", &one(32, 4, whole));

    let mut records = Vec::new();
    for cut in [0, 7, 8, 30, 60] {
        let many = random.between(1, 12);
        let slots = random.ascending(many, 1, 60);
        records.push(record(60, 3, cut, &slots));
    }
    deck.look("five lists of several cuts", &index(60, 3, &records));
}

fn trailer(deck: &mut Deck) {
    let paper = paper();
    let k = AT_K;
    deck.look("no bytes", &[]);
    deck.look("23 bytes", &paper[paper.len() - 23..]);
    deck.look("24 zero bytes", &[0; 24]);
    let lower = with_byte(&paper, paper.len() - 1, b't');
    deck.look("last byte of the tag", &lower);
    deck.look("edition 0", &with_number(&paper, AT_EDITION, 0));
    deck.look("edition wild", &with_number(&paper, AT_EDITION, WILD));
    deck.look("u 0", &with_number(&paper, AT_U, 0));
    deck.look("u one too large", &with_number(&paper, AT_U, 1_048_577));
    deck.look("B 0", &with_number(&paper, AT_BLOCK, 0));
    deck.look("B one too large", &with_number(&paper, AT_BLOCK, 129));
    deck.look("k 0", &with_number(&paper, k, 0));
    deck.look("k one too large", &with_number(&paper, k, 4_097));
    deck.look(
        "k whose directory wraps",
        &with_number(&paper, k, 1 << 30 | 2),
    );
}

fn directory(deck: &mut Deck) {
    let paper = paper();
    let d = AT_DIRECTORY;
    deck.look("D one too large", &with_number(&paper, d, 80));
    let mut wrapping = one(32, 4, vec![]);
    wrapping.remove(0);
    deck.look("D whose sum wraps", &with_number(&wrapping, d, WILD));
    deck.look("first start not 0", &with_start(&paper, 2, 0, 1));
    deck.look("a start wild", &with_start(&paper, 2, 1, WILD));
    let three = index(32, 4, &[vec![0; 12], vec![0; 12], vec![0; 12]]);
    deck.look("equal starts", &with_start(&three, 3, 2, 12));
    deck.look("falling starts", &with_start(&three, 3, 1, 30));
    deck.look("one record of 11 bytes", &one(32, 4, vec![0; 11]));
    let short_last = [raw([33, 0, 0], &[], &[], &[]), vec![0; 11]];
    deck.look("5 of list 1 before 6 of list 0", &index(32, 4, &short_last));
}

fn parts(deck: &mut Deck) {
    let empty = vec![0; 12];
    let high_cut = raw([33, 0, 0], &[0; 5], &[], &[]);
    deck.look("c above u", &one(32, 4, high_cut));
    deck.look("c wild", &one(32, 4, raw([WILD, 0, 0], &[], &[], &[])));
    let many = raw([8, 5, 4], &[0], &[(9, 0)], &[0; 4]);
    deck.look("n above u - c", &one(12, 8, many));
    let wild_n = raw([0, WILD, 8], &[], &[], &[]);
    deck.look("n wild, in list 1", &index(32, 1, &[empty.clone(), wild_n]));
    let idle = raw([0, 0, 1], &[], &[], &[0]);
    deck.look("n 0 with L 1", &one(32, 4, idle));
    let less = raw([9, 1, 0], &[0; 3], &[(10, 0)], &[]);
    deck.look("a byte more than the parts", &one(32, 4, less));
    let more = raw([9, 1, 0], &[0], &[(10, 0)], &[]);
    let records = [empty.clone(), record(32, 4, 0, &[7, 9]), more];
    deck.look(
        "a byte less than the parts, in list 2",
        &index(32, 4, &records),
    );
    let wild_l = raw([0, 1, WILD - 7], &[], &[], &[]);
    deck.look("L whose sum wraps", &one(32, 4, wild_l));
}

/// Bits that lie behind the cut.
fn unused(deck: &mut Deck) {
    let full = record(13, 128, 13, &[1, 2, 8, 13]);
    let all = with_byte(&full, 13, full[13] | 0x07);
    deck.look("cut = u, all bits behind it set", &one(13, 128, all));
    let ends = |last: u8| raw([9, 0, 0], &[0x80, last], &[], &[]);
    deck.look(
        "the lowest bit of the last byte set",
        &one(32, 4, ends(0x81)),
    );
    deck.look("the bit next to the cut set", &one(32, 4, ends(0x40)));
    let seven = raw([15, 0, 0], &[0x00, 0x01], &[], &[]);
    deck.look("the only bit behind the cut set", &one(32, 4, seven));

    let idle = raw([9, 0, 1], &[0x80, 0xC0], &[], &[0]);
    deck.look("6 before 17", &one(32, 4, idle));
    let late = raw([9, 1, 0], &[0x80, 0xC0], &[(10, 1)], &[]);
    deck.look("17 before 7", &one(32, 4, late));
    let more = raw([9, 1, 1], &[0x80, 0xC0], &[(10, 0)], &[0]);
    deck.look("17 before 8", &one(32, 4, more));
    let low = raw([9, 1, 0], &[0x80, 0xC0], &[(9, 0)], &[]);
    deck.look("17 before 9", &one(32, 4, low));
    let high = gaps(1, &[(33, 0)], &[]);
    let records = [high, ends(0xC0)];
    deck.look("9 of list 0 before 17 of list 1", &index(32, 4, &records));
    let records = [ends(0xC0), raw([33, 0, 0], &[], &[], &[])];
    deck.look("17 of list 0 before 6 of list 1", &index(32, 4, &records));
    let records = [ends(0x80), ends(0x00), ends(0xFF)];
    deck.look("17 in list 2", &index(32, 4, &records));
}

fn offsets(deck: &mut Deck) {
    let first = gaps(2, &[(3, 1)], &[0, 0]);
    let records = [record(32, 4, 8, &[1, 9]), first];
    deck.look("first offset not 0", &index(32, 4, &records));
    let falling = gaps(5, &[(1, 0), (3, 1), (5, 0)], &[0, 0]);
    deck.look("a block ends before its start", &one(32, 2, falling));
    let beyond = gaps(3, &[(1, 0), (4, 2)], &[0]);
    deck.look("a block ends beyond L", &one(32, 2, beyond));
    let wild = gaps(3, &[(1, 0), (4, WILD)], &[0]);
    deck.look("an offset wild", &one(32, 2, wild));
}

fn codes(deck: &mut Deck) {
    let two = |codes: &[u8]| one(40_000, 4, gaps(2, &[(1, 0)], codes));
    deck.look("code 80 00", &two(&[0x80, 0x00]));
    deck.look("code 80 80 00", &two(&[0x80, 0x80, 0x00]));
    deck.look("code of four bytes", &two(&[0x80, 0x80, 0x80, 0x01]));
    deck.look(
        "third byte goes on, none follows",
        &two(&[0x81, 0x80, 0x80]),
    );
    deck.look("code not ended", &two(&[0x85]));
    deck.look("no code where one should be", &two(&[]));
    deck.look("a byte behind the last code", &two(&[0x05, 0x00]));
    let over = gaps(4, &[(1, 0), (200, 1)], &[0x80, 0x01, 0x00]);
    deck.look("a code runs into the next block", &one(900, 2, over));
    let alone = gaps(3, &[(1, 0), (4, 1)], &[0x00, 0x00]);
    let records = [record(32, 2, 9, &[2, 30]), alone];
    deck.look(
        "a byte in a last block of one slot, in list 1",
        &index(32, 2, &records),
    );

    let u = 32;
    deck.look("first slot u + 1", &one(u, 4, gaps(1, &[(33, 0)], &[])));
    deck.look("first slot wild", &one(u, 4, gaps(1, &[(WILD, 0)], &[])));
    deck.look("first slot 0", &one(u, 4, gaps(1, &[(0, 0)], &[])));
    let at_cut = raw([9, 1, 0], &[0, 0], &[(9, 0)], &[]);
    deck.look("first slot at the cut", &one(u, 4, at_cut));
    let equal = gaps(3, &[(3, 0), (7, 1)], &[0x03]);
    deck.look("first slot that of the block before", &one(u, 2, equal));
    let falling = gaps(2, &[(9, 0), (8, 0)], &[]);
    let records = [record(u, 1, 0, &[]), record(u, 1, 5, &[6]), falling];
    deck.look("first slots fall, in list 2", &index(u, 1, &records));
    deck.look(
        "a code leads above u",
        &one(u, 4, gaps(2, &[(30, 0)], &[0x02])),
    );
}

fn order(deck: &mut Deck) {
    let u = 32;
    let both = gaps(4, &[(40, 0), (5, 9)], &[0, 0]);
    deck.look("7 before 9 of one block", &one(u, 2, both));
    let next = gaps(5, &[(40, 0), (41, 1), (42, 99)], &[0, 0]);
    deck.look("9 of block 0 before 7 of block 1", &one(u, 2, next));
    let open = gaps(5, &[(1, 0), (5, 1), (9, 77)], &[0x80, 0x00]);
    deck.look("8 of block 0 before 7 of block 1", &one(u, 2, open));
    let late = gaps(3, &[(20, 0)], &[0x20, 0x80]);
    deck.look("9 of a code before 8 of the next", &one(u, 4, late));
    let left = gaps(2, &[(20, 0)], &[0x20, 0x00]);
    deck.look("9 of a code before bytes that remain", &one(u, 4, left));
    let same = gaps(2, &[(20, 0)], &[0xFF, 0xFF, 0xFF]);
    deck.look("8 before 9 of one code", &one(u, 4, same));
    let records = [gaps(1, &[(33, 0)], &[]), raw([33, 0, 0], &[], &[], &[])];
    deck.look("9 of list 0 before 6 of list 1", &index(u, 4, &records));
}
