//! Cases of the other operations.

use super::shape::*;
use super::Deck;
use crate::random::Random;

pub fn add(deck: &mut Deck, random: &mut Random) {
    testing(deck);
    counting(deck);
    lending(deck);
    writing(deck, random);
    closing(deck, random);
    programs(deck);
    texts(deck);
}

fn testing(deck: &mut Deck) {
    let paper = paper();
    let mixed = mixed();
    deck.test("in the tail", &paper, 0, 5);
    deck.test("behind the last slot", &paper, 0, 32);
    deck.test("slot 0", &paper, 0, 0);
    deck.test("slot u + 1", &paper, 1, 33);
    deck.test("last bit before the cut", &mixed, 1, 11);
    deck.test("first slot behind the cut", &mixed, 1, 12);
    deck.test("bits behind the cut are refused", &rubbish(), 0, 3);
    deck.test("name k", &paper, 2, 5);
    deck.test("name wild, slot 0", &paper, WILD, 0);
    let damaged = with_byte(&paper, 54, 0x81);
    deck.test("damage behind the slot", &damaged, 0, 5);
}

fn counting(deck: &mut Deck) {
    let paper = paper();
    deck.count("a tail only", &paper, 0);
    deck.count("a cut within a byte", &mixed(), 1);
    deck.count("bits behind the cut are refused", &rubbish(), 1);
    deck.count("name k", &paper, 2);
    deck.count("name wild", &paper, WILD);
    let first = with_byte(&paper, 69, 0x10);
    deck.count("list 1 damaged, list 0 named", &first, 0);
    let slots: Vec<u32> = (7..=140).step_by(7).collect();
    for (label, cut) in [
        ("bits of eight bytes, the last within", 63),
        ("bits of eight bytes, all", 64),
        ("bits of ten bytes, the last within", 79),
    ] {
        let one = index(140, 4, &[record(140, 4, cut, &slots)]);
        deck.count(label, &one, 0);
    }
}

fn lending(deck: &mut Deck) {
    let paper = paper();
    deck.part("the first record", &paper, 0);
    deck.part("the last record", &paper, 1);
    deck.part("a cut within a byte", &mixed(), 1);
    deck.part("bits behind the cut are refused", &rubbish(), 1);
    deck.part("name k", &paper, 2);
    deck.part("name wild", &paper, WILD);
    let head = with_byte(&paper, 63, 0x03);
    deck.part("list 1 damaged", &head, 1);
}

fn writing(deck: &mut Deck, random: &mut Random) {
    let paper = paper_records();
    let exact = room(random, paper[0].len());
    deck.write("a tail only, room exact", [32, 4, 0], &PAPER_0, &exact);
    let short = &exact[1..];
    deck.write("a tail only, one short", [32, 4, 0], &PAPER_0, short);
    let larger = room(random, paper[1].len() + 9);
    deck.write("bits and tail, room larger", [32, 4, 16], &PAPER_1, &larger);
    deck.write("bits only", [32, 4, 32], &PAPER_0, &room(random, 16));
    deck.write("no slots, cut 0", [32, 4, 0], &[], &room(random, 13));
    deck.write("no slots, no room", [1, 1, 1], &[], &[]);
    let u = 1_048_576;
    deck.write("slots 1 and u", [u, 128, 0], &[1, u], &room(random, 24));
    let mut slots = random.ascending(6, 1, 150);
    slots.extend(random.ascending(3, 300, 3_000));
    slots.extend(random.ascending(2, 90_000, u));
    deck.write(
        "cut within a byte, all codes",
        [u, 4, 53],
        &slots,
        &room(random, 70),
    );
    let slots = random.ascending(11, 1, 40);
    deck.write(
        "cut = u, last byte part used",
        [41, 7, 41],
        &slots,
        &room(random, 18),
    );

    let some = room(random, 30);
    deck.write("u 0", [0, 4, 0], &[], &some);
    deck.write("u wild", [WILD, 4, 5], &[3, 9], &some);
    deck.write("B one too large, cut too", [32, 129, 33], &[3, 9], &some);
    deck.write("B wild", [32, WILD, 0], &[3, 9], &some);
    deck.write("cut u + 1, slots bad", [32, 4, 33], &[9, 3], &some);
    deck.write("cut wild", [32, 4, WILD], &[3, 9], &some);
    deck.write("first slot 0", [32, 4, 16], &[0, 3, 9], &some);
    deck.write(
        "a slot twice in the middle",
        [32, 4, 8],
        &[3, 9, 9, 2, 40],
        &some,
    );
    deck.write("last slot u + 1, no room", [32, 4, 0], &[3, 9, 33], &[]);
}

fn closing(deck: &mut Deck, random: &mut Random) {
    let records = paper_records();
    let at = starts(&records);
    let body = records.concat();
    let with = |body: &[u8], behind: &[u8]| [body, behind].concat();

    let exact = with(&body, &room(random, 32));
    deck.close("room exact", &exact, [32, 4, 79], &at);
    let larger = with(&body, &room(random, 40));
    deck.close("room larger", &larger, [32, 4, 79], &at);
    let short = with(&body, &room(random, 31));
    deck.close("one byte short, starts bad", &short, [32, 4, 79], &[1, 2]);
    deck.close("no starts, no bytes", &[], [32, 4, 0], &[]);
    deck.close("B wild, total wild", &exact, [32, WILD, WILD], &at);
    deck.close("total wild", &exact, [32, 4, WILD], &at);
    deck.close(
        "finished length one too long",
        &body,
        [32, 4, 16_777_189],
        &[0],
    );
    deck.close(
        "finished length as long as can be",
        &body,
        [32, 4, 16_777_188],
        &[0],
    );

    deck.close("first start not 0", &exact, [32, 4, 79], &[1, 55]);
    deck.close("starts fall", &larger, [32, 4, 79], &[0, 55, 30]);
    deck.close("starts equal", &larger, [32, 4, 79], &[0, 55, 55]);
    deck.close("last start wild", &exact, [32, 4, 79], &[0, WILD]);

    deck.close("total a byte less", &exact, [32, 4, 78], &at);
    deck.close("other B than written with", &exact, [32, 3, 79], &at);
    let first = with_byte(&exact, 16, 1);
    deck.close("first offset not 0", &first, [32, 4, 79], &at);
    let falls = with_byte(&exact, 40, 2);
    deck.close("a block ends before its start", &falls, [32, 4, 79], &at);
    let unended = with_byte(&exact, 78, 0x80);
    deck.close("last code not ended", &unended, [32, 4, 79], &at);
    let idle = with_byte(&with_byte(&exact, 47, 0x80), 48, 0x00);
    deck.close(
        "a code of two bytes, the last zero",
        &idle,
        [32, 4, 79],
        &at,
    );
    let low = with_byte(&exact, 36, 25);
    deck.close("a first slot too low", &low, [32, 4, 79], &at);
    deck.close("u below the last slot", &exact, [30, 4, 79], &at);
    closing_rubbish(deck, &exact);
}

/// List 1's cut made 15, so that its last bit, slot 16's, lies behind the cut.
fn closing_rubbish(deck: &mut Deck, exact: &[u8]) {
    let sizes = [32, 4, 79];
    let at = [0, 55];
    let dirty = with_byte(exact, 55, 15);
    deck.close("a bit behind the cut is refused", &dirty, sizes, &at);
    let clean = with_byte(&dirty, 68, 0x10);
    deck.close("the same bit clear", &clean, sizes, &at);
    let low = with_byte(&dirty, 69, 15);
    deck.close("17 before 9 of its list", &low, sizes, &at);
    let falls = with_byte(&dirty, 12, 0);
    deck.close("9 of list 0 before 17 of list 1", &falls, sizes, &at);
}

fn programs(deck: &mut Deck) {
    let paper = paper();
    let file = Some(&paper[..]);
    deck.program("two lists by skips", file, b"1 0 1");
    deck.program(
        "two lists plainly, parted by many",
        file,
        b"\n 0  1\n\n00 \n",
    );
    deck.program("no file, no numbers", None, b"x");
    deck.program("an empty file", Some(&[]), b"1 0 1\n");
    deck.program("an empty text before the index", Some(&[]), b"");
    deck.program("a number too large", Some(&[]), b"1 0 4294967296");
    deck.program("257 bytes", Some(&[]), &[b'0'; 257]);
    deck.program("a tab", file, b"1\t0");
    deck.program("no names", file, b"1\n");
    deck.program("a name wild", file, b"1 0 4294967295");
}

fn texts(deck: &mut Deck) {
    deck.line(
        "largest number, leading zeros",
        b"4294967295 0000000000001 00",
    );
    deck.line("a number too large", b"1 4294967296");
    deck.line("parting bytes at both ends", b"\n\n 1 \n2\n ");
    deck.line("parting bytes only", b" \n ");
    deck.line("other bytes behind good numbers", b"1 0 1 \r\n");
    let mut long = vec![b' '; 255];
    long.push(b'7');
    deck.line("256 bytes", &long);
    long.insert(0, b'1');
    deck.line("257 bytes", &long);
}
