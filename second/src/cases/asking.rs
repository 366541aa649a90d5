//! Cases of questions.

use super::shape::*;
use super::Deck;
use crate::random::Random;

const PLAIN: u32 = 0;
const SKIPS: u32 = 1;

pub fn add(deck: &mut Deck, random: &mut Random) {
    on_the_paper(deck, random);
    refused(deck, random);
    orders(deck, random);
    gallops(deck, random);
    packings(deck, random);
}

fn on_the_paper(deck: &mut Deck, random: &mut Random) {
    let paper = paper();
    let seven = slots(random, 7);
    let nine = slots(random, 9);
    deck.ask("two lists by skips", &paper, SKIPS, &[0, 1], &seven);
    deck.ask("two lists plainly", &paper, PLAIN, &[0, 1], &nine);
    deck.ask("room one short", &paper, SKIPS, &[0, 1], &seven[1..]);
    deck.ask("one list, room exact", &paper, SKIPS, &[1], &seven);
    deck.ask("a list named twice", &paper, SKIPS, &[1, 1], &nine);
    deck.ask(
        "one list twice behind another",
        &paper,
        SKIPS,
        &[1, 0, 0],
        &nine,
    );
    let sixteen = [0, 1, 1, 0, 1, 1, 1, 0, 1, 1, 1, 1, 0, 1, 1, 1];
    deck.ask("sixteen names", &paper, SKIPS, &sixteen, &seven);
}

fn refused(deck: &mut Deck, random: &mut Random) {
    let paper = paper();
    let four = slots(random, 4);
    deck.ask("no names", &paper, PLAIN, &[], &four);
    deck.ask("17 names, all wild", &paper, SKIPS, &[WILD; 17], &four);
    deck.ask("way 2, a name too large", &paper, 2, &[9], &four);
    deck.ask("way wild, 17 names", &paper, WILD, &[0; 17], &four);
    deck.ask("first name too large", &paper, PLAIN, &[2, 7, 0], &four);
    deck.ask(
        "third name too large, no room",
        &paper,
        SKIPS,
        &[0, 1, 2, 3],
        &[],
    );
    deck.ask("second name wild", &paper, SKIPS, &[1, WILD], &four);
    deck.ask(
        "one list plainly, room one short",
        &paper,
        PLAIN,
        &[0],
        &slots(random, 14),
    );
    let damaged = with_byte(&paper, 54, 0x81);
    deck.ask("damaged index before a bad way", &damaged, 2, &[1], &four);
    deck.ask("23 bytes, no names", &paper[88..], SKIPS, &[], &four);
}

/// The order in which lists are searched.
fn orders(deck: &mut Deck, random: &mut Random) {
    let tied = [
        record(10, 1, 0, &[7, 8, 9, 10]),
        record(10, 1, 0, &[1, 2, 3, 4]),
    ];
    let tied = index(10, 1, &tied);
    let four = slots(random, 4);
    deck.ask("tied lists", &tied, SKIPS, &[0, 1], &four);
    deck.ask(
        "tied lists the other way",
        &tied,
        SKIPS,
        &[1, 0],
        &slots(random, 5),
    );

    let all: Vec<u32> = (1..=26).collect();
    let even: Vec<u32> = (1..=12).map(|i| 2 * i).collect();
    let three = [
        record(32, 2, 0, &[4, 9, 16, 25]),
        record(32, 2, 0, &all),
        record(32, 2, 0, &even),
    ];
    let three = index(32, 2, &three);
    deck.ask(
        "not in the order of counts",
        &three,
        SKIPS,
        &[0, 1, 2],
        &four,
    );

    let middle = random.ascending(14, 1, 90);
    let few: Vec<u32> = middle.iter().copied().step_by(3).collect();
    let mut large = random.ascending(22, 1, 90);
    large.extend(few.iter().copied().step_by(2));
    large.sort_unstable();
    large.dedup();
    let mixed = [
        record(90, 3, 13, &large),
        record(90, 3, 0, &middle),
        record(90, 3, 44, &few),
    ];
    let mixed = index(90, 3, &mixed);
    let names = [1, 0, 2];
    deck.ask(
        "three counts unsorted by skips",
        &mixed,
        SKIPS,
        &names,
        &slots(random, few.len()),
    );
    deck.ask(
        "three counts unsorted plainly",
        &mixed,
        PLAIN,
        &names,
        &slots(random, 10),
    );
    let names = [0, 2, 1, 2, 0];
    deck.ask(
        "five positions, two lists twice",
        &mixed,
        SKIPS,
        &names,
        &slots(random, 8),
    );
}

/// A list of single slots, one in each stretch of four, from `lowest` on.
fn spread(random: &mut Random, lowest: u32, many: u32) -> Vec<u32> {
    (0..many)
        .map(|i| lowest + 4 * i + random.below(2))
        .collect()
}

/// Long searches in lists whose blocks are single slots.
fn gallops(deck: &mut Deck, random: &mut Random) {
    let u = 176;

    let long = spread(random, 3, 42);
    let at = |j: usize| long[j - 1];
    let wanted = [
        1,
        2,
        at(2),
        at(2) + 1,
        at(11),
        at(11) + 1,
        at(27),
        at(28) + 1,
        at(41),
        at(42),
    ];
    let lists = [record(u, 1, 0, &long), record(u, 1, u, &wanted)];
    deck.ask(
        "on by 9, 16 and 13 blocks, some by none",
        &index(u, 1, &lists),
        SKIPS,
        &[0, 1],
        &slots(random, 10),
    );

    let long = spread(random, 2, 50);
    let at = |j: usize| long[j - 1];
    let wanted = [at(1), at(46), at(46) + 1, at(50) + 1, 219];
    let lists = [record(220, 1, 0, &wanted), record(220, 1, 0, &long)];
    deck.ask(
        "on by 45 blocks, then behind the last",
        &index(220, 1, &lists),
        SKIPS,
        &[1, 0],
        &slots(random, 6),
    );

    let tail = spread(random, 16, 40);
    let at = |j: usize| tail[j - 1];
    let long = [&[2, 5, 9, 12][..], &tail[..]].concat();
    let wanted = [
        2,
        3,
        12,
        13,
        14,
        at(5),
        at(13),
        at(13) + 1,
        at(29),
        at(36) + 1,
    ];
    let lists = [record(u, 1, u, &wanted), record(u, 1, 12, &long)];
    deck.ask(
        "bit tests, then between cut and first block, then on by 8 and 16",
        &index(u, 1, &lists),
        SKIPS,
        &[0, 1],
        &slots(random, 12),
    );

    let long = random.ascending(44, 40, 170);
    let mut wanted = random.ascending(3, 1, 39);
    wanted.extend(random.ascending(9, 60, 176));
    let lists = [record(u, 1, 0, &long), record(u, 1, 150, &wanted)];
    deck.ask(
        "scattered slots in 44 blocks",
        &index(u, 1, &lists),
        SKIPS,
        &[1, 0],
        &slots(random, 12),
    );

    let long: Vec<u32> = (1..=40).map(|i| 2 * i).collect();
    let lists = [
        record(90, 4, 0, &long),
        record(90, 4, 0, &[17, 18, 19, 20, 22, 23, 71, 72, 73, 80, 81, 90]),
    ];
    deck.ask(
        "several candidates in one block",
        &index(90, 4, &lists),
        SKIPS,
        &[0, 1],
        &slots(random, 12),
    );
}

fn packings(deck: &mut Deck, random: &mut Random) {
    let five = slots(random, 5);
    deck.ask("a cut within a byte", &mixed(), SKIPS, &[0, 1], &five);
    let label = "bits behind the cut are refused";
    deck.ask(label, &rubbish(), SKIPS, &[0, 1], &five);
    let label = "bits behind the cut of a list not named, plainly";
    deck.ask(label, &rubbish(), PLAIN, &[0], &five);
    deck.ask("an empty list, no room", &mixed(), SKIPS, &[1, 2, 0], &[]);

    let apart = [
        record(40, 2, 0, &[2, 11, 20, 31]),
        record(40, 2, 0, &[3, 12, 19, 32, 33]),
        record(40, 2, 0, &[2, 3, 11, 12, 19, 20, 31]),
    ];
    let apart = index(40, 2, &apart);
    deck.ask(
        "no candidate left for the last name",
        &apart,
        SKIPS,
        &[2, 0, 1],
        &slots(random, 6),
    );

    let u = 1_048_576;
    let mut slot = random.between(1, 90);
    let mut long = vec![slot];
    for reach in [
        60, 900, 40_000, 100, 15_000, 200_000, 50, 129, 16_385, 128, 70_000,
    ] {
        slot += random.between(reach / 2, reach);
        long.push(slot);
    }
    long.push(u);
    let mut wanted = vec![3];
    wanted.extend(long.iter().copied().step_by(2));
    wanted.push(long[7] + 1);
    wanted.push(u - 1);
    wanted.sort_unstable();
    wanted.dedup();
    let lists = [record(u, 4, 0, &long), record(u, 4, 20, &wanted)];
    let far = index(u, 4, &lists);
    deck.ask(
        "codes of one to three bytes",
        &far,
        SKIPS,
        &[1, 0],
        &slots(random, 14),
    );

    let bits = random.ascending(20, 1, 60);
    let lists = [
        record(60, 5, 60, &bits),
        record(60, 5, 60, &random.ascending(25, 1, 60)),
        record(60, 5, 33, &[1, 2, 3, 5, 8, 13, 21, 33]),
        record(60, 5, 0, &[5, 13, 21, 33, 34, 55]),
    ];
    let lists = index(60, 5, &lists);
    deck.ask(
        "bits only, by skips",
        &lists,
        SKIPS,
        &[1, 0],
        &slots(random, 20),
    );
    deck.ask(
        "a list without blocks",
        &lists,
        SKIPS,
        &[2, 3],
        &slots(random, 7),
    );
}
