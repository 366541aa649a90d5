//! What holds for every input, tried on pseudo-random ones.

use crate::model;
use crate::tools::*;
use second::random::Random;
use second::{ask, close, count, lend, look, next, part, test, write, Verdict};
use std::collections::{BTreeMap, BTreeSet};

/// Lists with their sizes, before they are packed.
pub struct Lists {
    pub u: u32,
    pub block: u32,
    pub lists: Vec<(u32, Vec<u32>)>,
}

pub fn some_lists(random: &mut Random) -> Lists {
    let u = match random.below(4) {
        0 => random.between(1, 20),
        1 => random.between(20, 300),
        2 => random.between(300, 40_000),
        _ => random.between(40_000, 1_048_576),
    };
    let block = match random.below(3) {
        0 => 1,
        1 => random.between(2, 6),
        _ => random.between(7, 128),
    };
    let mut lists: Vec<(u32, Vec<u32>)> = Vec::new();
    for _ in 0..random.between(1, 5) {
        let many = random.below(u.min(80) + 1);
        let mut slots: BTreeSet<u32> = random.ascending(many, 1, u).into_iter().collect();
        // Share some slots with an earlier list, and some of their neighbours.
        if let Some((_, earlier)) = lists.last() {
            for &slot in earlier {
                match random.below(4) {
                    0 => slots.insert(slot),
                    1 => slots.insert(slot % u + 1),
                    _ => false,
                };
            }
        }
        let cut = match random.below(5) {
            0 | 1 => 0,
            2 => u.min(5_000),
            _ => random.between(0, u.min(5_000)),
        };
        lists.push((cut, slots.into_iter().collect()));
    }
    Lists { u, block, lists }
}

pub fn pack(given: &Lists) -> Vec<Vec<u8>> {
    let lists = given.lists.iter();
    lists
        .map(|(cut, slots)| written(given.u, given.block, *cut, slots))
        .collect()
}

/// Sets one or more bits behind the cut in about half of the lists that have
/// such bits, and gives the first list where this was done.
fn soil(random: &mut Random, given: &Lists, records: &mut [Vec<u8>]) -> Option<u32> {
    let mut first = None;
    for (i, (cut, _)) in given.lists.iter().enumerate() {
        let bits = random.byte() & (0xFF >> (cut % 8));
        if cut % 8 != 0 && bits != 0 && random.below(2) == 0 {
            records[i][12 + *cut as usize / 8] |= bits;
            first = first.or(Some(i as u32));
        }
    }
    first
}

/// Where records laid one after the other begin, and where the last one ends.
fn laid(records: &[Vec<u8>]) -> (Vec<u32>, u32) {
    let mut starts = Vec::new();
    let mut total = 0;
    for record in records {
        starts.push(total);
        total += record.len() as u32;
    }
    (starts, total)
}

fn intersection(given: &Lists, names: &[u32]) -> Vec<u32> {
    let set =
        |name: u32| -> BTreeSet<u32> { given.lists[name as usize].1.iter().copied().collect() };
    let mut common = set(names[0]);
    for &name in &names[1..] {
        common = common.intersection(&set(name)).copied().collect();
    }
    common.into_iter().collect()
}

pub fn some_names(random: &mut Random, given: &Lists) -> Vec<u32> {
    let most = if random.below(8) == 0 { 16 } else { 4 };
    let many = random.between(1, most);
    let k = given.lists.len() as u32;
    (0..many).map(|_| random.below(k)).collect()
}

/// Puts things into another order.
pub fn shuffle<T>(random: &mut Random, things: &mut [T]) {
    for last in (1..things.len()).rev() {
        things.swap(last, random.below(last as u32 + 1) as usize);
    }
}

#[test]
fn written_lists_read_back() {
    let mut random = Random::new(11);
    for _ in 0..600 {
        let given = some_lists(&mut random);
        let records = pack(&given);
        let index = join(given.u, given.block, &records);
        looks_like(&index, 0, 0);
        let modelled = model::read(&index);
        for (i, (cut, slots)) in given.lists.iter().enumerate() {
            let name = i as u32;
            assert_eq!(modelled.lists[i].slots(), *slots);
            assert_eq!(modelled.lists[i].cut, *cut);
            answers(&index, 0, &[name], slots.len(), slots, (0, 0));
            answers(&index, 1, &[name], slots.len() + 3, slots, (0, 0));
            assert_eq!(count(&index, name), counted(0, 0, slots.len() as u32));
            assert_eq!(lend(&index, name), records[i]);
            for _ in 0..10 {
                let slot = random.between(1, given.u);
                let held = slots.contains(&slot);
                assert_eq!(test(&index, name, slot), tested(0, 0, held));
            }
            for &slot in slots.iter().take(10) {
                assert_eq!(test(&index, name, slot), tested(0, 0, true));
            }
        }
    }
}

#[test]
fn bits_behind_a_cut_are_refused() {
    let mut random = Random::new(22);
    let mut places = BTreeSet::new();
    let mut clean = 0;
    for _ in 0..800 {
        let given = some_lists(&mut random);
        let mut records = pack(&given);
        let soiled = soil(&mut random, &given, &mut records);
        let index = join(given.u, given.block, &records);
        let (number, place) = soiled.map_or((0, 0), |list| (17, list));
        looks_like(&index, number, place);
        assert_eq!(examine(&index), soiled.is_none());

        let (starts, total) = laid(&records);
        let mut room = index.clone();
        room[total as usize..].fill(DUST);
        let before = room.clone();
        let answer = close(&mut room, given.u, given.block, total, &starts);
        match soiled {
            Some(list) => {
                assert_eq!((answer, &room), (wrote(17, list, 0), &before));
                places.insert(list);
            }
            None => {
                assert_eq!((answer, &room), (wrote(0, 0, index.len() as u32), &index));
                clean += 1;
            }
        }
    }
    assert_eq!(places, BTreeSet::from([0, 1, 2, 3, 4]));
    assert!(clean > 100);
}

#[test]
fn closing_gives_what_looking_accepts() {
    let mut random = Random::new(12);
    for _ in 0..400 {
        let given = some_lists(&mut random);
        let records = pack(&given);
        let index = join(given.u, given.block, &records);
        let (starts, total) = laid(&records);
        let spare = random.below(9) as usize;
        let behind = index.len() - total as usize + spare;
        let mut room = [records.concat(), vec![DUST; behind]].concat();
        let before = room.clone();

        let short = room.len() - spare - 1;
        let answer = close(&mut room[..short], given.u, given.block, total, &starts);
        assert_eq!(answer, wrote(12, index.len() as u32, 0));
        assert_eq!(room, before);

        let answer = close(&mut room, given.u, given.block, total, &starts);
        assert_eq!(answer, wrote(0, 0, index.len() as u32));
        assert_eq!(room[..index.len()], index);
        assert_eq!(room[index.len()..], before[index.len()..]);
        looks_like(&room[..index.len()], 0, 0);
    }
}

#[test]
fn both_ways_give_the_intersection() {
    let mut random = Random::new(13);
    let mut whole = 0;
    for _ in 0..1_500 {
        let given = some_lists(&mut random);
        let records = pack(&given);
        let index = join(given.u, given.block, &records);
        let names = some_names(&mut random, &given);
        let common = intersection(&given, &names);
        whole += common.len();
        let needed = names
            .iter()
            .map(|&name| given.lists[name as usize].1.len())
            .min()
            .unwrap();
        let room = needed + random.below(4) as usize;

        answers(&index, 0, &names, room, &common, (0, 0));
        let (told, visits) = model::question(&model::read(&index), &names);
        assert_eq!(told, common);
        let looks: u64 = visits.iter().map(|visit| visit.looks()).sum();
        let codes: u64 = visits.iter().map(|visit| visit.codes()).sum();
        answers(&index, 1, &names, room, &common, (looks, codes));

        // The bounds: one search, one name, and the codes of a search.
        for visit in &visits {
            let q = visit.steps.len() as u64;
            assert!(visit.looks() <= q + 2 * visit.blocks as u64);
            assert!(visit.codes() <= q * u64::from(given.block - 1));
            for step in &visit.steps {
                let d = (step.told.j - step.finger) as u64;
                let digits = u64::from(64 - d.leading_zeros());
                assert!(step.told.looks() <= (2 * digits).max(1));
            }
        }

        if needed > 0 {
            refuses(&index, 0, &names, needed - 1, 12, needed as u32);
            refuses(&index, 1, &names, needed - 1, 12, needed as u32);
        }
    }
    assert!(whole > 1_000);
}

#[test]
fn the_order_of_names_does_not_change_the_slots() {
    let mut random = Random::new(14);
    for _ in 0..300 {
        let given = some_lists(&mut random);
        let index = join(given.u, given.block, &pack(&given));
        let mut names = some_names(&mut random, &given);
        let common = intersection(&given, &names);
        for way in [0, 1] {
            names.rotate_left(1);
            let mut slots = vec![OLD; 200];
            let answer = ask(&index, way, &names, &mut slots);
            assert_eq!((answer.number, answer.count as usize), (0, common.len()));
            assert_eq!(slots[..common.len()], common);
        }
    }
}

#[test]
fn the_packing_does_not_change_the_slots() {
    let mut random = Random::new(15);
    for _ in 0..300 {
        let mut given = some_lists(&mut random);
        let names = some_names(&mut random, &given);
        let common = intersection(&given, &names);
        for _ in 0..3 {
            for (cut, _) in &mut given.lists {
                *cut = random.between(0, given.u.min(3_000));
            }
            given.block = random.between(1, 128);
            let index = join(given.u, given.block, &pack(&given));
            let mut slots = vec![OLD; 200];
            let answer = ask(&index, 1, &names, &mut slots);
            assert_eq!((answer.number, answer.count as usize), (0, common.len()));
            assert_eq!(slots[..common.len()], common);
        }
    }
}

#[test]
fn only_the_named_records_matter() {
    let mut random = Random::new(16);
    for _ in 0..200 {
        let given = some_lists(&mut random);
        let records = pack(&given);
        let index = join(given.u, given.block, &records);
        let names = some_names(&mut random, &given);

        // The named records alone, once for each position, behind a stranger.
        let slot = random.between(1, given.u);
        let mut others = vec![written(given.u, given.block, 0, &[slot])];
        others.extend(names.iter().map(|&name| records[name as usize].clone()));
        let other = join(given.u, given.block, &others);
        let renamed: Vec<u32> = (1..=names.len() as u32).collect();

        for way in [0, 1] {
            let room = random.below(120) as usize;
            let mut slots = vec![OLD; room];
            let mut same = slots.clone();
            let answer = ask(&index, way, &names, &mut slots);
            assert_eq!(ask(&other, way, &renamed, &mut same), answer);
            assert_eq!(slots, same);
        }
    }
}

/// Runs every operation on some bytes. What is refused must change nothing, and
/// what is accepted must be what writing and closing would have made.
fn examine(index: &[u8]) -> bool {
    let verdict = look(index);
    let old = vec![OLD; 40];
    for way in [0, 1] {
        for names in [&[0][..], &[0, 1], &[1, 0, 0]] {
            let mut slots = old.clone();
            let answer = ask(index, way, names, &mut slots);
            if verdict.number != 0 {
                assert_eq!(
                    (answer.number, answer.place),
                    (verdict.number, verdict.place)
                );
            }
            if answer.number != 0 {
                assert_eq!((answer.count, answer.looks, answer.codes), (0, 0, 0));
                assert_eq!((answer.looks_at, answer.codes_at), ([0; 16], [0; 16]));
                assert_eq!(slots, old);
            }
        }
    }
    if verdict.number != 0 {
        let Verdict { number, place } = verdict;
        assert_eq!(test(index, 0, 1), tested(number, place, false));
        assert_eq!(next(index, 0, 1), follows(number, place, 0));
        assert_eq!(count(index, 0), counted(number, place, 0));
        assert_eq!(part(index, 0), lies(number, place, 0, 0));
        assert!(lend(index, 0).is_empty());
        return false;
    }

    let modelled = model::read(index);
    let mut records = Vec::new();
    for (i, list) in modelled.lists.iter().enumerate() {
        let name = i as u32;
        assert_eq!(count(index, name), counted(0, 0, list.count() as u32));
        for slot in [1, modelled.u.div_ceil(2), modelled.u] {
            let least = model::least(&list.slots(), slot);
            assert_eq!(next(index, name, slot), follows(0, 0, least));
        }
        let record = written(modelled.u, modelled.block as u32, list.cut, &list.slots());
        assert_eq!(lend(index, name), record);
        records.push(record);
    }
    let mut slots = vec![OLD; 1_000];
    let names = [0, modelled.lists.len() as u32 - 1];
    let answer = ask(index, 1, &names, &mut slots);
    let (common, visits) = model::question(&modelled, &names);
    assert_eq!(slots[..common.len()], common);
    assert_eq!(answer.looks, visits[0].looks());
    assert_eq!(answer.codes, visits[0].codes());
    assert_eq!(index, join(modelled.u, modelled.block as u32, &records));
    true
}

/// Every record that has such a head, any bits, entries of every slot from 0 to 4
/// with every offset up to L, and code bytes that are 00, 01 or 80.
fn small_records(block: u32, head: [u32; 3]) -> Vec<Vec<u8>> {
    let [cut, n, l] = head;
    let bits: Vec<Vec<u8>> = (0..=255).map(|byte| vec![byte]).collect();
    let entries: Vec<Vec<u8>> = (0..=4)
        .flat_map(|first| (0..=l).map(move |offset| [le(first), le(offset)].concat()))
        .collect();
    let codes = [0x00, 0x01, 0x80].map(|byte| vec![byte]);
    let parts = [
        (cut.div_ceil(8), &bits[..]),
        (n.div_ceil(block), &entries[..]),
        (l, &codes[..]),
    ];
    let mut records = vec![head.map(le).concat()];
    for (times, choices) in parts {
        for _ in 0..times {
            records = records
                .iter()
                .flat_map(|record| choices.iter().map(|part| [&record[..], part].concat()))
                .collect();
        }
    }
    records
}

#[test]
fn exactly_one_record_for_a_cut_and_slots() {
    let u = 3;
    for block in 1..=3 {
        let mut found = BTreeMap::new();
        let ends = (0..=u).flat_map(|c| (0..=u - c).map(move |n| (c, n)));
        let heads = ends.flat_map(|(c, n)| (0..3).map(move |l| [c, n, l]));
        for record in heads.flat_map(|head| small_records(block, head)) {
            let index = join(u, block, std::slice::from_ref(&record));
            if look(&index).number == 0 {
                let list = model::read(&index).lists.remove(0);
                assert_eq!(written(u, block, list.cut, &list.slots()), record);
                // No accepted record before this one had its cut and slots.
                assert_eq!(found.insert((list.cut, list.slots()), record), None);
            }
        }
        // Four cuts, and eight sets of three slots for each.
        assert_eq!(found.len(), 32);
    }
}

#[test]
fn other_bytes_are_another_list() {
    let mut random = Random::new(23);
    let mut accepted = 0;
    for _ in 0..1_000 {
        let given = some_lists(&mut random);
        let (cut, slots) = &given.lists[0];
        let record = written(given.u, given.block, *cut, slots);
        for _ in 0..20 {
            let mut other = record.clone();
            let at = random.below(record.len() as u32) as usize;
            other[at] ^= 1 << random.below(8);
            let index = join(given.u, given.block, std::slice::from_ref(&other));
            if look(&index).number == 0 {
                let list = model::read(&index).lists.remove(0);
                assert_ne!((list.cut, &list.slots()), (*cut, slots));
                assert_eq!(
                    written(given.u, given.block, list.cut, &list.slots()),
                    other
                );
                accepted += 1;
            }
        }
    }
    assert!(accepted > 1_000);
}

#[test]
fn any_byte_of_the_papers_index_damaged() {
    let index = paper();
    let mut accepted = 0;
    for at in 0..index.len() {
        for value in 0..=255 {
            accepted += usize::from(examine(&poke(&index, at, value)));
        }
    }
    // Each byte once as it stands, and more.
    assert!(accepted > index.len());
}

#[test]
fn any_byte_of_other_indexes_damaged() {
    let mut random = Random::new(17);
    for _ in 0..40 {
        let mut given = some_lists(&mut random);
        given.u = given.u.min(900);
        for (cut, slots) in &mut given.lists {
            *cut = (*cut).min(given.u);
            slots.retain(|&slot| slot <= given.u);
        }
        let index = join(given.u, given.block, &pack(&given));
        for at in 0..index.len() {
            for _ in 0..6 {
                examine(&poke(&index, at, random.byte()));
            }
        }
    }
}

#[test]
fn bytes_lost_added_and_moved() {
    let mut random = Random::new(18);
    let index = paper();
    for at in 0..index.len() {
        let mut bytes = index.clone();
        bytes.remove(at);
        assert!(!examine(&bytes));
        let mut bytes = index.clone();
        bytes.insert(at, random.byte());
        assert!(!examine(&bytes));
        examine(&index[at..]);
        examine(&index[..at]);
    }
    for _ in 0..3_000 {
        let mut bytes = index.clone();
        for _ in 0..random.between(2, 5) {
            let from = random.below(111) as usize;
            let to = random.below(111) as usize;
            bytes[to] = index[from];
        }
        examine(&bytes);
    }
}

#[test]
fn any_bytes_before_a_sound_trailer() {
    let mut random = Random::new(19);
    for _ in 0..3_000 {
        let k = random.between(1, 3);
        let length = random.below(60);
        let mut records = vec![vec![0; 12]; k as usize];
        for record in &mut records {
            for at in [0, 4, 8] {
                record[at] = random.below(4) as u8;
            }
            let many = random.below(30) as usize;
            record.extend(random.bytes(many));
        }
        let mut index = join(random.between(1, 40), random.between(1, 4), &records);
        examine(&index);
        let at = random.below(index.len() as u32) as usize;
        index.truncate(at.max(length as usize));
        examine(&index);
    }
}

#[test]
fn any_write_is_answered() {
    let mut random = Random::new(20);
    let odd = |random: &mut Random, high: u32| match random.below(6) {
        0 => 0,
        1 => WILD - random.below(3),
        2 => high + random.below(3),
        _ => random.between(1, high),
    };
    let mut refused = 0;
    for _ in 0..5_000 {
        let u = if random.below(5) == 0 {
            odd(&mut random, 1_048_576)
        } else {
            60
        };
        let block = if random.below(5) == 0 {
            odd(&mut random, 128)
        } else {
            3
        };
        let cut = odd(&mut random, 60);
        let many = random.below(12);
        let mut slots = random.ascending(many, 1, 60);
        if many > 0 && random.below(4) == 0 {
            let at = random.below(many) as usize;
            slots[at] = odd(&mut random, 60);
        }
        let room = random.below(80) as usize;
        let before = random.bytes(room);
        let mut after = before.clone();
        let answer = write(u, block, cut, &slots, &mut after);
        if answer.number != 0 {
            assert_eq!(answer.length, 0);
            assert_eq!(before, after);
            refused += 1;
            continue;
        }
        let length = answer.length as usize;
        assert_eq!(answer.place, 0);
        assert_eq!(before[length..], after[length..]);
        let index = join(u, block, &[after[..length].to_vec()]);
        answers(&index, 0, &[0], slots.len(), &slots, (0, 0));
        // With one byte less it is refused, and tells the length.
        let mut less = before[..length - 1].to_vec();
        let answer = write(u, block, cut, &slots, &mut less);
        assert_eq!(answer, wrote(12, length as u32, 0));
        assert_eq!(less, before[..length - 1]);
    }
    assert!((1_000..4_500).contains(&refused));
}

#[test]
fn any_close_is_answered() {
    let mut random = Random::new(21);
    let mut refused = 0;
    for _ in 0..5_000 {
        let records = [paper_0(), paper_1(), vec![0; 12]];
        let many = random.between(1, 3) as usize;
        let mut starts = [0, 55, 79][..many].to_vec();
        let mut total = [55, 79, 91][many - 1];
        let behind = random.below(60) as usize;
        let mut room = records[..many].concat();
        room.extend(random.bytes(behind));
        let (mut u, mut block) = (32, 4);
        match random.below(8) {
            0 => u = random.below(64),
            1 => block = random.below(8),
            2 => total = total - 2 + random.below(5),
            3 => starts[many - 1] = random.below(92),
            4 => total = WILD - random.below(60),
            5 => {
                let at = random.below(room.len() as u32) as usize;
                room[at] = random.byte();
            }
            _ => {}
        }
        let before = room.clone();
        let answer = close(&mut room, u, block, total, &starts);
        if answer.number != 0 {
            assert_eq!(answer.length, 0);
            assert_eq!(before, room);
            refused += 1;
            continue;
        }
        let length = answer.length as usize;
        let total = total as usize;
        assert_eq!(length, total + 4 * many + 24);
        assert_eq!(before[..total], room[..total]);
        assert_eq!(before[length..], room[length..]);
        looks_like(&room[..length], 0, 0);
    }
    assert!((1_000..4_500).contains(&refused));
}
