//! The cases for another implementation: their form, that their answers agree
//! with the model, and that none of what they are there for has been lost.

use crate::model::{self, Visit};
use second::cases::all;
use std::collections::{BTreeMap, BTreeSet};

/// One line, taken apart.
struct Case {
    operation: String,
    fields: Vec<String>,
    label: String,
}

fn cases() -> Vec<Case> {
    let mut cases = Vec::new();
    for line in all() {
        let (case, label) = line.split_once(" # ").expect("a label");
        let mut words = case.split(' ').map(str::to_string);
        cases.push(Case {
            operation: words.next().unwrap(),
            fields: words.collect(),
            label: label.to_string(),
        });
    }
    cases
}

fn of(operation: &str) -> Vec<Case> {
    let mut cases = cases();
    cases.retain(|case| case.operation == operation);
    cases
}

impl Case {
    fn bytes(&self, i: usize) -> Vec<u8> {
        let field = &self.fields[i];
        if field == "-" {
            return Vec::new();
        }
        assert!(field.chars().all(|c| "0123456789abcdef".contains(c)));
        assert_eq!(field.len() % 2, 0);
        (0..field.len() / 2)
            .map(|at| u8::from_str_radix(&field[2 * at..2 * at + 2], 16).unwrap())
            .collect()
    }

    fn list(&self, i: usize) -> Vec<u32> {
        let field = &self.fields[i];
        if field == "-" {
            return Vec::new();
        }
        field.split(',').map(|n| n.parse().unwrap()).collect()
    }

    fn number(&self, i: usize) -> u32 {
        self.fields[i].parse().unwrap()
    }

    /// The number the operation has answered with, where it has one.
    fn refusal(&self) -> Option<u32> {
        let at = match self.operation.as_str() {
            "look" => 1,
            "ask" | "bound" => 4,
            "test" | "next" => 3,
            "count" | "part" => 2,
            "write" | "close" => 5,
            _ => return None,
        };
        Some(self.number(at))
    }
}

fn is_wild(value: u32) -> bool {
    value > u32::MAX - 16
}

/// Counts that must not be 0, by name.
#[derive(Default)]
struct Seen(BTreeMap<&'static str, usize>);

impl Seen {
    fn note(&mut self, what: &'static str, happened: bool) {
        *self.0.entry(what).or_default() += usize::from(happened);
    }

    #[track_caller]
    fn expect(&self, least: usize) {
        let lost: Vec<_> = self.0.iter().filter(|(_, &n)| n < least).collect();
        assert!(lost.is_empty(), "too seldom: {lost:?}");
    }
}

#[test]
fn the_printed_lines_are_these() {
    let printed = std::process::Command::new(env!("CARGO_BIN_EXE_vectors"))
        .output()
        .unwrap();
    let mut lines = all().join("\n");
    lines.push('\n');
    assert_eq!(String::from_utf8(printed.stdout).unwrap(), lines);
    assert_eq!(all(), all());
}

#[test]
fn form_and_size() {
    let fields = BTreeMap::from([
        ("look", 3),
        ("ask", 12),
        ("test", 6),
        ("next", 6),
        ("count", 5),
        ("part", 7),
        ("write", 9),
        ("bound", 7),
        ("close", 9),
        ("program", 3),
        ("line", 2),
    ]);
    let cases = cases();
    assert!((150..=250).contains(&cases.len()), "{}", cases.len());
    assert!(all().iter().map(|line| line.len() + 1).sum::<usize>() < 120_000);
    let mut labels = BTreeSet::new();
    let mut operations = BTreeMap::new();
    for case in &cases {
        assert_eq!(case.fields.len(), fields[case.operation.as_str()]);
        assert!(case.fields.iter().all(|field| !field.is_empty()));
        assert!(!case.label.is_empty());
        assert!(labels.insert((case.operation.clone(), case.label.clone())));
        *operations.entry(case.operation.clone()).or_insert(0) += 1;
        if ["look", "ask", "test", "next", "count", "part"].contains(&case.operation.as_str()) {
            let index = case.bytes(0);
            let most = if case.operation == "next" { 130 } else { 500 };
            assert!(index.len() <= most, "{}", index.len());
            if second::look(&index).number == 0 {
                for list in model::read(&index).lists {
                    assert!(list.cut <= 200 && list.count() <= 60);
                }
            }
        }
    }
    for (operation, least) in [
        ("look", 50),
        ("ask", 30),
        ("test", 8),
        ("next", 18),
        ("count", 5),
        ("part", 5),
        ("write", 15),
        ("bound", 12),
        ("close", 15),
        ("program", 8),
        ("line", 6),
    ] {
        assert!(operations[operation] >= least, "{operation}");
    }
}

#[test]
fn every_number_is_given() {
    let mut overall = BTreeMap::new();
    let mut by_operation = BTreeMap::new();
    for case in cases() {
        if let Some(number) = case.refusal() {
            *overall.entry(number).or_insert(0) += 1;
            *by_operation.entry((case.operation, number)).or_insert(0) += 1;
        }
    }
    for number in 0..=17 {
        assert!(overall.get(&number) >= Some(&2), "{number}");
    }
    let own: [(&str, &[u32]); 9] = [
        ("look", &[0, 1, 2, 3, 4, 5, 6, 7, 8, 9, 17]),
        ("ask", &[0, 10, 11, 12, 14]),
        ("test", &[0, 11, 16]),
        ("next", &[0, 11, 16]),
        ("count", &[0, 11]),
        ("part", &[0, 11]),
        ("write", &[0, 4, 12, 13, 15]),
        ("bound", &[0, 4, 13, 15]),
        ("close", &[0, 1, 4, 5, 6, 7, 8, 9, 12, 17]),
    ];
    for (operation, numbers) in own {
        for &number in numbers {
            let key = (operation.to_string(), number);
            assert!(by_operation.get(&key) >= Some(&2), "{key:?}");
        }
    }
    // Operations that look first also meet bad indexes.
    for operation in ["ask", "test", "next", "count", "part"] {
        let bad = (1..=9).any(|n| by_operation.contains_key(&(operation.to_string(), n)));
        assert!(bad, "{operation}");
        let rubbish = by_operation.contains_key(&(operation.to_string(), 17));
        assert!(rubbish, "17 of {operation}");
    }
}

/// A fault of an index: the row, the list, and which of the row's conditions.
type Fault = (u32, u32, &'static str);

/// Every fault that can be told apart in an index, in the order of looking.
fn faults(index: &[u8]) -> Vec<Fault> {
    let word = |at: usize| u32::from_le_bytes(index[at..at + 4].try_into().unwrap());
    let mut faults = Vec::new();
    let length = index.len();
    if length < 24 {
        return vec![(1, 0, "short")];
    }
    if index[length - 4..] != *b"SLOT" {
        return vec![(2, 0, "tag")];
    }
    if word(length - 24) != 1 {
        return vec![(3, 0, "edition")];
    }
    let [u, block, k, d] = [20, 16, 12, 8].map(|back| word(length - back));
    for (value, most, low, high) in [
        (u, 1_048_576, "u 0", "u large"),
        (block, 128, "B 0", "B large"),
        (k, 4_096, "k 0", "k large"),
    ] {
        if value == 0 {
            return vec![(4, 0, low)];
        }
        if value > most {
            return vec![(4, 0, high)];
        }
    }
    if u64::from(d) + 4 * u64::from(k) + 24 != length as u64 {
        return vec![(5, 0, "length")];
    }
    let mut edges: Vec<u32> = (0..k).map(|i| word((d + 4 * i) as usize)).collect();
    if edges[0] != 0 {
        faults.push((5, 0, "first start"));
    }
    edges.push(d);
    for edge in edges.windows(2) {
        let size = i64::from(edge[1]) - i64::from(edge[0]);
        if edge[0] > d {
            faults.push((5, 0, "start behind D"));
        } else if size < 0 {
            faults.push((5, 0, "starts fall"));
        } else if size == 0 {
            faults.push((5, 0, "starts equal"));
        } else if size < 12 {
            faults.push((5, 0, "short record"));
        }
    }
    for (i, edge) in edges.windows(2).enumerate() {
        if edge[1] <= d && u64::from(edge[0]) + 12 <= u64::from(edge[1]) {
            let record = &index[edge[0] as usize..edge[1] as usize];
            let of_list = record_faults(record, u64::from(u), u64::from(block));
            faults.extend(of_list.iter().map(|&(n, why)| (n, i as u32, why)));
        }
    }
    faults
}

/// Which bits behind the cut are set, where there are any.
fn unused_bits(bits: &[u8], cut: u64) -> Option<&'static str> {
    let set: Vec<u64> = (0..8 * bits.len() as u64)
        .filter(|&i| bits[i as usize / 8] >> (7 - i % 8) & 1 == 1)
        .map(|i| i + 1)
        .filter(|&x| x > cut)
        .collect();
    match set[..] {
        [] => None,
        [x] if x == cut + 1 && x % 8 == 0 => Some("only bit behind c"),
        [x] if x == cut + 1 => Some("bit next to c"),
        [x] if x % 8 == 0 => Some("lowest bit behind c"),
        [_] => Some("a bit behind c"),
        _ => Some("bits behind c"),
    }
}

fn record_faults(record: &[u8], u: u64, block: u64) -> Vec<(u32, &'static str)> {
    let word = |at: u64| {
        let at = at as usize;
        u64::from(u32::from_le_bytes(record[at..at + 4].try_into().unwrap()))
    };
    let mut faults = Vec::new();
    let [c, n, l] = [0, 4, 8].map(word);
    let m = n.div_ceil(block);
    let skips = 12 + c.div_ceil(8);
    let codes = skips + 8 * m;
    let whole = codes + l;
    let length = record.len() as u64;
    if c > u {
        faults.push((6, "c above u"));
    } else if n > u - c {
        faults.push((6, "n above u - c"));
    }
    if n == 0 && l > 0 {
        faults.push((6, "n 0, L not"));
    }
    if whole < length {
        faults.push((6, "parts less"));
    } else if whole > length {
        faults.push((6, "parts more"));
    }
    if c <= u && skips <= length {
        faults.extend(unused_bits(&record[12..skips as usize], c).map(|why| (17, why)));
    }
    if faults.first().is_some_and(|&(number, _)| number == 6) {
        return faults;
    }
    let mut highest = c;
    for b in 0..m {
        let first = word(skips + 8 * b);
        let start = word(skips + 8 * b + 4);
        let end = if b + 1 < m {
            word(skips + 8 * b + 12)
        } else {
            l
        };
        let before = faults.len();
        if b == 0 && start != 0 {
            faults.push((7, "first offset"));
        }
        if end < start {
            faults.push((7, "end before start"));
        } else if end > l {
            faults.push((7, "end beyond L"));
        }
        let bounded = faults.len() == before;
        if first > u {
            faults.push((9, "first slot above u"));
        } else if first <= highest {
            faults.push((
                9,
                match (b, first == highest) {
                    (0, _) if c == 0 => "first slot 0",
                    (0, _) => "first slot up to c",
                    (_, true) => "first slot as before",
                    (_, false) => "first slots fall",
                },
            ));
        }
        if !bounded {
            continue;
        }
        let mut slot = first;
        let mut at = start;
        let mut broken = false;
        for _ in 1..block.min(n - b * block) {
            let room = end - at;
            let mut value = 0;
            let mut size = 0;
            let mut ended = false;
            while size < room && size < 3 && !ended {
                let byte = u64::from(record[(codes + at + size) as usize]);
                value += (byte % 128) << (7 * size);
                size += 1;
                ended = byte < 128;
                if ended && size > 1 && byte == 0 {
                    faults.push((8, if size == 2 { "80 00" } else { "80 80 00" }));
                    broken = true;
                }
            }
            if !ended {
                faults.push((
                    8,
                    match (size, room) {
                        (0, _) => "no code",
                        (3, 3) => "third byte goes on",
                        (3, _) => "four bytes",
                        _ => "not ended",
                    },
                ));
                broken = true;
            }
            slot += value + 1;
            at += size;
            if slot > u && first <= u {
                faults.push((9, "code above u"));
            }
            if broken {
                break;
            }
        }
        if at < end && !broken {
            let alone = block.min(n - b * block) == 1;
            let why = if alone { "remain of one" } else { "remain" };
            faults.push((8, why));
        }
        highest = highest.max(slot);
    }
    faults
}

#[test]
fn looking_finds_the_first_fault() {
    for case in cases() {
        let at = match case.operation.as_str() {
            "look" => 1,
            "test" | "next" => 3,
            "count" | "part" => 2,
            "ask" => 4,
            _ => continue,
        };
        let number = case.number(at);
        let place = case.number(at + 1);
        match faults(&case.bytes(0)).first() {
            None => assert!([0, 10, 11, 12, 14, 16].contains(&number), "{}", case.label),
            Some(&(n, list, _)) => assert_eq!((number, place), (n, list), "{}", case.label),
        }
    }
}

#[test]
fn every_reason_of_looking_is_there() {
    let mut first = BTreeSet::new();
    let mut pairs = BTreeSet::new();
    let mut lists = BTreeSet::new();
    for case in of("look") {
        let faults = faults(&case.bytes(0));
        if let Some(&(n, list, why)) = faults.first() {
            first.insert(why);
            lists.insert((n, list > 0));
        }
        if let [a, b, ..] = faults[..] {
            pairs.insert((a.0, b.0, a.1 == b.1));
        }
    }
    for why in [
        "short",
        "tag",
        "edition",
        "u 0",
        "u large",
        "B 0",
        "B large",
        "k 0",
        "k large",
        "length",
        "first start",
        "start behind D",
        "starts fall",
        "starts equal",
        "short record",
        "c above u",
        "n above u - c",
        "n 0, L not",
        "parts less",
        "parts more",
        "only bit behind c",
        "bit next to c",
        "lowest bit behind c",
        "bits behind c",
        "first offset",
        "end before start",
        "end beyond L",
        "80 00",
        "80 80 00",
        "no code",
        "third byte goes on",
        "four bytes",
        "not ended",
        "remain",
        "remain of one",
        "first slot above u",
        "first slot 0",
        "first slot up to c",
        "first slot as before",
        "first slots fall",
        "code above u",
    ] {
        assert!(first.contains(why), "{why}");
    }
    for number in [6, 7, 8, 9, 17] {
        assert!(lists.contains(&(number, false)), "{number} in list 0");
        assert!(lists.contains(&(number, true)), "{number} in a later list");
    }
    for pair in [
        (5, 6, true),
        (7, 9, true),
        (9, 7, true),
        (8, 7, true),
        (9, 8, true),
        (8, 9, true),
        (9, 6, false),
        (6, 17, true),
        (17, 7, true),
        (17, 8, true),
        (17, 9, true),
        (9, 17, false),
        (17, 6, false),
    ] {
        assert!(pairs.contains(&pair), "{pair:?}");
    }
}

#[test]
fn wild_numbers_in_every_field() {
    let mut seen = Seen::default();
    for case in cases() {
        let operation = case.operation.as_str();
        if ["look", "ask", "test", "next", "count", "part"].contains(&operation) {
            note_wild(&mut seen, &case.bytes(0));
        }
        match operation {
            "ask" => {
                seen.note("way", is_wild(case.number(1)));
                seen.note("name", case.list(2).into_iter().any(is_wild));
            }
            "test" => seen.note("name tested", is_wild(case.number(1))),
            "next" => {
                seen.note("name of the next", is_wild(case.number(1)));
                seen.note("slot of the next", is_wild(case.number(2)));
            }
            "count" => seen.note("name counted", is_wild(case.number(1))),
            "part" => seen.note("name lent", is_wild(case.number(1))),
            "write" => {
                seen.note("u", is_wild(case.number(0)));
                seen.note("B", is_wild(case.number(1)));
                seen.note("cut", is_wild(case.number(2)));
            }
            "bound" => {
                seen.note("cut bounded", is_wild(case.number(2)));
                seen.note("n bounded", is_wild(case.number(3)));
            }
            "close" => {
                seen.note("B closed", is_wild(case.number(2)));
                seen.note("total", is_wild(case.number(3)));
                seen.note("start closed", case.list(4).into_iter().any(is_wild));
            }
            _ => {}
        }
    }
    seen.expect(1);
}

fn note_wild(seen: &mut Seen, index: &[u8]) {
    let length = index.len();
    if length < 24 {
        return;
    }
    let word = |at: usize| u32::from_le_bytes(index[at..at + 4].try_into().unwrap());
    seen.note("edition", is_wild(word(length - 24)));
    let k = word(length - 12) as usize;
    let d = word(length - 8);
    seen.note("D", is_wild(d));
    let d = d as usize;
    if k == 0 || k > 4_096 || d + 4 * k + 24 != length {
        return;
    }
    let mut edges: Vec<u32> = (0..k).map(|i| word(d + 4 * i)).collect();
    seen.note("start", edges.iter().any(|&start| is_wild(start)));
    edges.push(d as u32);
    let block = word(length - 16) as usize;
    for edge in edges.windows(2) {
        let (start, end) = (edge[0] as usize, edge[1] as usize);
        if end > d || start + 12 > end || block == 0 {
            continue;
        }
        let [c, n, l] = [0, 4, 8].map(|at| word(start + at));
        seen.note("c", is_wild(c));
        seen.note("n", is_wild(n));
        seen.note("L", is_wild(l));
        let skips = start + 12 + (c as usize).div_ceil(8);
        for b in 0..(n as usize).div_ceil(block) {
            if skips + 8 * b + 8 > end {
                break;
            }
            seen.note("first slot", is_wild(word(skips + 8 * b)));
            seen.note("offset", is_wild(word(skips + 8 * b + 4)));
        }
    }
}

/// The costs of an accepted question are those of the visits, at each position
/// and together.
fn agree_on_costs(case: &Case, names: usize, visits: &[Visit]) {
    let mut looks = vec![0; names];
    let mut codes = vec![0; names];
    for visit in visits {
        looks[visit.position] = visit.looks() as u32;
        codes[visit.position] = visit.codes() as u32;
    }
    let label = &case.label;
    assert_eq!(case.number(7), looks.iter().sum::<u32>(), "{label}");
    assert_eq!(case.number(8), codes.iter().sum::<u32>(), "{label}");
    assert_eq!(case.list(9), looks, "{label}");
    assert_eq!(case.list(10), codes, "{label}");
}

#[test]
fn answers_agree_with_the_model() {
    for case in of("ask") {
        if case.number(4) != 0 {
            assert_eq!(case.list(3), case.list(11));
            assert_eq!([6, 7, 8].map(|i| case.number(i)), [0; 3]);
            assert_eq!([9, 10].map(|i| case.list(i)), [vec![], vec![]]);
            continue;
        }
        let index = model::read(&case.bytes(0));
        let names = case.list(2);
        let (slots, mut visits) = model::question(&index, &names);
        if case.number(1) == 0 {
            visits.clear();
        }
        agree_on_costs(&case, names.len(), &visits);
        assert_eq!(case.number(6) as usize, slots.len());
        let mut after = slots;
        after.resize(case.list(3).len(), 0);
        assert_eq!(case.list(11), after);
    }
    for case in of("test") {
        if case.number(3) == 0 {
            let index = model::read(&case.bytes(0));
            let slots = index.lists[case.number(1) as usize].slots();
            let yes = slots.contains(&case.number(2));
            assert_eq!(case.number(5), u32::from(yes));
        }
    }
    for case in of("count") {
        if case.number(2) == 0 {
            let index = model::read(&case.bytes(0));
            let list = &index.lists[case.number(1) as usize];
            assert_eq!(case.number(4) as usize, list.count());
        }
    }
    for case in of("part") {
        let (start, length) = (case.number(4) as usize, case.number(5) as usize);
        assert_eq!(case.bytes(6), case.bytes(0)[start..start + length]);
        assert_eq!(length == 0, case.number(2) != 0);
    }
}

#[test]
fn sound_cuts_within_a_byte() {
    let mut seen = Seen::default();
    let numbers = [
        ("ask", 4),
        ("test", 3),
        ("next", 3),
        ("count", 2),
        ("part", 2),
    ];
    for (operation, number) in numbers {
        for case in of(operation) {
            if case.number(number) != 0 {
                continue;
            }
            let name = match operation {
                "ask" => case.list(2)[0],
                _ => case.number(1),
            };
            let list = model::read(&case.bytes(0)).lists.remove(name as usize);
            // A slot of the last bit byte is held.
            let last = |x: &u32| x.div_ceil(8) == list.cut.div_ceil(8);
            let held = list.bits.last().is_some_and(last);
            seen.note(operation, !list.cut.is_multiple_of(8) && held);
        }
    }
    seen.expect(1);
}

#[test]
fn questions_of_every_kind() {
    let mut seen = Seen::default();
    let mut code_sizes = [0; 3];
    for case in of("ask") {
        let way = case.number(1);
        let names = case.list(2);
        let before = case.list(3);
        let number = case.number(4);
        let place = case.number(5) as usize;
        assert!(before.iter().all(|&slot| slot != 0));

        seen.note("17 names", number == 10 && names.len() == 17);
        seen.note("no names", number == 10 && names.is_empty());
        seen.note("way 2", number == 14 && way == 2);
        seen.note("bad way and 17 names", number == 14 && names.len() == 17);
        seen.note("first name", number == 11 && place == 0);
        seen.note("later name", number == 11 && place > 0);
        seen.note("later name, no room", number == 11 && before.is_empty());
        seen.note(
            "one short by skips",
            number == 12 && way == 1 && place == before.len() + 1,
        );
        seen.note(
            "one short plainly",
            number == 12 && way == 0 && place == before.len() + 1,
        );
        if number != 0 {
            continue;
        }

        let index = model::read(&case.bytes(0));
        let named = |position: usize| &index.lists[names[position] as usize];
        let counts: Vec<usize> = (0..names.len()).map(|i| named(i).count()).collect();
        let distinct: BTreeSet<usize> = counts.iter().copied().collect();
        let lists: BTreeSet<u32> = names.iter().copied().collect();
        let least = *counts.iter().min().unwrap();
        seen.note("plain", way == 0);
        seen.note("room exact", before.len() == least && least > 0);
        seen.note("room larger", before.len() > least);
        seen.note("no room needed", least == 0 && before.is_empty());
        seen.note("16 names", names.len() == 16);
        seen.note("one name", names.len() == 1);
        seen.note("a list twice", lists.len() < names.len());
        seen.note(
            "tie of two lists",
            lists.len() == 2 && names.len() == 2 && distinct.len() == 1,
        );
        seen.note(
            "three counts unsorted",
            way == 1 && names.len() == 3 && distinct.len() == 3 && !counts.is_sorted(),
        );
        seen.note(
            "empty answer, room larger",
            case.number(6) == 0 && before.len() > least,
        );
        seen.note(
            "a cut within a byte",
            (0..names.len()).any(|i| named(i).cut % 8 != 0 && !named(i).bits.is_empty()),
        );
        for i in 0..names.len() {
            for (size, sum) in code_sizes.iter_mut().enumerate() {
                *sum += named(i).code_sizes[size];
            }
        }
        if way == 1 {
            let (_, visits) = model::question(&index, &names);
            note_visits(&mut seen, &index, &visits);
        }
    }
    seen.expect(1);
    assert!(code_sizes.iter().all(|&many| many > 0), "{code_sizes:?}");
    for often in [
        "gallop of 8",
        "gallop of 16",
        "no move",
        "no move above 0",
        "between cut and first block",
        "in a gap",
        "above the last slot",
        "found in the middle of a block",
    ] {
        assert!(seen.0[often] >= 2, "{often}");
    }
    assert!(seen.0["no move"] >= 10);
}

#[test]
fn costs_of_every_kind() {
    let mut seen = Seen::default();
    for case in of("ask") {
        let names = case.list(2);
        let number = case.number(4);
        let lists: BTreeSet<u32> = names.iter().copied().collect();
        seen.note("12 with four lists", number == 12 && lists.len() == 4);
        if number != 0 {
            continue;
        }
        let plain = case.number(1) == 0;
        seen.note("four lists plainly", plain && lists.len() == 4);
        if !plain {
            note_costs(&mut seen, &case, &names);
        }
    }
    seen.expect(1);
}

/// What the costs of a question by skips are like.
fn note_costs(seen: &mut Seen, case: &Case, names: &[u32]) {
    let index = model::read(&case.bytes(0));
    let count = |&position: &usize| index.lists[names[position] as usize].count();
    let start = (0..names.len()).min_by_key(count).unwrap();
    let (looks, codes) = (case.list(9), case.list(10));
    assert_eq!((looks[start], codes[start]), (0, 0));
    let counts: BTreeSet<usize> = (0..names.len()).map(|at| count(&at)).collect();
    let dear = |at: &usize| looks[*at] > 0 && codes[*at] > 0;
    let costly: Vec<usize> = (0..names.len()).filter(dear).collect();
    let all = costly.len() + 1 == names.len();
    seen.note("before the start", costly.iter().any(|&at| at < start));
    seen.note("behind the start", costly.iter().any(|&at| at > start));
    seen.note("three counts", all && names.len() == 3 && counts.len() == 3);
    seen.note("four counts", all && names.len() == 4 && counts.len() == 4);
    seen.note("16 names", names.len() == 16 && costly.len() > 6);
    for &name in names {
        let at = costly.iter().filter(|&&at| names[at] == name);
        let own: Vec<u32> = at.map(|&at| looks[at]).collect();
        let differ = own.iter().any(|looks| *looks != own[0]);
        seen.note("a list three times", own.len() == 3 && differ);
    }
}

/// The questions that the bill for looks is there for. Each position charged has
/// its searches, its blocks, its looks, its best e and the bill for that.
const BILLED: [(&str, &[[u64; 5]]); 6] = [
    // Both are computed in the tests of the bill.
    ("3 slots in 31 blocks", &[[3, 31, 23, 3, 27]]),
    ("1 slot in 15 blocks", &[[1, 15, 7, 3, 9]]),
    // 11 is position 4: 1, 2, 4, 8, then 6 and 5. 45 is position 21: 5, 6, 8, 12, 20,
    // then 24, 22 and 21. In the list between, 11 is a bit; 30 comes to blocks 1 and
    // 2, and 45 to 2 and 3, then 4.
    (
        "2 of 3 slots left for 27 blocks",
        &[[2, 27, 6 + 8, 3, 20], [2, 4, 2 + 3, 0, 10]],
    ),
    // 22 fails at block 1. 50 is position 10: 1, 2, 4, 8, 16, then 12, 10 and 11. 71
    // is position 17: 11, 12, 14, 18, then 16 and 17.
    (
        "3 bit tests, then 3 slots in 24 blocks",
        &[[3, 24, 1 + 8 + 6, 2, 27]],
    ),
    ("3 bit tests, no slot in 12 blocks", &[[0, 12, 0, 4, 0]]),
    // 94 is in block 19: 1, 2, 4, 8, 16, then 18, 19 and 20. 96 fails at block 20, 99
    // comes to it, and for 100 none is left.
    (
        "4 slots at the end of 20 blocks",
        &[[4, 20, 8 + 1 + 1, 2, 30]],
    ),
];

#[test]
fn bills_by_hand() {
    let mut cases = of("ask");
    let first = cases.len() - BILLED.len();
    for (case, (label, billed)) in cases.split_off(first).iter().zip(BILLED) {
        assert_eq!(case.label, label);
        assert!(case.bytes(0).len() <= 400);
        let charges = second::charges(&case.bytes(0), &case.list(2)).unwrap();
        let told = charges.iter().map(|charge| {
            let (e, most) = charge.best();
            let e = u64::from(e);
            [charge.searches, charge.blocks, charge.looks, e, most]
        });
        assert_eq!(told.collect::<Vec<_>>(), billed, "{label}");
    }
}

#[test]
fn no_question_costs_more_than_its_bill() {
    let asked = of("ask");
    let by_skips = |case: &&Case| (case.number(1), case.number(4)) == (1, 0);
    for case in asked.iter().filter(by_skips) {
        let charges = second::charges(&case.bytes(0), &case.list(2)).unwrap();
        for charge in charges {
            assert_eq!(case.list(9)[charge.position] as u64, charge.looks);
            assert!(charge.looks <= charge.best().1, "{}", case.label);
        }
    }
}

fn note_visits(seen: &mut Seen, index: &model::Index, visits: &[Visit]) {
    for (rank, visit) in visits.iter().enumerate() {
        let list = &index.lists[visit.list];
        seen.note(
            "40 to 60 blocks",
            index.block == 1 && (40..=60).contains(&visit.blocks),
        );
        seen.note(
            "bit tests and searches",
            visit.bit_tests > 0 && !visit.steps.is_empty(),
        );
        seen.note(
            "bit tests alone",
            visit.bit_tests > 0 && visit.steps.is_empty(),
        );
        seen.note(
            "nothing left part-way",
            rank > 0 && visit.candidates == 0 && visits[rank - 1].candidates > 0,
        );
        for step in &visit.steps {
            let far = step.told.doubling.last().map_or(0, |at| at - step.finger);
            let moved = step.told.j - step.finger;
            let walks = step.finger > 0;
            seen.note("gallop of 8", walks && far >= 8 && moved >= 8);
            seen.note("gallop of 16", walks && far >= 16 && moved >= 16);
            seen.note("gallop of 32", walks && far >= 32 && moved >= 32);
            seen.note("halving", step.told.halving.len() >= 3);
            seen.note("no move", moved == 0);
            seen.note("no move above 0", moved == 0 && walks);
            seen.note("no blocks", visit.blocks == 0);
            let absent = step.told.j == 0;
            seen.note(
                "below the first block",
                absent && visit.blocks > 0 && list.cut == 0,
            );
            seen.note(
                "between cut and first block",
                absent && visit.blocks > 0 && list.cut > 0,
            );
            let last = list.tail.last().copied().unwrap_or(0);
            seen.note("above the last slot", !absent && step.x > last);
            seen.note("in a gap", !absent && !step.found && step.x < last);
            seen.note("found at a first slot", step.found && step.codes == 0);
            seen.note(
                "found in the middle of a block",
                step.found && step.codes > 0,
            );
            seen.note(
                "past the last block",
                step.finger == visit.blocks && visit.blocks > 0,
            );
        }
    }
}

/// A next slot that was told, with the list it is of and the slot asked from.
struct Next<'a> {
    index: &'a model::Index,
    list: &'a model::List,
    x: u32,
    slot: u32,
}

impl Next<'_> {
    /// Where a slot of the tail stands within its block, counted from 0.
    fn within_block(&self, slot: u32) -> Option<usize> {
        let at = self.list.tail.iter().position(|&other| other == slot);
        at.map(|at| at % self.index.block)
    }
}

#[test]
fn nexts_of_every_kind() {
    let mut seen = Seen::default();
    for case in of("next") {
        let [name, x, number, place, slot] = [1, 2, 3, 4, 5].map(|i| case.number(i));
        note_next_refused(&mut seen, number, place, [name, x]);
        if number != 0 {
            assert_eq!(slot, 0, "{}", case.label);
            continue;
        }
        let index = &model::read(&case.bytes(0));
        let list = &index.lists[name as usize];
        assert_eq!(place, 0);
        assert_eq!(slot, model::least(&list.slots(), x), "{}", case.label);
        let next = Next {
            index,
            list,
            x,
            slot,
        };
        note_next_itself(&mut seen, &next);
        if x <= list.cut {
            note_next_of_bits(&mut seen, &next);
        } else {
            note_next_of_tail(&mut seen, &next);
        }
    }
    seen.expect(1);
}

/// Why no next slot is told. The paper's u is 32, and it has two lists.
fn note_next_refused(seen: &mut Seen, number: u32, place: u32, asked: [u32; 2]) {
    seen.note("slot 0", number == 16 && asked == [0, 0]);
    seen.note("slot u + 1", number == 16 && asked[1] == 33);
    seen.note("11 before 16", number == 11 && asked == [2, 0]);
    let wild = asked.into_iter().all(is_wild);
    seen.note("name and slot wild", number == 11 && wild);
    seen.note("a damaged code", number == 8);
    seen.note("a bit behind a cut", number == 17 && place == 1);
}

/// The slot asked from is held, in each of the places where it can be.
fn note_next_itself(seen: &mut Seen, next: &Next) {
    let itself = next.slot == next.x;
    let place = next.within_block(next.x);
    seen.note("itself at the cut", itself && next.x == next.list.cut);
    seen.note("itself a first slot", itself && place == Some(0));
    seen.note("itself within a block", itself && place > Some(0));
    seen.note("itself u", itself && next.x == next.index.u);
}

/// From a slot up to the cut: a larger bit, or none.
fn note_next_of_bits(seen: &mut Seen, next: &Next) {
    let Next { list, x, slot, .. } = *next;
    let byte = |slot: u32| (slot - 1) / 8;
    let larger = slot > x && slot <= list.cut;
    seen.note("the same byte", larger && byte(slot) == byte(x));
    seen.note("a later byte", larger && byte(slot) > byte(x));
    let alone = larger && list.bits == [slot] && byte(slot) == byte(list.cut);
    seen.note("only in the last byte", alone && byte(slot) > 7 && x == 1);
    let whole = list.cut == next.index.u;
    seen.note("cut = u", larger && whole && slot == next.index.u);
    let out = !list.cut.is_multiple_of(8) && list.bits.last() < Some(&x);
    seen.note("bits run out, a block", out && slot > list.cut);
    seen.note("bits run out, no block", out && slot == 0 && !whole);
}

/// From a slot behind the cut: in its block, in the one behind it, or none.
fn note_next_of_tail(seen: &mut Seen, next: &Next) {
    let Next { list, x, slot, .. } = *next;
    let firsts = list.tail.iter().step_by(next.index.block);
    let j = firsts.filter(|&&first| first <= x).count();
    let place = next.within_block(slot);
    let first = slot > x && place == Some(0);
    seen.note("j 0 behind a cut", j == 0 && first && list.cut > 0);
    seen.note("j 0, cut 0", j == 0 && first && list.cut == 0);
    let within = slot > x && place > Some(0);
    seen.note("a larger slot of the block", within && j > 1);
    let longer = list.code_sizes[1] == 1 && j == 1 && place == Some(1);
    seen.note("by a longer code", within && longer);
    seen.note("a block runs out", first && j > 1);
    seen.note("the last block runs out", slot == 0 && j > 1);
    seen.note("an empty list", list.count() == 0 && slot == 0);
}

#[test]
fn writes_of_every_kind() {
    let mut seen = Seen::default();
    let mut code_sizes = [0; 3];
    for case in of("write") {
        let [u, block, cut] = [0, 1, 2].map(|i| case.number(i));
        let slots = case.list(3);
        let before = case.bytes(4);
        let number = case.number(5);
        let place = case.number(6) as usize;
        let length = case.number(7) as usize;
        let after = case.bytes(8);
        if number != 0 {
            assert_eq!((length, &before), (0, &after));
        }
        let last = slots.len().saturating_sub(1);
        seen.note("13 first", number == 13 && place == 0);
        seen.note("13 middle", number == 13 && place > 0 && place < last);
        seen.note("13 last", number == 13 && place == last && last > 0);
        seen.note("13, no room", number == 13 && before.is_empty());
        seen.note("15 and slots bad", number == 15 && !slots.is_sorted());
        seen.note("4 and cut above u", number == 4 && cut > u);
        seen.note("4 by u", number == 4 && (1..=128).contains(&block));
        seen.note("4 by B", number == 4 && (1..=1_048_576).contains(&u));
        seen.note("one short", number == 12 && place == before.len() + 1);
        seen.note("no room", number == 12 && before.is_empty());
        if number != 0 {
            continue;
        }
        assert_eq!(before[length..], after[length..]);
        assert!(before.iter().all(|&byte| byte != 0));
        let index = crate::tools::join(u, block, &[after[..length].to_vec()]);
        let list = &model::read(&index).lists[0];
        assert_eq!(list.slots(), slots);
        for (size, sum) in code_sizes.iter_mut().enumerate() {
            *sum += list.code_sizes[size];
        }
        seen.note("room exact", before.len() == length);
        seen.note("room larger", before.len() > length);
        seen.note("cut 0", cut == 0);
        seen.note("cut u", cut == u);
        seen.note("cut within a byte", cut % 8 != 0);
        seen.note(
            "bits and tail",
            !list.bits.is_empty() && !list.tail.is_empty(),
        );
        seen.note("no slots", slots.is_empty());
        seen.note(
            "1 and u",
            slots.first() == Some(&1) && slots.last() == Some(&u),
        );
        seen.note("largest u", u == 1_048_576);
        seen.note("longest block", block == 128);
    }
    seen.expect(1);
    assert!(code_sizes.iter().all(|&many| many > 0), "{code_sizes:?}");
}

#[test]
fn bounds_of_every_kind() {
    let mut seen = Seen::default();
    for case in of("bound") {
        let [u, block, cut, n] = [0, 1, 2, 3].map(|i| case.number(i));
        let [number, place, bytes] = [4, 5, 6].map(|i| case.number(i));
        assert_eq!(place, 0);
        if number == 0 {
            assert_eq!(bytes, model::most(u, block, cut, n), "{}", case.label);
            note_sum(&mut seen, [u, block, cut], n);
        } else {
            assert_eq!(bytes, 0);
            note_reasons(&mut seen, number, [u, block, cut], n);
        }
    }
    seen.expect(1);
}

/// Where the parts of an accepted bound are about to grow, or have just grown.
fn note_sum(seen: &mut Seen, sizes: [u32; 3], n: u32) {
    let [u, block, cut] = sizes;
    let slots = u - cut;
    seen.note("U 128", slots == 128);
    seen.note("U 129", slots == 129);
    seen.note("U 130", slots == 130);
    seen.note("U 16384", slots == 16_384);
    seen.note("U 16385", slots == 16_385);
    seen.note("no tail, but slots behind the cut", n == 0 && slots > 129);
    seen.note("n = U", n == slots && n > 0);
    seen.note("cut = u", cut == u);
    seen.note("a cut within a byte", cut % 8 != 0);
    seen.note("a last block within", !n.is_multiple_of(block));
    seen.note("largest u, B 1", u == 1_048_576 && block == 1);
    seen.note("largest u, B 128", u == 1_048_576 && block == 128);
}

/// Why a bound is refused, and what would have been a reason behind it.
fn note_reasons(seen: &mut Seen, number: u32, sizes: [u32; 3], n: u32) {
    let [u, block, cut] = sizes;
    let crowded = cut <= u && n > u - cut;
    seen.note("u one too large", number == 4 && u == 1_048_577);
    seen.note("B one too large", number == 4 && block == 129);
    seen.note("B 0", number == 4 && block == 0);
    seen.note("4 before 15", number == 4 && cut > u);
    seen.note("4 before 13", number == 4 && crowded);
    seen.note("15 with n above u", number == 15 && n > u);
    seen.note("cut one too large", number == 15 && cut == u + 1);
    seen.note("n one too large", number == 13 && n == u - cut + 1);
    let wraps = n.checked_add(cut).is_none();
    seen.note("n and cut would wrap", number == 13 && wraps);
}

/// What is wrong with starts, where 5 refuses them. Noted for every closing, so
/// that a kind that never comes up is missed.
fn note_starts(seen: &mut Seen, bad: bool, starts: &[u32], total: usize) {
    let falls = starts.windows(2).any(|pair| pair[1] < pair[0]);
    let equal = starts.windows(2).any(|pair| pair[1] == pair[0]);
    let beyond = starts.iter().any(|&start| start as usize > total);
    seen.note("first start", bad && starts[0] != 0);
    seen.note("starts fall", bad && starts[0] == 0 && falls);
    seen.note("starts equal", bad && starts[0] == 0 && equal);
    seen.note("start too large", bad && starts[0] == 0 && beyond);
}

#[test]
fn closings_of_every_kind() {
    let mut seen = Seen::default();
    for case in of("close") {
        let before = case.bytes(0);
        let total = case.number(3) as usize;
        let starts = case.list(4);
        let number = case.number(5);
        let place = case.number(6) as usize;
        let length = case.number(7) as usize;
        let after = case.bytes(8);
        note_starts(&mut seen, number == 5, &starts, total);
        seen.note("no starts", number == 4 && starts.is_empty());
        seen.note("one short", number == 12 && place == before.len() + 1);
        seen.note("as long as can be", number == 12 && place == 16_777_216);
        seen.note(
            "one too long",
            number == 1 && total + 4 * starts.len() + 24 == 16_777_217,
        );
        seen.note("list 0 damaged", (6..=9).contains(&number) && place == 0);
        seen.note("list 1 damaged", (6..=9).contains(&number) && place == 1);
        seen.note("a bit behind a cut", number == 17 && place == 1);
        if number != 0 {
            assert_eq!((length, before), (0, after));
            continue;
        }
        assert_eq!(before[..total], after[..total]);
        assert_eq!(before[length..], after[length..]);
        assert!(faults(&after[..length]).is_empty());
        let lists = model::read(&after[..length]).lists;
        seen.note(
            "a cut within a byte",
            lists.iter().any(|list| list.cut % 8 != 0),
        );
        seen.note("room exact", before.len() == length);
        seen.note("room larger", before.len() > length);
    }
    seen.expect(1);
}

#[test]
fn texts_of_every_kind() {
    let mut seen = Seen::default();
    for case in of("program") {
        let file = case.fields[0].as_str();
        let text = case.bytes(1);
        let output = String::from_utf8(case.bytes(2)).unwrap();
        assert!(output.ends_with('\n'));
        let usage = output == "usage\n";
        seen.note("file", file == "missing" && output == "file\n");
        seen.note("empty file", file == "-" && output == "1 0 0 0\n");
        seen.note("usage, no number", usage && text.is_empty());
        seen.note("usage, other byte", usage && text.contains(&b'\t'));
        seen.note("usage, too large", usage && text.ends_with(b"4294967296"));
        seen.note("usage, too long", usage && text.len() == 257);
        seen.note("by skips", output.starts_with("0 0 9 14\n5\n"));
        seen.note("plainly", output.starts_with("0 0 0 0\n5\n"));
        seen.note("no names", output == "10 0 0 0\n");
        seen.note("name", output == "11 1 0 0\n");
    }
    for case in of("line") {
        let text = case.bytes(0);
        let usage = case.fields[1] == "usage";
        let digits = text.iter().any(u8::is_ascii_digit);
        let other = |byte: &u8| !byte.is_ascii_digit() && ![b' ', b'\n'].contains(byte);
        seen.note("line, no number", usage && !digits && !text.is_empty());
        seen.note("line, other byte", usage && text.iter().any(other));
        seen.note("line, too large", usage && text.ends_with(b"4294967296"));
        seen.note("line of 257", usage && text.len() == 257);
        seen.note("line of 256", !usage && text.len() == 256);
        seen.note("line, largest", !usage && case.list(1).contains(&u32::MAX));
        seen.note(
            "line, zeros in front",
            !usage && text.starts_with(b"4294967295 000"),
        );
        seen.note(
            "line, parted at the ends",
            !usage && text[0] == b'\n' && text.ends_with(b" "),
        );
    }
    seen.expect(1);
}
