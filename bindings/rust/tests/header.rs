//! This package against include/slots.h, text against text: the numbers, their words, and the
//! declarations, which no compiler compares.

mod common;

use common::repository;
use slots::{Refusal, Way};
use std::fs;

/// What stands between two texts, from the first time that the former comes up.
fn between<'t>(text: &'t str, before: &str, behind: &str) -> &'t str {
    let (_, rest) = text.split_once(before).unwrap_or_else(|| panic!("no {before:?}"));
    let (inside, _) = rest.split_once(behind).unwrap_or_else(|| panic!("no {behind:?}"));
    inside
}

fn header() -> String {
    fs::read_to_string(repository("include/slots.h")).expect("the header is there")
}

#[test]
fn the_words_are_those_of_the_header() {
    let header = header();
    let table = between(&header, "reasons[] = {", "};");
    // Of a text cut at its quotes every second piece was inside of them.
    let words: Vec<&str> = table.split('"').skip(1).step_by(2).collect();
    assert_eq!(words.len(), 18);
    assert_eq!(words[0], "accepted");
    for (number, words) in (1..).zip(&words[1..]) {
        assert_eq!(Refusal::from(number).reason(), *words, "{number}");
    }
}

#[test]
fn the_numbers_are_those_of_the_header() {
    let header = header();
    let rows = between(&header, "enum slots_refusal {", "};");
    let expected = [
        ("BAD_SIZE", Refusal::BadSize),
        ("BAD_TAG", Refusal::BadTag),
        ("BAD_EDITION", Refusal::BadEdition),
        ("BAD_RANGE", Refusal::BadRange),
        ("BAD_PARTS", Refusal::BadParts),
        ("BAD_HEAD", Refusal::BadHead),
        ("BAD_BLOCK", Refusal::BadBlock),
        ("BAD_CODE", Refusal::BadCode),
        ("BAD_SLOT", Refusal::BadSlot),
        ("BAD_NAMES", Refusal::BadNames),
        ("NO_LIST", Refusal::NoList),
        ("NO_ROOM", Refusal::NoRoom),
        ("NOT_RISING", Refusal::NotRising),
        ("BAD_WAY", Refusal::BadWay),
        ("BAD_CUT", Refusal::BadCut),
        ("OUTSIDE", Refusal::Outside),
        ("BAD_BITS", Refusal::BadBits),
    ];
    for (name, refusal) in expected {
        let number = refusal.number();
        assert!(has_row(rows, name, number), "{name} is not {number} in the header");
        assert_eq!(Refusal::from(number), refusal);
    }
    assert_eq!(rows.matches("SLOTS_").count(), 1 + expected.len(), "with the row of 0");
}

#[test]
fn the_ways_are_those_of_the_header() {
    let header = header();
    let rows = between(&header, "enum slots_way {", "};");
    assert!(has_row(rows, "PLAIN", Way::Plain as u32));
    assert!(has_row(rows, "BY_SKIPS", Way::BySkips as u32));
    assert_eq!(rows.matches("SLOTS_").count(), 2);
}

#[test]
fn the_limits_are_those_of_the_header() {
    let header = header();
    let rows = between(&header, "enum {", "};");
    let expected = [
        ("MOST_BYTES", slots::MOST_BYTES as u32),
        ("MOST_SLOTS", slots::MOST_SLOTS),
        ("MOST_BLOCK", slots::MOST_BLOCK),
        ("MOST_LISTS", slots::MOST_LISTS as u32),
        ("MOST_NAMES", slots::MOST_NAMES as u32),
        ("MOST_RECORD", slots::MOST_RECORD as u32),
    ];
    for (name, number) in expected {
        assert!(has_row(rows, name, number), "{name} is not {number} in the header");
    }
    assert_eq!(rows.matches("SLOTS_").count(), expected.len());
}

#[test]
fn the_fields_of_a_question_are_those_that_this_package_takes_apart() {
    let header = header();
    let fields = numbered(between(&header, "enum slots_ask_field {", "};"));
    let expected = [
        ("SLOTS_ASK_NUMBER", 0),
        ("SLOTS_ASK_PLACE", 1),
        ("SLOTS_ASK_COUNT", 2),
        ("SLOTS_ASK_LOOKS", 3),
        ("SLOTS_ASK_CODES", 4),
        ("SLOTS_ASK_LOOKS_AT", 5),
        ("SLOTS_ASK_CODES_AT", 21),
        ("SLOTS_ASK_FIELDS", 37),
    ];
    assert_eq!(fields, expected);
}

/// The members of an enum with their numbers: one more than the member before, or what is said behind
/// `=`, which is another member and the most names of a question.
fn numbered(rows: &str) -> Vec<(&str, usize)> {
    let mut members: Vec<(&str, usize)> = Vec::new();
    for row in rows.lines().filter_map(|line| line.split("/*").next()).map(str::trim).filter(|row| !row.is_empty()) {
        let row = row.trim_end_matches(',');
        let (name, number) = match row.split_once(" = ") {
            None => (row, members.last().map_or(0, |(_, before)| before + 1)),
            Some((name, sum)) => {
                let other = sum.strip_suffix(" + SLOTS_MOST_NAMES").expect("a sum of that kind");
                let (_, number) = members.iter().find(|member| member.0 == other).expect("a member before");
                (name, number + slots::MOST_NAMES)
            }
        };
        members.push((name, number));
    }
    members
}

/// Whether a row of an enum gives this number to this name.
fn has_row(rows: &str, name: &str, number: u32) -> bool {
    let row = format!("SLOTS_{name} = {number}");
    rows.lines().filter_map(|line| line.split("/*").next()).any(|line| {
        let line = line.trim().trim_end_matches(',');
        line == row
    })
}

#[test]
fn the_declarations_are_those_of_the_header() {
    let package = fs::read_to_string(concat!(env!("CARGO_MANIFEST_DIR"), "/src/raw.rs")).unwrap();
    let block = between(&package, "extern \"C\" {", "\n}");
    let ours: Vec<String> = block.split("fn ").skip(1).map(|text| plain(text, " -> u32;")).collect();
    // A prototype begins its line with its type; slots_reason, which is inline, does not.
    let header = header();
    let theirs: Vec<String> =
        header.split("\nuint32_t ").skip(1).map(|text| plain(text, ";")).map(|text| in_rust(&text)).collect();
    assert_eq!(theirs.len(), 9);
    assert_eq!(ours, theirs);
}

/// A declaration up to its end, on one line and without the comma that Rust allows behind the last
/// parameter.
fn plain(text: &str, end: &str) -> String {
    let (text, _) = text.split_once(end).expect("a declaration ends");
    let words: Vec<&str> = text.split_whitespace().collect();
    words.join(" ").replace("( ", "(").replace(", )", ")")
}

/// A prototype in the words of Rust.
fn in_rust(prototype: &str) -> String {
    let (name, parameters) = prototype.split_once('(').expect("parameters");
    let parameters = parameters.strip_suffix(')').expect("an end of the parameters");
    let parameters: Vec<String> = parameters.split(", ").map(parameter).collect();
    format!("{name}({})", parameters.join(", "))
}

fn parameter(text: &str) -> String {
    let types = [
        ("const uint8_t *", "*const u8"),
        ("const uint32_t *", "*const u32"),
        ("uint8_t *", "*mut u8"),
        ("uint32_t *", "*mut u32"),
        ("uint64_t *", "*mut u64"),
        ("uint32_t ", "u32"),
        ("size_t ", "usize"),
    ];
    let found = types.iter().find_map(|(c, rust)| Some((text.strip_prefix(c)?, rust)));
    let (name, rust) = found.unwrap_or_else(|| panic!("{text:?} has a type that is not known here"));
    format!("{name}: {rust}")
}
