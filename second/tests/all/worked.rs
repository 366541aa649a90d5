//! The lines of the worked examples, held against values that were not taken
//! from a run: they stand in the paper, were worked out beside it, or follow
//! from its rules in the few steps noted here.

use crate::tools::{paper, places};
use second::examples;
use std::collections::{BTreeMap, BTreeSet};
use std::process::Command;

/// Each example's values must read so.
#[track_caller]
fn says(expected: &[(&str, &str)]) {
    let lines = examples::all();
    let given: BTreeMap<&str, &str> = lines
        .iter()
        .map(|line| line.split_once(": ").expect("a colon"))
        .collect();
    for (label, values) in expected {
        assert_eq!(given.get(label), Some(values), "{label}");
    }
}

#[test]
fn they_are_about_the_papers_index() {
    assert_eq!(examples::paper(), paper());
}

#[test]
fn each_has_its_own_label() {
    let lines = examples::all();
    let labels: BTreeSet<&str> = lines
        .iter()
        .map(|line| line.split_once(": ").expect("a colon").0)
        .collect();
    assert_eq!(lines.len(), 161);
    assert_eq!(labels.len(), 161);
}

#[test]
fn the_program_prints_them() {
    let ran = Command::new(env!("CARGO_BIN_EXE_worked")).output().unwrap();
    let expected: String = examples::all()
        .iter()
        .map(|line| format!("{line}\n"))
        .collect();
    assert_eq!(String::from_utf8(ran.stdout).unwrap(), expected);
}

#[test]
fn sizes_in_the_paper() {
    says(&[
        ("look P", "0 0"),
        ("look nothing", "1 0"),
        ("look 23 bytes", "1 0"),
        ("u 1048576", "0 0"),
        ("u 1048577", "4 0"),
        ("u 0", "4 0"),
        ("B 128", "0 0"),
        ("B 129", "4 0"),
        ("B 0", "4 0"),
        ("k 0", "4 0"),
        ("edition 2", "3 0"),
        ("tag slot", "2 0"),
        ("D FFFFFFFF", "5 0"),
        ("first start 1", "5 0"),
        ("falling starts", "5 0"),
        ("short record", "5 0"),
    ]);
}

#[test]
fn questions_in_the_paper() {
    says(&[
        ("17 names", "10 0 0 0 0"),
        ("17 names, way 2", "14 0 0 0 0"),
        ("way 2", "14 0 0 0 0"),
        ("no names, way 0", "10 0 0 0 0"),
        ("names 0 2 1 2", "11 1 0 0 0"),
        ("room 6, way 0", "12 7 0 0 0"),
        ("room 0, name 1", "12 7 0 0 0"),
        ("names 0 1, way 0", "0 0 5 0 0 5 12 16 26 30"),
        ("names 1 0 0", "0 0 5 17 25 5 12 16 26 30"),
        ("names 1 1", "0 0 7 1 3 3 5 12 16 26 30 31"),
    ]);
}

#[test]
fn sixteen_names() {
    // The start is list 1's first position. Its other seven cost 1 look and 3
    // codes each; then list 0 costs 9 and 14 with seven candidates, and 8 and
    // 11 at each of its other seven positions with the five that are left.
    let looks = 7 + 9 + 7 * 8;
    let codes = 7 * 3 + 14 + 7 * 11;
    let values = format!("0 0 5 {looks} {codes} 5 12 16 26 30");
    says(&[("16 names", &values)]);
}

/// An accepted example of costs must show these places, and 0 in all others.
#[track_caller]
fn costs(label: &str, looks: &[u64], codes: &[u64]) {
    let places = [places(looks), places(codes)].concat();
    let words: Vec<String> = places.iter().map(u64::to_string).collect();
    says(&[(label, &format!("0 0 {}", words.join(" ")))]);
}

#[test]
fn costs_on_the_papers_index() {
    // List 1's seven slots in list 0: 2+1+2+1+2+1+0 looks and 1+2+1+3+3+2+2 codes.
    costs("costs 0 1", &[9, 0], &[14, 0]);
    costs("costs 1 0", &[0, 9], &[0, 14]);
    // Then 5 12 16 26 30: 2+2+1+2+1 looks and 2+1+3+3+2 codes.
    costs("costs 1 0 0", &[0, 9, 8], &[0, 14, 11]);
    // 26 is found by one look, 30 and 31 in its block by 1 and 2 codes.
    costs("costs 1 1", &[0, 1], &[0, 3]);
    costs("costs 0 1, way 0", &[], &[]);
    // List 1's first position starts and its others come next, as in `costs 1 1`.
    // Then list 0 meets seven candidates at its first position, five at the others.
    costs(
        "costs 16 names",
        &[9, 0, 8, 1, 8, 1, 8, 1, 8, 1, 8, 1, 8, 1, 8, 1],
        &[14, 0, 11, 3, 11, 3, 11, 3, 11, 3, 11, 3, 11, 3, 11, 3],
    );
}

#[test]
fn costs_of_made_lists() {
    // 7 looks at blocks 1, 2 and 4, behind which 8, 9 and 10 find none to look at.
    // 1, 2, 3 and 4 each fail at block 1. Blocks of one slot have no codes.
    costs("costs ties 0 1", &[0, 3], &[0, 0]);
    costs("costs ties 1 0", &[0, 4], &[0, 0]);
    // List 2 comes first: 4 9 16 25 cost 2+2+4+2 looks and a code each there. List 1
    // then gets 4 and 16, for 4+6 looks and a code each.
    costs("costs rising counts", &[0, 10, 10], &[0, 2, 4]);
    costs("costs rising counts, names 2 1 0", &[10, 10, 0], &[4, 2, 0]);
}

#[test]
fn costs_of_refusals() {
    let zeros = " 0".repeat(32);
    for (label, refusal) in [
        ("costs 17 names", "10 0"),
        ("costs room 6", "12 7"),
        ("costs byte 54 is 81", "8 0"),
    ] {
        says(&[(label, &format!("{refusal}{zeros}"))]);
    }
}

#[test]
fn the_lines_about_costs_have_their_places() {
    let lines = examples::all();
    let labels: Vec<&str> = lines
        .iter()
        .map(|line| line.split_once(": ").expect("a colon").0)
        .collect();
    let from = |label: &str| labels.iter().position(|&other| other == label).unwrap();
    let of_paper = [
        "names 1 1",
        "costs 0 1",
        "costs 1 0",
        "costs 1 0 0",
        "costs 1 1",
        "costs 0 1, way 0",
        "costs 16 names",
        "costs 17 names",
        "costs room 6",
        "costs byte 54 is 81",
        "slot 32 in list 0",
    ];
    assert_eq!(labels[from(of_paper[0])..][..of_paper.len()], of_paper);
    let of_made = [
        "ties 1 0",
        "costs ties 0 1",
        "costs ties 1 0",
        "rising counts",
        "rising counts, names 2 1 0",
        "costs rising counts",
        "costs rising counts, names 2 1 0",
    ];
    assert_eq!(labels[from(of_made[0])..][..of_made.len()], of_made);
}

#[test]
fn single_lists_of_the_paper() {
    says(&[
        ("slot 32 in list 0", "0 0 0"),
        ("slot 0 in list 0", "16 0 0"),
        ("slot 33 in list 0", "16 0 0"),
        ("slot 30 in list 1", "0 0 1"),
        ("slot 1 in list 2", "11 0 0"),
        ("count list 0", "0 0 15"),
        ("count list 1", "0 0 7"),
        ("count list 2", "11 0 0"),
        // Starts 0 and 37, the directory at 4F, all hexadecimal.
        ("part list 0", "0 0 0 55"),
        ("part list 1", "0 0 55 24"),
        ("part list 2", "11 0 0 0"),
        ("byte 54 is 81, slot 5", "8 0 0"),
        ("byte 54 is 81, count list 1", "8 0 0"),
    ]);
}

/// 28 times 7 is 196. Where the list is cut changes nothing.
#[test]
fn one_list_cut_in_many_ways() {
    says(&[
        ("every seventh slot, cut 63", "0 0 28"),
        ("every seventh slot, cut 64", "0 0 28"),
        ("every seventh slot, cut 71", "0 0 28"),
        ("every seventh slot, cut 72", "0 0 28"),
        ("every seventh slot, cut 127", "0 0 28"),
        ("every seventh slot, cut 128", "0 0 28"),
        ("every seventh slot, cut 196", "0 0 28"),
    ]);
}

#[test]
fn next_slots_on_the_papers_index() {
    says(&[
        // Blocks of list 0 begin at 1, 8, 18 and 27: 7 is behind the last slot of
        // the first one, 9 in the second, 31 behind them all.
        ("next from 5 in list 0", "0 0 5"),
        ("next from 7 in list 0", "0 0 8"),
        ("next from 9 in list 0", "0 0 12"),
        ("next from 31 in list 0", "0 0 0"),
        // List 1 has bits up to 16, and one block from 26 to 31.
        ("next from 6 in list 1", "0 0 12"),
        ("next from 17 in list 1", "0 0 26"),
        ("next from 32 in list 1", "0 0 0"),
        ("next from 0 in list 0", "16 0 0"),
        ("next from 33 in list 0", "16 0 0"),
        ("next from 33 in list 2", "11 0 0"),
        ("byte 54 is 81, next from 5", "8 0 0"),
        // Of its bits those of 3 and 5 are left.
        ("byte 68 is 0, next from 6", "0 0 26"),
    ]);
}

#[test]
fn next_slots_of_one_list() {
    says(&[
        // 18 times 7 is 126 and the last bit; 19 times 7 is the block's first slot.
        ("every seventh slot, cut 127, next from 127", "0 0 133"),
        // 27 times 7 is 189.
        ("every seventh slot, cut 196, next from 190", "0 0 196"),
    ]);
}

#[test]
fn the_lines_about_next_slots_have_their_places() {
    let lines = examples::all();
    let labels: Vec<&str> = lines
        .iter()
        .map(|line| line.split_once(": ").expect("a colon").0)
        .collect();
    let expected = [
        "every seventh slot, cut 196",
        "next from 5 in list 0",
        "next from 7 in list 0",
        "next from 9 in list 0",
        "next from 31 in list 0",
        "next from 6 in list 1",
        "next from 17 in list 1",
        "next from 32 in list 1",
        "next from 0 in list 0",
        "next from 33 in list 0",
        "next from 33 in list 2",
        "byte 54 is 81, next from 5",
        "byte 68 is 0, next from 6",
        "every seventh slot, cut 127, next from 127",
        "every seventh slot, cut 196, next from 190",
        "six entries, x 4",
    ];
    let first = labels.iter().position(|&label| label == expected[0]);
    assert_eq!(labels[first.unwrap()..][..expected.len()], expected);
}

#[test]
fn searches() {
    says(&[
        ("six entries, x 4", "4 4"),
        ("six entries, x 5", "5 5"),
        ("six entries, x 6", "6 5"),
        ("forty entries, finger 0, x 13", "13 8"),
        ("forty entries, finger 5, x 30", "30 10"),
        ("forty entries, finger 0, x 40", "40 10"),
        ("forty entries, finger 5, x 5", "5 1"),
        ("forty entries, finger 40, x 40", "40 0"),
        ("list 0, x 7", "1 2"),
        ("list 0, x 8", "2 4"),
        ("list 0, x 18", "3 4"),
    ]);
}

#[test]
fn lists_made_for_one_rule() {
    says(&[
        ("7 sought in list 0", "0 0 0 2 3"),
        ("ties 0 1", "0 0 0 3 0"),
        ("ties 1 0", "0 0 0 4 0"),
        ("rising counts", "0 0 2 20 6 4 16"),
        // Three different counts: the order of the names changes nothing.
        ("rising counts, names 2 1 0", "0 0 2 20 6 4 16"),
    ]);
}

#[test]
fn set_bits_behind_a_cut() {
    // List 1's cut is 11 and its second bit byte, 3F, has bits 12 to 16 set.
    says(&[
        ("rubbish behind the cut, look", "17 1"),
        ("rubbish behind the cut", "17 1 0 0 0"),
        ("rubbish behind the cut, count list 1", "17 1 0"),
        ("rubbish behind the cut, test 3 in list 0", "17 1 0"),
        ("rubbish behind the cut, part of list 1", "17 1 0 0"),
        // The first slot of list 0 is 0, which is not above its cut.
        ("rubbish in list 1, a fault in list 0", "9 0"),
        ("close rubbish", "17 1 0"),
    ]);
}

#[test]
fn each_bit_behind_a_cut() {
    // Of the second byte only the top bit is up to the cut, which is 9.
    says(&[
        ("cut 9, bits 80 80", "0 0"),
        ("cut 9, bits 80 C0", "17 0"),
        ("cut 9, bits 80 A0", "17 0"),
        ("cut 9, bits 80 90", "17 0"),
        ("cut 9, bits 80 88", "17 0"),
        ("cut 9, bits 80 84", "17 0"),
        ("cut 9, bits 80 82", "17 0"),
        ("cut 9, bits 80 81", "17 0"),
        ("cut 8, bits FF", "0 0"),
        ("cut 0, no bits", "0 0"),
        ("cut 32, bits FF FF FF FF", "0 0"),
        // 29 is 24 and five: F8 has five bits from the top, FC six.
        ("u 29, cut 29, bits FF FF FF F8", "0 0"),
        ("u 29, cut 29, bits FF FF FF FC", "17 0"),
        // One code byte without slots.
        ("6 and 17", "6 0"),
        // The block's first slot is the cut, which would be 9.
        ("17 and a faulty block", "17 0"),
    ]);
}

#[test]
fn the_lines_about_rubbish_have_their_places() {
    let lines = examples::all();
    let labels: Vec<&str> = lines
        .iter()
        .map(|line| line.split_once(": ").expect("a colon").0)
        .collect();
    let at = |label: &str| labels.iter().position(|&other| other == label);
    let follows = |label: &str, next: &str| {
        assert_eq!(at(next), at(label).map(|i| i + 1), "{label}, {next}");
    };
    let last = "costs rising counts, names 2 1 0";
    follows(last, "rubbish behind the cut, look");
    follows("rubbish in list 1, a fault in list 0", "order of faults");
    follows("L without tail", "cut 9, bits 80 80");
    follows("17 and a faulty block", "write gap 16384");
    follows("close B 129", "close rubbish");
    follows("close rubbish", "bound 130 128 0 2");
}

#[test]
fn faults_of_records() {
    says(&[
        ("order of faults", "9 0"),
        ("code 80 80 01", "0 0"),
        ("code 80 80 00", "8 0"),
        ("code 80 00", "8 0"),
        ("code 80 80 80 01", "8 0"),
        ("code 80 80", "8 0"),
        ("bytes behind the codes", "8 0"),
        ("first slot 0", "9 0"),
        ("first slot at the cut", "9 0"),
        ("first offset 1", "7 0"),
        // Block 0 is sound; block 1 would run from offset 1 to offset 0.
        ("end before start", "7 0"),
        ("n FFFFFFFF", "6 0"),
        ("L without tail", "6 0"),
    ]);
}

/// A record of two slots in one block, the first slot being 1.
fn pair(code_length: &str, codes: &str) -> String {
    format!("0000000002000000{code_length}0000000100000000000000{codes}")
}

#[test]
fn written_records() {
    for (gap, code_length, codes) in [
        (16_384, "02", "ff7f"),
        (16_385, "03", "808001"),
        (16_512, "03", "ff8001"),
        (128, "01", "7f"),
        (129, "02", "8001"),
    ] {
        let length = 12 + 8 + codes.len() / 2;
        let values = format!("0 0 {length} {}", pair(code_length, codes));
        says(&[(&format!("write gap {gap}"), &values)]);
    }
    let list_1 = "0 0 24 10000000030000000200000028111a000000000000000300";
    says(&[
        ("write list 1", list_1),
        (
            "write list 0 as bits",
            "0 0 16 2000000000000000000000009d1350f4",
        ),
        ("write nothing", "0 0 12 000000000000000000000000"),
    ]);
}

#[test]
fn writing_refused() {
    says(&[
        ("write nothing, room 11", "12 12 0"),
        ("write 5 3", "13 1 0"),
        ("write 40 3", "13 0 0"),
        ("write 0", "13 0 0"),
        ("write 5 5", "13 1 0"),
        ("write cut 33", "15 0 0"),
        ("write B 0", "4 0 0"),
    ]);
}

#[test]
fn closing() {
    says(&[
        ("close P", "0 0 111"),
        ("close P looks", "0 0"),
        ("close P as P", "1"),
        ("close no starts", "4 0 0"),
        ("close room 110", "12 111 0"),
        // List 0's parts need 55 bytes, list 1's 24.
        ("close starts 0 54", "6 0 0"),
        ("close starts 1 55", "5 0 0"),
        ("close starts 0 80", "5 0 0"),
        ("close total 81", "6 1 0"),
        ("close total FFFFFFFF", "1 0 0"),
        ("close B 129", "4 0 0"),
    ]);
}

#[test]
fn how_large_a_record_can_be() {
    says(&[
        // Head 12, one entry 8, one code 1, and 130 has room for one 129.
        ("bound 130 128 0 2", "0 0 22"),
        ("bound 129 128 0 2", "0 0 22"),
        // 12, then 127 times 129 is 16,383, and one 16,385.
        ("bound 16385 1 0 0", "0 0 140"),
        // 12, two bytes of bits, two entries, 127 codes; behind the cut lie 16,384
        // slots: 127 times 129 and no 16,385.
        ("bound 16393 128 9 129", "0 0 284"),
        // The lengths of the paper's two records.
        ("bound 32 4 0 15", "0 0 55"),
        ("bound 32 4 16 3", "0 0 24"),
        // 12, 8 for each slot; 8,128 times 129 is 1,048,512 and 63 times 16,385
        // is 1,032,255.
        ("bound 1048576 1 0 1048576", "0 0 8396811"),
    ]);
}

#[test]
fn how_large_a_record_can_be_refused() {
    says(&[
        // Behind the cut lie 16 slots.
        ("bound 32 4 16 17", "13 0 0"),
        ("bound 32 4 33 4294967295", "15 0 0"),
        ("bound 0 4 4294967295 4294967295", "4 0 0"),
    ]);
}

#[test]
fn the_lines_about_sizes_are_the_last() {
    let lines = examples::all();
    let labels: Vec<&str> = lines
        .iter()
        .map(|line| line.split_once(": ").expect("a colon").0)
        .collect();
    let last = [
        "close rubbish",
        "bound 130 128 0 2",
        "bound 129 128 0 2",
        "bound 16385 1 0 0",
        "bound 16393 128 9 129",
        "bound 32 4 0 15",
        "bound 32 4 16 3",
        "bound 1048576 1 0 1048576",
        "bound 32 4 16 17",
        "bound 32 4 33 4294967295",
        "bound 0 4 4294967295 4294967295",
    ];
    assert_eq!(labels[labels.len() - last.len()..], last);
}
