//! The small program and the line it reads.

use crate::tools::*;
use second::{program, read_line};

#[track_caller]
fn prints(file: &[u8], text: &[u8], expected: &str) {
    let printed = String::from_utf8(program(Some(file), text)).unwrap();
    assert_eq!(printed, expected);
}

#[test]
fn answers_on_the_papers_index() {
    let six = "0 0 9 14\n5\n12\n16\n26\n30\n";
    prints(&paper(), b"1 0 1", six);
    prints(&paper(), b"1 0 1\n", six);
    prints(&paper(), b"\n\n 1\n0   1 \n", six);
    prints(&paper(), b"01 000 0000000000000000001", six);
    prints(&paper(), b"1 1 0", six);
    prints(&paper(), b"0 0 1", "0 0 0 0\n5\n12\n16\n26\n30\n");
    prints(&paper(), b"1 1 0 0", "0 0 17 25\n5\n12\n16\n26\n30\n");
    prints(&paper(), b"1 1 1", "0 0 1 3\n3\n5\n12\n16\n26\n30\n31\n");
}

#[test]
fn refusals_of_the_library() {
    prints(&[], b"1 0 1", "1 0 0 0\n");
    prints(&[0; 24], b"1 0 1", "2 0 0 0\n");
    prints(&paper(), b"2 0 1", "14 0 0 0\n");
    prints(&paper(), b"1", "10 0 0 0\n");
    prints(&paper(), b"2", "14 0 0 0\n");
    prints(&[], b"2", "1 0 0 0\n");
    prints(&paper(), b"1 0 2", "11 1 0 0\n");
    prints(&paper(), b"1 4294967295", "11 0 0 0\n");
    prints(&poke(&paper(), 69, 16), b"1 0 2", "9 1 0 0\n");
}

#[test]
fn many_names_are_the_librarys_matter() {
    let names = |many: usize| [&b"0"[..], &b" 1".repeat(many)].concat();
    prints(&paper(), &names(16), "0 0 0 0\n3\n5\n12\n16\n26\n30\n31\n");
    prints(&paper(), &names(17), "10 0 0 0\n");
    assert_eq!(names(127).len(), 255);
    prints(&paper(), &names(127), "10 0 0 0\n");
}

#[test]
fn room_for_16384_slots() {
    let slots: Vec<u32> = (1..=16_385).collect();
    let fits = lists(20_000, 128, &[(20_000, &slots[1..])]);
    let printed = program(Some(&fits), b"0 0");
    assert!(printed.starts_with(b"0 0 0 0\n2\n3\n"));
    assert!(printed.ends_with(b"\n16384\n16385\n"));
    assert_eq!(
        printed.iter().filter(|&&byte| byte == b'\n').count(),
        16_385
    );
    let over = lists(20_000, 128, &[(20_000, &slots)]);
    prints(&over, b"0 0", "12 16385 0 0\n");
}

#[test]
fn the_file_is_judged_first() {
    for text in [&b"1 0 1"[..], b"", b"x", &[b'0'; 300]] {
        assert_eq!(program(None, text), b"file\n");
        assert_eq!(program(Some(&vec![0; 65_537]), text), b"file\n");
    }
    prints(&vec![0; 65_536], b"1 0 1", "2 0 0 0\n");
    prints(&vec![0; 65_536], b"", "usage\n");
}

#[test]
fn a_file_as_long_as_may_be() {
    // 4 lists of 12 + 8n bytes, 16 bytes of starts and the trailer.
    let slots: Vec<u32> = (1..=2_040).collect();
    let four = [
        (0, &slots[..]),
        (0, &slots[..]),
        (0, &slots[..]),
        (0, &slots[..]),
    ];
    let mut records: Vec<Vec<u8>> = four
        .iter()
        .map(|(cut, slots)| written(4_000, 1, *cut, slots))
        .collect();
    let used: usize = records.iter().map(Vec::len).sum::<usize>() + 40;
    assert!(used < 65_536);
    // Bits of zeros fill one more list's part of the file.
    let cut = 8 * (65_536 - used - 4 - 12) as u32;
    assert!(cut <= 4_000);
    records.push(written(4_000, 1, cut, &[]));
    let file = join(4_000, 1, &records);
    assert_eq!(file.len(), 65_536);
    prints(&file, b"1 4", "0 0 0 0\n");
}

#[test]
fn usage() {
    for text in [
        &b""[..],
        b" ",
        b"\n",
        b" \n \n",
        b"x",
        b"1 x",
        b"1 0 1 x",
        b"1 0 1x",
        b"+1 0",
        b"-1",
        b"1,0",
        b"1\t0",
        b"1 0\r\n",
        b"1 0\0",
        b"1.0",
        b"1 4294967296",
        b"4294967296",
        b"99999999999999999999999999",
        b"18446744073709551616",
        b"18446744073709551617 0",
        &[0xFF],
        "1 \u{0661}".as_bytes(),
    ] {
        assert_eq!(read_line(text), None, "{text:?}");
        prints(&paper(), text, "usage\n");
        prints(&[], text, "usage\n");
    }
}

#[test]
fn lines() {
    assert_eq!(read_line(b"7"), Some((7, vec![])));
    assert_eq!(read_line(b"  7\n"), Some((7, vec![])));
    assert_eq!(read_line(b"1 2\n3"), Some((1, vec![2, 3])));
    assert_eq!(
        read_line(b"4294967295 4294967295"),
        Some((WILD, vec![WILD]))
    );
    assert_eq!(read_line(b"00 0004294967295"), Some((0, vec![WILD])));
}

#[test]
fn the_length_of_a_line() {
    let zeros = [b'0'; 257];
    assert_eq!(read_line(&zeros[..256]), Some((0, vec![])));
    assert_eq!(read_line(&zeros), None);
    let mut padded = vec![b' '; 256];
    assert_eq!(read_line(&padded), None);
    padded[255] = b'9';
    assert_eq!(read_line(&padded), Some((9, vec![])));
    padded.push(b' ');
    assert_eq!(read_line(&padded), None);
    // Numbers of one digit: 128 of them with their parting bytes fit.
    let many = b"1 ".repeat(128);
    let (way, names) = read_line(&many).unwrap();
    assert_eq!((way, names.len()), (1, 127));
}
