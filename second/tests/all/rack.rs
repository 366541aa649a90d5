//! The small program itself, run in folders of its own.

use crate::tools::paper;
use std::fs;
use std::io::Write;
use std::path::PathBuf;
use std::process::{Command, Stdio};
use std::thread::sleep;
use std::time::Duration;

const SIX: &str = "0 0 9 14\n5\n12\n16\n26\n30\n";

/// A new folder, holding the file where there is one.
fn folder(name: &str, file: Option<&[u8]>) -> PathBuf {
    let folder = PathBuf::from(env!("CARGO_TARGET_TMPDIR")).join(name);
    let _ = fs::remove_dir_all(&folder);
    fs::create_dir_all(&folder).unwrap();
    if let Some(bytes) = file {
        fs::write(folder.join("rack.idx"), bytes).unwrap();
    }
    folder
}

/// What the program prints when its input comes in these pieces.
fn printed(folder: &PathBuf, pieces: &[&[u8]]) -> String {
    let mut child = Command::new(env!("CARGO_BIN_EXE_rack"))
        .current_dir(folder)
        .stdin(Stdio::piped())
        .stdout(Stdio::piped())
        .spawn()
        .unwrap();
    let mut input = child.stdin.take().unwrap();
    for (i, piece) in pieces.iter().enumerate() {
        if i > 0 {
            sleep(Duration::from_millis(20));
        }
        // The program may have stopped listening.
        let _ = input.write_all(piece).and_then(|()| input.flush());
    }
    drop(input);
    let ran = child.wait_with_output().unwrap();
    assert!(ran.status.success());
    String::from_utf8(ran.stdout).unwrap()
}

#[test]
fn the_papers_question() {
    let folder = folder("question", Some(&paper()));
    assert_eq!(printed(&folder, &[b"1 0 1"]), SIX);
    assert_eq!(printed(&folder, &[b"1 ", b"0", b" 1\n"]), SIX);
    assert_eq!(printed(&folder, &[b"1"]), "10 0 0 0\n");
    assert_eq!(printed(&folder, &[]), "usage\n");
}

#[test]
fn the_length_of_the_input() {
    let folder = folder("input", Some(&paper()));
    let longest = [&b"1 0 1"[..], &[b' '; 251]].concat();
    assert_eq!(printed(&folder, &[&longest]), SIX);
    assert_eq!(printed(&folder, &[&longest, b"\n"]), "usage\n");
    assert_eq!(printed(&folder, &[&[b'0'; 100_000]]), "usage\n");
}

#[test]
fn no_file_to_be_read() {
    let missing = folder("missing", None);
    assert_eq!(printed(&missing, &[b"1 0 1"]), "file\n");
    assert_eq!(printed(&missing, &[b"x"]), "file\n");
    fs::create_dir(missing.join("rack.idx")).unwrap();
    assert_eq!(printed(&missing, &[b"1 0 1"]), "file\n");
}

#[test]
fn the_length_of_the_file() {
    let empty = folder("empty", Some(&[]));
    assert_eq!(printed(&empty, &[b"1 0 1"]), "1 0 0 0\n");
    let longest = folder("longest", Some(&[0; 65_536]));
    assert_eq!(printed(&longest, &[b"1 0 1"]), "2 0 0 0\n");
    let over = folder("over", Some(&[0; 65_537]));
    assert_eq!(printed(&over, &[b"1 0 1"]), "file\n");
}
