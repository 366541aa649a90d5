//! The example program, run as a person would run it.

mod common;

use common::{repository, spoilt};
use std::ffi::OsStr;
use std::path::{Path, PathBuf};
use std::process::{Command, Output};

/// The program, which `cargo test` builds next to the tests.
fn program() -> PathBuf {
    let test = std::env::current_exe().expect("the path of this test");
    let profile = test.ancestors().nth(2).expect("the folder of all that is built");
    let program = profile.join("examples").join(format!("share{}", std::env::consts::EXE_SUFFIX));
    assert!(program.is_file(), "run cargo build --examples first");
    program
}

fn run(arguments: &[&OsStr]) -> Output {
    Command::new(program()).args(arguments).output().expect("the program runs")
}

/// What the program says to standard error when it fails, having printed nothing.
fn failing(arguments: &[&OsStr], status: i32) -> String {
    let output = run(arguments);
    assert_eq!(output.status.code(), Some(status));
    assert_eq!(output.stdout, b"");
    String::from_utf8(output.stderr).expect("text")
}

/// A file of these bytes, in the folder that cargo gives to tests.
fn file(name: &str, bytes: &[u8]) -> PathBuf {
    let path = Path::new(env!("CARGO_TARGET_TMPDIR")).join(name);
    std::fs::write(&path, bytes).expect("a file that can be written");
    path
}

#[test]
fn it_prints_the_slots_and_what_they_cost() {
    let output = run(&[repository("crates/rack/data/rack.idx").as_os_str()]);
    assert_eq!(String::from_utf8(output.stdout).unwrap(), "5\n12\n16\n26\n30\n9 looks, 14 codes\n");
    assert_eq!(output.stderr, b"");
    assert!(output.status.success());
}

#[test]
fn it_says_why_an_index_is_refused() {
    let path = file("damaged.idx", &spoilt(54, 0x80));
    let words = "8: a code is damaged, or bytes remain behind the codes of a block (list 0)";
    assert_eq!(failing(&[path.as_os_str()], 1), format!("share: {}: {words}\n", path.display()));
}

#[test]
fn it_says_why_a_file_cannot_be_read() {
    let path = repository("no.idx");
    let said = failing(&[path.as_os_str()], 1);
    assert!(said.starts_with(&format!("share: {}: ", path.display())), "{said}");
    assert!(!said.contains("Os {"), "the form for programmers: {said}");
}

#[test]
fn it_takes_one_argument() {
    let path = repository("crates/rack/data/rack.idx");
    assert_eq!(failing(&[], 2), "share: expected the path of an index\n");
    assert_eq!(failing(&[path.as_os_str(), path.as_os_str()], 2), "share: expected the path of an index\n");
}
