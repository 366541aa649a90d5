//! What the small program prints for a file and a line of numbers.

use crate::question::ask;
use crate::{LONGEST_FILE, LONGEST_LINE, PROGRAM_ROOM};

/// The bytes printed. `file` is `None` when there is no file to be read.
pub fn program(file: Option<&[u8]>, text: &[u8]) -> Vec<u8> {
    let index = match file {
        Some(index) if index.len() <= LONGEST_FILE => index,
        _ => return b"file\n".to_vec(),
    };
    let Some((way, names)) = read_line(text) else {
        return b"usage\n".to_vec();
    };

    let mut slots = vec![0; PROGRAM_ROOM];
    let answer = ask(index, way, &names, &mut slots);
    let mut printed = format!(
        "{} {} {} {}\n",
        answer.number, answer.place, answer.looks, answer.codes
    );
    for slot in &slots[..answer.count as usize] {
        printed.push_str(&format!("{slot}\n"));
    }
    printed.into_bytes()
}

/// Reads the way and the names, or gives `None` for a text that is no line of
/// numbers.
pub fn read_line(text: &[u8]) -> Option<(u32, Vec<u32>)> {
    if text.len() > LONGEST_LINE {
        return None;
    }
    let mut numbers = Vec::new();
    for word in text.split(|&byte| byte == b' ' || byte == b'\n') {
        if !word.is_empty() {
            numbers.push(read_number(word)?);
        }
    }
    if numbers.is_empty() {
        return None;
    }
    let names = numbers.split_off(1);
    Some((numbers[0], names))
}

/// A run of digits as a number of four bytes at most, else `None`.
fn read_number(word: &[u8]) -> Option<u32> {
    let mut value: u64 = 0;
    for &byte in word {
        if !byte.is_ascii_digit() {
            return None;
        }
        value = value * 10 + u64::from(byte - b'0');
        if value > u64::from(u32::MAX) {
            return None;
        }
    }
    Some(value as u32)
}
