//! The small program: reads `rack.idx` in the working folder and a line of
//! numbers from standard input, and prints the answer.
#![forbid(unsafe_code)]

use second::{program, LONGEST_FILE, LONGEST_LINE};
use std::fs::File;
use std::io::{self, Read, Write};

fn main() -> io::Result<()> {
    let file = File::open("rack.idx")
        .and_then(|file| read_up_to(file, LONGEST_FILE + 1))
        .ok();
    // Without a file that is taken nobody is kept waiting for numbers.
    let taken = file.as_ref().is_some_and(|file| file.len() <= LONGEST_FILE);
    let text = if taken { read_text() } else { Vec::new() };

    let mut out = io::stdout();
    out.write_all(&program(file.as_deref(), &text))?;
    out.flush()
}

/// The text with the numbers. Where reading it fails there are none.
fn read_text() -> Vec<u8> {
    read_up_to(io::stdin(), LONGEST_LINE + 1).unwrap_or_default()
}

/// What is there to be read, but no more than `most` bytes of it. One byte over
/// a limit is enough to see that it is passed.
fn read_up_to(from: impl Read, most: usize) -> io::Result<Vec<u8>> {
    let mut bytes = Vec::new();
    from.take(most as u64).read_to_end(&mut bytes)?;
    Ok(bytes)
}
