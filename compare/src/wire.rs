//! The harness as a process, its requests and its answers.

use crate::case::{Buffers, Case, CALLS};
use second::random::Random;
use std::io::{self, BufReader, Read, Write};
use std::ops::Range;
use std::process::{Child, ChildStdin, ChildStdout, Command, Stdio};

/// The four buffers' names and the bytes of their elements.
pub const FIELDS: [(&str, usize); 4] = [("bytes", 1), ("given", 4), ("slots", 4), ("out", 8)];

/// How the buffers of one case lie between walls and guards.
pub struct Frame {
    /// 0 against the wall before it, 1 against the wall behind it.
    side: u32,
    /// Guard elements before and behind each buffer.
    guards: [[usize; 2]; 4],
    seed: u64,
}

/// Where a byte of an answer stands.
#[derive(Clone, Copy, PartialEq)]
pub enum Part {
    Returned,
    Before,
    Within,
    Behind,
}

impl Frame {
    /// Of three cases one ends at a wall, one begins at a wall, and one has
    /// guards on both sides.
    pub fn of(number: u64, random: &mut Random) -> Frame {
        let mut guards = [[0; 2]; 4];
        for pair in &mut guards {
            *pair = [random.between(1, 9) as usize, random.between(1, 9) as usize];
            match number % 3 {
                0 => pair[1] = 0,
                1 => pair[0] = 0,
                _ => {}
            }
        }
        Frame {
            side: u32::from(number.is_multiple_of(3)),
            guards,
            seed: random.bits(),
        }
    }

    /// The images of all buffers, guards included, put behind `to`.
    fn images(&self, buffers: &Buffers, to: &mut Vec<u8>) {
        let mut random = Random::new(self.seed);
        for (i, buffer) in whole(buffers).iter().enumerate() {
            let width = FIELDS[i].1;
            to.extend(random.bytes(self.guards[i][0] * width));
            to.extend(buffer);
            to.extend(random.bytes(self.guards[i][1] * width));
        }
    }

    /// The request for a case.
    pub fn request(&self, case: &Case) -> Vec<u8> {
        let mut header = vec![case.call.number(), self.side];
        header.extend(case.call.plain());
        for (length, guards) in lengths(&case.before).into_iter().zip(self.guards) {
            let [before, behind] = guards;
            header.extend([before as u32, length as u32, behind as u32]);
        }
        let mut request: Vec<u8> = header.iter().flat_map(|n| n.to_le_bytes()).collect();
        self.images(&case.before, &mut request);
        request
    }

    /// The answer that must come back.
    pub fn answer(&self, returned: u32, after: &Buffers) -> Vec<u8> {
        let mut answer = returned.to_le_bytes().to_vec();
        self.images(after, &mut answer);
        answer
    }

    /// Where each part of an answer begins and ends: part, buffer, range.
    fn parts(&self, buffers: &Buffers) -> Vec<(Part, usize, Range<usize>)> {
        let mut parts = vec![(Part::Returned, 0, 0..4)];
        let mut at = 4;
        for (i, length) in lengths(buffers).into_iter().enumerate() {
            let [before, behind] = self.guards[i];
            let three = [
                (Part::Before, before),
                (Part::Within, length),
                (Part::Behind, behind),
            ];
            for (part, many) in three {
                let bytes = many * FIELDS[i].1;
                parts.push((part, i, at..at + bytes));
                at += bytes;
            }
        }
        parts
    }

    /// Where one part of an answer is.
    pub fn range(&self, buffers: &Buffers, part: Part, field: usize) -> Range<usize> {
        let parts = self.parts(buffers);
        let mut found = parts.into_iter().filter(|p| p.0 == part && p.1 == field);
        found.next().map_or(0..0, |p| p.2)
    }

    /// The first difference between two answers, in words.
    pub fn difference(&self, buffers: &Buffers, wanted: &[u8], got: &[u8]) -> Option<String> {
        if wanted == got {
            return None;
        }
        let at = wanted.iter().zip(got).position(|(a, b)| a != b)?;
        for (part, i, range) in self.parts(buffers) {
            if range.contains(&at) {
                let (name, width) = if part == Part::Returned {
                    ("number returned", 4)
                } else {
                    FIELDS[i]
                };
                let element = (at - range.start) / width;
                let from = range.start + element * width;
                let what = match part {
                    Part::Returned => String::new(),
                    Part::Before => format!(", guard element {element} before it"),
                    Part::Within => format!(", element {element}"),
                    Part::Behind => format!(", guard element {element} behind it"),
                };
                let a = value(&wanted[from..from + width]);
                let b = value(&got[from..from + width]);
                return Some(format!("{name}{what}: must be {a}, is {b}"));
            }
        }
        Some("answers of different lengths".to_string())
    }
}

fn value(bytes: &[u8]) -> u64 {
    let digits = bytes.iter().rev();
    digits.fold(0, |value, &byte| value << 8 | u64::from(byte))
}

fn lengths(buffers: &Buffers) -> [usize; 4] {
    [
        buffers.bytes.len(),
        buffers.given.len(),
        buffers.slots.len(),
        buffers.out.len(),
    ]
}

/// Every buffer as bytes.
fn whole(buffers: &Buffers) -> [Vec<u8>; 4] {
    let words = |numbers: &[u32]| numbers.iter().flat_map(|n| n.to_le_bytes()).collect();
    [
        buffers.bytes.clone(),
        words(&buffers.given),
        words(&buffers.slots),
        buffers.out.iter().flat_map(|n| n.to_le_bytes()).collect(),
    ]
}

/// A running harness.
pub struct Harness {
    child: Child,
    pub output: BufReader<ChildStdout>,
}

impl Harness {
    /// Starts it; its input is handed out apart, so that another thread can
    /// feed it.
    pub fn start(command: &[String]) -> io::Result<(Harness, ChildStdin)> {
        let mut child = Command::new(&command[0])
            .args(&command[1..])
            .stdin(Stdio::piped())
            .stdout(Stdio::piped())
            .spawn()?;
        let missing = || io::Error::other("no pipe to the harness");
        let input = child.stdin.take().ok_or_else(missing)?;
        let output = child.stdout.take().ok_or_else(missing)?;
        let output = BufReader::with_capacity(1 << 20, output);
        Ok((Harness { child, output }, input))
    }

    pub fn receive(&mut self, length: usize) -> io::Result<Vec<u8>> {
        let mut answer = vec![0; length];
        self.output.read_exact(&mut answer)?;
        Ok(answer)
    }

    /// Waits for its end, whose input must have been closed, and tells whether
    /// it ended well.
    pub fn finish(mut self) -> io::Result<bool> {
        let mut more = Vec::new();
        self.output.read_to_end(&mut more)?;
        Ok(self.child.wait()?.success() && more.is_empty())
    }
}

/// One request alone, to a harness of its own. `None` where it did not answer.
pub fn alone(command: &[String], request: &[u8], length: usize) -> io::Result<Option<Vec<u8>>> {
    let (mut harness, mut input) = Harness::start(command)?;
    let answer = std::thread::scope(|scope| {
        scope.spawn(move || {
            // A harness that has died does not take it all; that shows below.
            let _ = input.write_all(request);
        });
        harness.receive(length).ok()
    });
    let _ = harness.child.wait()?;
    Ok(answer)
}

/// A request to step out of a buffer, which no harness may survive. Its number is
/// the one behind those of the functions.
pub fn step_out(side: u32, field: u32) -> Vec<u8> {
    let mut header = vec![CALLS.len() as u32, side, field, 0, 0, 0];
    for _ in 0..4 {
        header.extend([0, 6, 0]);
    }
    let mut request: Vec<u8> = header.iter().flat_map(|n: &u32| n.to_le_bytes()).collect();
    request.extend([0; 6 * (1 + 4 + 4 + 8)]);
    request
}
