//! One call of one function, and what the second implementation makes of it.

use crate::make::one_of;
use second::random::Random;
use std::fmt::Write;
use std::ops::Range;

/// A function with its plain arguments.
#[derive(Clone, Copy, Debug, PartialEq)]
pub enum Call {
    Look,
    Ask { way: u32 },
    Test { name: u32, slot: u32 },
    Count { name: u32 },
    Lend { name: u32 },
    Write { u: u32, block: u32, cut: u32 },
    Close { u: u32, block: u32, total: u32 },
    Bound(Sizes),
    Next { name: u32, slot: u32 },
}

/// What is known of a record before it is written; n is how many of its slots
/// lie above the cut.
#[derive(Clone, Copy, Debug, PartialEq)]
pub struct Sizes {
    pub u: u32,
    pub block: u32,
    pub cut: u32,
    pub n: u32,
}

/// Where in a question's answer the looks of each position stand, and the codes.
pub const LOOKS_AT: Range<usize> = 5..21;
pub const CODES_AT: Range<usize> = 21..37;

pub const CALLS: [&str; 9] = [
    "look", "ask", "test", "count", "lend", "write", "close", "bound", "next",
];

impl Call {
    /// Its place among the functions, as the harness numbers them.
    pub fn number(self) -> u32 {
        match self {
            Call::Look => 0,
            Call::Ask { .. } => 1,
            Call::Test { .. } => 2,
            Call::Count { .. } => 3,
            Call::Lend { .. } => 4,
            Call::Write { .. } => 5,
            Call::Close { .. } => 6,
            Call::Bound(_) => 7,
            Call::Next { .. } => 8,
        }
    }

    /// Its plain arguments, with zeros where it has none.
    pub fn plain(self) -> [u32; 4] {
        match self {
            Call::Look => [0, 0, 0, 0],
            Call::Ask { way } => [way, 0, 0, 0],
            Call::Test { name, slot } | Call::Next { name, slot } => [name, slot, 0, 0],
            Call::Count { name } | Call::Lend { name } => [name, 0, 0, 0],
            Call::Write { u, block, cut } => [u, block, cut, 0],
            Call::Close { u, block, total } => [u, block, total, 0],
            Call::Bound(Sizes { u, block, cut, n }) => [u, block, cut, n],
        }
    }

    /// How many numbers its answer has.
    pub fn fields(self) -> u32 {
        match self {
            Call::Look | Call::Lend { .. } => 2,
            Call::Ask { .. } => CODES_AT.end as u32,
            _ => 3,
        }
    }
}

/// What a call is lent: the index or the room for a record, then names, slots
/// to write or starts, then the slice for slots, then the answer's numbers.
#[derive(Clone, Default)]
pub struct Buffers {
    pub bytes: Vec<u8>,
    pub given: Vec<u32>,
    pub slots: Vec<u32>,
    pub out: Vec<u64>,
}

/// A refusal's number and place; both 0 where nothing is refused.
pub type Verdict = (u32, u32);

/// The block and the code that a fault was put into, in words; and the code once more
/// where the block has many bytes, and whether these have high bits.
pub type Spots = [Option<&'static str>; 4];

/// A call with all it is lent, and what is known of its answer beforehand.
pub struct Case {
    pub call: Call,
    pub before: Buffers,
    /// What the case was made to get, where its making tells.
    pub aim: Option<Verdict>,
    /// The first two reasons to refuse it, where there are two.
    pub order: Option<(Verdict, Verdict)>,
    /// Where in a list the fault was put, for the table.
    pub spots: Spots,
    /// The slots that the question must give, where they are known.
    pub known: Option<Vec<u32>>,
    /// What the case is there for.
    pub kind: &'static str,
}

/// What a call gives back.
pub struct Outcome {
    pub verdict: Verdict,
    /// All numbers of the answer, also those that its slice has no place for.
    pub numbers: Vec<u64>,
    pub returned: u32,
    pub after: Buffers,
}

impl Case {
    pub fn new(kind: &'static str, call: Call, bytes: Vec<u8>) -> Case {
        Case {
            call,
            before: Buffers {
                bytes,
                ..Buffers::default()
            },
            aim: None,
            order: None,
            spots: Spots::default(),
            known: None,
            kind,
        }
    }

    /// With all reasons to refuse it that its making knows of, in the paper's
    /// order.
    pub fn refused_by(mut self, reasons: &[Verdict]) -> Case {
        self.aim = Some(*reasons.first().unwrap_or(&(0, 0)));
        if let [first, second, ..] = reasons {
            self.order = Some((*first, *second));
        }
        self
    }

    pub fn accepted(self) -> Case {
        self.refused_by(&[])
    }

    pub fn given(mut self, given: Vec<u32>) -> Case {
        self.before.given = given;
        self
    }

    /// With room for `many` slots, none of it zero.
    pub fn room(mut self, random: &mut Random, many: usize) -> Case {
        self.before.slots = (0..many).map(|_| random.bits() as u32 | 1).collect();
        self
    }

    /// With a slice for the answer's numbers: mostly as long as they are many,
    /// also shorter, empty and longer.
    pub fn out(mut self, random: &mut Random) -> Case {
        let fields = self.call.fields();
        let many = match random.below(6) {
            0 => random.between(0, fields + 3),
            1 => self.some_end(random),
            _ => fields,
        };
        self.before.out = (0..many).map(|_| random.bits()).collect();
        self
    }

    /// A short slice. That of a question ends in one of three parts of the
    /// answer: in what comes before the costs, or at the place of one of the
    /// names in one of the two costs.
    fn some_end(&self, random: &mut Random) -> u32 {
        let names = self.before.given.len().min(LOOKS_AT.len()) as u32;
        let (looks, codes) = (LOOKS_AT.start as u32, CODES_AT.start as u32);
        match self.call {
            Call::Ask { .. } => {
                let (from, many) = one_of(random, &[(0, looks), (looks, names), (codes, names)]);
                random.between(from, from + many)
            }
            _ => random.between(0, self.call.fields()),
        }
    }

    /// With a slice for all of the answer's numbers and two elements behind them.
    pub fn whole_out(mut self, random: &mut Random) -> Case {
        let many = self.call.fields() + 2;
        self.before.out = (0..many).map(|_| random.bits()).collect();
        self
    }

    /// The answer of the second implementation.
    pub fn outcome(&self) -> Outcome {
        let mut after = self.before.clone();
        let (verdict, numbers, returned) = self.answered(&mut after);
        for (to, number) in after.out.iter_mut().zip(&numbers) {
            *to = *number;
        }
        Outcome {
            verdict,
            numbers,
            returned,
            after,
        }
    }

    /// Verdict, all numbers of the answer, and the number returned.
    fn answered(&self, after: &mut Buffers) -> (Verdict, Vec<u64>, u32) {
        let index = &self.before.bytes;
        let given = &self.before.given;
        match self.call {
            Call::Look => {
                let a = second::look(index);
                answer(a.number, a.place, &[])
            }
            Call::Ask { way } => with_costs(second::ask(index, way, given, &mut after.slots)),
            Call::Test { name, slot } => {
                let a = second::test(index, name, slot);
                answer(a.number, a.place, &[u64::from(a.yes)])
            }
            Call::Count { name } => {
                let a = second::count(index, name);
                answer(a.number, a.place, &[u64::from(a.count)])
            }
            Call::Lend { name } => lent(&second::part(index, name)),
            Call::Write { u, block, cut } => {
                let a = second::write(u, block, cut, given, &mut after.bytes);
                answer(a.number, a.place, &[u64::from(a.length)])
            }
            Call::Close { u, block, total } => {
                let a = second::close(&mut after.bytes, u, block, total, given);
                answer(a.number, a.place, &[u64::from(a.length)])
            }
            Call::Bound(Sizes { u, block, cut, n }) => {
                let a = second::bound(u, block, cut, n);
                answer(a.number, a.place, &[u64::from(a.bytes)])
            }
            Call::Next { name, slot } => {
                let a = second::next(index, name, slot);
                answer(a.number, a.place, &[u64::from(a.slot)])
            }
        }
    }

    /// The case in words and hexadecimal bytes.
    pub fn text(&self) -> String {
        let mut text = String::new();
        let b = &self.before;
        let _ = writeln!(text, "  kind: {}", self.kind);
        let _ = writeln!(text, "  call: {:?}", self.call);
        let _ = writeln!(text, "  bytes ({}): {}", b.bytes.len(), hex(&b.bytes));
        let _ = writeln!(text, "  given ({}): {}", b.given.len(), list(&b.given));
        let _ = writeln!(text, "  slots ({}): {}", b.slots.len(), list(&b.slots));
        let _ = writeln!(text, "  out ({}): {}", b.out.len(), list(&b.out));
        text
    }
}

/// An answer that begins with its number and place and returns the number.
fn answer(number: u32, place: u32, more: &[u64]) -> (Verdict, Vec<u64>, u32) {
    let mut numbers = vec![u64::from(number), u64::from(place)];
    numbers.extend(more);
    ((number, place), numbers, number)
}

/// A lent part has no number: only where it lies is told.
fn lent(a: &second::Part) -> (Verdict, Vec<u64>, u32) {
    let numbers = vec![u64::from(a.start), u64::from(a.length)];
    ((a.number, a.place), numbers, a.length)
}

/// A question's answer, with the costs of all positions.
fn with_costs(a: second::Answer) -> (Verdict, Vec<u64>, u32) {
    let mut more = vec![u64::from(a.count), a.looks, a.codes];
    more.extend(a.looks_at);
    more.extend(a.codes_at);
    answer(a.number, a.place, &more)
}

/// So much of a long buffer is shown.
const SHOWN: usize = 4_000;

fn hex(bytes: &[u8]) -> String {
    let mut text: String = bytes
        .iter()
        .take(SHOWN)
        .map(|byte| format!("{byte:02x}"))
        .collect();
    if bytes.len() > SHOWN {
        text.push_str("..");
    }
    text
}

fn list<T: std::fmt::Display>(values: &[T]) -> String {
    let words: Vec<String> = values
        .iter()
        .take(SHOWN)
        .map(|value| value.to_string())
        .collect();
    words.join(" ")
}
