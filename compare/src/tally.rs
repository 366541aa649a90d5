//! What a run has met, and whether that is enough.

use crate::bill;
use crate::case::{Call, Case, Outcome, Verdict, CALLS, CODES_AT, LOOKS_AT};
use crate::fast;
use crate::hurt::{EIGHTS, EIGHTS_HIGH, NINES, NINES_HIGH};
use crate::lie::LIES;
use crate::measure;
use crate::next;
use crate::read;
use crate::third::{Met, PLAIN_ZEROS, REFUSED_ZEROS};
use crate::trace;
use std::collections::BTreeMap;
use std::ops::Range;

/// Every number of refusal must be met so often.
const ENOUGH: u64 = 50;

const EXACT: &str = "room exact";
const ONE_LESS: &str = "refused: room one less than needed";
const SIXTEEN: &str = "sixteen names";
const EMPTY: &str = "an empty answer in some room";

/// Where the slice for the numbers of a question that costs something ends.
const ENDS: [&str; 7] = [
    "out: no place",
    "out: fewer than five places",
    "out: the first five alone",
    "out ends inside looks_at, between two costs",
    "out ends inside codes_at, between two costs",
    "out: 37 places",
    "out: more than 37",
];

/// 17, by the function that gives it: all that are lent records may.
const BY_17: [Option<&str>; CALLS.len()] = [
    Some("17 in looking"),
    Some("17 in asking"),
    Some("17 in testing"),
    Some("17 in counting"),
    Some("17 in lending"),
    None,
    Some("17 in closing"),
    None,
    Some("17 in telling the next slot"),
];

/// Numbers whose places are counted: 6 to 9 and 17 by list, then 11 and 13 by
/// position.
const PLACED: [u32; 7] = [6, 7, 8, 9, 17, 11, 13];

/// Where in a list or a record a fault can be put.
const SPOTS: [&str; 22] = [
    "7, first offset",
    "7, first block",
    "7, middle block",
    "7, last block but one",
    "8, first block",
    "8, middle block",
    "8, last block",
    "8, first code",
    "8, middle code",
    "8, last code",
    "8, bytes behind the codes",
    "9, first block",
    "9, middle block",
    "9, last block",
    "9, first slot",
    "9, first code",
    "9, middle code",
    "9, last code",
    "17, lowest unused bit alone",
    "17, highest unused bit alone",
    "17, an unused bit between alone",
    "17, more than one unused bit",
];

/// In closing 17 is held against the faults of other lists all together.
const CLOSED_EARLIER: &str = "closing: a fault of an earlier list before 17";
const CLOSED_LATER: &str = "closing: 17 before a fault of a later list";

/// Where two reasons to refuse were there: whose order it is, the number
/// reported, and the number of the check that comes behind.
type Order = (&'static str, u32, u32);

/// Orders that must be met. Two faults of an index's lists are one list's, or by
/// "lists" those of an earlier and a later one.
const ORDERS: [(&str, &[(u32, u32)]); 8] = [
    (
        "index",
        &[
            (2, 3),
            (2, 4),
            (2, 5),
            (3, 4),
            (3, 5),
            (4, 5),
            (5, 6),
            (5, 7),
            (5, 8),
            (5, 9),
            (5, 17),
            (6, 17),
            (17, 7),
            (17, 8),
            (17, 9),
            (7, 8),
            (7, 9),
            (8, 7),
            (8, 9),
            (9, 7),
            (9, 8),
            (1, 14),
            (9, 14),
            (17, 14),
            (1, 11),
            (9, 11),
            (17, 11),
        ],
    ),
    (
        "lists",
        &[
            (6, 7),
            (6, 8),
            (6, 9),
            (6, 17),
            (7, 6),
            (7, 8),
            (7, 9),
            (7, 17),
            (8, 6),
            (8, 7),
            (8, 9),
            (8, 17),
            (9, 6),
            (9, 7),
            (9, 8),
            (9, 17),
            (17, 6),
            (17, 7),
            (17, 8),
            (17, 9),
            (17, 17),
        ],
    ),
    (
        "ask",
        &[(14, 10), (14, 11), (14, 12), (10, 11), (10, 12), (11, 12)],
    ),
    ("test", &[(11, 16)]),
    (
        "write",
        &[(4, 15), (4, 13), (4, 12), (15, 13), (15, 12), (13, 12)],
    ),
    (
        "close",
        &[
            (4, 1),
            (4, 12),
            (4, 5),
            (4, 6),
            (1, 12),
            (1, 5),
            (12, 5),
            (12, 6),
            (12, 9),
            (12, 17),
            (5, 6),
            (5, 8),
            (5, 17),
            (6, 17),
            (17, 7),
        ],
    ),
    ("bound", &[(4, 15), (4, 13), (15, 13)]),
    ("next", &[(11, 16)]),
];

/// Whether a number is that of a fault in a list.
fn of_list(number: u32) -> bool {
    matches!(number, 6..=9 | 17)
}

/// Whose order of checks it is: a fault of an index comes first in all that
/// take one.
fn group(call: Call, reported: Verdict, behind: Verdict) -> &'static str {
    let two = of_list(reported.0) && of_list(behind.0) && reported.1 != behind.1;
    match call {
        Call::Write { .. } => "write",
        Call::Bound(_) => "bound",
        Call::Close { .. } if two && behind.0 == 17 => CLOSED_EARLIER,
        Call::Close { .. } if two && reported.0 == 17 => CLOSED_LATER,
        Call::Close { .. } => "close",
        _ if two => "lists",
        _ if reported.0 <= 9 || reported.0 == 17 => "index",
        _ => CALLS[call.number() as usize],
    }
}

#[derive(Default)]
pub struct Tally {
    pub cases: u64,
    pub different: u64,
    /// Accepted and refused, by function.
    calls: [[u64; 2]; CALLS.len()],
    numbers: [u64; 18],
    /// As `PLACED`: first, middle, last.
    places: [[u64; 3]; PLACED.len()],
    aimed: u64,
    orders: BTreeMap<Order, u64>,
    met: BTreeMap<&'static str, u64>,
    lies: [u64; LIES.len()],
}

impl Tally {
    /// Counts a case whose answer was as it must be.
    pub fn count(&mut self, case: &Case, outcome: &Outcome, met: &Met) {
        let (number, place) = outcome.verdict;
        let call = case.call.number() as usize;
        self.calls[call][usize::from(number != 0)] += 1;
        self.numbers[number as usize] += 1;
        self.aimed += u64::from(case.aim.is_some());
        for event in met.iter().chain(case.spots.iter().flatten()) {
            self.meet(event);
        }
        if let Some((reported, behind)) = case.order {
            let whose = group(case.call, reported, behind);
            let order = (whose, reported.0, behind.0);
            *self.orders.entry(order).or_default() += 1;
            if [CLOSED_EARLIER, CLOSED_LATER].contains(&whose) {
                self.meet(whose);
            }
        }
        if let (17, Some(event)) = (number, BY_17[call]) {
            self.meet(event);
        }
        self.count_place(case, number, place);
        if let Call::Ask { .. } = case.call {
            self.count_room(case, outcome);
            self.count_end(case.before.out.len(), &outcome.numbers);
        }
    }

    pub fn meet(&mut self, event: &'static str) {
        *self.met.entry(event).or_default() += 1;
    }

    pub fn lied(&mut self, which: usize) {
        self.lies[which] += 1;
    }

    fn order(&self, whose: &'static str, reported: u32, behind: u32) -> u64 {
        *self.orders.get(&(whose, reported, behind)).unwrap_or(&0)
    }

    fn count_place(&mut self, case: &Case, number: u32, place: u32) {
        let given = case.before.given.len() as u32;
        let many = match (number, case.call) {
            (_, Call::Close { .. }) => given,
            (number, _) if of_list(number) => read::k(&case.before.bytes),
            (11, Call::Ask { .. }) | (13, Call::Write { .. }) => given,
            _ => return,
        };
        let Some(row) = PLACED.iter().position(|&placed| placed == number) else {
            return;
        };
        let which = match place {
            0 => 0,
            last if last + 1 == many => 2,
            _ => 1,
        };
        self.places[row][which] += 1;
    }

    fn count_room(&mut self, case: &Case, outcome: &Outcome) {
        let room = case.before.slots.len();
        if outcome.verdict == (12, room as u32 + 1) {
            self.meet(ONE_LESS);
        }
        if outcome.verdict.0 != 0 {
            return;
        }
        let names = &case.before.given;
        let counts = names
            .iter()
            .map(|&name| read::list(&case.before.bytes, name).held.len());
        if counts.min() == Some(room) {
            self.meet(EXACT);
        }
        if names.len() == 16 {
            self.meet(SIXTEEN);
        }
        if outcome.numbers[2] == 0 && room > 0 {
            self.meet(EMPTY);
        }
    }

    /// Where the slice for the numbers ends. Ends at a place are counted where
    /// a cost was told before it and one had no place behind it.
    fn count_end(&mut self, end: usize, numbers: &[u64]) {
        let costs = |from: usize, to: usize| numbers[from..to].iter().any(|&cost| cost > 0);
        let parts = |part: &Range<usize>| costs(part.start, end) && costs(end, part.end);
        if !costs(LOOKS_AT.start, CODES_AT.end) {
            return;
        }
        let which = match end {
            0 => 0,
            1..=4 => 1,
            5 => 2,
            6..=20 if parts(&LOOKS_AT) => 3,
            22..=36 if parts(&CODES_AT) => 4,
            37 => 5,
            38.. => 6,
            _ => return,
        };
        self.meet(ENDS[which]);
    }

    /// The tables.
    pub fn print(&self) {
        println!("function  accepted  refused");
        for (name, [accepted, refused]) in CALLS.iter().zip(self.calls) {
            println!("{name:8}  {accepted:8}  {refused:7}");
        }
        println!("number of refusal: how often");
        let numbers: Vec<String> = (1..18)
            .map(|n| format!("{n}: {}", self.numbers[n]))
            .collect();
        println!(
            "  {}\n  {}",
            numbers[..8].join("  "),
            numbers[8..].join("  ")
        );
        println!("place at the first, a middle, the last list (6 to 9, 17) or position (11, 13)");
        for (number, [first, middle, last]) in PLACED.into_iter().zip(self.places) {
            println!("  {number:2}: {first:6} {middle:6} {last:6}");
        }
        println!("number reported before another that was there too: how often");
        for (whose, orders) in ORDERS {
            let many = |&(a, b)| format!("{a}<{b}: {}", self.order(whose, a, b));
            let words: Vec<String> = orders.iter().map(many).collect();
            for (i, line) in words.chunks(12).enumerate() {
                let whose = if i == 0 { whose } else { "" };
                println!("  {whose:5}  {}", line.join("  "));
            }
        }
        println!("met: how often");
        for event in required() {
            println!("  {:6}  {event}", self.met.get(event).unwrap_or(&0));
        }
        println!("answers falsified and noticed: how often");
        for (lie, many) in LIES.iter().zip(self.lies) {
            println!("  {many:6}  {lie}");
        }
        println!("{} cases were made for a known refusal or none", self.aimed);
    }

    /// What was not met often enough.
    pub fn missing(&self) -> Vec<String> {
        let mut missing = Vec::new();
        for number in 1..18 {
            if self.numbers[number] < ENOUGH {
                missing.push(format!(
                    "number {number} met {} times",
                    self.numbers[number]
                ));
            }
        }
        for (number, places) in PLACED.into_iter().zip(self.places) {
            if places.contains(&0) {
                missing.push(format!("a place of number {number}"));
            }
        }
        for (whose, orders) in ORDERS {
            for &(a, b) in orders {
                if self.order(whose, a, b) == 0 {
                    missing.push(format!("{whose}: {a} before {b}"));
                }
            }
        }
        for event in required() {
            if !self.met.contains_key(event) {
                missing.push(event.to_string());
            }
        }
        for (lie, many) in LIES.iter().zip(self.lies) {
            if many == 0 {
                missing.push(format!("falsified: {lie}"));
            }
        }
        missing
    }
}

fn required() -> impl Iterator<Item = &'static str> {
    let rooms = [EXACT, ONE_LESS, SIXTEEN, EMPTY];
    let by_17 = BY_17.into_iter().flatten();
    let closed = [CLOSED_EARLIER, CLOSED_LATER];
    let long = EIGHTS.into_iter().chain(NINES);
    let long = long.chain(EIGHTS_HIGH).chain(NINES_HIGH);
    let spots = SPOTS.into_iter().chain(long).chain(by_17).chain(closed);
    let costs = [REFUSED_ZEROS, PLAIN_ZEROS].into_iter().chain(ENDS);
    let others = costs.chain(rooms).chain(spots);
    let told = measure::required().chain(next::required());
    let walked = trace::required().chain(bill::required());
    let short_ways = fast::required();
    walked.chain(told).chain(short_ways).chain(others)
}
