//! A reader of sound indexes and a teller of searches, next slots and sizes, written
//! only to be compared with. It takes other roads than the package: tails are
//! decoded in one run without their offsets, searches and next slots are told from
//! plain slots, and sizes are counted out in steps.

/// One list as slots.
pub struct List {
    pub cut: u32,
    pub bits: Vec<u32>,
    pub tail: Vec<u32>,
    /// How many codes of one, two and three bytes there are.
    pub code_sizes: [usize; 3],
}

impl List {
    pub fn slots(&self) -> Vec<u32> {
        [&self.bits[..], &self.tail[..]].concat()
    }

    pub fn count(&self) -> usize {
        self.bits.len() + self.tail.len()
    }
}

pub struct Index {
    pub u: u32,
    pub block: usize,
    pub lists: Vec<List>,
}

fn word(bytes: &[u8]) -> u32 {
    u32::from_le_bytes(bytes[..4].try_into().unwrap())
}

/// Reads an index that is sound.
pub fn read(index: &[u8]) -> Index {
    let (body, trailer) = index.split_at(index.len() - 24);
    let u = word(&trailer[4..]);
    let block = word(&trailer[8..]) as usize;
    let d = word(&trailer[16..]) as usize;
    let mut edges: Vec<usize> = body[d..].chunks(4).map(|c| word(c) as usize).collect();
    edges.push(d);
    let lists = edges
        .windows(2)
        .map(|edge| read_list(&body[edge[0]..edge[1]], block))
        .collect();
    Index { u, block, lists }
}

fn read_list(record: &[u8], block: usize) -> List {
    let cut = word(record);
    let n = word(&record[4..]) as usize;
    let bit_bytes = (cut as usize).div_ceil(8);
    let bit_part = &record[12..12 + bit_bytes];
    let firsts: Vec<u32> = record[12 + bit_bytes..]
        .chunks(8)
        .take(n.div_ceil(block))
        .map(word)
        .collect();
    let mut codes = record[12 + bit_bytes + 8 * firsts.len()..].iter();

    let mut bits = Vec::new();
    for (i, byte) in bit_part.iter().enumerate() {
        for (slot, digit) in (8 * i as u32 + 1..).zip(format!("{byte:08b}").chars()) {
            if digit == '1' {
                assert!(slot <= cut, "bit {slot} behind cut {cut}");
                bits.push(slot);
            }
        }
    }

    let mut tail: Vec<u32> = Vec::new();
    let mut code_sizes = [0; 3];
    for i in 0..n {
        if i % block == 0 {
            tail.push(firsts[i / block]);
            continue;
        }
        let mut value = 0;
        let mut size = 0;
        for byte in codes.by_ref() {
            value += u32::from(byte % 128) * 128u32.pow(size);
            size += 1;
            if *byte < 128 {
                break;
            }
        }
        code_sizes[size as usize - 1] += 1;
        tail.push(tail[i - 1] + value + 1);
    }
    assert_eq!(codes.count(), 0);
    List {
        cut,
        bits,
        tail,
        code_sizes,
    }
}

/// The positions at which one search looks, and where it ends.
pub struct Told {
    pub doubling: Vec<usize>,
    pub halving: Vec<usize>,
    pub j: usize,
}

impl Told {
    pub fn looks(&self) -> u64 {
        (self.doubling.len() + self.halving.len()) as u64
    }
}

/// Tells a search; `entries[0]` is that of position 1.
pub fn tell(entries: &[u32], finger: usize, x: u32) -> Told {
    let m = entries.len();
    let mut told = Told {
        doubling: Vec::new(),
        halving: Vec::new(),
        j: finger,
    };
    let mut good = None;
    let mut failed = None;
    for power in 0.. {
        let position = finger + (1 << power);
        if position > m {
            break;
        }
        told.doubling.push(position);
        if entries[position - 1] > x {
            failed = Some(position);
            break;
        }
        good = Some(position);
    }
    let Some(mut lo) = good else {
        return told;
    };
    let mut hi = failed.unwrap_or(m + 1);
    while hi - lo > 1 {
        let middle = lo + (hi - lo) / 2;
        told.halving.push(middle);
        if entries[middle - 1] <= x {
            lo = middle;
        } else {
            hi = middle;
        }
    }
    told.j = lo;
    told
}

/// One search of a question.
pub struct Step {
    pub x: u32,
    pub finger: usize,
    pub told: Told,
    pub codes: u64,
    pub found: bool,
}

/// What happens at one position of a question by skips.
pub struct Visit {
    /// Where its name stands in the question, counted from 0.
    pub position: usize,
    pub list: usize,
    pub candidates: usize,
    pub bit_tests: usize,
    pub blocks: usize,
    pub steps: Vec<Step>,
}

impl Visit {
    pub fn looks(&self) -> u64 {
        self.steps.iter().map(|step| step.told.looks()).sum()
    }

    pub fn codes(&self) -> u64 {
        self.steps.iter().map(|step| step.codes).sum()
    }
}

/// Tells a question by skips from plain slots: the answer, and the visits in
/// the order in which they are made.
pub fn question(index: &Index, names: &[u32]) -> (Vec<u32>, Vec<Visit>) {
    let count = |position: usize| index.lists[names[position] as usize].count();
    let mut positions: Vec<usize> = (0..names.len()).collect();
    // A stable sort leaves tied positions as they stand.
    positions.sort_by_key(|&position| count(position));
    let mut candidates = index.lists[names[positions[0]] as usize].slots();
    let mut visits = Vec::new();
    for &position in &positions[1..] {
        let list = &index.lists[names[position] as usize];
        let blocks: Vec<&[u32]> = list.tail.chunks(index.block).collect();
        let entries: Vec<u32> = blocks.iter().map(|block| block[0]).collect();
        let mut visit = Visit {
            position,
            list: names[position] as usize,
            candidates: candidates.len(),
            bit_tests: 0,
            blocks: blocks.len(),
            steps: Vec::new(),
        };
        let mut kept = Vec::new();
        let mut finger = 0;
        for &x in &candidates {
            let found = if x <= list.cut {
                visit.bit_tests += 1;
                list.bits.contains(&x)
            } else {
                let told = tell(&entries, finger, x);
                let j = told.j;
                let codes = match j {
                    0 => 0,
                    _ => {
                        let block = blocks[j - 1];
                        let stop = block.iter().position(|&slot| slot >= x);
                        stop.unwrap_or(block.len() - 1) as u64
                    }
                };
                let found = j > 0 && blocks[j - 1].contains(&x);
                visit.steps.push(Step {
                    x,
                    finger,
                    told,
                    codes,
                    found,
                });
                finger = j;
                found
            };
            if found {
                kept.push(x);
            }
        }
        candidates = kept;
        visits.push(visit);
    }
    (candidates, visits)
}

/// The least of some slots that is not below `x`, or 0.
pub fn least(slots: &[u32], x: u32) -> u32 {
    let from_x = slots.iter().copied().filter(|&slot| slot >= x);
    from_x.min().unwrap_or(0)
}

/// How large a record can be. Nothing is divided: parts that are begun count for
/// the bits and the blocks, and parts that are full for the longer codes.
pub fn most(u: u32, block: u32, cut: u32, n: u32) -> u32 {
    let begun = |whole: u32, part: u32| (0..whole).step_by(part as usize).count() as u32;
    let full = |whole: u32, part: u32| (part..=whole).step_by(part as usize).count() as u32;
    let m = begun(n, block);
    let longer = full(u - cut, 129) + full(u - cut, 16_385);
    12 + begun(cut, 8) + 8 * m + (n - m) + longer
}
