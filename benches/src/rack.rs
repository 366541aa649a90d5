//! The indexes that are asked: lists of pseudo-random slots, packed, the same bytes for all sides.

use second::random::Random;

/// All racks are as large as the format allows.
pub const U: u32 = second::MOST_SLOTS;

/// How the slots of a list lie.
#[derive(Clone, Copy)]
pub enum Kind {
    /// Each slot is in the list with this probability.
    Share(f64),
    /// The differences are uniform from 1 to this.
    Gaps(u32),
}

/// One list to be made, and where it is cut.
#[derive(Clone, Copy)]
pub struct Wanted {
    pub kind: Kind,
    pub cut: u32,
}

/// An index to be made: these lists, or the first of them, each time with other slots, until there are so many bytes.
#[derive(Clone)]
pub struct Spec {
    pub block: u32,
    pub lists: Vec<Wanted>,
    pub fill: Option<usize>,
}

/// An index, with the lists that it was made of.
pub struct Rack {
    pub block: u32,
    pub cuts: Vec<u32>,
    pub lists: Vec<Vec<u32>>,
    pub starts: Vec<u32>,
    pub total: u32,
    pub index: Vec<u8>,
}

impl Rack {
    pub fn make(spec: &Spec) -> Rack {
        let mut rack = Rack {
            block: spec.block,
            cuts: Vec::new(),
            lists: Vec::new(),
            starts: Vec::new(),
            total: 0,
            index: Vec::new(),
        };
        match spec.fill {
            None => spec.lists.iter().for_each(|&wanted| rack.add(wanted)),
            Some(most) => rack.fill(spec.lists[0], most),
        }
        rack.close();
        rack
    }

    /// Adds lists of one kind while they fit into so many bytes.
    fn fill(&mut self, wanted: Wanted, most: usize) {
        self.add(wanted);
        let each = self.index.len();
        while self.index.len() + each < most && self.lists.len() < second::MOST_LISTS as usize {
            self.add(wanted);
        }
    }

    /// Makes one list, and adds its record. Its place seeds it, so that no two lists are alike.
    fn add(&mut self, wanted: Wanted) {
        let slots = scattered(wanted.kind, &mut Random::new(self.lists.len() as u64 + 1));
        let tail = slots.len() - slots.partition_point(|&slot| slot <= wanted.cut);
        let most = second::bound(U, self.block, wanted.cut, tail as u32).bytes;
        let start = self.index.len();
        self.index.resize(start + most as usize, 0);
        let written = second::write(U, self.block, wanted.cut, &slots, &mut self.index[start..]);
        assert_eq!(written.number, 0, "a list is written");
        self.index.truncate(start + written.length as usize);
        self.starts.push(start as u32);
        self.cuts.push(wanted.cut);
        self.lists.push(slots);
    }

    fn close(&mut self) {
        self.total = self.index.len() as u32;
        self.index.resize(self.index.len() + 4 * self.starts.len() + second::TRAILER, 0);
        let closed = second::close(&mut self.index, U, self.block, self.total, &self.starts);
        assert_eq!(closed.number, 0, "an index is closed");
    }

    /// How many bytes the record of a list has.
    pub fn length(&self, name: usize) -> usize {
        let end = self.starts.get(name + 1).copied().unwrap_or(self.total);
        (end - self.starts[name]) as usize
    }
}

/// The slots of a list, ascending. They are made by their differences, so that a thin list costs little.
fn scattered(kind: Kind, random: &mut Random) -> Vec<u32> {
    let mut slots = Vec::new();
    let mut slot = 0;
    loop {
        slot += match kind {
            Kind::Gaps(most) => u64::from(random.between(1, most)),
            Kind::Share(share) => skipped(share, random),
        };
        if slot > u64::from(U) {
            return slots;
        }
        slots.push(slot as u32);
    }
}

/// How far the next slot lies away where each is in the list with this probability.
fn skipped(share: f64, random: &mut Random) -> u64 {
    let unit = ((random.bits() >> 11) + 1) as f64 / (1u64 << 53) as f64;
    1 + (unit.ln() / (1.0 - share).ln()) as u64
}
