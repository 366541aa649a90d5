//! Records and indexes put together from their parts, sound or not. This is
//! its own packer: the second implementation has another one.

/// One block: its first slot, its codes, and bytes that nothing belongs to.
#[derive(Clone)]
pub struct Block {
    pub first: u32,
    pub codes: Vec<Vec<u8>>,
    pub rest: Vec<u8>,
}

/// A list in parts that can still be changed one by one.
#[derive(Clone)]
pub struct List {
    pub cut: u32,
    pub bits: Vec<u8>,
    pub tail: u32,
    pub blocks: Vec<Block>,
}

/// A record as its numbers and parts are laid down.
#[derive(Clone)]
pub struct Raw {
    pub head: [u32; 3],
    pub bits: Vec<u8>,
    pub entries: Vec<(u32, u32)>,
    pub codes: Vec<u8>,
}

/// The code of a number below 2 to the 21st.
pub fn code(value: u32) -> Vec<u8> {
    let low = (value & 127) as u8;
    let middle = (value >> 7 & 127) as u8;
    let high = (value >> 14) as u8;
    if high > 0 {
        vec![low | 128, middle | 128, high]
    } else if middle > 0 {
        vec![low | 128, middle]
    } else {
        vec![low]
    }
}

impl List {
    /// The list of ascending slots.
    pub fn of(block: u32, cut: u32, slots: &[u32]) -> List {
        let inside = slots.partition_point(|&slot| slot <= cut);
        let (low, tail) = slots.split_at(inside);
        let mut bits = vec![0; cut.div_ceil(8) as usize];
        for slot in low {
            bits[(slot - 1) as usize / 8] |= 1 << (7 - (slot - 1) % 8);
        }
        let blocks = tail.chunks(block as usize).map(Block::of).collect();
        List {
            cut,
            bits,
            tail: tail.len() as u32,
            blocks,
        }
    }

    /// The bits of the last bit byte that stand for no slot.
    pub fn idle_bits(&self) -> u8 {
        match self.cut % 8 {
            0 => 0,
            used => 255 >> used,
        }
    }

    pub fn raw(&self) -> Raw {
        let mut entries = Vec::new();
        let mut codes = Vec::new();
        for block in &self.blocks {
            entries.push((block.first, codes.len() as u32));
            codes.extend(block.codes.concat());
            codes.extend(&block.rest);
        }
        Raw {
            head: [self.cut, self.tail, codes.len() as u32],
            bits: self.bits.clone(),
            entries,
            codes,
        }
    }

    pub fn bytes(&self) -> Vec<u8> {
        self.raw().bytes()
    }
}

impl Block {
    fn of(slots: &[u32]) -> Block {
        let gaps = slots.windows(2).map(|two| two[1] - two[0] - 1);
        Block {
            first: slots[0],
            codes: gaps.map(code).collect(),
            rest: Vec::new(),
        }
    }
}

impl Raw {
    pub fn bytes(&self) -> Vec<u8> {
        let mut bytes = Vec::new();
        for number in self.head {
            bytes.extend(number.to_le_bytes());
        }
        bytes.extend(&self.bits);
        for (first, offset) in &self.entries {
            bytes.extend(first.to_le_bytes());
            bytes.extend(offset.to_le_bytes());
        }
        bytes.extend(&self.codes);
        bytes
    }
}

/// Where records begin that lie one after the other.
pub fn starts(records: &[Vec<u8>]) -> Vec<u32> {
    let ends = records.iter().scan(0, |end, record| {
        *end += record.len() as u32;
        Some(*end)
    });
    std::iter::once(0).chain(ends).take(records.len()).collect()
}

/// What stands behind the records of an index.
pub fn ending(u: u32, block: u32, directory: u32, starts: &[u32]) -> Vec<u8> {
    let mut bytes = Vec::new();
    let trailer = [1, u, block, starts.len() as u32, directory];
    for number in starts.iter().chain(&trailer) {
        bytes.extend(number.to_le_bytes());
    }
    bytes.extend([0x53, 0x4C, 0x4F, 0x54]);
    bytes
}

/// Records with directory and trailer, unjudged.
pub fn index(u: u32, block: u32, records: &[Vec<u8>]) -> Vec<u8> {
    let mut bytes = records.concat();
    let directory = bytes.len() as u32;
    bytes.extend(ending(u, block, directory, &starts(records)));
    bytes
}

#[cfg(test)]
mod tests {
    use super::*;

    /// The paper's index, by its parts in hexadecimal.
    const PAPER: &str = "000000000F0000000B000000010000000000000008000000030000001200000006\
                         0000001B00000009000000020000030200010400000110000000030000000200\
                         000028111A0000000000000003000000000037000000010000002000000004000000\
                         020000004F000000534C4F54";

    #[test]
    fn the_papers_index() {
        let zero = [1, 4, 5, 6, 8, 12, 15, 16, 18, 20, 25, 26, 27, 28, 30];
        let one = [3, 5, 12, 16, 26, 30, 31];
        let lists = [List::of(4, 0, &zero), List::of(4, 16, &one)];
        let bytes = index(32, 4, &lists.map(|list| list.bytes()));
        let hex: String = bytes.iter().map(|byte| format!("{byte:02X}")).collect();
        assert_eq!(hex, PAPER);
    }

    #[test]
    fn codes_where_their_length_changes() {
        assert_eq!(code(128 - 1), [0x7F]);
        assert_eq!(code(129 - 1), [0x80, 0x01]);
        assert_eq!(code(16_384 - 1), [0xFF, 0x7F]);
        assert_eq!(code(16_385 - 1), [0x80, 0x80, 0x01]);
        assert_eq!(code(16_512 - 1), [0xFF, 0x80, 0x01]);
    }
}
