//! The calls that are timed, and the buffers that they leave their answers in.

use crate::rack::Rack;

/// One call. Lists are named by their place in the rack at hand.
#[derive(Clone)]
pub enum Call {
    Look,
    Ask { way: u32, names: Vec<u32> },
    Test { name: u32, slot: u32 },
    Next { name: u32, slot: u32 },
    Count { name: u32 },
    Write { name: usize },
    Close,
}

/// How many fields the longest answer has, that of a question.
pub const FIELDS: usize = 37;

/// What a call writes to. It is made once for a call, and all sides write to it in turn.
#[derive(Clone, PartialEq)]
pub struct Room {
    pub out: [u64; FIELDS],
    pub slots: Vec<u32>,
    pub bytes: Vec<u8>,
}

/// What stands in a room before the first call. No right answer has so much of it.
const UNWRITTEN: u8 = 0xA5;

impl Room {
    /// The smallest room in which the call is accepted.
    pub fn new(rack: &Rack, call: &Call) -> Room {
        let slots = match call {
            Call::Ask { names, .. } => smallest(rack, names),
            _ => 0,
        };
        let bytes = match call {
            Call::Write { name } => vec![UNWRITTEN; rack.length(*name)],
            Call::Close => unclosed(rack),
            _ => Vec::new(),
        };
        Room { out: [u64::MAX; FIELDS], slots: vec![u32::MAX; slots], bytes }
    }
}

/// The room that a question needs: as many slots as its smallest list has.
fn smallest(rack: &Rack, names: &[u32]) -> usize {
    let counts = names.iter().map(|&name| rack.lists[name as usize].len());
    counts.min().unwrap_or(0)
}

/// The records, and room for what closing puts behind them.
fn unclosed(rack: &Rack) -> Vec<u8> {
    let mut bytes = rack.index.clone();
    bytes[rack.total as usize..].fill(UNWRITTEN);
    bytes
}
