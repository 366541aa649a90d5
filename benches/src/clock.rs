//! How long calls take. The sides take turns, and the least time of several rounds counts: what else the machine does only ever
//! adds to a time.

use crate::call::{Call, Room};
use crate::rack::Rack;
use crate::side::Side;
use std::ffi::{c_int, c_long};
use std::hint::black_box;
use std::time::Duration;

/// A time as the C library tells it.
#[repr(C)]
struct Timespec {
    seconds: i64,
    nanoseconds: c_long,
}

extern "C" {
    fn clock_gettime(clock: c_int, time: *mut Timespec) -> c_int;
}

/// Linux's number of the clock that goes only while the thread at hand runs.
const CLOCK_THREAD_CPUTIME_ID: c_int = 3;

/// How long this thread has run. What other programs take of the processor meanwhile does not count.
fn ran() -> Duration {
    let mut time = Timespec { seconds: 0, nanoseconds: 0 };
    // SAFETY: the pointer leads to one time, which is ours.
    let failed = unsafe { clock_gettime(CLOCK_THREAD_CPUTIME_ID, &mut time) };
    assert_eq!(failed, 0, "there is a clock of the thread");
    Duration::new(time.seconds as u64, time.nanoseconds as u32)
}

/// How much is done to be sure of a time.
#[derive(Clone, Copy)]
pub struct Effort {
    pub rounds: usize,
    /// How long a sample takes at least. It has as many calls as that needs.
    pub sample: Duration,
}

/// One call of one side, with its least time so far.
struct Timed {
    side: usize,
    row: usize,
    calls: u32,
    least: f64,
}

/// What is timed together: the sides, and the calls, each with its room.
pub struct Bench<'a> {
    pub sides: &'a [Box<dyn Side>],
    pub rack: &'a Rack,
    pub calls: &'a [Call],
    pub rooms: &'a mut [Room],
}

/// The nanoseconds that a call takes: for each row, and for each side where the side has such a call.
pub type Times = Vec<Vec<Option<f64>>>;

impl Bench<'_> {
    /// Times all rows in the same rounds.
    pub fn time(&mut self, effort: Effort) -> Times {
        let mut timed: Vec<Timed> = (0..self.calls.len()).flat_map(|row| self.having(row)).collect();
        timed.iter_mut().for_each(|one| one.calls = self.enough(one, effort.sample));
        (0..effort.rounds).for_each(|round| self.turn(&mut timed, round));
        let mut times = vec![vec![None; self.sides.len()]; self.calls.len()];
        timed.iter().for_each(|one| times[one.row][one.side] = Some(one.least));
        times
    }

    /// The sides that have the call of a row.
    fn having(&self, row: usize) -> Vec<Timed> {
        let sides = (0..self.sides.len()).filter(|&side| self.sides[side].has(&self.calls[row]));
        sides.map(|side| Timed { side, row, calls: 1, least: f64::INFINITY }).collect()
    }

    /// How many calls take as long as a sample should.
    fn enough(&mut self, one: &Timed, sample: Duration) -> u32 {
        let mut calls = 1;
        while self.sample(one, calls) < sample {
            calls *= 2;
        }
        calls
    }

    /// One round: row by row, each side once, and in each round another side first.
    fn turn(&mut self, timed: &mut [Timed], round: usize) {
        for of_row in timed.chunk_by_mut(|a, b| a.row == b.row) {
            of_row.rotate_left(round % of_row.len());
            of_row.iter_mut().for_each(|one| {
                let took = self.sample(one, one.calls).as_nanos() as f64 / f64::from(one.calls);
                one.least = one.least.min(took);
            });
        }
    }

    /// How long so many calls take. Where they are many one goes before them, so that all of them find the caches warm.
    fn sample(&mut self, one: &Timed, calls: u32) -> Duration {
        let side = &*self.sides[one.side];
        let (rack, call, room) = (self.rack, &self.calls[one.row], &mut self.rooms[one.row]);
        if calls > 1 {
            side.run(rack, call, room);
        }
        let began = ran();
        for _ in 0..calls {
            side.run(black_box(rack), black_box(call), black_box(&mut *room));
        }
        ran() - began
    }
}
