//! One run: cases are made in one thread, answers are judged in another.

use crate::case::{Case, Outcome};
use crate::kinds::{cases, stream};
use crate::lie::{self, LIES};
use crate::limits::Limits;
use crate::make::once_in;
use crate::tally::Tally;
use crate::third;
use crate::wire::{alone, step_out, Frame, Harness};
use second::random::Random;
use std::io::{self, Write};
use std::sync::mpsc::{sync_channel, Receiver, SyncSender};

/// So many differences are shown in full.
const SHOWN: u64 = 5;
/// So many cases may be under way.
const AHEAD: usize = 256;
/// One answer in so many is falsified once more after it was found good.
const LIE_EVERY: u32 = 8;

/// A case under way. One of the limits has no number.
struct Job {
    number: Option<u64>,
    turn: u64,
    case: Case,
    outcome: Outcome,
    frame: Frame,
}

impl Job {
    /// The frame depends on the seed, the number and the turn in a chain only.
    fn new(seed: u64, number: Option<u64>, turn: u64, case: Case) -> Job {
        let place = number.unwrap_or(0) + turn;
        Job {
            number,
            turn,
            outcome: case.outcome(),
            frame: Frame::of(place, &mut stream(!seed, place)),
            case,
        }
    }

    fn wanted(&self) -> Vec<u8> {
        self.frame
            .answer(self.outcome.returned, &self.outcome.after)
    }

    fn difference(&self, wanted: &[u8], got: &[u8]) -> Option<String> {
        self.frame.difference(&self.case.before, wanted, got)
    }
}

/// Every step out of a buffer must end the harness.
fn walls_stand(command: &[String]) -> io::Result<bool> {
    for side in 0..2 {
        for field in 0..4 {
            let length = 4 + 6 * (1 + 4 + 4 + 8);
            if alone(command, &step_out(side, field), length)?.is_some() {
                println!("a step out of buffer {field} on side {side} went unnoticed");
                return Ok(false);
            }
        }
    }
    Ok(true)
}

/// A whole run. True where nothing differs and enough was met.
pub fn all(command: &[String], seed: u64, many: u64) -> io::Result<bool> {
    if !walls_stand(command)? {
        return Ok(false);
    }
    let (mut harness, input) = Harness::start(command)?;
    let (sender, receiver) = sync_channel(AHEAD);
    let mut judge = Judge {
        command,
        seed,
        random: stream(seed, u64::MAX),
        tally: Tally::default(),
        shown: String::new(),
    };
    let whole = std::thread::scope(|scope| {
        scope.spawn(move || feed(input, &sender, seed, many));
        judge.judge_all(&mut harness, &receiver)
    })?;
    let well = harness.finish()?;
    if !well {
        println!("the harness did not end as it should");
    }
    let tally = judge.tally;
    tally.print();
    print!("{}", judge.shown);
    let missing = tally.missing();
    for what in &missing {
        println!("too seldom: {what}");
    }
    println!("{} cases, {} different", tally.cases, tally.different);
    Ok(whole && well && missing.is_empty() && tally.different == 0)
}

/// Makes the cases and feeds them to the harness, the largest first. It ends
/// where the harness takes no more, which shows at the other end.
fn feed(mut input: impl Write, sender: &SyncSender<Job>, seed: u64, many: u64) -> Option<()> {
    let mut random = stream(seed, u64::MAX - 1);
    let limits = Limits::new(&mut random);
    let mut sent = 0;
    while let Some(case) = limits.case(sent, &mut random) {
        send(&mut input, sender, Job::new(seed, None, sent, case))?;
        sent += 1;
    }
    drop(limits);
    for number in 0.. {
        for (turn, case) in (0..).zip(cases(seed, number)) {
            send(&mut input, sender, Job::new(seed, Some(number), turn, case))?;
            sent += 1;
        }
        if sent >= many {
            break;
        }
    }
    Some(())
}

fn send(input: &mut impl Write, sender: &SyncSender<Job>, job: Job) -> Option<()> {
    let request = job.frame.request(&job.case);
    sender.send(job).ok()?;
    input.write_all(&request).ok()
}

struct Judge<'a> {
    command: &'a [String],
    seed: u64,
    random: Random,
    tally: Tally,
    /// The differences in full, for the end, where they are looked for.
    shown: String,
}

impl Judge<'_> {
    /// Judges answers until there are no more cases. False where the harness
    /// stopped early.
    fn judge_all(&mut self, harness: &mut Harness, jobs: &Receiver<Job>) -> io::Result<bool> {
        for job in jobs {
            let wanted = job.wanted();
            let Ok(got) = harness.receive(wanted.len()) else {
                self.find_fatal(job, jobs)?;
                return Ok(false);
            };
            self.judge(&job, &wanted, &got);
        }
        Ok(true)
    }

    fn judge(&mut self, job: &Job, wanted: &[u8], got: &[u8]) {
        self.tally.cases += 1;
        let difference = job.difference(wanted, got);
        let met = third::check(&job.case, &job.outcome);
        match (difference, met) {
            (Some(difference), _) => self.show(job, &difference),
            (None, Err(difference)) => {
                let both = format!("both implementations differ from what is known: {difference}");
                self.show(job, &both);
            }
            (None, Ok(met)) => {
                self.tally.count(&job.case, &job.outcome, &met);
                if once_in(&mut self.random, LIE_EVERY) {
                    self.lie(job, wanted, got);
                }
            }
        }
    }

    /// Falsifies a good answer in one byte: judging it must find that.
    fn lie(&mut self, job: &Job, wanted: &[u8], got: &[u8]) {
        let which = self.random.below(LIES.len() as u32) as usize;
        let random = &mut self.random;
        let lie = lie::told(random, which, &job.case, &job.outcome, &job.frame, got);
        let Some(lie) = lie else {
            return;
        };
        if job.difference(wanted, &lie).is_some() {
            self.tally.lied(which);
        } else {
            self.show(job, &format!("falsified unnoticed: {}", LIES[which]));
        }
    }

    /// Finds the case that ended the harness, among those under way.
    fn find_fatal(&mut self, first: Job, jobs: &Receiver<Job>) -> io::Result<()> {
        for job in std::iter::once(first).chain(jobs) {
            let length = job.wanted().len();
            let request = job.frame.request(&job.case);
            if alone(self.command, &request, length)?.is_none() {
                self.show(&job, "the harness ended in this call");
                return Ok(());
            }
        }
        println!("the harness ended early, in no case alone");
        Ok(())
    }

    fn show(&mut self, job: &Job, difference: &str) {
        self.tally.different += 1;
        if self.tally.different <= SHOWN {
            let name = match job.number {
                Some(number) => format!("case {number}, call {}", job.turn),
                None => format!("limit {}", job.turn),
            };
            let (seed, case, numbers) = (self.seed, job.case.text(), &job.outcome.numbers);
            self.shown += &format!(
                "{name}, seed {seed}: {difference}\n{case}  second implementation: {numbers:?}\n"
            );
        }
    }
}

/// The cases of one number, shown and run each by itself.
pub fn only(command: &[String], seed: u64, number: u64) -> io::Result<bool> {
    let mut good = true;
    for (turn, case) in (0..).zip(cases(seed, number)) {
        let job = Job::new(seed, Some(number), turn, case);
        let wanted = job.wanted();
        let got = alone(command, &job.frame.request(&job.case), wanted.len())?;
        print!("{}", job.case.text());
        println!("  second implementation: {:?}", job.outcome.numbers);
        let difference = match got {
            Some(got) => job.difference(&wanted, &got),
            None => Some("the harness ended in this call".to_string()),
        };
        let known = third::check(&job.case, &job.outcome).err();
        for words in difference.iter().chain(&known) {
            println!("  {words}");
        }
        good &= difference.is_none() && known.is_none();
    }
    Ok(good)
}
