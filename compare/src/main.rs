//! Holds the compiled archive against the second implementation.
//!
//! `compare HARNESS.. --cases N --seed S` runs the harness by the words given,
//! feeds it N generated cases or a few more, and compares everything it
//! writes back. `--only NUMBER` prints the cases of one number and runs them.
#![forbid(unsafe_code)]

mod ask;
mod bill;
mod case;
mod chain;
mod closing;
mod damage;
mod fast;
mod hurt;
mod kinds;
mod lie;
mod limits;
mod make;
mod measure;
mod next;
mod one;
mod pack;
mod read;
mod reserve;
mod run;
mod tally;
mod third;
mod trace;
mod wire;
mod writing;

use std::process::ExitCode;

/// What the command line asks for.
struct Wanted {
    command: Vec<String>,
    cases: u64,
    seed: u64,
    only: Option<u64>,
}

fn wanted() -> Option<Wanted> {
    let mut wanted = Wanted {
        command: Vec::new(),
        cases: 30_000,
        seed: 1,
        only: None,
    };
    let mut words = std::env::args().skip(1);
    while let Some(word) = words.next() {
        match word.as_str() {
            "--cases" => wanted.cases = words.next()?.parse().ok()?,
            "--seed" => wanted.seed = words.next()?.parse().ok()?,
            "--only" => wanted.only = Some(words.next()?.parse().ok()?),
            _ => wanted.command.push(word),
        }
    }
    (!wanted.command.is_empty()).then_some(wanted)
}

fn main() -> ExitCode {
    let Some(wanted) = wanted() else {
        eprintln!("usage: compare HARNESS.. [--cases N] [--seed S] [--only NUMBER]");
        return ExitCode::from(2);
    };
    let outcome = match wanted.only {
        Some(number) => run::only(&wanted.command, wanted.seed, number),
        None => run::all(&wanted.command, wanted.seed, wanted.cases),
    };
    match outcome {
        Ok(true) => ExitCode::SUCCESS,
        Ok(false) => ExitCode::FAILURE,
        Err(error) => {
            eprintln!("compare: {error}");
            ExitCode::from(2)
        }
    }
}
