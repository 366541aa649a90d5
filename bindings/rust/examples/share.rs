//! share INDEX: the slots that lists 0 and 1 of an index share, and what it cost to find them.
use std::error::Error;
use std::path::{Path, PathBuf};
use std::process::ExitCode;

use slots::{ask_owned, look, Way};

fn share(path: &Path) -> Result<(), Box<dyn Error>> {
    let index = std::fs::read(path)?;
    look(&index)?;
    let answer = ask_owned(&index, Way::BySkips, &[0, 1])?;
    for slot in &answer.slots {
        println!("{slot}");
    }
    println!("{} looks, {} codes", answer.looks, answer.codes);
    Ok(())
}

fn main() -> ExitCode {
    let arguments: Vec<PathBuf> = std::env::args_os().map(PathBuf::from).collect();
    let [_, path] = arguments.as_slice() else {
        eprintln!("share: expected the path of an index");
        return ExitCode::from(2);
    };
    if let Err(error) = share(path) {
        eprintln!("share: {}: {error}", path.display());
        return ExitCode::FAILURE;
    }
    ExitCode::SUCCESS
}
