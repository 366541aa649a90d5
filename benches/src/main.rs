//! bench: times the library beside the second implementation, CRoaring and another build of the library, on the same indexes.
//!
//! ./bench calls it. It prints a line for each row and each side: topic, index, question, x, bytes of the index, side, and in
//! nanoseconds the time of the call and that of looking at the same index, with tabs between. Lines that begin with # tell
//! how it was measured.

mod call;
mod clock;
mod library;
mod load;
mod measure;
mod rack;
mod reference;
mod roaring;
mod rows;
mod side;

use clock::Effort;
use rows::Group;
use side::Side;
use std::collections::HashSet;
use std::process::ExitCode;
use std::time::Duration;

const FULL: Effort = Effort { rounds: 6, sample: Duration::from_micros(200) };
const SHORT: Effort = Effort { rounds: 2, sample: Duration::from_micros(20) };

/// What the command line asks for.
#[derive(Default)]
struct Wish {
    short: bool,
    list: bool,
    /// The file with the ids of the rows wanted; all, where there is none.
    rows: Option<String>,
    beside: Option<String>,
    roaring: Option<String>,
}

fn wish() -> Option<Wish> {
    let mut wish = Wish::default();
    let mut arguments = std::env::args().skip(1);
    while let Some(argument) = arguments.next() {
        match argument.as_str() {
            "--short" => wish.short = true,
            "--list" => wish.list = true,
            "--rows" => wish.rows = Some(arguments.next()?),
            "--beside" => wish.beside = Some(arguments.next()?),
            "--roaring" => wish.roaring = Some(arguments.next()?),
            _ => return None,
        }
    }
    Some(wish)
}

fn main() -> ExitCode {
    let Some(wish) = wish() else {
        eprintln!("bench: expected --short, --list, --rows FILE, --beside LIBRARY, --roaring LIBRARY");
        return ExitCode::from(2);
    };
    let groups = chosen(&wish);
    if wish.list {
        groups.iter().flat_map(|group| &group.rows).for_each(|row| println!("{}", row.id()));
        return ExitCode::SUCCESS;
    }
    let effort = if wish.short { SHORT } else { FULL };
    println!("# rounds\t{}", effort.rounds);
    let mut sides = sides(&wish);
    let different: usize = groups.iter().map(|group| measure::tell(&mut sides, group, effort)).sum();
    let rows: usize = groups.iter().map(|group| group.rows.len()).sum();
    println!("# done\t{rows} rows, {different} different");
    ExitCode::from(u8::from(different > 0 || rows == 0))
}

/// The groups that are wanted, with the rows that are.
fn chosen(wish: &Wish) -> Vec<Group> {
    let mut groups = rows::all(wish.short);
    if let Some(path) = &wish.rows {
        let text = std::fs::read_to_string(path).expect("the file of rows can be read");
        let wanted: HashSet<&str> = text.lines().collect();
        groups.iter_mut().for_each(|group| group.rows.retain(|row| wanted.contains(row.id().as_str())));
    }
    groups.retain(|group| !group.rows.is_empty());
    groups
}

/// The library first: the others are held against it.
fn sides(wish: &Wish) -> Vec<Box<dyn Side>> {
    let mut sides: Vec<Box<dyn Side>> = vec![Box::new(library::Slots::linked()), Box::new(reference::Second)];
    match wish.roaring.as_deref().and_then(roaring::Roaring::load) {
        Some(roaring) => {
            println!("# CRoaring\t{}", roaring.describe());
            sides.push(Box::new(roaring));
        }
        None => println!("# CRoaring\tnot installed"),
    }
    if let Some(path) = &wish.beside {
        sides.push(Box::new(library::Slots::beside(path).expect("the library beside can be loaded")));
    }
    sides
}
