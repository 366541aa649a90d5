//! Which case comes next.

use crate::ask;
use crate::case::{Call, Case, Verdict};
use crate::chain::chain;
use crate::closing::close;
use crate::damage::{several, single, wild, Damaged};
use crate::hurt::Fault;
use crate::make::{some_shelf, Shelf};
use crate::one;
use crate::reserve::{bound, reserved};
use crate::writing::write;
use second::random::Random;

/// The cases of one number: one, or a chain of calls. They depend on the seed
/// and the number only.
pub fn cases(seed: u64, number: u64) -> Vec<Case> {
    let mut random = stream(seed, number);
    let random = &mut random;
    let case = match random.below(100) {
        0..=2 => {
            let shelf = some_shelf(random);
            Case::new("a sound index", Call::Look, shelf.index())
                .out(random)
                .accepted()
        }
        3..=24 => damaged(random, single),
        25..=34 => damaged(random, several),
        35..=41 => damaged(random, wild),
        42..=57 => ask::question(random),
        58..=59 => ask::strides(random),
        60..=61 => ask::far(random),
        62 => ask::seldom(random),
        63..=66 => one::test(random),
        67..=71 => one::next(random),
        72..=75 => one::count(random),
        76..=78 => one::lend(random),
        79..=85 => write(random),
        86..=92 => close(random),
        93..=95 => bound(random),
        96..=97 => return reserved(random),
        _ => return chain(random),
    };
    vec![case]
}

/// The random numbers that belong to one case.
pub fn stream(seed: u64, number: u64) -> Random {
    let mixed = Random::new(seed).bits();
    Random::new(mixed ^ number.wrapping_mul(0xD6E8_FEB8_6659_FD93))
}

type Maker = fn(&mut Random, &Shelf) -> Damaged;

/// A damaged index, looked at or used for something: the index is judged first
/// by every function.
fn damaged(random: &mut Random, maker: Maker) -> Case {
    let shelf = some_shelf(random);
    let damaged = maker(random, &shelf);
    let call = some_call(random, &shelf);
    let mut case = Case::new(damaged.kind, call, damaged.index).out(random);
    let mut reasons: Vec<Verdict> = damaged.faults.iter().map(Fault::verdict).collect();
    match call {
        Call::Ask { way } => {
            let many = random.below(4);
            let names = (0..many).map(|_| random.below(shelf.k() + 1)).collect();
            case = case.given(names).room(random, 4);
            if way == 2 {
                reasons.push((14, 0));
            }
        }
        Call::Test { name, slot } | Call::Next { name, slot } => {
            reasons.extend(one::always(name, slot));
        }
        _ => {}
    }
    if let Some(fault) = damaged.faults.first() {
        case.spots = fault.spots;
        case = case.refused_by(&reasons);
    }
    case
}

/// One of the functions that take an index.
fn some_call(random: &mut Random, shelf: &Shelf) -> Call {
    let (name, slot) = one::some_pair(random, shelf);
    match random.below(10) {
        0 | 1 => Call::Ask {
            way: random.below(3),
        },
        2 => Call::Test { name, slot },
        3 => Call::Next { name, slot },
        4 => Call::Count { name },
        5 => Call::Lend { name },
        _ => Call::Look,
    }
}
