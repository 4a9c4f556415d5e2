//! The library (`rt lib` in `crates/heatcost`) against the independent
//! implementation. The first argument says what is done:
//!
//! - `compare ROUNDS SEED`: every call on random and damaged inputs, answers
//!   and every element of every list, refused calls included;
//! - `mutants ROUNDS SEED`: the same with each wrong reading of the documents
//!   (`compare/wrong`) in the place of the right one; each must be found;
//! - `bench SEED`: times beside those of the fast form;
//! - `repeat SIDE UNITS MODEL TIMES`: forty fixed sheets settled by one side
//!   only (`library`, `division`, `reciprocal`), for a count of instructions;
//! - `stack`: the stack that each call needs.

mod bench;
mod books;
mod calls;
mod charges;
mod comparing;
mod difference;
mod fund_ways;
mod funds;
mod groups;
mod inputs;
mod mutants;
mod repeat;
mod side;
mod stack;
mod tally;
mod ways;

use side::PLAIN;
use std::process::ExitCode;
use tally::Tally;

/// Compares; gives back whether there was no difference.
fn compare(rounds: u64, seed: u64) -> bool {
    let mut tally = Tally::default();
    for round in 0..rounds {
        if round > 0 && round % 100_000 == 0 {
            println!("round {round}");
        }
        if let Err(difference) = comparing::compare_round(&PLAIN, seed, round, &mut tally) {
            println!("seed {seed}, round {round}");
            difference.print();
            return false;
        }
    }
    println!("seed {seed}, {rounds} rounds, no difference; answers by number:");
    tally.print();
    let seldom = tally.seldom();
    if rounds >= 1_000_000 && !seldom.is_empty() {
        println!("seen too seldom: {seldom:?}");
        return false;
    }
    true
}

fn main() -> ExitCode {
    let words: Vec<String> = std::env::args().skip(1).collect();
    let number = |place: usize, default: u64| {
        words
            .get(place)
            .map_or(default, |word| word.parse().expect("a number"))
    };
    let done = match words.first().map(String::as_str) {
        Some("compare") => compare(number(1, 100_000), number(2, 1)),
        Some("mutants") => mutants::run(number(1, 300_000), number(2, 1)),
        Some("bench") => {
            bench::run(number(1, 1));
            true
        }
        Some("repeat") => {
            let side = words.get(1).map_or("library", String::as_str);
            repeat::run(
                side,
                number(2, 160) as usize,
                number(3, 0) as u8,
                number(4, 10),
            )
        }
        Some("stack") => stack::measure(),
        _ => {
            println!("usage: compare | mutants | bench | repeat | stack, and numbers");
            false
        }
    };
    if done {
        ExitCode::SUCCESS
    } else {
        ExitCode::FAILURE
    }
}
