//! The comparison against every wrong reading: each must be found.

use crate::comparing::compare_round;
use crate::side::WRONG;
use crate::tally::Tally;
use std::panic::{catch_unwind, set_hook, take_hook};
use wrong::{with_reading, Reading};

/// Prints a line a reading; gives back whether all were found.
pub fn run(rounds: u64, seed: u64) -> bool {
    let readings = Reading::all();
    let mut missed = 0;
    println!("{:>8}  {:20} reading", "rounds", "found by");
    // A wrong reading may leave the range of its own lists.
    let hook = take_hook();
    set_hook(Box::new(|_| {}));
    for &reading in &readings {
        match find(reading, rounds, seed) {
            Some((round, call)) => println!("{round:8}  {call:20} {}", reading.description()),
            None => {
                println!("{:>8}  {:20} {}", "-", "NOT FOUND", reading.description());
                missed += 1;
            }
        }
    }
    set_hook(hook);
    println!("{} wrong readings, {missed} not found", readings.len());
    missed == 0
}

/// After how many rounds a reading is found, and by which call.
fn find(reading: Reading, rounds: u64, seed: u64) -> Option<(u64, &'static str)> {
    let mut tally = Tally::default();
    for round in 0..rounds {
        let compared = catch_unwind(std::panic::AssertUnwindSafe(|| {
            with_reading(reading, || compare_round(&WRONG, seed, round, &mut tally))
        }));
        match compared {
            Ok(Ok(())) => {}
            Ok(Err(difference)) => return Some((round + 1, difference.call)),
            Err(_) => return Some((round + 1, "stops")),
        }
    }
    None
}
