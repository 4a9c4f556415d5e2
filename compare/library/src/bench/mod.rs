//! The library's time beside the fast form's, in one run.
//!
//! The fast form has two ways to a quotient: a 128-bit division an item, and
//! one reciprocal for all items of a division. A figure is the best of many
//! turns; the three sides take turns.

mod books;
mod cases;
mod charges;
#[cfg(feature = "division")]
mod divisions;
mod funds;
mod groups;
mod lists;
mod settling;

pub use cases::settled_sheets;
pub use charges::charge_sheets;
pub use groups::{buildings_of, group_sheets};

use std::hint::black_box;
use std::time::{Duration, Instant};

const TURNS: usize = 25;
const TURN: Duration = Duration::from_millis(4);

/// A side's call.
type Side<'a> = &'a mut dyn FnMut();

fn print_head(title: &str) {
    let [a, b, c, d, e] = ["library", "division", "ratio", "reciprocal", "ratio"];
    println!("\n{title:34} {a:>9} {b:>9} {c:>6} {d:>11} {e:>6}");
}

/// Prints nanoseconds an item; a call handles `items`. The sides are the
/// library and the fast form with divisions and with reciprocals.
fn print_line(name: &str, items: usize, mut sides: [Side; 3]) {
    let best = best_times(&mut sides, TURNS, TURN);
    let [library, division, reciprocal] = best.map(|time| time / items as f64);
    println!(
        "{name:34} {library:9.1} {division:9.1} {:6.2} {reciprocal:11.1} {:6.2}",
        library / division,
        library / reciprocal
    );
}

/// The same for calls on sheets, each side with a list of `len` numbers.
fn print_sheets(
    name: &str,
    sheets: &[Vec<u8>],
    len: usize,
    sides: [&dyn Fn(&[u8], &mut [u32]); 3],
) {
    let mut lists = sides.map(|_| vec![0; len]);
    let [a, b, c] = &mut lists;
    let each = |side: usize, list: &mut [u32]| {
        for sheet in sheets {
            sides[side](black_box(sheet), list);
        }
    };
    print_line(
        name,
        sheets.len(),
        [&mut || each(0, a), &mut || each(1, b), &mut || each(2, c)],
    );
    assert!(
        lists[0] == lists[1] && lists[0] == lists[2],
        "the sides answer alike"
    );
}

fn print_pair_head(title: &str, sides: [&str; 2]) {
    let [a, b] = sides;
    println!("\n{title:34} {a:>9} {b:>9} {:>6}", "ratio");
}

/// The same for two sides.
fn print_pair(name: &str, items: usize, mut sides: [Side; 2]) {
    let best = best_times(&mut sides, TURNS, TURN);
    let [a, b] = best.map(|time| time / items as f64);
    println!("{name:34} {a:9.1} {b:9.1} {:6.2}", a / b);
}

/// Nanoseconds a call of each side.
fn best_times<const N: usize>(sides: &mut [Side; N], turns: usize, turn: Duration) -> [f64; N] {
    let mut calls = [0; N];
    for (side, calls) in sides.iter_mut().zip(&mut calls) {
        let start = Instant::now();
        while start.elapsed() < turn {
            side();
            *calls += 1;
        }
    }
    let mut best = [f64::MAX; N];
    for _ in 0..turns {
        for ((side, calls), best) in sides.iter_mut().zip(calls).zip(&mut best) {
            let start = Instant::now();
            for _ in 0..calls {
                side();
            }
            *best = best.min(start.elapsed().as_nanos() as f64 / f64::from(calls));
        }
    }
    best
}

pub fn run(seed: u64) {
    println!("nanoseconds, best of {TURNS}");
    settling::run(seed);
    groups::run(seed);
    charges::run(seed);
    funds::run(seed);
    lists::run(seed);
    #[cfg(feature = "division")]
    divisions::run(seed);
}
