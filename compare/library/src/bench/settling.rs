//! Whole settlements: sheet in, statement out.

use super::cases::{changed_sheets, equal_units, half_unread, no_readings, settled_sheets};
use super::{best_times, print_head, print_sheets};
use crate::calls;
use compare::fast;
use std::hint::black_box;
use std::time::Duration;

const MANY: usize = 40;

pub fn run(seed: u64) {
    print_head("settle, a sheet");
    for count in [160, 8] {
        let sheets = settled_sheets(seed, MANY, count, &[1, 2, 3, 4, 5]);
        print_settle(&format!("n {count}, any model"), &sheets);
    }
    for count in [160, 8] {
        for model in 1..=5 {
            let sheets = settled_sheets(seed, MANY, count, &[model]);
            print_settle(&format!("n {count}, model {model}"), &sheets);
        }
    }
    let equal = changed_sheets(seed, MANY, 160, &[2, 3, 4], equal_units);
    print_settle("n 160, equal units", &equal);
    let equal = changed_sheets(seed, MANY, 8, &[2, 3, 4], equal_units);
    print_settle("n 8, equal units", &equal);
    let silent = changed_sheets(seed, MANY, 160, &[3, 4, 5], no_readings);
    print_settle("n 160, B = 0", &silent);
    let unread = changed_sheets(seed, MANY, 160, &[3, 4, 5], half_unread);
    print_settle("n 160, every other unit not read", &unread);
    for count in [2, 1] {
        let sheets = settled_sheets(seed, MANY, count, &[1, 2, 3, 4, 5]);
        print_settle(&format!("n {count}, any model"), &sheets);
    }
    for count in [160, 8, 1] {
        print_worst(seed, count);
    }
}

fn print_settle(name: &str, sheets: &[Vec<u8>]) {
    print_sheets(
        name,
        sheets,
        (sheets[0].len() - 48) / 4,
        [
            &|sheet, list| {
                black_box(calls::settle(sheet, list));
            },
            &|sheet, list| {
                black_box(fast::settle::<false>(sheet, list)).ok();
            },
            &|sheet, list| {
                black_box(fast::settle::<true>(sheet, list)).ok();
            },
        ],
    );
}

/// The forty sheets with the largest ratios among many, each measured shortly.
fn print_worst(seed: u64, count: usize) {
    let sheets = settled_sheets(seed + 1, 600, count, &[1, 2, 3, 4, 5]);
    let mut ratios: Vec<(f64, &Vec<u8>)> = sheets
        .iter()
        .map(|sheet| (short_ratio(sheet), sheet))
        .collect();
    ratios.sort_by(|a, b| b.0.total_cmp(&a.0));
    let worst: Vec<Vec<u8>> = ratios[..MANY].iter().map(|pair| pair.1.clone()).collect();
    print_settle(&format!("n {count}, the worst {MANY} of 600"), &worst);
}

/// Library to fast form on one sheet.
fn short_ratio(sheet: &[u8]) -> f64 {
    let len = (sheet.len() - 48) / 4;
    let (mut a, mut b) = (vec![0; len], vec![0; len]);
    let mut library = || {
        black_box(calls::settle(sheet, &mut a));
    };
    let mut division = || {
        black_box(fast::settle::<false>(sheet, &mut b)).ok();
    };
    let mut sides = [&mut library as _, &mut division as _];
    let best = best_times(&mut sides, 5, Duration::from_micros(100));
    best[0] / best[1]
}
