//! A month's fees into a fund, and a payment out of it.

use super::cases::settled_sheets;
use super::{print_pair, print_pair_head};
use crate::calls;
use compare::fast::fund::{collect_fees, pay_out};
use std::hint::black_box;

const MANY: usize = 40;
const RATE: u32 = 50_000;

pub fn run(seed: u64) {
    print_pair_head("fund, a sheet", ["library", "fast form"]);
    for count in [160, 8, 1] {
        for (models, name) in [(&[1, 2][..], "all pay"), (&[3, 4, 5], "models 3 to 5")] {
            let sheets = settled_sheets(seed, MANY, count, models);
            collect(&format!("n {count}, {name}"), &sheets);
        }
    }
    pay();
}

fn collect(name: &str, sheets: &[Vec<u8>]) {
    let (mut a, mut b) = (0, 0);
    print_pair(
        name,
        sheets.len(),
        [
            &mut || {
                for sheet in sheets {
                    black_box(calls::collect_fees(&mut a, black_box(sheet), RATE));
                }
            },
            &mut || {
                for sheet in sheets {
                    black_box(collect_fees(&mut b, black_box(sheet), RATE)).ok();
                }
            },
        ],
    );
}

fn pay() {
    let (mut a, mut b) = (u64::MAX, u64::MAX);
    print_pair(
        "pay out",
        1,
        [
            &mut || {
                black_box(calls::pay_out(&mut a, black_box(1)));
            },
            &mut || {
                black_box(pay_out(&mut b, black_box(1))).ok();
            },
        ],
    );
}
