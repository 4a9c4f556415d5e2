//! Connection power and fees beside the statement.

use super::cases::changed_sheets;
use super::{print_head, print_sheets};
use crate::calls;
use compare::fast::charges::fixed_charges;
use std::hint::black_box;

const MANY: usize = 40;
const AMOUNTS: [u32; 3] = [12_345_678, 234_567, 34_567];

/// Sheets that settle and have a load.
pub fn charge_sheets(seed: u64, many: usize, count: usize) -> Vec<Vec<u8>> {
    changed_sheets(seed, many, count, &[1, 2, 3, 4, 5], |sheet| {
        let first = &mut sheet.units[0];
        first.heat_load_w = first.heat_load_w.max(1);
    })
}

pub fn run(seed: u64) {
    print_head("charges, a sheet");
    for count in [160, 8] {
        let sheets = charge_sheets(seed, MANY, count);
        for (model, name) in [(1, "1S"), (2, "2S")] {
            print_sheets(
                &format!("n {count}, {name}"),
                &sheets,
                3 * count,
                [
                    &|sheet, list| {
                        black_box(calls::fixed_charges(sheet, model, AMOUNTS, list));
                    },
                    &|sheet, list| {
                        black_box(fixed_charges::<false>(sheet, model, AMOUNTS, list)).ok();
                    },
                    &|sheet, list| {
                        black_box(fixed_charges::<true>(sheet, model, AMOUNTS, list)).ok();
                    },
                ],
            );
        }
    }
}
