//! Settles a fixed list of sheets with one side only, for a count of
//! instructions.

use crate::bench::settled_sheets;
use crate::calls;
use compare::fast;
use std::hint::black_box;

/// The fast form under names that a profiler finds.
#[no_mangle]
#[inline(never)]
extern "C" fn fast_settle_division(sheet: &Vec<u8>, list: &mut Vec<u32>) {
    black_box(fast::settle::<false>(sheet, list)).ok();
}

#[no_mangle]
#[inline(never)]
extern "C" fn fast_settle_reciprocal(sheet: &Vec<u8>, list: &mut Vec<u32>) {
    black_box(fast::settle::<true>(sheet, list)).ok();
}

/// Settles sheets of `count` units and of a model, 0 for any.
pub fn run(side: &str, count: usize, model: u8, times: u64) -> bool {
    let models: &[u8] = if model == 0 {
        &[1, 2, 3, 4, 5]
    } else {
        &[model]
    };
    let sheets = settled_sheets(1, 40, count, models);
    let mut list = vec![0; 8 * count];
    for _ in 0..times {
        for sheet in &sheets {
            match side {
                "library" => {
                    black_box(calls::settle(sheet, &mut list));
                }
                "division" => fast_settle_division(sheet, &mut list),
                _ => fast_settle_reciprocal(sheet, &mut list),
            }
        }
    }
    println!("settled {}", 40 * times);
    true
}
