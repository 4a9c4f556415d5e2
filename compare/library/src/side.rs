//! The independent side of a comparison.

use compare::group::Building;
use compare::refusal::Refusal;

/// Its calls, each as the library's (calls.rs).
pub struct Side {
    pub settle: fn(&[u8], &mut [u32]) -> u32,
    pub settle_group: fn(&[u8], &[Building], u64, &mut [u32]) -> u32,
    pub fixed_charges: fn(&[u8], u32, [u32; 3], &mut [u32]) -> u32,
    pub collect_fees: fn(&mut u64, &[u8], u32) -> u32,
    pub pay_out: fn(&mut u64, u64) -> u32,
    pub print: fn(&[u8], &mut [u8]) -> u64,
    pub write_record: fn(&[u8], &mut [u8]) -> u32,
    /// The answer and the length of the sheet's part.
    pub read_record: fn(&[u8]) -> (u32, u64),
    pub open: fn(&mut [u32], &mut [u64], &[u8]) -> u32,
    pub post: fn(&mut [u32], &mut [u64], &[u8]) -> u32,
    pub replace: fn(&mut [u32], &mut [u64], &[u8]) -> u32,
    pub withdraw: fn(&mut [u32], &mut [u64], u32) -> u32,
    pub year: fn(&[u32], &[u64], u32, &mut [u64]) -> u32,
}

/// The number that a call answers (include/heatcost.h).
fn number(refusal: u32, place: u32) -> u32 {
    refusal + 256 * place
}

/// The number for a result of the plain form.
pub fn answer<T>(result: &Result<T, Refusal>) -> u32 {
    match result {
        Ok(_) => 0,
        Err(refusal) => number(refusal.number, refusal.place),
    }
}

/// The side that a crate with the plain form's modules makes.
macro_rules! side {
    ($form:ident) => {{
        use $form::{book, charges, fund, group, print, record, refusal::Refusal, settle};

        fn answer(result: Result<(), Refusal>) -> u32 {
            result.map_or_else(|refusal| number(refusal.number, refusal.place), |()| 0)
        }

        fn settle_into(sheet: &[u8], list: &mut [u32]) -> Result<(), Refusal> {
            let numbers = settle::settle(sheet, list.len())?.numbers;
            list[..numbers.len()].copy_from_slice(&numbers);
            Ok(())
        }

        fn settle_group(
            sheets: &[u8],
            buildings: &[Building],
            shared_wh: u64,
            list: &mut [u32],
        ) -> u32 {
            let building = |b: &Building| group::Building {
                offset: b.offset,
                length: b.length,
            };
            let buildings: Vec<group::Building> = buildings.iter().map(building).collect();
            answer(group::settle_group_into(
                sheets, &buildings, shared_wh, list,
            ))
        }

        Side {
            settle: |sheet, list| answer(settle_into(sheet, list)),
            settle_group,
            fixed_charges: |sheet, model, amounts, list| {
                answer(charges::fixed_charges_into(sheet, model, amounts, list))
            },
            collect_fees: |fund, sheet, rate| answer(fund::collect_fees(fund, sheet, rate)),
            pay_out: |fund, amount| answer(fund::pay_out(fund, amount)),
            print: |sheet, list| print::print_into(sheet, list) as u64,
            write_record: |sheet, list| answer(record::write_record(sheet, list)),
            read_record: |bytes| {
                let read = record::read_record(bytes);
                (number(read.number, read.place), read.part_length as u64)
            },
            open: |book, sums, sheet| answer(book::open(book, sums, sheet)),
            post: |book, sums, sheet| answer(book::post(book, sums, sheet)),
            replace: |book, sums, sheet| answer(book::replace(book, sums, sheet)),
            withdraw: |book, sums, month| answer(book::withdraw(book, sums, month)),
            year: |book, sums, place, totals| answer(book::year_into(book, sums, place, totals)),
        }
    }};
}

/// The plain form.
pub static PLAIN: Side = side!(compare);

/// Its copy, under the wrong reading in force.
pub static WRONG: Side = side!(wrong);
