//! The library's calls, each behind a safe function. `tests/header.rs` of the
//! crate above holds these declarations to include/heatcost.h.

use compare::group::Building;
#[cfg(feature = "division")]
use compare::rules::RuleSet;

#[rustfmt::skip]
extern "C" {
    fn heatcost_settle(sheet: *const u8, sheet_len: usize, statement: *mut u32, statement_len: usize) -> u32;
    fn heatcost_settle_group(sheets: *const u8, sheets_len: usize, buildings: *const Building, buildings_len: usize,
        shared_wh: u64, statement: *mut u32, statement_len: usize) -> u32;
    fn heatcost_fixed_charges(sheet: *const u8, sheet_len: usize, model: u32, power: u32, buyer_fee: u32,
        supplier_fee: u32, charges: *mut u32, charges_len: usize) -> u32;
    fn heatcost_collect_fees(fund: *mut u64, sheet: *const u8, sheet_len: usize, rate: u32) -> u32;
    fn heatcost_pay_out(fund: *mut u64, amount: u64) -> u32;
    fn heatcost_print(sheet: *const u8, sheet_len: usize, text: *mut u8, text_len: usize) -> u64;
    fn heatcost_write_record(sheet: *const u8, sheet_len: usize, record: *mut u8, record_len: usize) -> u32;
    fn heatcost_read_record(record: *const u8, record_len: usize) -> u32;
    fn heatcost_record_sheet_len(record: *const u8, record_len: usize) -> u64;
    fn heatcost_open(book: *mut u32, book_len: usize, sums: *mut u64, sums_len: usize, sheet: *const u8,
        sheet_len: usize) -> u32;
    fn heatcost_post(book: *mut u32, book_len: usize, sums: *mut u64, sums_len: usize, sheet: *const u8,
        sheet_len: usize) -> u32;
    fn heatcost_replace(book: *mut u32, book_len: usize, sums: *mut u64, sums_len: usize, sheet: *const u8,
        sheet_len: usize) -> u32;
    fn heatcost_withdraw(book: *mut u32, book_len: usize, sums: *mut u64, sums_len: usize, month: u32) -> u32;
    fn heatcost_year(book: *const u32, book_len: usize, sums: *const u64, sums_len: usize, place: u32,
        totals: *mut u64, totals_len: usize) -> u32;
}

#[cfg(feature = "division")]
#[rustfmt::skip]
extern "C" {
    fn division_earlier(
        total: u64, weights: *const u64, n: usize, scratch: *mut u64, m: usize, out: *mut u32, k: usize,
    );
    fn division_larger(
        total: u64, weights: *const u64, n: usize, scratch: *mut u64, m: usize, out: *mut u32, k: usize,
    );
}

pub fn settle(sheet: &[u8], list: &mut [u32]) -> u32 {
    unsafe { heatcost_settle(sheet.as_ptr(), sheet.len(), list.as_mut_ptr(), list.len()) }
}

pub fn settle_group(
    sheets: &[u8],
    buildings: &[Building],
    shared_wh: u64,
    list: &mut [u32],
) -> u32 {
    unsafe {
        heatcost_settle_group(
            sheets.as_ptr(),
            sheets.len(),
            buildings.as_ptr(),
            buildings.len(),
            shared_wh,
            list.as_mut_ptr(),
            list.len(),
        )
    }
}

pub fn fixed_charges(sheet: &[u8], model: u32, amounts: [u32; 3], list: &mut [u32]) -> u32 {
    let [power, buyer_fee, supplier_fee] = amounts;
    unsafe {
        heatcost_fixed_charges(
            sheet.as_ptr(),
            sheet.len(),
            model,
            power,
            buyer_fee,
            supplier_fee,
            list.as_mut_ptr(),
            list.len(),
        )
    }
}

pub fn collect_fees(fund: &mut u64, sheet: &[u8], rate: u32) -> u32 {
    unsafe { heatcost_collect_fees(fund, sheet.as_ptr(), sheet.len(), rate) }
}

pub fn pay_out(fund: &mut u64, amount: u64) -> u32 {
    unsafe { heatcost_pay_out(fund, amount) }
}

pub fn print(sheet: &[u8], list: &mut [u8]) -> u64 {
    unsafe { heatcost_print(sheet.as_ptr(), sheet.len(), list.as_mut_ptr(), list.len()) }
}

pub fn write_record(sheet: &[u8], list: &mut [u8]) -> u32 {
    unsafe { heatcost_write_record(sheet.as_ptr(), sheet.len(), list.as_mut_ptr(), list.len()) }
}

pub fn read_record(record: &[u8]) -> u32 {
    unsafe { heatcost_read_record(record.as_ptr(), record.len()) }
}

pub fn record_sheet_len(record: &[u8]) -> u64 {
    unsafe { heatcost_record_sheet_len(record.as_ptr(), record.len()) }
}

pub fn open(book: &mut [u32], sums: &mut [u64], sheet: &[u8]) -> u32 {
    unsafe {
        heatcost_open(
            book.as_mut_ptr(),
            book.len(),
            sums.as_mut_ptr(),
            sums.len(),
            sheet.as_ptr(),
            sheet.len(),
        )
    }
}

pub fn post(book: &mut [u32], sums: &mut [u64], sheet: &[u8]) -> u32 {
    unsafe {
        heatcost_post(
            book.as_mut_ptr(),
            book.len(),
            sums.as_mut_ptr(),
            sums.len(),
            sheet.as_ptr(),
            sheet.len(),
        )
    }
}

pub fn replace(book: &mut [u32], sums: &mut [u64], sheet: &[u8]) -> u32 {
    unsafe {
        heatcost_replace(
            book.as_mut_ptr(),
            book.len(),
            sums.as_mut_ptr(),
            sums.len(),
            sheet.as_ptr(),
            sheet.len(),
        )
    }
}

pub fn withdraw(book: &mut [u32], sums: &mut [u64], month: u32) -> u32 {
    unsafe {
        heatcost_withdraw(
            book.as_mut_ptr(),
            book.len(),
            sums.as_mut_ptr(),
            sums.len(),
            month,
        )
    }
}

pub fn year(book: &[u32], sums: &[u64], place: u32, totals: &mut [u64]) -> u32 {
    unsafe {
        heatcost_year(
            book.as_ptr(),
            book.len(),
            sums.as_ptr(),
            sums.len(),
            place,
            totals.as_mut_ptr(),
            totals.len(),
        )
    }
}

/// The division alone, with ties by the rules. The weights have a sum above 0.
#[cfg(feature = "division")]
pub fn divide(total: u64, weights: &[u64], rules: RuleSet, scratch: &mut [u64], out: &mut [u32]) {
    assert!(scratch.len() == weights.len() && out.len() == weights.len());
    let divide = if rules.larger_first() {
        division_larger
    } else {
        division_earlier
    };
    unsafe {
        divide(
            total,
            weights.as_ptr(),
            weights.len(),
            scratch.as_mut_ptr(),
            scratch.len(),
            out.as_mut_ptr(),
            out.len(),
        )
    }
}
