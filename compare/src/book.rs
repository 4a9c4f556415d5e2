//! Document 01, "Year book", with request 2026-02: the list of 15,557 numbers,
//! the list of 1,280 year sums beside it, and their calls.
//!
//! Each call works on the caller's lists. A refusal leaves both as they were.

use crate::refusal::*;
use crate::settle::{settle_bytes, Outcome};
use crate::sheet::{check, read_sheet, MAX_UNITS, ROW_BYTES};

pub const BOOK_LEN: usize = 15_557;
pub const UNIT_COUNT: usize = 0;
pub const MARKS: usize = 1;
pub const METERS: usize = 13;
pub const BILLS: usize = 25;
pub const IDS: usize = 37;
pub const BLOCKS: usize = 197;
pub const BLOCK_LEN: usize = 8 * MAX_UNITS;
/// The sums stand as the numbers of a block do.
pub const SUMS_LEN: usize = BLOCK_LEN;

/// The year call's answer: k and eight sums.
#[derive(Clone, Copy, Debug, Default, PartialEq, Eq)]
pub struct YearSums {
    pub months: u32,
    pub sums: [u64; 8],
}

/// Refusals 15 (by length), 1 to 7 with 20, and 19 (by length).
pub fn open(list: &mut [u32], sums: &mut [u64], sheet: &[u8]) -> Result<(), Refusal> {
    refuse_if(list.len() != BOOK_LEN, BAD_YEAR_BOOK)?;
    check(sheet, ROW_BYTES)?;
    check_sums(sums)?;
    let units = read_sheet(sheet).units;
    list.fill(0);
    list[UNIT_COUNT] = units.len() as u32;
    for (place, unit) in units.iter().enumerate() {
        list[IDS + place] = unit.id;
    }
    sums.fill(0);
    Ok(())
}

/// Refusals 15, 1 to 12 with 20, 16, 17 when the month is posted, and 19.
pub fn post(list: &mut [u32], sums: &mut [u64], sheet: &[u8]) -> Result<(), Refusal> {
    enter_month(list, sums, sheet, false)
}

/// Refusals 15, 1 to 12 with 20, 16, 17 when the month is not posted, and 19.
pub fn replace(list: &mut [u32], sums: &mut [u64], sheet: &[u8]) -> Result<(), Refusal> {
    enter_month(list, sums, sheet, true)
}

/// Refusals 15, 17 and 19.
pub fn withdraw(list: &mut [u32], sums: &mut [u64], month: u32) -> Result<(), Refusal> {
    check_book(list)?;
    let month_posted = (1..=12).contains(&month) && list[MARKS + month as usize - 1] == 1;
    refuse_if(!month_posted, MONTH_STATE)?;
    let index = month as usize - 1;
    let after = updated_sums(sums, block(list, index), &[])?;
    write_month(list, index, [0, 0, 0], &[]);
    sums.copy_from_slice(&after);
    Ok(())
}

/// Refusals 15, 18 and 19 (by length). The sums are read, not compared.
pub fn year(list: &[u32], sums: &[u64], place: u32) -> Result<YearSums, Refusal> {
    check_book(list)?;
    refuse_if(place >= list[UNIT_COUNT], NO_SUCH_UNIT)?;
    check_sums(sums)?;
    let standing = (0..12).filter(|&index| stands(list, index));
    let start = 8 * place as usize;
    Ok(YearSums {
        months: standing.count() as u32,
        sums: std::array::from_fn(|i| sums[start + i]),
    })
}

/// The year call into a list of 9 numbers, k and the sums: refusals 15, 13, 18
/// and 19.
pub fn year_into(
    list: &[u32],
    sums: &[u64],
    place: u32,
    totals: &mut [u64],
) -> Result<(), Refusal> {
    check_book(list)?;
    refuse_if(totals.len() != 9, BUFFER_LENGTH)?;
    let answer = year(list, sums, place)?;
    totals[0] = u64::from(answer.months);
    totals[1..].copy_from_slice(&answer.sums);
    Ok(())
}

/// The sums that match a book: at each place of a block, those of the months
/// that stand.
pub fn matching_sums(list: &[u32]) -> Vec<u64> {
    let mut sums = vec![0; SUMS_LEN];
    for index in (0..12).filter(|&index| stands(list, index)) {
        for (sum, &number) in sums.iter_mut().zip(block(list, index)) {
            *sum += u64::from(number);
        }
    }
    sums
}

/// Refusal 15, opening apart.
pub fn check_book(list: &[u32]) -> Result<(), Refusal> {
    let bad = list.len() != BOOK_LEN
        || list[UNIT_COUNT] > MAX_UNITS as u32
        || list[MARKS..METERS].iter().any(|&mark| mark > 1);
    refuse_if(bad, BAD_YEAR_BOOK)
}

/// Refusal 19 by length.
pub fn check_sums(sums: &[u64]) -> Result<(), Refusal> {
    refuse_if(sums.len() != SUMS_LEN, BAD_YEAR_SUMS)
}

/// The sums after the old numbers are taken off and then the new ones added;
/// behind their ends both are 0. Refusal 19.
pub fn updated_sums(sums: &[u64], old: &[u32], new: &[u32]) -> Result<Vec<u64>, Refusal> {
    check_sums(sums)?;
    let number = |list: &[u32], place| list.get(place).map_or(0, |&number| u64::from(number));
    let mut after = Vec::new();
    for (place, sum) in sums.iter().enumerate() {
        let rest = sum.checked_sub(number(old, place));
        let Some(sum) = rest.and_then(|rest| rest.checked_add(number(new, place))) else {
            return refuse(BAD_YEAR_SUMS);
        };
        after.push(sum);
    }
    Ok(after)
}

fn enter_month(
    list: &mut [u32],
    sums: &mut [u64],
    sheet: &[u8],
    month_posted: bool,
) -> Result<(), Refusal> {
    check_book(list)?;
    let outcome = settle_bytes(sheet)?;
    let index = usize::from(outcome.month) - 1;
    refuse_first(&[
        (OTHER_BUILDING, !same_building(list, &outcome)),
        (MONTH_STATE, stands(list, index) != month_posted),
    ])?;
    let old = if month_posted {
        block(list, index)
    } else {
        &[]
    };
    let after = updated_sums(sums, old, &outcome.numbers)?;
    let entry = [1, outcome.shared_meter_wh, outcome.bill_cents];
    write_month(list, index, entry, &outcome.numbers);
    sums.copy_from_slice(&after);
    Ok(())
}

/// Whether a month's mark is 1.
fn stands(list: &[u32], index: usize) -> bool {
    list[MARKS + index] == 1
}

/// A month's block as the book holds it.
pub fn block(list: &[u32], index: usize) -> &[u32] {
    let start = BLOCKS + BLOCK_LEN * index;
    &list[start..start + BLOCK_LEN]
}

/// Refusal 16 looks at n and the first n ids.
pub fn same_building(list: &[u32], outcome: &Outcome) -> bool {
    list[UNIT_COUNT] as usize == outcome.unit_count
        && list[IDS..IDS + outcome.unit_count] == outcome.ids
}

/// Writes mark, M, bill and block of a month; the block is 0 after `numbers`.
fn write_month(list: &mut [u32], index: usize, entry: [u32; 3], numbers: &[u32]) {
    list[MARKS + index] = entry[0];
    list[METERS + index] = entry[1];
    list[BILLS + index] = entry[2];
    let start = BLOCKS + BLOCK_LEN * index;
    let block = &mut list[start..start + BLOCK_LEN];
    block.fill(0);
    block[..numbers.len()].copy_from_slice(numbers);
}
