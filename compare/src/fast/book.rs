//! The year book and the sums beside it.

use super::month::Month;
use super::rows::{checked_rows, Row};
use crate::book::{
    YearSums, BILLS, BLOCKS, BLOCK_LEN, BOOK_LEN, IDS, MARKS, METERS, SUMS_LEN, UNIT_COUNT,
};
use crate::refusal::*;
use crate::rules::NEWEST;

type Block = [u32; BLOCK_LEN];
type Sums = [u64; SUMS_LEN];

pub fn open(list: &mut [u32], sums: &mut [u64], sheet: &[u8]) -> Result<(), Refusal> {
    refuse_if(list.len() != BOOK_LEN, BAD_YEAR_BOOK)?;
    let (rows, _) = checked_rows(sheet)?;
    refuse_if(sums.len() != SUMS_LEN, BAD_YEAR_SUMS)?;
    list.fill(0);
    list[UNIT_COUNT] = rows.len() as u32;
    for (id, row) in list[IDS..].iter_mut().zip(rows) {
        *id = Row(row).id() as u32;
    }
    sums.fill(0);
    Ok(())
}

pub fn post(list: &mut [u32], sums: &mut [u64], sheet: &[u8]) -> Result<(), Refusal> {
    let month = entered(list, sheet, 0)?;
    let mut room = [0; BLOCK_LEN];
    let statement = &mut room[..8 * month.rows.len()];
    month.write_statement::<true>(statement);
    let sums = &mut sized(sums)?[..statement.len()];
    refuse_if(!can_add(sums, statement), BAD_YEAR_SUMS)?;
    for (sum, &new) in sums.iter_mut().zip(&*statement) {
        *sum += u64::from(new);
    }
    write(list, &month, statement);
    Ok(())
}

pub fn replace(list: &mut [u32], sums: &mut [u64], sheet: &[u8]) -> Result<(), Refusal> {
    let month = entered(list, sheet, 1)?;
    let mut room = [0; BLOCK_LEN];
    let statement = &mut room[..8 * month.rows.len()];
    month.write_statement::<true>(statement);
    let (sums, tail) = sized(sums)?.split_at_mut(statement.len());
    let (old, old_tail) = block_of(list, index(&month)).split_at(statement.len());
    let fits = can_exchange(sums, old, statement) && can_take_off(tail, old_tail);
    refuse_if(!fits, BAD_YEAR_SUMS)?;
    for ((sum, &old), &new) in sums.iter_mut().zip(old).zip(&*statement) {
        *sum = *sum - u64::from(old) + u64::from(new);
    }
    take_off(tail, old_tail);
    write(list, &month, statement);
    Ok(())
}

pub fn withdraw(list: &mut [u32], sums: &mut [u64], month: u32) -> Result<(), Refusal> {
    check_book(list)?;
    let index = month.wrapping_sub(1) as usize;
    refuse_if(index >= 12 || list[MARKS + index] != 1, MONTH_STATE)?;
    let (sums, block) = (sized(sums)?, block_of(list, index));
    refuse_if(!can_take_off(sums, block), BAD_YEAR_SUMS)?;
    take_off(sums, block);
    block.fill(0);
    list[MARKS + index] = 0;
    list[METERS + index] = 0;
    list[BILLS + index] = 0;
    Ok(())
}

/// k and the eight sums.
pub fn year(list: &[u32], sums: &[u64], place: u32) -> Result<YearSums, Refusal> {
    check_book(list)?;
    refuse_if(place >= list[UNIT_COUNT], NO_SUCH_UNIT)?;
    refuse_if(sums.len() != SUMS_LEN, BAD_YEAR_SUMS)?;
    let (units, _) = sums.as_chunks::<8>();
    Ok(YearSums {
        months: list[MARKS..METERS].iter().sum(),
        sums: units[place as usize],
    })
}

/// Refusals 15, 1 to 12 with 20, 16, and 17 unless the month's mark is `mark`.
fn entered<'a>(list: &[u32], sheet: &'a [u8], mark: u32) -> Result<Month<'a>, Refusal> {
    check_book(list)?;
    let month = Month::of(sheet, 32, NEWEST)?;
    let count = month.rows.len();
    let ids = month.rows.iter().map(|row| Row(row).id() as u32);
    let same = list[UNIT_COUNT] as usize == count && ids.eq(list[IDS..IDS + count].iter().copied());
    refuse_if(!same, OTHER_BUILDING)?;
    refuse_if(list[MARKS + index(&month)] != mark, MONTH_STATE)?;
    Ok(month)
}

fn index(month: &Month) -> usize {
    usize::from(month.header.month) - 1
}

fn write(list: &mut [u32], month: &Month, statement: &[u32]) {
    let index = index(month);
    list[MARKS + index] = 1;
    list[METERS + index] = month.header.shared_meter_wh as u32;
    list[BILLS + index] = month.bill_cents() as u32;
    let (units, tail) = block_of(list, index).split_at_mut(statement.len());
    units.copy_from_slice(statement);
    tail.fill(0);
}

fn check_book(list: &[u32]) -> Result<(), Refusal> {
    let bad = list.len() != BOOK_LEN
        || list[UNIT_COUNT] > 160
        || list[MARKS..METERS].iter().any(|&mark| mark > 1);
    refuse_if(bad, BAD_YEAR_BOOK)
}

fn block_of(list: &mut [u32], index: usize) -> &mut Block {
    let start = BLOCKS + BLOCK_LEN * index;
    list[start..]
        .first_chunk_mut()
        .expect("a book has twelve blocks")
}

fn sized(sums: &mut [u64]) -> Result<&mut Sums, Refusal> {
    sums.try_into().or_else(|_| refuse(BAD_YEAR_SUMS))
}

// What goes off or comes is below 2^32, so that a borrow or a carry shows in the
// top bit. The tests have no early end: many are made at a time.

fn can_add(sums: &[u64], new: &[u32]) -> bool {
    let carries = sums.iter().zip(new).fold(0, |carries, (&sum, &new)| {
        carries | sum & !sum.wrapping_add(u64::from(new))
    });
    carries >> 63 == 0
}

fn can_take_off(sums: &[u64], old: &[u32]) -> bool {
    let borrows = sums.iter().zip(old).fold(0, |borrows, (&sum, &old)| {
        borrows | !sum & sum.wrapping_sub(u64::from(old))
    });
    borrows >> 63 == 0
}

fn can_exchange(sums: &[u64], old: &[u32], new: &[u32]) -> bool {
    let numbers = sums.iter().zip(old).zip(new);
    let bad = numbers.fold(0, |bad, ((&sum, &old), &new)| {
        let rest = sum.wrapping_sub(u64::from(old));
        bad | !sum & rest | rest & !rest.wrapping_add(u64::from(new))
    });
    bad >> 63 == 0
}

fn take_off(sums: &mut [u64], old: &[u32]) {
    for (sum, &old) in sums.iter_mut().zip(old) {
        *sum -= u64::from(old);
    }
}
