//! Wrong readings of request 2026-02, the sums beside a year book.

use super::sheet::clash_after;
use crate::book::*;
use crate::refusal::*;
use crate::settle::Outcome;
use crate::{current, misread, Reading::*};

/// 19 by length before 15.
pub fn before_book(sums: &[u64]) -> Result<(), Refusal> {
    refuse_if(
        misread(SumsBeforeBook) && sums.len() != SUMS_LEN,
        BAD_YEAR_SUMS,
    )
}

/// 19 by length before the sheet's refusals, or before 20.
pub fn before_sheet(sums: &[u64], sheet: &[u8]) -> Result<(), Refusal> {
    let first = misread(SumsBeforeSheet) || clash_after(ClashAfterSums, sheet);
    refuse_if(first && sums.len() != SUMS_LEN, BAD_YEAR_SUMS)
}

/// 19 before 18.
pub fn before_place(sums: &[u64]) -> Result<(), Refusal> {
    refuse_if(
        misread(SumsBeforePlace) && sums.len() != SUMS_LEN,
        BAD_YEAR_SUMS,
    )
}

/// 19 before 16 or 17.
pub fn before_month(
    list: &[u32],
    sums: &[u64],
    outcome: &Outcome,
    month_posted: bool,
) -> Result<(), Refusal> {
    let building = misread(SumsBeforeBuilding);
    if !building && !misread(SumsBeforeMonth) {
        return Ok(());
    }
    refuse_if(!building && !same_building(list, outcome), OTHER_BUILDING)?;
    let index = usize::from(outcome.month) - 1;
    let old = if month_posted {
        block(list, index)
    } else {
        &[]
    };
    updated_sums(sums, old, &outcome.numbers).map(|_| ())
}

/// 19 before 17, where the month has a block.
pub fn before_withdraw(list: &[u32], sums: &[u64], month: u32) -> Result<(), Refusal> {
    if !misread(SumsBeforeMonth) {
        return Ok(());
    }
    let old = match month {
        1..=12 => block(list, month as usize - 1),
        _ => &[],
    };
    updated_sums(sums, old, &[]).map(|_| ())
}

/// Whether 19 refuses the length.
pub fn wrong_length(sums: &[u64]) -> Option<bool> {
    match current()? {
        SumsLonger => Some(sums.len() < SUMS_LEN),
        SumsShorter => Some(sums.len() > SUMS_LEN),
        _ => None,
    }
}

pub fn check_at_opening(sums: &[u64]) -> Result<(), Refusal> {
    match current() {
        Some(OpeningAnySums) => Ok(()),
        _ => check_sums(sums),
    }
}

pub fn check_in_year(list: &[u32], sums: &[u64], place: u32) -> Result<(), Refusal> {
    match current() {
        Some(YearAnySums) => Ok(()),
        Some(YearCompares) => {
            check_sums(sums)?;
            let unit = 8 * place as usize..8 * place as usize + 8;
            refuse_if(
                sums[unit.clone()] != matching_sums(list)[unit],
                BAD_YEAR_SUMS,
            )
        }
        _ => check_sums(sums),
    }
}

/// The sums that opening fills with zeros.
pub fn zeroed(sums: &mut [u64], unit_count: usize) -> &mut [u64] {
    match current() {
        Some(OpeningKeepsSums) => &mut [],
        Some(OpeningZeroesUnits) => &mut sums[..8 * unit_count],
        _ => sums,
    }
}

/// The numbers that go off and those that come: a post has no old ones, a
/// withdrawal no new ones.
pub fn blocks(
    list: &[u32],
    sums: &[u64],
    old: &[u32],
    new: &[u32],
) -> Result<(Vec<u32>, Vec<u32>), Refusal> {
    let (post, withdrawal) = (old.is_empty(), new.is_empty());
    let replacement = !post && !withdrawal;
    let units = 8 * list[UNIT_COUNT] as usize;
    let blocks = match current() {
        Some(PostAddsNothing) if post => [old, &[]],
        Some(ReplaceKeepsOld) if replacement => [&[], new],
        Some(ReplaceAddsNothing) if replacement => [old, &[]],
        Some(ReplaceTakesOffNew) if replacement => [new, new],
        Some(ReplaceTakesOffUnits) if replacement => [&old[..units], new],
        Some(WithdrawKeepsSums) if withdrawal => [&[], new],
        Some(WithdrawTakesOffUnits) if withdrawal => [&old[..units], new],
        Some(SumsByColumn) => return Ok((by_column(old), by_column(new))),
        Some(UnmatchedRefused) => {
            check_sums(sums)?;
            refuse_if(sums != matching_sums(list), BAD_YEAR_SUMS)?;
            [old, new]
        }
        _ => [old, new],
    };
    Ok((blocks[0].to_vec(), blocks[1].to_vec()))
}

/// A block as eight columns of 160 numbers.
fn by_column(numbers: &[u32]) -> Vec<u32> {
    let mut columns = vec![0; BLOCK_LEN];
    for (place, &number) in numbers.iter().enumerate() {
        columns[160 * (place % 8) + place / 8] = number;
    }
    columns
}

/// What post takes off.
pub fn old_of_post(list: &[u32], index: usize) -> &[u32] {
    if misread(PostTakesOff) {
        return block(list, index);
    }
    &[]
}

/// A sum after the update, or nothing where 19 refuses it.
pub fn updated(sum: u64, old: u64, new: u64) -> Option<Option<u64>> {
    let rest = sum.checked_sub(old);
    let right = rest.and_then(|rest| rest.checked_add(new));
    Some(match current()? {
        ReplaceAddsFirst => sum.checked_add(new).and_then(|more| more.checked_sub(old)),
        ReplaceAddsDifference => {
            u64::try_from(i128::from(sum) + i128::from(new) - i128::from(old)).ok()
        }
        BelowZeroWraps => sum.wrapping_sub(old).checked_add(new),
        BelowZeroStops => sum.saturating_sub(old).checked_add(new),
        PastEndWraps => rest.map(|rest| rest.wrapping_add(new)),
        PastEndStops => rest.map(|rest| rest.saturating_add(new)),
        ZeroRefused => rest.filter(|&rest| old == 0 || rest > 0).and(right),
        LargestRefused => right.filter(|&sum| sum < u64::MAX),
        SumsIn32Bits => right.filter(|&sum| sum <= u64::from(u32::MAX)),
        SumsIn63Bits => right.filter(|&sum| sum <= i64::MAX as u64),
        _ => return None,
    })
}

/// 19 with a place.
pub fn refuse_number<T>(place: usize) -> Result<T, Refusal> {
    if misread(SumsWithPlace) {
        return refuse_at(BAD_YEAR_SUMS, place);
    }
    refuse(BAD_YEAR_SUMS)
}

/// What a call refused by 19 has written.
pub fn refused(list: &mut [u32], sums: &mut [u64], index: usize, [old, new]: [&[u32]; 2]) {
    let number = |list: &[u32], place| list.get(place).map_or(0, |&number| u64::from(number));
    match current() {
        Some(RefusedHasAdded) if sums.len() == SUMS_LEN => {
            for (place, sum) in sums.iter_mut().enumerate() {
                let rest = sum.checked_sub(number(old, place));
                let Some(after) = rest.and_then(|rest| rest.checked_add(number(new, place))) else {
                    return;
                };
                *sum = after;
            }
        }
        Some(RefusedHasTakenOff) if sums.len() == SUMS_LEN => {
            let rests = sums.iter().enumerate();
            let rests = rests.map(|(place, sum)| sum.checked_sub(number(old, place)));
            if let Some(rests) = rests.collect::<Option<Vec<u64>>>() {
                sums.copy_from_slice(&rests);
            }
        }
        Some(RefusedHasWritten) => {
            let start = BLOCKS + BLOCK_LEN * index;
            list[start..start + BLOCK_LEN].fill(0);
            list[start..start + new.len()].copy_from_slice(new);
        }
        _ => {}
    }
}

/// The eight sums that the year call reads.
pub fn read(list: &[u32], sums: &[u64], place: u32) -> Option<[u64; 8]> {
    let start = 8 * place as usize;
    let number = |place| sums.get(place).map_or(0, |&sum| sum);
    match current()? {
        YearNextPlace => Some(std::array::from_fn(|i| number(start + 8 + i))),
        YearAddsBlocks => {
            let sums = matching_sums(list);
            Some(std::array::from_fn(|i| sums[start + i]))
        }
        SumsByColumn => Some(std::array::from_fn(|i| number(160 * i + place as usize))),
        _ => None,
    }
}
