//! Wrong readings of "Year book".

use super::sheet::clash_after;
use super::sums;
use crate::book::*;
use crate::refusal::*;
use crate::settle::{settle_bytes, Outcome};
use crate::sheet::{check, get_u32, read_sheet, ROW_BYTES};
use crate::{current, misread, Reading::*};

/// Whether a book passes that 15 refuses.
pub fn bad_book(list: &[u32]) -> Option<bool> {
    let length = list.len() != BOOK_LEN;
    let count = list.first().is_some_and(|&count| count > 160);
    let marks = !length && list[MARKS..METERS].iter().any(|&mark| mark > 1);
    match current()? {
        BookLonger if list.len() > BOOK_LEN => {
            Some(count || list[MARKS..METERS].iter().any(|&mark| mark > 1))
        }
        BookCount => Some(length || marks),
        BookMarks => Some(length || count),
        BookOfNone => Some(length || count || marks || list[UNIT_COUNT] == 0),
        _ => None,
    }
}

/// Refusals of a sheet that come before 15.
pub fn before_book(sheet: &[u8]) -> Result<(), Refusal> {
    if misread(BookAfterSheet) {
        settle_bytes(sheet)?;
    }
    Ok(())
}

/// Refusals of opening that document 01 doesn't have.
pub fn before_opening(list: &[u32], sheet: &[u8]) -> Result<(), Refusal> {
    match current() {
        Some(BookAtOpening) => check_book(list),
        Some(OpeningSettles) => {
            refuse_if(list.len() != BOOK_LEN, BAD_YEAR_BOOK)?;
            settle_bytes(sheet).map(|_| ())
        }
        _ => Ok(()),
    }
}

/// What the sheet's check answers at opening.
pub fn opening_check(answer: Result<(), Refusal>) -> Result<(), Refusal> {
    match answer {
        Err(refusal) if misread(OpeningTakesClash) && refusal.number == FIELD_CONFLICT => Ok(()),
        _ => answer,
    }
}

/// The part of the book that opening fills with zeros.
pub fn zeroed(list: &mut [u32]) -> &mut [u32] {
    match current() {
        Some(OpeningKeepsIds) => &mut list[..IDS],
        Some(OpeningKeepsBlocks) => &mut list[..BLOCKS],
        _ => list,
    }
}

/// What opening does besides.
pub fn after_opening(list: &mut [u32], sums: &mut [u64], sheet: &[u8]) {
    if misread(OpeningPosts) {
        let _ = post(list, sums, sheet);
    }
}

/// 16 and 17 before 8 to 12, or before 20.
pub fn before_settling(list: &[u32], sheet: &[u8], month_posted: bool) -> Result<(), Refusal> {
    let before_clash = |reading| clash_after(reading, sheet);
    let building = misread(BuildingBeforeMonth) || before_clash(ClashAfterBuilding);
    let standing = misread(StandingBeforeSettling) || before_clash(ClashAfterStanding);
    if !building && !standing {
        return Ok(());
    }
    if misread(BuildingBeforeMonth) || misread(StandingBeforeSettling) {
        check(sheet, ROW_BYTES)?;
    }
    let read = read_sheet(sheet);
    let ids = (0..read.units.len()).map(|row| get_u32(sheet, 48 + 32 * row));
    let kept = &list[IDS..IDS + read.units.len()];
    let same = list[UNIT_COUNT] as usize == kept.len() && ids.eq(kept.iter().copied());
    refuse_if(building && !same, OTHER_BUILDING)?;
    let stands = list[MARKS + usize::from(read.header.month) - 1] == 1;
    refuse_if(standing && stands != month_posted, MONTH_STATE)
}

/// Whether the building is taken as the book's.
pub fn same_building(list: &[u32], outcome: &Outcome) -> Option<bool> {
    let same_count = list[UNIT_COUNT] as usize == outcome.unit_count;
    let same_ids = list[IDS..IDS + outcome.unit_count] == outcome.ids;
    let after = &list[IDS + outcome.unit_count..BLOCKS];
    match current()? {
        CountNotCompared => Some(same_ids),
        IdsNotCompared => Some(same_count),
        IdsAfterCount => Some(same_count && same_ids && after.iter().all(|&id| id == 0)),
        _ => None,
    }
}

/// Whether post or replace accepts a month in the wrong state.
pub fn month_passes(month_posted: bool) -> bool {
    let wanted = if month_posted {
        ReplaceOfAbsent
    } else {
        PostOfStanding
    };
    misread(wanted)
}

/// What a call refused by 17 writes.
pub fn before_refusal(list: &mut [u32], outcome: &Outcome, month_fits: bool) {
    if misread(RefusedPostMarks) && !month_fits {
        list[METERS + usize::from(outcome.month) - 1] = outcome.shared_meter_wh;
    }
}

/// Puts back what post or replace doesn't write.
pub fn after_entry(list: &mut [u32], before: &[u32], outcome: &Outcome, replacing: bool) {
    let index = usize::from(outcome.month) - 1;
    let count = outcome.numbers.len();
    let start = BLOCKS + BLOCK_LEN * index;
    let tail = start + count..start + BLOCK_LEN;
    match current() {
        Some(PostLeavesTail) => list[tail.clone()].copy_from_slice(&before[tail]),
        Some(ReplaceKeepsMeter) if replacing => list[METERS + index] = before[METERS + index],
        Some(ReplaceKeepsBill) if replacing => list[BILLS + index] = before[BILLS + index],
        Some(ReplaceAdds) if replacing => {
            for place in start..start + count {
                list[place] = list[place].wrapping_add(before[place]);
            }
        }
        _ => {}
    }
}

/// Puts back what withdraw doesn't write.
pub fn after_withdraw(list: &mut [u32], before: &[u32], index: usize) {
    let start = BLOCKS + BLOCK_LEN * index;
    let block = start..start + BLOCK_LEN;
    let tail = start + 8 * list[UNIT_COUNT] as usize..start + BLOCK_LEN;
    match current() {
        Some(WithdrawLeavesBlock) => list[block.clone()].copy_from_slice(&before[block]),
        Some(WithdrawLeavesTail) => list[tail.clone()].copy_from_slice(&before[tail]),
        Some(WithdrawLeavesMeter) => list[METERS + index] = before[METERS + index],
        Some(WithdrawLeavesBill) => list[BILLS + index] = before[BILLS + index],
        _ => {}
    }
}

/// The month that withdraw is asked for.
pub fn withdrawn_month(month: u32) -> u32 {
    month.wrapping_add(u32::from(misread(WithdrawFromZero)))
}

/// Whether withdraw accepts any month from 1 to 12.
pub fn withdraw_passes(month: u32) -> bool {
    misread(WithdrawOfAbsent) && (1..=12).contains(&month)
}

/// 18 before 15.
pub fn place_first(list: &[u32], place: u32) -> Result<(), Refusal> {
    let beyond = list.first().is_some_and(|&count| place >= count);
    refuse_if(misread(YearPlaceFirst) && beyond, NO_SUCH_UNIT)
}

/// 15, 13, 18 and 19 in another order.
pub fn before_year_list(list: &[u32], sums: &[u64], place: u32, fits: bool) -> Result<(), Refusal> {
    match current() {
        Some(YearPlaceFirst) => place_first(list, place),
        Some(YearListFirst) => refuse_if(!fits, BUFFER_LENGTH),
        Some(YearListLast) => year(list, sums, place).map(|_| ()),
        Some(SumsBeforeTotals) => {
            check_book(list)?;
            check_sums(sums)
        }
        _ => Ok(()),
    }
}

/// The place that the year call reads, or nothing where 18 refuses it.
pub fn year_place(list: &[u32], place: u32) -> Option<Option<u32>> {
    let count = list[UNIT_COUNT];
    match current()? {
        YearPlaceOfCount => Some((place <= count && place < 160).then_some(place)),
        YearPlaceFromOne => Some((1..=count).contains(&place).then(|| place - 1)),
        _ => None,
    }
}

/// The year call's answer, bent.
pub fn year_answer(list: &[u32], sums: &[u64], place: u32, mut answer: YearSums) -> YearSums {
    match current() {
        Some(YearTwelve) => answer.months = 12,
        Some(YearOfMeters) => {
            let meters = list[METERS..BILLS].iter().filter(|&&meter| meter > 0);
            answer.months = meters.count() as u32;
        }
        Some(YearIn32Bits) => answer.sums = answer.sums.map(|sum| sum & 0xffff_ffff),
        _ => answer.sums = sums::read(list, sums, place).unwrap_or(answer.sums),
    }
    answer
}
