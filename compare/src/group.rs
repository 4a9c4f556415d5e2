//! Request 2026-04: several buildings on one meter, refusals 21 and 22.

use crate::apportion::{apportion, wide_shares};
use crate::refusal::*;
use crate::rules::{RuleSet, NEWEST};
use crate::settle::{bill, check_month, common_heat, numbers};
use crate::sheet::{check, read_sheet, Sheet, MAX_UNITS, MAX_WH, ROW_BYTES};
use crate::weights::{heated_area, sum};

pub const MAX_BUILDINGS: usize = 12;

/// Where a building's sheet lies in the buffer.
#[repr(C)]
#[derive(Clone, Copy, Debug, PartialEq, Eq)]
pub struct Building {
    pub offset: u64,
    pub length: u64,
}

/// Settles a group for a statement list of `list_len` numbers: 22, each
/// building's 1 to 12 with 20, 22 again, 13, 21. Gives back the statements,
/// building after building.
pub fn settle_group(
    buffer: &[u8],
    buildings: &[Building],
    shared_wh: u64,
    list_len: usize,
) -> Result<Vec<u32>, Refusal> {
    refuse_if(!buildings_fit(buffer, buildings, shared_wh), BAD_GROUP)?;
    let sheets = read_buildings(buffer, buildings)?;
    refuse_if(!same_month_and_price(&sheets), BAD_GROUP)?;
    refuse_if(list_len != 8 * unit_count(&sheets), BUFFER_LENGTH)?;
    let rules = NEWEST;
    let shares = difference_shares(&sheets, shared_wh, rules);
    let below_zero = goes_below_zero(&sheets, &shares, rules);
    refuse_if(below_zero, NEGATIVE_COMMON_HEAT)?;
    Ok(statements(&sheets, &shares, shared_wh, rules))
}

/// Settles a group into a list; a refused call leaves it.
pub fn settle_group_into(
    buffer: &[u8],
    buildings: &[Building],
    shared_wh: u64,
    list: &mut [u32],
) -> Result<(), Refusal> {
    let numbers = settle_group(buffer, buildings, shared_wh, list.len())?;
    list.copy_from_slice(&numbers);
    Ok(())
}

/// 1 to 12 buildings, a shared reading within its limit, every sheet inside
/// the buffer.
fn buildings_fit(buffer: &[u8], buildings: &[Building], shared_wh: u64) -> bool {
    let count_fits = (1..=MAX_BUILDINGS).contains(&buildings.len());
    let reading_fits = shared_wh <= u64::from(MAX_WH);
    count_fits && reading_fits && buildings.iter().all(|building| lies_in(buffer, building))
}

fn lies_in(buffer: &[u8], building: &Building) -> bool {
    let end = u128::from(building.offset) + u128::from(building.length);
    end <= buffer.len() as u128
}

/// Each building's own refusals 1 to 12 with 20, in list order.
fn read_buildings(buffer: &[u8], buildings: &[Building]) -> Result<Vec<Sheet>, Refusal> {
    let mut sheets = Vec::new();
    for (place, building) in buildings.iter().enumerate() {
        let start = building.offset as usize;
        let bytes = &buffer[start..start + building.length as usize];
        let sheet = read_building(bytes).map_err(|refusal| raised(refusal, place))?;
        sheets.push(sheet);
    }
    Ok(sheets)
}

fn read_building(bytes: &[u8]) -> Result<Sheet, Refusal> {
    check(bytes, ROW_BYTES)?;
    let sheet = read_sheet(bytes);
    check_month(&sheet)?;
    Ok(sheet)
}

/// A refusal's place raised by 160 × the building's place from 0.
fn raised(refusal: Refusal, building: usize) -> Refusal {
    let place = refusal.place + (MAX_UNITS * building) as u32;
    Refusal { place, ..refusal }
}

/// Whether every month and price is the first building's.
fn same_month_and_price(sheets: &[Sheet]) -> bool {
    let first = &sheets[0].header;
    let mut headers = sheets.iter().map(|sheet| &sheet.header);
    headers.all(|header| header.month == first.month && header.price == first.price)
}

fn unit_count(sheets: &[Sheet]) -> usize {
    sheets.iter().map(|sheet| sheet.units.len()).sum()
}

/// Shared reading less the sum of building readings.
pub fn difference(sheets: &[Sheet], shared_wh: u64) -> i64 {
    let readings = sheets.iter().map(building_reading);
    shared_wh as i64 - readings.sum::<i64>()
}

fn building_reading(sheet: &Sheet) -> i64 {
    i64::from(sheet.header.shared_meter_wh)
}

/// The area of all of a building's units.
pub fn total_area(sheet: &Sheet) -> u64 {
    sum(&sheet.units, heated_area)
}

/// The difference's size divided by the total areas, each share with the
/// difference's sign.
pub fn difference_shares(sheets: &[Sheet], shared_wh: u64, rules: RuleSet) -> Vec<i64> {
    let difference = difference(sheets, shared_wh);
    let areas: Vec<u64> = sheets.iter().map(total_area).collect();
    wide_shares(difference.unsigned_abs(), &areas, rules)
        .into_iter()
        .map(|share| difference.signum() * share as i64)
        .collect()
}

/// Step 2's common heat with the building's share of the difference.
pub fn adjusted_common_heat(sheet: &Sheet, share: i64, rules: RuleSet) -> i64 {
    common_heat(sheet, rules) as i64 + share
}

/// M with the building's share of the difference.
pub fn adjusted_reading(sheet: &Sheet, share: i64) -> i64 {
    building_reading(sheet) + share
}

/// Refusal 21.
fn goes_below_zero(sheets: &[Sheet], shares: &[i64], rules: RuleSet) -> bool {
    let mut buildings = sheets.iter().zip(shares);
    buildings.any(|(sheet, &share)| adjusted_common_heat(sheet, share, rules) < 0)
}

/// The shared bill by the sheets' price, over the adjusted readings, and each
/// building's part within it.
fn statements(sheets: &[Sheet], shares: &[i64], shared_wh: u64, rules: RuleSet) -> Vec<u32> {
    let bill_cents = bill(shared_wh, sheets[0].header.price);
    let buildings = || sheets.iter().zip(shares);
    let readings: Vec<u64> = buildings()
        .map(|(sheet, &share)| adjusted_reading(sheet, share) as u64)
        .collect();
    let parts = apportion(u64::from(bill_cents), &readings, rules);
    buildings()
        .zip(parts)
        .flat_map(|((sheet, &share), part)| {
            let common_heat = adjusted_common_heat(sheet, share, rules) as u64;
            numbers(sheet, rules, common_heat, part)
        })
        .collect()
}
