//! Wrong readings of request 2026-04: the shared bill and the statements.

use crate::apportion::{apportion, wide_shares};
use crate::group::{adjusted_common_heat, adjusted_reading, total_area};
use crate::rules::{RuleSet, NEWEST};
use crate::settle::{bill, common_heat, costs, numbers, statement};
use crate::sheet::Sheet;
use crate::weights::{heated_area, hot_water};
use crate::{current, misread, Reading::*};

pub fn rules() -> Option<RuleSet> {
    match current()? {
        GroupByVersion1 => Some(RuleSet::Archive1),
        GroupByVersion2 => Some(RuleSet::Archive2),
        _ => None,
    }
}

/// The rules of the buildings' months, where others divide the difference and the
/// bill.
pub fn rules_of_months() -> Option<RuleSet> {
    misread(GroupMonthsByVersion2).then_some(RuleSet::Archive2)
}

/// The buildings' parts of the bill.
pub fn parts(sheets: &[Sheet], bill_cents: u32, readings: &[u64]) -> Option<Vec<u32>> {
    let price = sheets[0].header.price;
    let meters: Vec<u64> = sheets
        .iter()
        .map(|s| u64::from(s.header.shared_meter_wh))
        .collect();
    let whole = u64::from(bill_cents);
    let last = sheets.len() - 1;
    match current()? {
        OwnBillsKept => Some(meters.iter().map(|&meter| bill(meter, price)).collect()),
        BillByOwnMeters => Some(apportion(whole, &meters, NEWEST)),
        BillByTotalAreas => {
            let areas: Vec<u64> = sheets.iter().map(total_area).collect();
            Some(apportion(whole, &areas, NEWEST))
        }
        BillRoundedByBuilding => Some(readings.iter().map(|&wh| bill(wh, price)).collect()),
        BillOfMeterSum => Some(apportion(
            u64::from(bill(meters.iter().sum(), price)),
            readings,
            NEWEST,
        )),
        BillLeftoverToLastBuilding => {
            let sum: u64 = readings.iter().sum();
            let down = |&wh: &u64| (whole * wh / sum.max(1)) as u32;
            let mut parts: Vec<u32> = readings.iter().map(down).collect();
            parts[last] += bill_cents - parts.iter().sum::<u32>();
            Some(parts)
        }
        _ => None,
    }
}

/// Statements that are made otherwise.
pub fn statements(sheets: &[Sheet], shares: &[i64], bill_cents: u32) -> Option<Vec<u32>> {
    let right = energies(sheets, shares);
    let readings: Vec<u64> = right.iter().map(|building| reading(building)).collect();
    let parts = apportion(u64::from(bill_cents), &readings, NEWEST);
    match current()? {
        BillOverAllEnergies => {
            let all: Vec<[u32; 4]> = right.concat();
            Some(statement(&all, &costs(bill_cents, &all, NEWEST)))
        }
        BillByOwnEnergies => {
            let own = energies(sheets, &vec![0; sheets.len()]);
            let buildings = right.iter().zip(&own).zip(parts);
            let numbers =
                buildings.map(|((all, own), part)| statement(all, &costs(part, own, NEWEST)));
            Some(numbers.collect::<Vec<_>>().concat())
        }
        LastBuildingFirst => {
            let buildings = right.iter().zip(parts).rev();
            let numbers = buildings.map(|(all, part)| statement(all, &costs(part, all, NEWEST)));
            Some(numbers.collect::<Vec<_>>().concat())
        }
        DifferenceByAllUnits => Some(by_all_units(sheets, shares, parts)),
        DifferenceInMeter => in_meter(sheets, shares, &parts),
        DifferenceAfterStep5 => Some(after_step_5(sheets, shares, &parts)),
        _ => None,
    }
}

/// Each building's energies with its share of the difference.
fn energies(sheets: &[Sheet], shares: &[i64]) -> Vec<Vec<[u32; 4]>> {
    let buildings = sheets.iter().zip(shares);
    let energies = buildings.map(|(sheet, &share)| {
        let common_heat = adjusted_common_heat(sheet, share, NEWEST) as u64;
        let numbers = numbers(sheet, NEWEST, common_heat, 0);
        let units = numbers.chunks(8);
        units
            .map(|unit| [unit[0], unit[1], unit[2], unit[3]])
            .collect()
    });
    energies.collect()
}

fn reading(energies: &[[u32; 4]]) -> u64 {
    energies.iter().flatten().map(|&wh| u64::from(wh)).sum()
}

/// The difference divided by area over the units of all buildings at once.
fn by_all_units(sheets: &[Sheet], shares: &[i64], parts: Vec<u32>) -> Vec<u32> {
    let difference: i64 = shares.iter().sum();
    let areas: Vec<u64> = sheets
        .iter()
        .flat_map(|s| &s.units)
        .map(heated_area)
        .collect();
    let mut unit_shares = wide_shares(difference.unsigned_abs(), &areas, NEWEST).into_iter();
    let mut own = energies(sheets, &vec![0; sheets.len()]);
    for unit in own.iter_mut().flatten() {
        let share = unit_shares.next().expect("a share a unit") as i64;
        unit[1] = (i64::from(unit[1]) + difference.signum() * share).max(0) as u32;
    }
    let buildings = own.iter().zip(parts);
    let numbers = buildings.map(|(all, part)| statement(all, &costs(part, all, NEWEST)));
    numbers.collect::<Vec<_>>().concat()
}

/// The share added to each unit's part of the common heat, divided apart.
fn after_step_5(sheets: &[Sheet], shares: &[i64], parts: &[u32]) -> Vec<u32> {
    let mut own = energies(sheets, &vec![0; sheets.len()]);
    let buildings = own.iter_mut().zip(sheets).zip(shares).zip(parts);
    let numbers = buildings.map(|(((units, sheet), &share), &part)| {
        let areas: Vec<u64> = sheet.units.iter().map(heated_area).collect();
        for (unit, size) in units
            .iter_mut()
            .zip(wide_shares(share.unsigned_abs(), &areas, NEWEST))
        {
            unit[1] = (i64::from(unit[1]) + share.signum() * size as i64).max(0) as u32;
        }
        statement(units, &costs(part, units, NEWEST))
    });
    numbers.collect::<Vec<_>>().concat()
}

/// The share added to M, and the month settled with that.
fn in_meter(sheets: &[Sheet], shares: &[i64], parts: &[u32]) -> Option<Vec<u32>> {
    let mut all = Vec::new();
    for ((sheet, &share), &part) in sheets.iter().zip(shares).zip(parts) {
        let mut sheet = sheet.clone();
        let meter = adjusted_reading(&sheet, share) as u64;
        let (upper, lower) = hot_water(&sheet.header);
        if meter < upper.div_ceil(lower) {
            return None;
        }
        sheet.header.shared_meter_wh = meter as u32;
        all.extend(numbers(&sheet, NEWEST, common_heat(&sheet, NEWEST), part));
    }
    Some(all)
}
