//! Faults of a group: in its list of buildings, in its reading or its lent
//! list, and sheets that are refused.

use crate::damage::{damage, put};
use crate::faults::spoil;
use crate::group::{Building, MAX_BUILDINGS};
use crate::groups::Group;
use crate::rng::Rng;
use crate::settle::hot_water_wh;
use crate::sheet::{build_sheet, Sheet, Unit, HEADER_BYTES, MAX_WH};
use crate::weights::{reading, sum};

#[derive(Clone, Copy, Debug, PartialEq, Eq)]
pub enum Fault {
    Count,
    Reading,
    Outside,
    Sheet,
    Month,
    Price,
    List,
}

impl Fault {
    /// Mostly a sheet, which has the most faults of its own.
    pub fn random(rng: &mut Rng) -> Fault {
        match rng.below(16) {
            0 => Fault::Count,
            1 => Fault::Reading,
            2 => Fault::Outside,
            3 => Fault::Month,
            4 => Fault::Price,
            5 | 6 => Fault::List,
            _ => Fault::Sheet,
        }
    }
}

/// A fault outside the sheets; the others leave the group as it is.
pub fn spoil_list(rng: &mut Rng, group: &mut Group, fault: Fault) {
    match fault {
        Fault::Count => spoil_count(rng, &mut group.buildings),
        Fault::Reading => group.shared_wh = reading_past_limit(rng),
        Fault::Outside => spoil_place(rng, group),
        Fault::List => {
            group.list_len = match rng.below(4) {
                0 => group.list_len + 1,
                1 => group.list_len.saturating_sub(1),
                2 => group.list_len + 8,
                _ => rng.below(2 * group.list_len as u64 + 2) as usize,
            }
        }
        Fault::Sheet | Fault::Month | Fault::Price => {}
    }
}

/// None, 13, or more; 256 more look like as many as there were.
fn spoil_count(rng: &mut Rng, buildings: &mut Vec<Building>) {
    let count = match rng.below(8) {
        0..=2 => 0,
        3..=5 => MAX_BUILDINGS + 1,
        6 => rng.between(14, 40) as usize,
        _ => buildings.len() + 256,
    };
    let Some(&last) = buildings.last() else {
        return;
    };
    buildings.resize(count, last);
}

fn reading_past_limit(rng: &mut Rng) -> u64 {
    let limit = u64::from(MAX_WH);
    match rng.below(6) {
        0 | 1 => limit + 1,
        2 => (1 << 32) + rng.edge(0, limit),
        3 => u64::MAX - rng.below(2),
        4 => 1 << 63,
        _ => limit + rng.between(1, limit),
    }
}

/// An offset and length that leave the buffer, or just don't.
fn spoil_place(rng: &mut Rng, group: &mut Group) {
    let end = group.buffer.len() as u64;
    let Some(last) = group.buildings.len().checked_sub(1) else {
        return;
    };
    let building = &mut group.buildings[rng.below(last as u64 + 1) as usize];
    match rng.below(12) {
        0 | 1 => building.length = end - building.offset.min(end) + 1,
        2 => building.offset = end.saturating_sub(building.length) + 1,
        3 => (building.offset, building.length) = (end + 1, 0),
        // Nothing of the buffer's end is still inside.
        4 => (building.offset, building.length) = (end, 0),
        5 => (building.offset, building.length) = (u64::MAX, rng.below(3)),
        6 => building.length = u64::MAX - rng.below(3),
        7 => building.offset = building.offset.wrapping_add(1 << 32),
        8 => building.length = building.length.wrapping_add(1 << 32),
        9 => (building.offset, building.length) = (1 << 63, 1 << 63),
        // The sum wraps to where the sheet ended.
        10 => {
            let end = building.offset.wrapping_add(building.length);
            building.offset = u64::MAX - rng.below(1_000);
            building.length = end.wrapping_sub(building.offset);
        }
        _ => building.offset = building.length.min(end).wrapping_neg(),
    }
}

/// A sheet's bytes with fields past their ranges, or refused in any way.
pub fn faulty_bytes(rng: &mut Rng, sheet: &Sheet) -> Vec<u8> {
    if rng.below(5) > 1 {
        return spoil_sheet(rng, sheet);
    }
    let mut bytes = build_sheet(sheet);
    spoil(rng, &mut bytes);
    bytes
}

/// A refused sheet, made from one that settles; now and then it settles still.
pub fn spoil_sheet(rng: &mut Rng, sheet: &Sheet) -> Vec<u8> {
    let mut sheet = sheet.clone();
    match rng.below(24) {
        0 | 1 => water_past_meter(rng, &mut sheet),
        2 | 3 => no_divisor(rng, &mut sheet),
        4 | 5 => none_read(rng, &mut sheet),
        6 | 7 => meters_past_heat(rng, &mut sheet),
        8 | 9 => overcharged(&mut sheet),
        10 => equal_ids(&mut sheet),
        choice => return spoil_bytes(rng, choice, build_sheet(&sheet)),
    }
    build_sheet(&sheet)
}

fn spoil_bytes(rng: &mut Rng, choice: u64, mut bytes: Vec<u8>) -> Vec<u8> {
    match choice {
        11 => bytes.truncate(rng.below(HEADER_BYTES as u64) as usize),
        12 => put(&mut bytes, (rng.below(4) as usize, 1), rng.below(256)),
        13 => put(&mut bytes, (4, 2), [0, 2, 3, 257][rng.below(4) as usize]),
        14 => match rng.below(3) {
            0 => bytes.push(0),
            1 => bytes.truncate(bytes.len() - rng.between(1, 32) as usize),
            _ => bytes.resize(bytes.len() + 32, 0),
        },
        15 => damage(rng, &mut bytes),
        _ => spoil(rng, &mut bytes),
    }
    bytes
}

/// Source 1, with hot water of any amount.
fn set_water(sheet: &mut Sheet, wh: u64) {
    sheet.header.source = 1;
    sheet.header.loss_factor = 0;
    sheet.header.hot_water_inputs = [wh as u32, 0, 0, 0, 0, 0];
}

/// 8.
fn water_past_meter(rng: &mut Rng, sheet: &mut Sheet) {
    let meter = u64::from(sheet.header.shared_meter_wh.min(MAX_WH - 1));
    sheet.header.shared_meter_wh = meter as u32;
    let highest = u64::from(MAX_WH);
    set_water(sheet, rng.edge(meter + 1, highest));
}

/// 9, by water or by loads.
fn no_divisor(rng: &mut Rng, sheet: &mut Sheet) {
    if sheet.header.model == 1 && rng.once_in(2) {
        for unit in &mut sheet.units {
            unit.heat_load_w = 0;
        }
        return;
    }
    sheet.header.shared_meter_wh = sheet.header.shared_meter_wh.max(1);
    set_water(sheet, 1);
    for unit in &mut sheet.units {
        (unit.water_class, unit.litres, unit.persons) = (0, 0, 0);
    }
}

/// Another model, with v and f as it needs them.
fn set_model(sheet: &mut Sheet, model: u8) {
    sheet.header.model = model;
    sheet.header.base_percent = if model == 3 { 25 } else { 0 };
    sheet.header.unmetered_factor = 30;
}

/// 10; in model 4 it is 9.
fn none_read(rng: &mut Rng, sheet: &mut Sheet) {
    set_model(sheet, [3, 5, 5, 4][rng.below(4) as usize]);
    for unit in &mut sheet.units {
        unit.status = rng.between(1, 4) as u8;
        unit.reading = 0;
    }
}

/// 11, by 1 Wh.
fn meters_past_heat(rng: &mut Rng, sheet: &mut Sheet) {
    set_model(sheet, 5);
    for unit in &mut sheet.units {
        unit.status = 0;
        unit.reading = rng.between(1, 1_000) as u32;
    }
    let needed = hot_water_wh(sheet) + sum(&sheet.units, reading);
    sheet.header.shared_meter_wh = (needed - 1).min(u64::from(MAX_WH)) as u32;
}

/// 12: a last unit without a device beside little that is read.
fn overcharged(sheet: &mut Sheet) {
    set_model(sheet, 3);
    for unit in &mut sheet.units {
        (unit.status, unit.reading, unit.heated_area) = (0, 0, 1);
    }
    let last = sheet.units.last().map_or(0, |unit| unit.id);
    if sheet.units.len() == 1 {
        sheet.header.unit_count = 2;
        sheet.units.push(Unit {
            id: last.max(1) + 1,
            location_factor: 1_000,
            ..Unit::default()
        });
    }
    if let Some(unit) = sheet.units.last_mut() {
        (unit.status, unit.location_factor, unit.heated_area) = (1, 1_000, 10_000);
    }
}

/// 7, at the last row.
fn equal_ids(sheet: &mut Sheet) {
    if sheet.units.len() == 1 {
        sheet.header.unit_count = 2;
        sheet.units.push(sheet.units[0].clone());
    }
    let count = sheet.units.len();
    sheet.units[count - 1].id = sheet.units[count - 2].id;
}
