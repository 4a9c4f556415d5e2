//! Sheets and totals with equal remainders of different weights (request
//! 2026-06).

use crate::rng::Rng;
use crate::rules::NEWEST;
use crate::samples::random_sheet;
use crate::sheet::{build_sheet, Sheet, MAX_WH};
use crate::weights::*;

/// Prices that make a bill's remainders few: M times a round fraction.
const ROUND_PRICES: [u32; 4] = [100_000, 100_000, 50_000, 20_000];

/// A total by which many remainders are equal: a fraction of the sum, with the
/// weights cut by their common divisor.
pub fn tied_total(rng: &mut Rng, weights: &[u64]) -> u64 {
    let divisor = weights.iter().copied().fold(0, common_divisor).max(1);
    let sum = weights.iter().sum::<u64>() / divisor;
    let parts: Vec<u64> = (2..=6).filter(|&parts| sum.is_multiple_of(parts)).collect();
    if parts.is_empty() || sum > 100_000_000 {
        return rng.below(sum.min(1_000) + 1);
    }
    let parts = parts[rng.below(parts.len() as u64) as usize];
    sum / parts * rng.between(1, parts - 1) + sum * rng.below(4)
}

fn common_divisor(a: u64, b: u64) -> u64 {
    if b == 0 {
        a
    } else {
        common_divisor(b, a % b)
    }
}

/// A price at which many energies have equal remainders, M being a multiple of
/// 100.
pub fn round_price(rng: &mut Rng) -> u32 {
    ROUND_PRICES[rng.below(4) as usize]
}

/// A sheet with such remainders.
pub fn tied_sheet(rng: &mut Rng) -> Vec<u8> {
    let mut sheet = random_sheet(rng);
    tie(rng, &mut sheet);
    build_sheet(&sheet)
}

/// Sets all of a sheet but month and ids, so that one of its divisions has many
/// equal remainders; often the bill too.
pub fn tie(rng: &mut Rng, sheet: &mut Sheet) {
    set_units(rng, sheet);
    match rng.below(10) {
        0 => tie_unit_heat(rng, sheet),
        1 => tie_unread_heat(rng, sheet),
        2 | 3 => tie_read_heat(rng, sheet),
        4 => tie_common_heat(rng, sheet),
        5 | 6 => tie_water(rng, sheet),
        _ => tie_bill(rng, sheet),
    }
}

/// A size a unit, from 1 on; often rising, so that the earlier unit is the
/// smaller.
fn sizes(rng: &mut Rng, count: usize, highest: u64) -> Vec<u32> {
    let size = |_| rng.between(1, highest) as u32;
    let mut sizes: Vec<u32> = (0..count).map(size).collect();
    if rng.once_in(2) {
        sizes.sort_unstable();
    }
    sizes
}

/// Few or many different weights, all units read, no readings, no hot water.
fn set_units(rng: &mut Rng, sheet: &mut Sheet) {
    let highest = [4, 12, 1_000][rng.below(3) as usize];
    let [areas, risers, loads] = [(); 3].map(|()| sizes(rng, sheet.units.len(), highest));
    for (place, unit) in sheet.units.iter_mut().enumerate() {
        unit.status = 0;
        unit.water_class = 0;
        unit.location_factor = [250, 500, 1_000][rng.below(3) as usize];
        unit.heated_area = areas[place];
        unit.riser_surface = risers[place];
        unit.heat_load_w = loads[place];
        unit.reading = 0;
        unit.litres = 0;
        unit.persons = 0;
    }
    let header = &mut sheet.header;
    header.source = 0;
    header.common_water_percent = 0;
    header.loss_factor = 0;
    header.hot_water_inputs = [0; 6];
    let model = rng.between(1, 5) as u8;
    set_model(rng, sheet, model);
}

/// A model, with v and f as it needs them and without common heat.
fn set_model(rng: &mut Rng, sheet: &mut Sheet, model: u8) {
    let header = &mut sheet.header;
    header.model = model;
    header.common_heat_percent = 0;
    header.base_percent = match model {
        3 => rng.between(20, 30) as u8,
        4 => rng.between(0, 60) as u8,
        _ => 0,
    };
    header.unmetered_factor = if model >= 3 { 30 } else { 0 };
}

fn set_meter(sheet: &mut Sheet, wh: u64) {
    sheet.header.shared_meter_wh = wh.min(u64::from(MAX_WH)) as u32;
}

/// Step 3, models 1 and 2.
fn tie_unit_heat(rng: &mut Rng, sheet: &mut Sheet) {
    let model = rng.between(1, 2) as u8;
    set_model(rng, sheet, model);
    let total = tied_total(rng, &unmetered_model_weights(sheet));
    set_meter(sheet, total);
}

/// Step 3, models 3 to 5: the first unit is read.
fn tie_unread_heat(rng: &mut Rng, sheet: &mut Sheet) {
    let model = rng.between(3, 5) as u8;
    set_model(rng, sheet, model);
    let often = rng.between(1, 3);
    for unit in &mut sheet.units[1..] {
        if rng.once_in(often) {
            unit.status = rng.between(1, 4) as u8;
        }
    }
    // The rest stays above 0.
    let unread: u64 = unread_weights(sheet).iter().sum();
    let first = &mut sheet.units[0];
    first.heated_area = (u64::from(first.heated_area) + unread / 10_000).min(10_000) as u32;
    let mut weights = unread_weights(sheet);
    weights.push(whole_weight(sheet).saturating_sub(weights.iter().sum()));
    let total = tied_total(rng, &weights);
    set_meter(sheet, total);
}

/// Step 4: readings in proportion to p or s, in model 5 any, or none. One unit
/// may be not read; in model 5 one is.
fn tie_read_heat(rng: &mut Rng, sheet: &mut Sheet) {
    let last = sheet.units.len() - 1;
    let model = rng.between(3, if last > 0 { 5 } else { 4 }) as u8;
    set_model(rng, sheet, model);
    if last > 0 && (model == 5 || rng.once_in(3)) {
        sheet.units[last].status = 2;
    }
    let times = rng.below(6) as u32;
    for unit in sheet.units.iter_mut().filter(|unit| unit.status == 0) {
        unit.reading = match model {
            3 => times * unit.heated_area,
            4 => times * unit.riser_surface,
            _ => times.min(1) * rng.below(13) as u32,
        };
    }
    let pool = tied_total(rng, &read_weights(sheet, NEWEST));
    let whole = whole_weight(sheet);
    let rest = whole - unread_weights(sheet).iter().sum::<u64>();
    set_meter(sheet, (pool * whole + rest / 2) / rest);
}

/// Step 5: half of the heat, or in model 5 what the meters leave.
fn tie_common_heat(rng: &mut Rng, sheet: &mut Sheet) {
    let model = rng.between(3, 5) as u8;
    set_model(rng, sheet, model);
    let total = tied_total(rng, &common_heat_weights(sheet));
    if model < 5 {
        sheet.header.common_heat_percent = 50;
        return set_meter(sheet, 2 * total);
    }
    for unit in &mut sheet.units {
        unit.reading = rng.below(100) as u32;
    }
    let meter = total + sum(&sheet.units, reading);
    set_meter(sheet, meter);
}

/// Step 7.
fn tie_bill(rng: &mut Rng, sheet: &mut Sheet) {
    if sheet.header.model >= 3 {
        sheet.header.common_heat_percent = rng.between(10, 50) as u8;
    }
    sheet.header.price = round_price(rng);
    set_meter(sheet, 100 * rng.between(1, 200));
}

/// Step 6, all water the units' or half of it common.
fn tie_water(rng: &mut Rng, sheet: &mut Sheet) {
    sheet.header.source = 1;
    let classes = rng.below(3);
    let [litres, persons] = [12, 6].map(|highest| sizes(rng, sheet.units.len(), highest));
    for (place, unit) in sheet.units.iter_mut().enumerate() {
        unit.water_class = [1, 2, rng.between(1, 2)][classes as usize] as u8;
        unit.persons = persons[place] as u16;
        if unit.water_class == 1 {
            unit.litres = litres[place];
        }
    }
    let hot_water = if rng.once_in(2) {
        sheet.header.common_water_percent = 50;
        2 * tied_total(rng, &common_water_weights(sheet))
    } else {
        tied_total(rng, &unit_water_weights(sheet))
    };
    sheet.header.hot_water_inputs[0] = hot_water.min(u64::from(MAX_WH)) as u32;
    sheet.header.price = round_price(rng);
    set_meter(sheet, hot_water + rng.below(100));
}
