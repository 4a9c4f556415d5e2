//! Sheets at the edge: fields at the ends of their ranges, amounts at the
//! border of a refusal, ids next to each other, equal weights.

use crate::damage::put;
use crate::ranges::{Field, Range};
use crate::rng::Rng;
use crate::samples::random_sheet;
use crate::settle::hot_water_wh;
use crate::sheet::{build_sheet, Sheet, HEADER_BYTES, MAX_WH, ROW_BYTES};

/// A random sheet's bytes with one field at an end of a range or next to it.
pub fn sheet_at_an_end(rng: &mut Rng) -> Vec<u8> {
    let mut bytes = build_sheet(&random_sheet(rng));
    let range = Range::ALL[rng.below(Range::ALL.len() as u64) as usize];
    let (lowest, highest) = range.ends();
    let end = [lowest, highest][rng.below(2) as usize];
    let value = (u64::from(end) + rng.below(3)).saturating_sub(1);
    let rows = (bytes.len() - HEADER_BYTES) / ROW_BYTES;
    let place = match range.field() {
        Field::Header(offset, size) => (offset, size),
        Field::LaterInputs => (28 + 4 * rng.below(5) as usize, 4),
        Field::Row(offset, size) => {
            let row = rng.below(rows as u64) as usize;
            (HEADER_BYTES + ROW_BYTES * row + offset, size)
        }
    };
    put(&mut bytes, place, value);
    bytes
}

/// A sheet at the border of refusal 7, 8, 11 or 12, at a limit of step 4, or
/// with equal units.
pub fn border_sheet(rng: &mut Rng) -> Vec<u8> {
    let mut sheet = random_sheet(rng);
    match rng.below(7) {
        0 => meter_near_water(rng, &mut sheet),
        1 => meter_near_readings(rng, &mut sheet),
        2 => rest_near_zero(rng, &mut sheet),
        3 => bill_near_half(rng, &mut sheet),
        4 => id_near_the_one_before(rng, &mut sheet),
        5 => reading_near_limit(rng, &mut sheet),
        _ => equal_units(rng, &mut sheet),
    }
    build_sheet(&sheet)
}

/// One less, the same or one more.
fn near(rng: &mut Rng, value: u64) -> u32 {
    let value = (value + rng.below(3)).saturating_sub(1);
    value.min(u64::from(MAX_WH)) as u32
}

/// M next to H.
fn meter_near_water(rng: &mut Rng, sheet: &mut Sheet) {
    sheet.header.shared_meter_wh = near(rng, hot_water_wh(sheet));
}

/// Model 5, all read, M next to C + H.
fn meter_near_readings(rng: &mut Rng, sheet: &mut Sheet) {
    sheet.header.model = 5;
    sheet.header.base_percent = 0;
    sheet.header.unmetered_factor = 30;
    let mut sum = hot_water_wh(sheet);
    for unit in &mut sheet.units {
        unit.status = 0;
        unit.reading = rng.edge(0, 25_000_000) as u32;
        sum += u64::from(unit.reading);
    }
    sheet.header.shared_meter_wh = near(rng, sum);
}

/// Two units: with f 30 and full KF the first leaves nothing of 3 × its area.
fn rest_near_zero(rng: &mut Rng, sheet: &mut Sheet) {
    if sheet.header.model < 3 || sheet.units.len() < 2 {
        return;
    }
    sheet.header.unmetered_factor = 30;
    sheet.header.unit_count = 2;
    sheet.units.truncate(2);
    let area = rng.between(1, 4_000);
    let [first, second] = &mut sheet.units[..] else {
        return;
    };
    first.status = [1, 4][rng.below(2) as usize];
    first.reading = 0;
    first.location_factor = 1_000;
    first.heated_area = area as u32;
    second.status = 0;
    second.heated_area = near(rng, 2 * area).max(1);
}

/// Two units of model 3 or 4, the first next to one of its limits.
fn reading_near_limit(rng: &mut Rng, sheet: &mut Sheet) {
    if sheet.units.len() < 2 {
        return;
    }
    sheet.header.model = rng.between(3, 4) as u8;
    sheet.header.base_percent = 20;
    sheet.header.unmetered_factor = 30;
    sheet.header.unit_count = 2;
    sheet.units.truncate(2);
    // 80 × b × A + 20 × p × B is 300 × p × B where the second unit has six
    // times the area and an equal reading, 40 × p × B where it has an equal
    // area and seven times the reading.
    let (area, reading) = (rng.between(1, 1_000), rng.between(1, 7_000));
    let (areas, readings) = if rng.once_in(2) {
        ([area, 6 * area], [reading, reading])
    } else {
        ([area, area], [reading, 7 * reading])
    };
    for (place, unit) in sheet.units.iter_mut().enumerate() {
        unit.status = 0;
        unit.reading = readings[place] as u32;
        if sheet.header.model == 3 {
            unit.heated_area = areas[place] as u32;
        } else {
            unit.riser_surface = areas[place] as u32;
        }
    }
    sheet.units[0].reading = near(rng, reading);
}

/// M and price whose product ends in half a cent.
fn bill_near_half(rng: &mut Rng, sheet: &mut Sheet) {
    sheet.header.source = 0;
    sheet.header.hot_water_inputs = [0; 6];
    sheet.header.common_water_percent = 0;
    sheet.header.loss_factor = 0;
    for unit in &mut sheet.units {
        unit.water_class = 0;
        unit.litres = 0;
        unit.persons = 0;
    }
    sheet.header.price = 50_000;
    let half = 10 + 20 * rng.below(1_000);
    sheet.header.shared_meter_wh = near(rng, half);
}

/// An id next to the one before it, sometimes in a row with a bad field.
fn id_near_the_one_before(rng: &mut Rng, sheet: &mut Sheet) {
    if sheet.units.len() < 2 {
        sheet.units[0].id = 0;
        return;
    }
    let row = rng.between(1, sheet.units.len() as u64 - 1) as usize;
    sheet.units[row].id = near(rng, sheet.units[row - 1].id.into());
    if rng.once_in(3) {
        let other = rng.below(sheet.units.len() as u64) as usize;
        sheet.units[[row, other][rng.below(2) as usize]].reserved = 1;
    }
}

/// Every unit like the first, and a small M.
fn equal_units(rng: &mut Rng, sheet: &mut Sheet) {
    let first = sheet.units[0].clone();
    for unit in &mut sheet.units {
        let id = unit.id;
        *unit = first.clone();
        unit.id = id;
    }
    if rng.once_in(2) && sheet.header.model >= 3 {
        sheet.units[0].status = rng.between(0, 4) as u8;
        sheet.units[0].reading = 0;
    }
    if rng.once_in(2) {
        let meter = u64::from(sheet.header.shared_meter_wh);
        sheet.header.shared_meter_wh = (hot_water_wh(sheet) + rng.below(200)).min(meter) as u32;
    }
}
