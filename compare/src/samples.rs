//! Sheets that pass refusals 1 to 7 and 20, fixed and random.

use crate::rng::Rng;
use crate::settle::hot_water_wh;
use crate::sheet::{Header, Sheet, Unit, MAX_WH};

/// A sheet of three units with middling values and no hot water: the first of
/// water class 0, then 1 and 2, as far as the source allows.
pub fn good_sheet(model: u8, source: u8) -> Sheet {
    let has_devices = model >= 3;
    let unit = |row: u32| {
        let water_class = if source == 0 { 0 } else { row as u8 };
        Unit {
            id: 100 + row,
            water_class,
            location_factor: 900,
            heated_area: 600 + row,
            riser_surface: 70,
            heat_load_w: 8_000,
            reading: if has_devices { 400 + row } else { 0 },
            litres: if water_class == 1 { 3_000 } else { 0 },
            persons: if water_class > 0 { 4 } else { 0 },
            ..Unit::default()
        }
    };
    let header = Header {
        month: 5,
        model,
        unit_count: 3,
        source,
        base_percent: if model == 3 { 25 } else { 0 },
        common_heat_percent: if has_devices { 10 } else { 0 },
        unmetered_factor: if has_devices { 30 } else { 0 },
        loss_factor: if source == 2 { 100 } else { 0 },
        shared_meter_wh: 5_000_000,
        price: 12_345,
        ..Header::default()
    };
    Sheet {
        header,
        units: (0..3).map(unit).collect(),
    }
}

/// A sheet of any model, source and size.
pub fn random_sheet(rng: &mut Rng) -> Sheet {
    let model = rng.between(1, 5) as u8;
    let source = rng.below(4) as u8;
    let unit_count = match rng.below(20) {
        0 => 160,
        1 => rng.between(100, 160),
        2..=4 => rng.between(10, 60),
        _ => rng.between(1, 9),
    };
    let ids = random_ids(rng, unit_count as usize);
    let month = rng.between(1, 12) as u8;
    random_sheet_of(rng, month, model, source, &ids)
}

/// Strictly increasing ids.
pub fn random_ids(rng: &mut Rng, unit_count: usize) -> Vec<u32> {
    let widest_step = if rng.once_in(4) { 26_000_000 } else { 3 };
    let mut id = if rng.once_in(4) { 0 } else { rng.below(1_000) };
    let mut ids = Vec::new();
    for _ in 0..unit_count {
        ids.push(id as u32);
        id += rng.between(1, widest_step);
    }
    ids
}

/// A sheet of a given month, model, source and building.
pub fn random_sheet_of(rng: &mut Rng, month: u8, model: u8, source: u8, ids: &[u32]) -> Sheet {
    random_metered_sheet(rng, [month, model, source], ids, random_meter)
}

/// The same with month, model and source in one, and with an M of its own.
pub fn random_metered_sheet(
    rng: &mut Rng,
    kind: [u8; 3],
    ids: &[u32],
    meter: impl FnOnce(&mut Rng) -> u32,
) -> Sheet {
    let header = random_header(rng, kind, ids.len(), meter);
    let mut sheet = Sheet {
        header,
        units: Vec::new(),
    };
    let style = Style::random(rng, &sheet, ids.len());
    for &id in ids {
        let unit = random_unit(rng, &sheet.header, &style, id);
        sheet.units.push(unit);
    }
    sheet
}

fn random_header(
    rng: &mut Rng,
    [month, model, source]: [u8; 3],
    unit_count: usize,
    meter: impl FnOnce(&mut Rng) -> u32,
) -> Header {
    let mut edge = |low: u64, high: u64| rng.edge(low, high) as u8;
    let (base_percent, common_heat_percent, unmetered_factor) = match model {
        1 | 2 => (0, 0, 0),
        3 => (edge(20, 30), edge(0, 50), edge(25, 35)),
        4 => (edge(0, 60), edge(0, 50), edge(25, 35)),
        _ => (0, edge(0, 50), edge(25, 35)),
    };
    let common_water_percent = if source == 0 { 0 } else { edge(0, 50) };
    let loss_factor = if source == 2 { edge(50, 200) } else { 0 };
    let shared_meter_wh = meter(rng);
    Header {
        month,
        model,
        unit_count: unit_count as u16,
        source,
        base_percent,
        common_heat_percent,
        common_water_percent,
        unmetered_factor,
        loss_factor,
        shared_meter_wh,
        price: rng.edge(0, 100_000) as u32,
        hot_water_inputs: random_hot_water(rng, source, loss_factor, shared_meter_wh),
    }
}

fn random_meter(rng: &mut Rng) -> u32 {
    let highest = [100, 1_000, 1_000_000, u64::from(MAX_WH)][rng.below(4) as usize];
    rng.edge(0, highest) as u32
}

/// Inputs whose hot water is mostly below the shared meter's reading.
fn random_hot_water(rng: &mut Rng, source: u8, loss_factor: u8, shared_meter_wh: u32) -> [u32; 6] {
    let highest = if rng.once_in(12) {
        MAX_WH
    } else {
        shared_meter_wh
    };
    let wanted = rng.edge(0, u64::from(highest));
    let mut inputs = [0; 6];
    match source {
        0 => {}
        1 => inputs[0] = wanted as u32,
        2 => {
            let litres = wanted * 100 / ((100 + u64::from(loss_factor)) * 54);
            inputs[0] = litres.min(20_000_000) as u32;
        }
        _ => {
            let mean = wanted * 100 / 115;
            for input in &mut inputs {
                *input = rng.between(mean / 2, mean).min(u64::from(MAX_WH)) as u32;
            }
        }
    }
    inputs
}

/// What the units of one sheet have in common.
struct Style {
    /// One unit in so many is not read; 0 means none.
    unread_in: u64,
    highest_reading: u64,
    /// 0 to 2 for one class, 3 for any mix.
    water_class: u64,
    litres: u64,
    persons: u64,
    full_factor: bool,
}

impl Style {
    fn random(rng: &mut Rng, sheet: &Sheet, unit_count: usize) -> Style {
        let model = sheet.header.model;
        let meter = u64::from(sheet.header.shared_meter_wh);
        let mean = meter.saturating_sub(hot_water_wh(sheet)) / unit_count as u64;
        let highest_reading = match (model, rng.below(12)) {
            (_, 0) => 0,
            (3 | 4, 1) => 5,
            (3 | 4, _) => 50_000,
            (5, 1) => 25_000_000,
            _ => mean.min(25_000_000),
        };
        let unread_styles = if rng.once_in(8) { 6 } else { 4 };
        let class_styles = if rng.once_in(6) { 4 } else { 3 };
        Style {
            unread_in: [0, 0, 12, 6, 3, 1][rng.below(unread_styles) as usize],
            highest_reading,
            water_class: [3, 1, 2, 0][rng.below(class_styles) as usize],
            litres: if rng.once_in(12) { 0 } else { 1_000_000 },
            persons: if rng.once_in(12) { 0 } else { 50 },
            full_factor: rng.once_in(3),
        }
    }
}

fn random_unit(rng: &mut Rng, header: &Header, style: &Style, id: u32) -> Unit {
    let may_be_unread = header.model >= 3 && style.unread_in > 0;
    let unread = may_be_unread && rng.once_in(style.unread_in);
    let status = if unread { rng.between(1, 4) } else { 0 };
    let reading = match (header.model, status) {
        (3..=5, 0) => rng.edge(0, style.highest_reading),
        _ => 0,
    };
    let (water_class, litres, persons) = random_water(rng, header.source, style);
    let location_factor = if style.full_factor {
        1_000
    } else {
        rng.edge(1, 1_000)
    };
    Unit {
        id,
        status: status as u8,
        water_class: water_class as u8,
        location_factor: location_factor as u16,
        heated_area: rng.edge(1, 10_000) as u32,
        riser_surface: rng.edge(0, 10_000) as u32,
        heat_load_w: rng.edge(0, 100_000) as u32,
        reading: reading as u32,
        litres: litres as u32,
        persons: persons as u16,
        reserved: 0,
    }
}

/// Water class, litres and persons of a unit.
fn random_water(rng: &mut Rng, source: u8, style: &Style) -> (u64, u64, u64) {
    let water_class = match (source, style.water_class) {
        (0, _) => 0,
        (_, 3) => rng.below(3),
        (_, class) => class,
    };
    let highest_litres = if water_class == 1 { style.litres } else { 0 };
    let highest_persons = if water_class == 0 { 0 } else { style.persons };
    let litres = rng.edge(0, highest_litres);
    let persons = rng.edge(0, highest_persons);
    (water_class, litres, persons)
}
