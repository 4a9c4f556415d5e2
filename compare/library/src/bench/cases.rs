//! The sheets that are measured: all are accepted.

use compare::rng::Rng;
use compare::samples::{random_ids, random_sheet_of};
use compare::settle::settle_bytes;
use compare::sheet::{build_sheet, Sheet};

/// A random sheet that settles, of `count` units and at least 1,000 kWh, with
/// something changed beforehand.
fn settled_sheet(rng: &mut Rng, count: usize, models: &[u8], change: fn(&mut Sheet)) -> Vec<u8> {
    loop {
        let month = rng.between(1, 12) as u8;
        let model = models[rng.below(models.len() as u64) as usize];
        let source = rng.below(4) as u8;
        let ids = random_ids(rng, count);
        let mut sheet = random_sheet_of(rng, month, model, source, &ids);
        change(&mut sheet);
        let bytes = build_sheet(&sheet);
        if sheet.header.shared_meter_wh >= 1_000_000 && settle_bytes(&bytes).is_ok() {
            return bytes;
        }
    }
}

pub fn settled_sheets(seed: u64, many: usize, count: usize, models: &[u8]) -> Vec<Vec<u8>> {
    changed_sheets(seed, many, count, models, |_| {})
}

/// The same, each changed.
pub fn changed_sheets(
    seed: u64,
    many: usize,
    count: usize,
    models: &[u8],
    change: fn(&mut Sheet),
) -> Vec<Vec<u8>> {
    let mut rng = Rng::new(seed);
    (0..many)
        .map(|_| settled_sheet(&mut rng, count, models, change))
        .collect()
}

/// Every unit like the first read one.
pub fn equal_units(sheet: &mut Sheet) {
    let first = sheet.units.iter().find(|unit| unit.status == 0);
    let Some(first) = first.cloned() else {
        return;
    };
    for unit in &mut sheet.units {
        let id = unit.id;
        *unit = first.clone();
        unit.id = id;
    }
}

/// B = 0.
pub fn no_readings(sheet: &mut Sheet) {
    for unit in &mut sheet.units {
        unit.reading = 0;
    }
}

/// Many units not read.
pub fn half_unread(sheet: &mut Sheet) {
    sheet.header.unmetered_factor = 25;
    for (place, unit) in sheet.units.iter_mut().enumerate() {
        let unread = place % 2 == 0;
        unit.status = if unread { 2 } else { 0 };
        unit.reading = if unread { 0 } else { unit.reading };
    }
}
