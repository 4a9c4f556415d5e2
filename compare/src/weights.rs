//! Document 01, "Steps of a month": hot water and the weights of the divisions.
//!
//! These are whole numbers taken from the sheet alone. The settlement and the
//! unrounded portions both use them.

use crate::rules::RuleSet;
use crate::sheet::{Header, Sheet, Unit};

/// Step 1: hot water before rounding, as upper and lower number of a fraction.
pub fn hot_water(header: &Header) -> (u64, u64) {
    let inputs = header.hot_water_inputs.map(u64::from);
    match header.source {
        0 => (0, 1),
        1 => (inputs[0], 1),
        2 => ((100 + u64::from(header.loss_factor)) * 54 * inputs[0], 100),
        _ => (115 * inputs.iter().sum::<u64>(), 600),
    }
}

/// Step 2's exception: model 5 and every unit read.
pub fn all_metered(sheet: &Sheet) -> bool {
    sheet.header.model == 5 && sheet.units.iter().all(is_read)
}

pub fn is_read(unit: &Unit) -> bool {
    unit.status == 0
}

/// Adds up one field over units.
pub fn sum<'a>(units: impl IntoIterator<Item = &'a Unit>, field: fn(&Unit) -> u64) -> u64 {
    units.into_iter().map(field).sum()
}

pub fn heated_area(unit: &Unit) -> u64 {
    u64::from(unit.heated_area)
}

pub fn location_factor(unit: &Unit) -> u64 {
    u64::from(unit.location_factor)
}

pub fn riser_surface(unit: &Unit) -> u64 {
    u64::from(unit.riser_surface)
}

pub fn heat_load(unit: &Unit) -> u64 {
    u64::from(unit.heat_load_w)
}

pub fn reading(unit: &Unit) -> u64 {
    u64::from(unit.reading)
}

pub fn litres(unit: &Unit) -> u64 {
    u64::from(unit.litres)
}

pub fn persons(unit: &Unit) -> u64 {
    u64::from(unit.persons)
}

/// One field of every unit.
pub fn column(sheet: &Sheet, field: fn(&Unit) -> u64) -> Vec<u64> {
    sheet.units.iter().map(field).collect()
}

/// Step 3, models 3 to 5: the places of the units not read.
pub fn unread_places(sheet: &Sheet) -> Vec<usize> {
    places(sheet, |unit| !is_read(unit))
}

/// Step 4: the read units.
pub fn read_units(sheet: &Sheet) -> impl Iterator<Item = &Unit> {
    sheet.units.iter().filter(|unit| is_read(unit))
}

/// The places of the read units.
pub fn read_places(sheet: &Sheet) -> Vec<usize> {
    places(sheet, is_read)
}

fn places(sheet: &Sheet, wanted: fn(&Unit) -> bool) -> Vec<usize> {
    (0..sheet.units.len())
        .filter(|&place| wanted(&sheet.units[place]))
        .collect()
}

/// Step 3, models 3 to 5 (articles 8 (4), 10 (6)): the weights of the units
/// not read.
pub fn unread_weights(sheet: &Sheet) -> Vec<u64> {
    let unmetered_factor = u64::from(sheet.header.unmetered_factor);
    let weight = |unit: &Unit| match unit.status {
        1 | 4 => heated_area(unit) * location_factor(unit) * unmetered_factor,
        _ => heated_area(unit) * 10_000,
    };
    unread_places(sheet)
        .into_iter()
        .map(|place| weight(&sheet.units[place]))
        .collect()
}

/// Step 3: the weight of all heat, 10,000 × P. The metered pool has what the
/// units not read leave of it.
pub fn whole_weight(sheet: &Sheet) -> u64 {
    10_000 * sum(&sheet.units, heated_area)
}

/// Step 3, models 1 and 2: by q, by p.
pub fn unmetered_model_weights(sheet: &Sheet) -> Vec<u64> {
    match sheet.header.model {
        1 => column(sheet, heat_load),
        _ => column(sheet, heated_area),
    }
}

/// Step 4: B, and A or for model 4 S.
#[derive(Clone, Copy)]
pub struct ReadSums {
    pub readings: u64,
    pub basis: u64,
}

/// Step 4: what a unit's base share goes by, p or for model 4 s.
fn basis(sheet: &Sheet, unit: &Unit) -> u64 {
    match sheet.header.model {
        4 => riser_surface(unit),
        _ => heated_area(unit),
    }
}

/// Step 4: the weights of the read units, models 3 to 5.
pub fn read_weights(sheet: &Sheet, rules: RuleSet) -> Vec<u64> {
    let sums = ReadSums {
        readings: sum(read_units(sheet), reading),
        basis: read_units(sheet).map(|unit| basis(sheet, unit)).sum(),
    };
    read_units(sheet)
        .map(|unit| read_weight(sheet, unit, sums, rules))
        .collect()
}

fn read_weight(sheet: &Sheet, unit: &Unit, sums: ReadSums, rules: RuleSet) -> u64 {
    let basis = basis(sheet, unit);
    if sums.readings == 0 {
        return basis * location_factor(unit);
    }
    if sheet.header.model == 5 {
        return reading(unit);
    }
    let base_percent = u64::from(sheet.header.base_percent);
    let mut r =
        (100 - base_percent) * reading(unit) * sums.basis + base_percent * basis * sums.readings;
    if has_limits(sheet, unit, rules) {
        r = limited(r, basis * sums.readings);
    }
    r * location_factor(unit)
}

/// Step 4: whether a unit's r has limits; in model 4 by request 2026-01.
pub fn has_limits(sheet: &Sheet, unit: &Unit, rules: RuleSet) -> bool {
    match sheet.header.model {
        3 => true,
        4 => rules.limits_risers() && riser_surface(unit) > 0,
        _ => false,
    }
}

/// Step 4: r between the limits (articles 8 (6), (7) and 9 (6), (7)). `base` is
/// p × B, for model 4 s × B.
pub fn limited(r: u64, base: u64) -> u64 {
    r.min(300 * base).max(40 * base)
}

/// Step 5 (article 11): by p over all units.
pub fn common_heat_weights(sheet: &Sheet) -> Vec<u64> {
    column(sheet, heated_area)
}

/// What steps 6 and refusal 9 need to know of the two water classes.
pub struct WaterClasses {
    /// n1, n2
    pub volume_units: u64,
    pub person_units: u64,
    /// L, of class 1
    pub litres: u64,
    /// N2, of class 2
    pub persons: u64,
    /// Persons of classes 1 and 2.
    pub all_persons: u64,
}

pub fn water_classes(sheet: &Sheet) -> WaterClasses {
    let of_class = |class: u8| move |unit: &&Unit| unit.water_class == class;
    let by_volume = || sheet.units.iter().filter(of_class(1));
    let by_persons = || sheet.units.iter().filter(of_class(2));
    WaterClasses {
        volume_units: by_volume().count() as u64,
        person_units: by_persons().count() as u64,
        litres: sum(by_volume(), litres),
        persons: sum(by_persons(), persons),
        all_persons: sum(by_volume(), persons) + sum(by_persons(), persons),
    }
}

/// Step 6, units' water (article 12).
pub fn unit_water_weights(sheet: &Sheet) -> Vec<u64> {
    let classes = water_classes(sheet);
    let both = classes.volume_units > 0 && classes.person_units > 0;
    let weight = |unit: &Unit| match (unit.water_class, both) {
        (1, true) => classes.volume_units * litres(unit) * classes.persons,
        (1, false) => litres(unit),
        (2, true) => classes.person_units * persons(unit) * classes.litres,
        (2, false) => persons(unit),
        _ => 0,
    };
    sheet.units.iter().map(weight).collect()
}

/// Step 6, common water (article 13).
pub fn common_water_weights(sheet: &Sheet) -> Vec<u64> {
    let weight = |unit: &Unit| match unit.water_class {
        1 | 2 => persons(unit),
        _ => 0,
    };
    sheet.units.iter().map(weight).collect()
}
