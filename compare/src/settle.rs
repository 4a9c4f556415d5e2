//! Document 01, "Steps of a month": the settlement and refusals 8 to 13.

use crate::apportion::apportion;
use crate::refusal::*;
use crate::rules::{RuleSet, NEWEST};
use crate::sheet::{check, read_sheet, Sheet, ROW_BYTES};
use crate::weights::*;

/// A settled month. `numbers` is the statement, eight numbers a unit.
#[derive(Clone, Debug, PartialEq, Eq)]
pub struct Outcome {
    pub month: u8,
    pub unit_count: usize,
    pub ids: Vec<u32>,
    pub shared_meter_wh: u32,
    pub bill_cents: u32,
    pub numbers: Vec<u32>,
}

/// Settles a sheet for a statement list of `list_len` numbers: refusals 1 to 12
/// with 20, then 13.
pub fn settle(bytes: &[u8], list_len: usize) -> Result<Outcome, Refusal> {
    let outcome = settle_bytes(bytes)?;
    refuse_if(list_len != 8 * outcome.unit_count, BUFFER_LENGTH)?;
    Ok(outcome)
}

/// Settles a sheet: refusals 1 to 12 with 20.
pub fn settle_bytes(bytes: &[u8]) -> Result<Outcome, Refusal> {
    check(bytes, ROW_BYTES)?;
    settle_sheet(&read_sheet(bytes), NEWEST)
}

/// Settles a sheet that passed the check: refusals 8 to 12.
pub fn settle_sheet(sheet: &Sheet, rules: RuleSet) -> Result<Outcome, Refusal> {
    check_month(sheet)?;
    let shared_meter_wh = sheet.header.shared_meter_wh;
    let bill_cents = bill(u64::from(shared_meter_wh), sheet.header.price);
    Ok(Outcome {
        month: sheet.header.month,
        unit_count: sheet.units.len(),
        ids: sheet.units.iter().map(|unit| unit.id).collect(),
        shared_meter_wh,
        bill_cents,
        numbers: numbers(sheet, rules, common_heat(sheet, rules), bill_cents),
    })
}

/// The statement of a sheet that isn't refused, by its common heat and its
/// bill.
pub fn numbers(sheet: &Sheet, rules: RuleSet, common_heat: u64, bill_cents: u32) -> Vec<u32> {
    let energies = energies(sheet, rules, common_heat);
    statement(&energies, &costs(bill_cents, &energies, rules))
}

/// Per unit four Wh, four cents.
fn statement(energies: &[[u32; 4]], costs: &[[u32; 4]]) -> Vec<u32> {
    let units = energies.iter().zip(costs);
    units
        .flat_map(|(wh, cents)| [*wh, *cents])
        .flatten()
        .collect()
}

/// Step 1: hot water, rounded up. It may pass the upper end of an amount;
/// then it passes the shared meter too.
pub fn hot_water_wh(sheet: &Sheet) -> u64 {
    let (upper, lower) = hot_water(&sheet.header);
    upper.div_ceil(lower)
}

/// Step 1: EG = M − H.
fn space_heat(sheet: &Sheet) -> u64 {
    u64::from(sheet.header.shared_meter_wh) - hot_water_wh(sheet)
}

/// Refusals 8 to 12.
pub fn check_month(sheet: &Sheet) -> Result<(), Refusal> {
    refuse_first(&[
        (HOT_WATER_EXCEEDS_METER, hot_water_exceeds(sheet)),
        (ZERO_DIVISOR, zero_divisor(sheet)),
        (NO_READINGS, no_readings(sheet)),
        (METERS_EXCEED_HEAT, meters_exceed(sheet)),
        (UNMETERED_EXCEEDS_HEAT, unmetered_exceeds(sheet)),
    ])
}

/// Refusal 8.
fn hot_water_exceeds(sheet: &Sheet) -> bool {
    hot_water_wh(sheet) > u64::from(sheet.header.shared_meter_wh)
}

/// Refusal 9.
fn zero_divisor(sheet: &Sheet) -> bool {
    (hot_water_wh(sheet) > 0 && no_water_divisor(sheet)) || no_heat_divisor(sheet)
}

fn no_water_divisor(sheet: &Sheet) -> bool {
    let classes = water_classes(sheet);
    classes.volume_units + classes.person_units == 0
        || (classes.volume_units > 0 && classes.litres == 0)
        || (classes.person_units > 0 && classes.persons == 0)
        || (sheet.header.common_water_percent > 0 && classes.all_persons == 0)
}

fn no_heat_divisor(sheet: &Sheet) -> bool {
    match sheet.header.model {
        1 => sum(&sheet.units, heat_load) == 0,
        4 => sum(read_units(sheet), riser_surface) == 0,
        _ => false,
    }
}

/// Refusal 10.
fn no_readings(sheet: &Sheet) -> bool {
    sheet.header.model >= 3 && read_units(sheet).next().is_none()
}

/// Refusal 11: C > M − H.
fn meters_exceed(sheet: &Sheet) -> bool {
    let needed = sum(&sheet.units, reading) + hot_water_wh(sheet);
    all_metered(sheet) && needed > u64::from(sheet.header.shared_meter_wh)
}

/// Refusal 12.
fn unmetered_exceeds(sheet: &Sheet) -> bool {
    let unread_sum: u64 = unread_weights(sheet).iter().sum();
    sheet.header.model >= 3 && unread_sum > whole_weight(sheet)
}

/// Divides `total` by (100 − percent, percent).
fn split(total: u64, percent: u8, rules: RuleSet) -> (u64, u64) {
    let percent = u64::from(percent);
    let parts = apportion(total, &[100 - percent, percent], rules);
    (u64::from(parts[0]), u64::from(parts[1]))
}

/// Step 2: units' heat and common heat.
fn heat(sheet: &Sheet, rules: RuleSet) -> (u64, u64) {
    if all_metered(sheet) {
        let metered = sum(&sheet.units, reading);
        return (metered, space_heat(sheet) - metered);
    }
    let percent = sheet.header.common_heat_percent;
    split(space_heat(sheet), percent, rules)
}

/// Step 2: common heat.
pub fn common_heat(sheet: &Sheet, rules: RuleSet) -> u64 {
    heat(sheet, rules).1
}

/// Steps 3 to 6: per unit heat, common heat, water, common water.
fn energies(sheet: &Sheet, rules: RuleSet, common_heat: u64) -> Vec<[u32; 4]> {
    let heat = heat_parts(sheet, heat(sheet, rules).0, rules);
    let percent = sheet.header.common_water_percent;
    let (unit_water, common_water) = split(hot_water_wh(sheet), percent, rules);

    let common_heat = apportion(common_heat, &common_heat_weights(sheet), rules);
    let water = apportion(unit_water, &unit_water_weights(sheet), rules);
    let common_water = apportion(common_water, &common_water_weights(sheet), rules);
    (0..sheet.units.len())
        .map(|i| [heat[i], common_heat[i], water[i], common_water[i]])
        .collect()
}

/// Steps 3 and 4: each unit's heat; by step 2's exception its reading.
fn heat_parts(sheet: &Sheet, unit_heat: u64, rules: RuleSet) -> Vec<u32> {
    if all_metered(sheet) {
        return sheet.units.iter().map(|unit| unit.reading).collect();
    }
    match sheet.header.model {
        1 | 2 => apportion(unit_heat, &unmetered_model_weights(sheet), rules),
        _ => metered_heat_parts(sheet, unit_heat, rules),
    }
}

/// Steps 3 and 4, models 3 to 5: first the units not read with the metered
/// pool ("the rest") as last item, then the pool over the read units.
fn metered_heat_parts(sheet: &Sheet, unit_heat: u64, rules: RuleSet) -> Vec<u32> {
    let mut heat = vec![0; sheet.units.len()];
    let mut weights = unread_weights(sheet);
    weights.push(whole_weight(sheet) - weights.iter().sum::<u64>());
    let mut parts = apportion(unit_heat, &weights, rules);
    let metered_pool = parts.pop().expect("the pool is the last item");
    for (place, part) in unread_places(sheet).into_iter().zip(parts) {
        heat[place] = part;
    }
    let parts = apportion(u64::from(metered_pool), &read_weights(sheet, rules), rules);
    for (place, part) in read_places(sheet).into_iter().zip(parts) {
        heat[place] = part;
    }
    heat
}

/// Step 7: M × price / 1,000,000 in cents, half up.
pub fn bill(shared_meter_wh: u64, price: u32) -> u32 {
    let cost = shared_meter_wh * u64::from(price);
    let cents = (cost + 500_000) / 1_000_000;
    u32::try_from(cents).expect("at most 400,000,000")
}

/// Step 7: the bill over the 4n energies, unit by unit.
fn costs(bill_cents: u32, energies: &[[u32; 4]], rules: RuleSet) -> Vec<[u32; 4]> {
    let weights: Vec<u64> = energies.iter().flatten().map(|&wh| u64::from(wh)).collect();
    apportion(u64::from(bill_cents), &weights, rules)
        .chunks(4)
        .map(|four| [four[0], four[1], four[2], four[3]])
        .collect()
}
