//! Wrong readings of steps 2 to 5.

use crate::apportion::apportion;
use crate::rules::RuleSet;
use crate::sheet::{Sheet, Unit};
use crate::weights::*;
use crate::{current, misread, Reading::*};

/// KF 1, in thousandths.
const FACTOR_1: u64 = 1_000;

/// Step 2's exception.
pub fn all_metered(sheet: &Sheet) -> Option<bool> {
    match current()? {
        MetersNever => Some(false),
        MetersOfSomeUnits => Some(sheet.header.model == 5 && sheet.units.iter().any(is_read)),
        _ => None,
    }
}

/// Step 3: the weights of models 1 and 2.
pub fn unmetered_model_weights(sheet: &Sheet) -> Option<Vec<u64>> {
    match (current()?, sheet.header.model) {
        (Model1ByArea, 1) => Some(column(sheet, heated_area)),
        (Model2ByLoad, 2) => Some(column(sheet, heat_load)),
        (Model2WithFactor, 2) => Some(column(sheet, factored_area)),
        _ => None,
    }
}

fn factored_area(unit: &Unit) -> u64 {
    heated_area(unit) * location_factor(unit)
}

fn factored_riser(unit: &Unit) -> u64 {
    riser_surface(unit) * location_factor(unit)
}

/// Step 3: the weight of a unit not read.
pub fn unread_weight(sheet: &Sheet, unit: &Unit) -> Option<u64> {
    let area = heated_area(unit);
    let factor = location_factor(unit);
    let unmetered = u64::from(sheet.header.unmetered_factor);
    match (current()?, unit.status) {
        (FaultWithFactor, 2 | 3) => Some(area * factor * 10),
        (FaultAsNoDevice, 2 | 3) | (NextFaultAsNoDevice, 3) => Some(area * factor * unmetered),
        (LaterFaultAsFault, 4) => Some(area * 10_000),
        (NoDeviceWithoutFactor, 1 | 4) => Some(area * FACTOR_1 * unmetered),
        (NoDeviceByRiser, 1 | 4) if sheet.header.model == 4 => {
            Some(riser_surface(unit) * factor * unmetered)
        }
        (NoDeviceByRiser, _) if sheet.header.model == 4 => Some(riser_surface(unit) * 10_000),
        _ => None,
    }
}

/// Step 3: the weight of all heat.
pub fn whole_weight(sheet: &Sheet) -> Option<u64> {
    match current()? {
        AreaOfReadUnits => Some(10_000 * sum(read_units(sheet), heated_area)),
        NoDeviceByRiser if sheet.header.model == 4 => {
            Some(10_000 * sum(&sheet.units, riser_surface))
        }
        _ => None,
    }
}

/// Step 3: the shares of the units not read and of the metered pool.
pub fn pool_shares(unit_heat: u64, weights: &[u64], rules: RuleSet) -> Option<Vec<u32>> {
    if !misread(RestFirst) {
        return None;
    }
    let mut weights = weights.to_vec();
    weights.rotate_right(1);
    let mut shares = apportion(unit_heat, &weights, rules);
    shares.rotate_left(1);
    Some(shares)
}

/// Step 4: the sum of p or s.
pub fn basis_sum(sheet: &Sheet) -> Option<u64> {
    match (current()?, sheet.header.model) {
        (AreaOfAllUnits, 3) => Some(sum(&sheet.units, heated_area)),
        (RiserOfAllUnits, 4) => Some(sum(&sheet.units, riser_surface)),
        (BaseByArea, 4) => Some(sum(read_units(sheet), heated_area)),
        (BaseByRiser, 3) => Some(sum(read_units(sheet), riser_surface)),
        _ => None,
    }
}

/// Step 4: whether model 4 has limits by request 2026-01.
pub fn limits_risers(rules: RuleSet) -> bool {
    match current() {
        Some(RiserNoLimits) => false,
        Some(RiserNoLimitsIn2) => rules != RuleSet::Archive2,
        Some(RiserNoLimitsIn3) => rules != RuleSet::Archive3,
        _ => true,
    }
}

/// Step 4: the weight of a read unit.
pub fn read_weight(sheet: &Sheet, unit: &Unit, sums: ReadSums, rules: RuleSet) -> Option<u64> {
    if sums.readings == 0 {
        return no_reading_weight(sheet, unit, rules);
    }
    let (model, factor) = (sheet.header.model, location_factor(unit));
    let (area, riser) = (heated_area(unit), riser_surface(unit));
    let own = if model == 4 { riser } else { area };
    let base = u64::from(sheet.header.base_percent);
    let part = |base: u64, basis: u64| {
        (100 - base) * reading(unit) * sums.basis + base * basis * sums.readings
    };
    let r = part(base, own);
    let limit = |r: u64, basis: u64| {
        if has_limits(sheet, unit, rules) {
            return limited(r, basis * sums.readings);
        }
        r
    };
    match (current()?, model) {
        (LimitsWithoutFactor, 3) => Some(limit(r * factor, FACTOR_1 * area)),
        (LimitsAfterDividing | NoLimits, 3) => Some(r * factor),
        (NoUpperLimit, 3) => Some(r.max(40 * area * sums.readings) * factor),
        (NoLowerLimit, 3) => Some(r.min(300 * area * sums.readings) * factor),
        (BaseSwapped, 3 | 4) => Some(limit(part(100 - base, own), own) * factor),
        (BaseByArea, 4) => Some(limit(part(base, area), area) * factor),
        (BaseByRiser, 3) => Some(limit(part(base, riser), area) * factor),
        (ReadWithoutFactor, 3 | 4) => Some(limit(r, own)),
        (Model5WithFactor, 5) => Some(reading(unit) * factor),
        (_, 4) if rules.limits_risers() => riser_weight(sheet, unit, sums, r),
        _ => None,
    }
}

/// Step 4, model 4: other limits of r than request 2026-01 has.
fn riser_weight(sheet: &Sheet, unit: &Unit, sums: ReadSums, r: u64) -> Option<u64> {
    let factor = location_factor(unit);
    let by_area = heated_area(unit) * sums.readings;
    let by_riser = riser_surface(unit) * sums.readings;
    let by_sum = riser_surface(unit) * sums.basis;
    let r = match (current()?, riser_surface(unit) > 0) {
        (RiserNoUpperLimit, true) => r.max(40 * by_riser),
        (RiserNoLowerLimit, true) => r.min(300 * by_riser),
        (RiserLimitsByArea, true) | (RiserZeroByArea, false) => limited(r, by_area),
        (RiserLimitsBySum, true) => limited(r, by_sum),
        (RiserLimitsOfZero, false) => 0,
        (RiserLimitsInJanuary, true) if sheet.header.month != 1 => r,
        (RiserLimitsAfterDividing, true) => r,
        (RiserLimitsWithoutFactor, true) => return Some(limited(r * factor, FACTOR_1 * by_riser)),
        (RiserZeroWithoutFactor, false) => return Some(r),
        _ => return None,
    };
    Some(r * factor)
}

/// Step 4 with B = 0.
fn no_reading_weight(sheet: &Sheet, unit: &Unit, rules: RuleSet) -> Option<u64> {
    match (current()?, sheet.header.model) {
        (NoReadingEqual, _) | (NoReadingModel5Equal, 5) => Some(1),
        (NoReadingWithoutFactor, 4) => Some(riser_surface(unit)),
        (NoReadingWithoutFactor, _) => Some(heated_area(unit)),
        (NoReadingByArea, 4) => Some(factored_area(unit)),
        (NoReadingByRiser, 3) => Some(factored_riser(unit)),
        (NoReadingLimited, 4) if rules.limits_risers() => Some(0),
        _ => None,
    }
}

/// Step 4: the read units' shares, limited after the division.
pub fn limited_shares(sheet: &Sheet, pool: u32, mut shares: Vec<u32>, rules: RuleSet) -> Vec<u32> {
    let field: fn(&Unit) -> u64 = match (current(), sheet.header.model) {
        (Some(LimitsAfterDividing), 3) => factored_area,
        (Some(RiserLimitsAfterDividing), 4) => factored_riser,
        _ => return shares,
    };
    let middles: Vec<u64> = read_units(sheet).map(field).collect();
    let middles = apportion(pool.into(), &middles, rules);
    for ((share, unit), middle) in shares.iter_mut().zip(read_units(sheet)).zip(middles) {
        if has_limits(sheet, unit, rules) {
            let middle = u64::from(middle);
            *share = u64::from(*share).min(3 * middle).max(2 * middle / 5) as u32;
        }
    }
    shares
}

/// Step 5.
pub fn common_heat_weights(sheet: &Sheet) -> Option<Vec<u64>> {
    let field: fn(&Unit) -> u64 = match (current()?, sheet.header.model) {
        (CommonHeatByLoad, _) => heat_load,
        (CommonHeatOfReadUnits, _) => |unit| if is_read(unit) { heated_area(unit) } else { 0 },
        (CommonHeatWithFactor, _) => factored_area,
        (CommonHeatByRiser, 4) => riser_surface,
        (CommonHeatEqual, _) => |_| 1,
        _ => return None,
    };
    Some(column(sheet, field))
}
