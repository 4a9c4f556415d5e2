//! Wrong readings of request 2026-06 in one division or in some: what ties go by
//! there.

use crate::group::total_area;
use crate::rules::{RuleSet, NEWEST};
use crate::sheet::{Sheet, Unit};
use crate::weights::*;
use crate::{current, misread, Reading, Reading::*};
use std::cmp::Reverse;

/// What is divided.
#[derive(Clone, Copy, PartialEq)]
enum Kind {
    /// Steps 3 and 4.
    Heat,
    /// Steps 5 and 6.
    OtherEnergy,
    Bill,
    Difference,
    GroupBill,
    Charge,
}

impl Kind {
    fn is_cents(self) -> bool {
        matches!(self, Kind::Bill | Kind::GroupBill | Kind::Charge)
    }

    fn is_of_month(self) -> bool {
        matches!(self, Kind::Heat | Kind::OtherEnergy | Kind::Bill)
    }
}

/// Whether a reading that takes the request to be about other divisions leaves
/// this one as it was.
fn stays(reading: Reading, kind: Kind) -> bool {
    match reading {
        TiesOnlyInBills => !matches!(kind, Kind::Bill | Kind::GroupBill),
        TiesOnlyOfCents => !kind.is_cents(),
        TiesOnlyOfEnergies => kind.is_cents(),
        TiesOnlyInHeat => kind != Kind::Heat,
        TiesOnlyInMonths => !kind.is_of_month(),
        _ => false,
    }
}

/// The rules of a sheet's month, where the sheet's month decides.
pub fn rules_of_month(sheet: &Sheet, rules: RuleSet) -> RuleSet {
    if misread(TiesFromJune) && sheet.header.month < 6 && rules.larger_first() {
        RuleSet::Archive2
    } else {
        rules
    }
}

/// Shares with ties to the larger key, then to the earlier item, by rules that
/// decide ties by weight.
fn shares(total: u64, weights: &[u64], keys: &[u64], rules: RuleSet) -> Option<Vec<u64>> {
    let sum: u128 = weights.iter().map(|&weight| u128::from(weight)).sum();
    if sum == 0 || !rules.larger_first() {
        return None;
    }
    let product = |item: usize| u128::from(total) * u128::from(weights[item]);
    let mut order: Vec<usize> = (0..weights.len()).collect();
    let quotients = order.iter().map(|&item| (product(item) / sum) as u64);
    let mut shares: Vec<u64> = quotients.collect();
    let leftover = total - shares.iter().sum::<u64>();
    order.sort_by_key(|&item| Reverse((product(item) % sum, keys[item])));
    for &item in &order[..leftover as usize] {
        shares[item] += 1;
    }
    Some(shares)
}

/// The same of a total below 2^32.
fn small_shares(total: u64, weights: &[u64], keys: &[u64], rules: RuleSet) -> Option<Vec<u32>> {
    let shares = shares(total, weights, keys, rules)?;
    Some(shares.into_iter().map(|share| share as u32).collect())
}

/// Keys that leave a tie to the earlier item.
fn none(weights: &[u64]) -> Vec<u64> {
    vec![0; weights.len()]
}

fn factored_area(unit: &Unit) -> u64 {
    heated_area(unit) * location_factor(unit)
}

/// Step 3, models 1 and 2.
pub fn unit_heat(sheet: &Sheet, total: u64, rules: RuleSet) -> Option<Vec<u32>> {
    let weights = unmetered_model_weights(sheet);
    let keys = match current()? {
        reading if stays(reading, Kind::Heat) => none(&weights),
        UnitHeatTiesToEarlier => none(&weights),
        UnitHeatTiesByArea | TiesByArea => column(sheet, heated_area),
        UnitHeatTiesWithFactor => column(sheet, factored_area),
        _ => return None,
    };
    small_shares(total, &weights, &keys, rules)
}

/// Step 3, models 3 to 5. The rest is the last item.
pub fn unread_heat(sheet: &Sheet, total: u64, weights: &[u64], rules: RuleSet) -> Option<Vec<u32>> {
    let last = weights.len() - 1;
    let mut keys = weights.to_vec();
    match current()? {
        reading if stays(reading, Kind::Heat) => keys.fill(0),
        UnreadTiesToEarlier => keys.fill(0),
        UnreadTiesByArea | TiesByArea => {
            for (key, place) in keys.iter_mut().zip(unread_places(sheet)) {
                *key = heated_area(&sheet.units[place]);
            }
            keys[last] = sum(read_units(sheet), heated_area);
        }
        RestTiesFirst => keys[last] = u64::MAX,
        RestTiesLast => keys[last] = 0,
        _ => return None,
    }
    small_shares(total, weights, &keys, rules)
}

/// Step 4.
pub fn read_heat(sheet: &Sheet, pool: u32, rules: RuleSet) -> Option<Vec<u32>> {
    let weights = read_weights(sheet, rules);
    let of_units = |field: fn(&Unit) -> u64| read_units(sheet).map(field).collect();
    let keys: Vec<u64> = match current()? {
        reading if stays(reading, Kind::Heat) => none(&weights),
        ReadTiesToEarlier => none(&weights),
        ReadTiesByArea | TiesByArea => of_units(heated_area),
        ReadTiesByReading => of_units(reading),
        ReadTiesByRisers => of_units(riser_surface),
        ReadTiesWithoutFactor if sheet.header.model != 5 => {
            let units = read_units(sheet).zip(&weights);
            units.map(|(unit, w)| w / location_factor(unit)).collect()
        }
        _ => return None,
    };
    small_shares(pool.into(), &weights, &keys, rules)
}

/// Step 5.
pub fn common_heat(sheet: &Sheet, total: u64, rules: RuleSet) -> Option<Vec<u32>> {
    let weights = common_heat_weights(sheet);
    let keys = match current()? {
        reading if stays(reading, Kind::OtherEnergy) => none(&weights),
        CommonHeatTiesToEarlier => none(&weights),
        CommonHeatTiesWithFactor => column(sheet, factored_area),
        CommonHeatTiesByReading => column(sheet, reading),
        _ => return None,
    };
    small_shares(total, &weights, &keys, rules)
}

/// Step 6, units' water.
pub fn water(sheet: &Sheet, total: u64, rules: RuleSet) -> Option<Vec<u32>> {
    let weights = unit_water_weights(sheet);
    let keys = match current()? {
        reading if stays(reading, Kind::OtherEnergy) => none(&weights),
        WaterTiesToEarlier => none(&weights),
        WaterTiesByArea | TiesByArea => column(sheet, heated_area),
        WaterTiesByPersons => column(sheet, persons),
        WaterTiesByLitres => column(sheet, litres),
        _ => return None,
    };
    small_shares(total, &weights, &keys, rules)
}

/// Step 6, common water.
pub fn common_water(sheet: &Sheet, total: u64, rules: RuleSet) -> Option<Vec<u32>> {
    let weights = common_water_weights(sheet);
    let keys = match current()? {
        reading if stays(reading, Kind::OtherEnergy) => none(&weights),
        CommonWaterTiesToEarlier => none(&weights),
        CommonWaterTiesByArea | TiesByArea => column(sheet, heated_area),
        CommonWaterTiesByWater => unit_water_weights(sheet),
        _ => return None,
    };
    small_shares(total, &weights, &keys, rules)
}

/// Step 7.
pub fn costs(
    sheet: &Sheet,
    bill_cents: u32,
    energies: &[[u32; 4]],
    rules: RuleSet,
) -> Option<Vec<[u32; 4]>> {
    let weights: Vec<u64> = energies.iter().flatten().map(|&wh| u64::from(wh)).collect();
    let of_units = |keys: Vec<u64>| keys.into_iter().flat_map(|key| [key; 4]).collect();
    let keys: Vec<u64> = match current()? {
        reading if stays(reading, Kind::Bill) => none(&weights),
        BillTiesToEarlier => none(&weights),
        BillTiesByArea | TiesByArea => of_units(column(sheet, heated_area)),
        BillTiesByUnit => {
            let unit = |wh: &[u32; 4]| wh.iter().map(|&wh| u64::from(wh)).sum();
            of_units(energies.iter().map(unit).collect())
        }
        BillTiesInKwh => weights.iter().map(|wh| wh / 1_000).collect(),
        _ => return None,
    };
    let cents = small_shares(bill_cents.into(), &weights, &keys, rules)?;
    Some(cents.as_chunks::<4>().0.to_vec())
}

/// A group's difference.
pub fn difference(
    sheets: &[Sheet],
    difference: i64,
    areas: &[u64],
    rules: RuleSet,
) -> Option<Vec<i64>> {
    let of_sheets = |field: fn(&Sheet) -> u64| sheets.iter().map(field).collect();
    let keys: Vec<u64> = match current()? {
        reading if stays(reading, Kind::Difference) => none(areas),
        DifferenceTiesToEarlier => none(areas),
        DeficitTiesToEarlier if difference < 0 => none(areas),
        DeficitTiesToSmaller if difference < 0 => areas.iter().map(|area| !area).collect(),
        DifferenceTiesByUnits => of_sheets(|sheet| sheet.units.len() as u64),
        DifferenceTiesByMeters => of_sheets(|sheet| u64::from(sheet.header.shared_meter_wh)),
        _ => return None,
    };
    let sizes = shares(difference.unsigned_abs(), areas, &keys, rules)?.into_iter();
    Some(
        sizes
            .map(|size| difference.signum() * size as i64)
            .collect(),
    )
}

/// A group's bill, over its buildings.
pub fn group_bill(
    sheets: &[Sheet],
    bill_cents: u32,
    readings: &[u64],
    rules: RuleSet,
) -> Option<Vec<u32>> {
    let of_sheets = |field: fn(&Sheet) -> u64| sheets.iter().map(field).collect();
    let keys: Vec<u64> = match current()? {
        reading if stays(reading, Kind::GroupBill) => none(readings),
        GroupBillTiesToEarlier => none(readings),
        GroupBillTiesByArea | TiesByArea => of_sheets(total_area),
        GroupBillTiesByOwnMeters => of_sheets(|sheet| u64::from(sheet.header.shared_meter_wh)),
        _ => return None,
    };
    small_shares(bill_cents.into(), readings, &keys, rules)
}

/// Fixed charges.
pub fn charges(sheet: &Sheet, amounts: [u32; 3], weights: &[u64]) -> Option<[Vec<u32>; 3]> {
    let (first, fees) = match current()? {
        reading if stays(reading, Kind::Charge) => (none(weights), none(weights)),
        ChargeTiesToEarlier => (none(weights), none(weights)),
        PowerTiesToEarlier => (none(weights), weights.to_vec()),
        FeeTiesToEarlier => (weights.to_vec(), none(weights)),
        ChargeTiesByArea | TiesByArea => (column(sheet, heated_area), column(sheet, heated_area)),
        ChargeTiesByLoad => (column(sheet, heat_load), column(sheet, heat_load)),
        _ => return None,
    };
    let keys = [&first, &fees, &fees];
    let column = |place: usize| small_shares(amounts[place].into(), weights, keys[place], NEWEST);
    Some([column(0)?, column(1)?, column(2)?])
}
