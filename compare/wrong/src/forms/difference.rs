//! Wrong readings of request 2026-04: the difference and refusal 21.

use super::dividing::half_up_share;
use crate::group::total_area;
use crate::refusal::*;
use crate::rules::NEWEST;
use crate::settle::common_heat;
use crate::sheet::Sheet;
use crate::weights::*;
use crate::{current, misread, Reading::*};

/// Another difference.
pub fn bent(difference: i64) -> i64 {
    match current() {
        Some(SignLost) => difference.abs(),
        Some(SignTurned) => -difference,
        Some(DifferenceLeftOut) => 0,
        Some(SurplusLeftOut) => difference.min(0),
        Some(DeficitLeftOut) => difference.max(0),
        Some(DifferenceIn32Bits) => {
            let size = difference.unsigned_abs() as u32;
            difference.signum() * i64::from(size)
        }
        Some(DifferenceSigned32Bits) => i64::from(difference as i32),
        _ => difference,
    }
}

fn common_heat_now(sheet: &Sheet) -> u64 {
    common_heat(sheet, NEWEST)
}

/// What the difference is divided by.
pub fn weights(sheets: &[Sheet]) -> Option<Vec<u64>> {
    let weight: fn(&Sheet) -> u64 = match current()? {
        DifferenceByMeters => |sheet| u64::from(sheet.header.shared_meter_wh),
        DifferenceByUnits => |sheet| sheet.units.len() as u64,
        DifferenceEqually => |_| 1,
        DifferenceByCommonHeat => common_heat_now,
        DifferenceOfReadUnits => |sheet| sum(read_units(sheet), heated_area),
        DifferenceOfModels3To5 => |sheet| match sheet.header.model {
            1 | 2 => 0,
            _ => total_area(sheet),
        },
        DifferenceWithFactor => |sheet| {
            let weights = sheet
                .units
                .iter()
                .map(|u| heated_area(u) * location_factor(u));
            weights.sum()
        },
        DifferenceByLoads => |sheet| sum(&sheet.units, heat_load),
        _ => return None,
    };
    Some(sheets.iter().map(weight).collect())
}

/// The shares of a difference, divided otherwise.
pub fn shares(difference: i64, weights: &[u64]) -> Option<Vec<i64>> {
    let sum: u64 = weights.iter().sum();
    if sum == 0 {
        return None;
    }
    let size = difference.unsigned_abs();
    let down = |weight: u64| (u128::from(size) * u128::from(weight) / u128::from(sum)) as i64;
    let mut sizes: Vec<i64> = weights.iter().map(|&weight| down(weight)).collect();
    let leftover = size as i64 - sizes.iter().sum::<i64>();
    let last = sizes.len() - 1;
    match current()? {
        DifferenceLeftoverToLast => sizes[last] += leftover,
        DifferenceLeftoverToFirst => sizes[0] += leftover,
        DifferenceRoundedDown => {}
        DifferenceHalfUpEach => {
            let each = |&weight: &u64| half_up_share(size, weight, sum.into()) as i64;
            sizes = weights.iter().map(each).collect();
        }
        DifferenceToFirst => {
            sizes.fill(0);
            sizes[0] = size as i64;
        }
        DifferenceFloored if difference < 0 => return Some(floored(difference, weights, sum)),
        _ => return None,
    }
    Some(
        sizes
            .into_iter()
            .map(|size| difference.signum() * size)
            .collect(),
    )
}

/// Rounded down below zero, the leftover to the largest remainders.
fn floored(difference: i64, weights: &[u64], sum: u64) -> Vec<i64> {
    let sum = i128::from(sum);
    let product = |weight: u64| i128::from(difference) * i128::from(weight);
    let mut shares: Vec<i64> = weights
        .iter()
        .map(|&weight| product(weight).div_euclid(sum) as i64)
        .collect();
    let mut order: Vec<usize> = (0..weights.len()).collect();
    order.sort_by_key(|&place| -product(weights[place]).rem_euclid(sum));
    let leftover = difference - shares.iter().sum::<i64>();
    for &place in &order[..leftover as usize] {
        shares[place] += 1;
    }
    shares
}

/// An adjusted common heat or reading.
pub fn adjusted(wh: i64) -> i64 {
    match current() {
        Some(BelowZeroClipped | BelowZeroByReading | BelowZeroInAll | BelowZeroOfFirst) => {
            wh.max(0)
        }
        _ => wh,
    }
}

/// Whether 21 refuses.
pub fn goes_below_zero(sheets: &[Sheet], shares: &[i64]) -> Option<bool> {
    let any = |below: fn(&Sheet, i64) -> bool| {
        let mut buildings = sheets.iter().zip(shares);
        buildings.any(|(sheet, &share)| below(sheet, share))
    };
    let is_negative = shares.iter().any(|&share| share < 0);
    match current()? {
        BelowZeroByReading => Some(any(|sheet, share| {
            i64::from(sheet.header.shared_meter_wh) + share < 0
        })),
        ZeroHeatRefused => Some(any(|sheet, share| {
            share < 0 && common_heat_now(sheet) as i64 + share <= 0
        })),
        ShareOfZeroRefused => {
            let none = any(|sheet, _| common_heat_now(sheet) == 0);
            let below = any(|sheet, share| common_heat_now(sheet) as i64 + share < 0);
            Some(below || is_negative && none)
        }
        DeficitRefused => Some(is_negative),
        BelowZeroInAll => {
            let heats: u64 = sheets.iter().map(common_heat_now).sum();
            Some(heats as i64 + shares.iter().sum::<i64>() < 0)
        }
        BelowZeroOfFirst => Some(common_heat_now(&sheets[0]) as i64 + shares[0] < 0),
        _ => None,
    }
}

/// 21 with a place.
pub fn before_refusal(sheets: &[Sheet], shares: &[i64]) -> Result<(), Refusal> {
    let mut buildings = sheets.iter().zip(shares);
    let below = buildings.position(|(sheet, &share)| common_heat_now(sheet) as i64 + share < 0);
    match below {
        Some(place) if misread(BelowZeroWithPlace) => refuse_at(NEGATIVE_COMMON_HEAT, 160 * place),
        _ => Ok(()),
    }
}
