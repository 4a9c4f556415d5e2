//! Wrong readings of request 2026-05.

use super::dividing::half_up_share;
use crate::apportion::apportion;
use crate::charges::*;
use crate::refusal::*;
use crate::rules::NEWEST;
use crate::settle::check_month;
use crate::sheet::{get_u16, Sheet, Unit, HEADER_BYTES};
use crate::weights::*;
use crate::{current, misread, Reading::*};

/// What is tested before the sheet.
pub fn before_sheet(
    bytes: &[u8],
    model: u32,
    amounts: [u32; 3],
    list_len: usize,
) -> Result<(), Refusal> {
    let bad_call = over_limit_right(amounts) || other_model_right(model);
    match current() {
        Some(ChargeBeforeSheet) => refuse_if(bad_call, HEADER_FIELD),
        Some(ChargeListFirst) if bytes.len() >= HEADER_BYTES => {
            let units = usize::from(get_u16(bytes, 8));
            refuse_if(list_len != 3 * units, BUFFER_LENGTH)
        }
        _ => Ok(()),
    }
}

fn over_limit_right(amounts: [u32; 3]) -> bool {
    amounts.iter().any(|&amount| amount > MAX_CHARGE)
}

fn other_model_right(model: u32) -> bool {
    !(MODEL_1S..=MODEL_2S).contains(&model)
}

/// The call's model as it is taken.
pub fn taken_model(model: u32) -> u32 {
    match current() {
        Some(ChargeModelIn8Bits) => model & 255,
        Some(ChargeModelFromZero) => model.wrapping_add(1),
        _ => model,
    }
}

/// What is tested after the sheet and before the call's 4, or 4 with a place.
pub fn before_call(
    sheet: &Sheet,
    model: u32,
    amounts: [u32; 3],
    list_len: usize,
) -> Result<(), Refusal> {
    let over = amounts.iter().position(|&amount| amount > MAX_CHARGE);
    match (current(), over) {
        (Some(ChargeAmountWithPlace), Some(place)) => refuse_at(HEADER_FIELD, 1 + place),
        (Some(ChargeModelAtByte7), None) if other_model_right(model) => refuse_at(HEADER_FIELD, 7),
        (Some(ChargeModelOfSheet), _) => {
            refuse_if(u32::from(sheet.header.model) != model, HEADER_FIELD)
        }
        (Some(LoadsBeforeCall), _) => {
            refuse_if(crate::charges::no_loads(sheet, model), ZERO_DIVISOR)
        }
        (Some(ChargeListBeforeCall), _) => test_len(sheet, list_len),
        (Some(ChargeOfSettledMonth), _) => check_month(sheet),
        _ => Ok(()),
    }
}

fn test_len(sheet: &Sheet, list_len: usize) -> Result<(), Refusal> {
    refuse_if(list_len != 3 * sheet.units.len(), BUFFER_LENGTH)
}

/// Whether 4 refuses the amounts.
pub fn over_limit(amounts: [u32; 3]) -> Option<bool> {
    let [power, buyer_fee, supplier_fee] = amounts;
    let any_above = |limit| amounts.iter().any(|&amount| amount > limit);
    match current()? {
        ChargeLimitExcluded => Some(any_above(MAX_CHARGE - 1)),
        ChargeLimitPlusOne => Some(any_above(MAX_CHARGE + 1)),
        ChargeLimitOfPower => Some(power > MAX_CHARGE),
        ChargeLimitOfFees => Some(buyer_fee.max(supplier_fee) > MAX_CHARGE),
        ChargeLimitOfSum => {
            let sum: u64 = amounts.into_iter().map(u64::from).sum();
            Some(sum > u64::from(MAX_CHARGE))
        }
        AmountsAfterLoads => Some(false),
        _ => None,
    }
}

/// Whether 4 refuses the call's model.
pub fn other_model(model: u32) -> Option<bool> {
    misread(ChargeModelElse).then_some(model == 0)
}

/// What is tested before 9.
pub fn before_loads(sheet: &Sheet, list_len: usize) -> Result<(), Refusal> {
    if misread(ChargeListBeforeLoads) {
        return test_len(sheet, list_len);
    }
    Ok(())
}

/// Whether 9 refuses.
pub fn no_loads(sheet: &Sheet, model: u32, amounts: [u32; 3]) -> Option<bool> {
    let by_load = model == MODEL_1S;
    let none = sum(&sheet.units, heat_load) == 0;
    match current()? {
        LoadsWithAmounts => Some(by_load && none && amounts != [0; 3]),
        LoadsOf2S => Some(none),
        LoadsOneZero => Some(by_load && sheet.units.iter().any(|unit| heat_load(unit) == 0)),
        LoadsOfSheetModel1 => Some(by_load && none && sheet.header.model == 1),
        LoadsOfZeroByArea => Some(false),
        _ => None,
    }
}

/// What is tested after 9.
pub fn after_loads(amounts: [u32; 3]) -> Result<(), Refusal> {
    let over = misread(AmountsAfterLoads) && over_limit_right(amounts);
    refuse_if(over, HEADER_FIELD)
}

/// The length that 13 wants.
pub fn wanted_len(sheet: &Sheet, list_len: usize) -> Option<usize> {
    match current()? {
        ChargeListOf8 => Some(8 * sheet.units.len()),
        ChargeLongerList => Some(list_len.max(3 * sheet.units.len())),
        _ => None,
    }
}

/// What the amounts are divided by.
pub fn weights(sheet: &Sheet, model: u32) -> Option<Vec<u64>> {
    let by_load = model == MODEL_1S;
    let right = if by_load { heat_load } else { heated_area };
    match current()? {
        ChargeBySheetModel if sheet.header.model == 1 => Some(column(sheet, heat_load)),
        ChargeBySheetModel | ChargeAlwaysByArea => Some(column(sheet, heated_area)),
        ChargeAlwaysByLoad => Some(column(sheet, heat_load)),
        LoadsOfZeroByArea if sum(&sheet.units, right) == 0 => Some(column(sheet, heated_area)),
        ChargeWithFactor if !by_load => {
            let weight = |unit: &Unit| heated_area(unit) * location_factor(unit);
            Some(sheet.units.iter().map(weight).collect())
        }
        ChargeOfReadUnits => {
            let weight = |unit: &Unit| if is_read(unit) { right(unit) } else { 0 };
            Some(sheet.units.iter().map(weight).collect())
        }
        _ => None,
    }
}

/// The amounts in another order of columns.
pub fn reordered([power, buyer_fee, supplier_fee]: [u32; 3]) -> [u32; 3] {
    match current() {
        Some(PowerAndBuyerSwapped) => [buyer_fee, power, supplier_fee],
        Some(PowerAndSupplierSwapped) => [supplier_fee, buyer_fee, power],
        Some(FeesSwapped) => [power, supplier_fee, buyer_fee],
        _ => [power, buyer_fee, supplier_fee],
    }
}

/// The columns, divided otherwise.
pub fn columns(sheet: &Sheet, amounts: [u32; 3], weights: &[u64]) -> Option<[Vec<u32>; 3]> {
    let fees_by = |others: &[u64]| {
        let by = [weights, others, others];
        std::array::from_fn(|place| apportion(u64::from(amounts[place]), by[place], NEWEST))
    };
    match current()? {
        FeesByArea => Some(fees_by(&column(sheet, heated_area))),
        FeesEqually => Some(fees_by(&vec![1; weights.len()])),
        ChargesAsOneSum => Some(as_one_sum(amounts, weights)),
        ChargeHalfUpEach | ChargeLeftoverToLast | ChargeLeftoverToFirst | ChargeTiesToLater => {
            Some(amounts.map(|amount| rounded(amount, weights)))
        }
        _ => None,
    }
}

/// The sum of the amounts divided over all 3n at once.
fn as_one_sum(amounts: [u32; 3], weights: &[u64]) -> [Vec<u32>; 3] {
    let parts = |&weight: &u64| amounts.map(|amount| u64::from(amount) * weight);
    let all: Vec<u64> = weights.iter().flat_map(parts).collect();
    let numbers = apportion(amounts.into_iter().map(u64::from).sum(), &all, NEWEST);
    std::array::from_fn(|place| numbers.iter().skip(place).step_by(3).copied().collect())
}

/// The shares of an amount, rounded otherwise.
fn rounded(amount: u32, weights: &[u64]) -> Vec<u32> {
    let (total, sum) = (u64::from(amount), weights.iter().sum::<u64>());
    if misread(ChargeHalfUpEach) {
        let each = |&weight: &u64| half_up_share(total, weight, sum.into()) as u32;
        return weights.iter().map(each).collect();
    }
    let mut shares: Vec<u32> = weights.iter().map(|w| (total * w / sum) as u32).collect();
    let leftover = amount - shares.iter().sum::<u32>();
    let last = shares.len() - 1;
    if misread(ChargeTiesToLater) {
        let mut order: Vec<usize> = (0..=last).collect();
        order.sort_by_key(|&place| std::cmp::Reverse((total * weights[place] % sum, place)));
        for &place in &order[..leftover as usize] {
            shares[place] += 1;
        }
    } else {
        let place = if misread(ChargeLeftoverToFirst) {
            0
        } else {
            last
        };
        shares[place] += leftover;
    }
    shares
}

/// The list in another order.
pub fn laid_out(columns: &[Vec<u32>; 3]) -> Option<Vec<u32>> {
    misread(ColumnByColumn).then(|| columns.concat())
}

/// What a refused call writes.
pub fn refused(amounts: [u32; 3], refusal: &Refusal, list: &mut [u32]) {
    match current() {
        Some(RefusedChargesZero) => list.fill(0),
        Some(RefusedChargesHaveWritten) if refusal.number == BUFFER_LENGTH => {
            for (number, amount) in list.iter_mut().zip(amounts) {
                *number = amount;
            }
        }
        _ => {}
    }
}
