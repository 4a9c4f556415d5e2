//! Request 2026-05: connection power and fees.

use crate::apportion::apportion;
use crate::refusal::*;
use crate::rules::NEWEST;
use crate::sheet::{check, read_sheet, Sheet, ROW_BYTES};
use crate::weights::{column, heat_load, heated_area};

/// The most of each amount, in cents.
pub const MAX_CHARGE: u32 = 100_000_000;
/// The models of a call.
pub const MODEL_1S: u32 = 1;
pub const MODEL_2S: u32 = 2;

/// Divides power, buyer's fee and supplier's fee for a list of `list_len`
/// numbers: the sheet's 1 to 7 with 20, then 4, 9, 13. Gives back three numbers
/// a unit, in this order.
pub fn fixed_charges(
    bytes: &[u8],
    model: u32,
    amounts: [u32; 3],
    list_len: usize,
) -> Result<Vec<u32>, Refusal> {
    check(bytes, ROW_BYTES)?;
    let sheet = read_sheet(bytes);
    refuse_if(over_limit(amounts) || other_model(model), HEADER_FIELD)?;
    refuse_if(no_loads(&sheet, model), ZERO_DIVISOR)?;
    refuse_if(list_len != 3 * sheet.units.len(), BUFFER_LENGTH)?;
    let weights = weights(&sheet, model);
    let columns = amounts.map(|amount| apportion(u64::from(amount), &weights, NEWEST));
    Ok(unit_by_unit(columns))
}

/// Divides into a list; a refused call leaves it.
pub fn fixed_charges_into(
    bytes: &[u8],
    model: u32,
    amounts: [u32; 3],
    list: &mut [u32],
) -> Result<(), Refusal> {
    let numbers = fixed_charges(bytes, model, amounts, list.len())?;
    list.copy_from_slice(&numbers);
    Ok(())
}

fn over_limit(amounts: [u32; 3]) -> bool {
    amounts.iter().any(|&amount| amount > MAX_CHARGE)
}

fn other_model(model: u32) -> bool {
    model != MODEL_1S && model != MODEL_2S
}

/// Refusal 9, whatever the amounts. No p is 0.
fn no_loads(sheet: &Sheet, model: u32) -> bool {
    model == MODEL_1S && column(sheet, heat_load).iter().sum::<u64>() == 0
}

/// q under 1S, p under 2S.
pub fn weights(sheet: &Sheet, model: u32) -> Vec<u64> {
    if model == MODEL_1S {
        column(sheet, heat_load)
    } else {
        column(sheet, heated_area)
    }
}

/// Each unit's power, buyer's fee and supplier's fee.
fn unit_by_unit(columns: [Vec<u32>; 3]) -> Vec<u32> {
    let units = 0..columns[0].len();
    units
        .flat_map(|unit| columns.each_ref().map(|column| column[unit]))
        .collect()
}
