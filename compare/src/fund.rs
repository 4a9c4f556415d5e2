//! Request 2026-07: the efficiency fund. A fund is its balance in cents; a new
//! one holds 0.

use crate::refusal::*;
use crate::settle::check_month;
use crate::sheet::{check, read_sheet, Sheet, Unit, ROW_BYTES};
use crate::weights::heated_area;

/// The highest rate, in thousandths of a cent per m².
pub const MAX_RATE: u32 = 1_000_000;

/// Takes in a month's fees: the sheet's 1 to 12 with 20, then 24, 25. A refused
/// call leaves the balance.
pub fn collect_fees(fund: &mut u64, bytes: &[u8], rate: u32) -> Result<(), Refusal> {
    let fees = fees(bytes, rate)?;
    let balance = u128::from(*fund) + u128::from(fees);
    refuse_if(balance > u128::from(u64::MAX), FUND_FULL)?;
    *fund = balance as u64;
    Ok(())
}

/// Pays out an amount: 23. A refused call leaves the balance.
pub fn pay_out(fund: &mut u64, amount: u64) -> Result<(), Refusal> {
    refuse_if(amount > *fund, FUND_SHORT)?;
    *fund -= amount;
    Ok(())
}

/// A month's fees: the sheet's 1 to 12 with 20, then 24.
pub fn fees(bytes: &[u8], rate: u32) -> Result<u64, Refusal> {
    check(bytes, ROW_BYTES)?;
    let sheet = read_sheet(bytes);
    check_month(&sheet)?;
    refuse_if(rate > MAX_RATE, RATE_TOO_HIGH)?;
    Ok(sheet_fees(&sheet, rate))
}

/// The fees of a sheet that isn't refused, each rounded by itself.
pub fn sheet_fees(sheet: &Sheet, rate: u32) -> u64 {
    let paying = sheet.units.iter().filter(|unit| pays(sheet, unit));
    paying.map(|unit| unit_fee(unit, rate)).sum()
}

/// Whether a unit is settled without readings.
pub fn pays(sheet: &Sheet, unit: &Unit) -> bool {
    match sheet.header.model {
        1 | 2 => true,
        _ => matches!(unit.status, 1 | 4),
    }
}

/// p × rate / 10,000 in cents, half up.
fn unit_fee(unit: &Unit, rate: u32) -> u64 {
    (heated_area(unit) * u64::from(rate) + 5_000) / 10_000
}
