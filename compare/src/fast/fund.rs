//! The efficiency fund.

use super::month::Month;
use super::rows::Row;
use crate::fund::MAX_RATE;
use crate::refusal::*;
use crate::rules::NEWEST;

/// Takes in a month's fees: the sheet's 1 to 12 with 20, then 24, 25.
pub fn collect_fees(fund: &mut u64, sheet: &[u8], rate: u32) -> Result<(), Refusal> {
    let month = Month::of(sheet, 32, NEWEST)?;
    refuse_if(rate > MAX_RATE, RATE_TOO_HIGH)?;
    let fees = fees(&month, rate.into());
    *fund = fund
        .checked_add(fees)
        .map_or_else(|| refuse(FUND_FULL), Ok)?;
    Ok(())
}

/// Pays out an amount: 23.
pub fn pay_out(fund: &mut u64, amount: u64) -> Result<(), Refusal> {
    *fund = fund
        .checked_sub(amount)
        .map_or_else(|| refuse(FUND_SHORT), Ok)?;
    Ok(())
}

/// In one pass over the rows.
fn fees(month: &Month, rate: u64) -> u64 {
    let all = month.header.model <= 2;
    let fee = |row: &[u8; 32]| {
        let row = Row(row);
        let pays = all || matches!(row.status(), 1 | 4);
        let fee = (row.heated_area() * rate + 5_000) / 10_000;
        if pays {
            fee
        } else {
            0
        }
    };
    month.rows.iter().map(fee).sum()
}
