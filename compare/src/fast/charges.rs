//! Connection power and fees.

use super::dividing::divide;
use super::rows::{checked_rows, Row};
use crate::charges::{MAX_CHARGE, MODEL_1S, MODEL_2S};
use crate::refusal::*;
use crate::rules::NEWEST;

/// Divides three amounts into a list of 3n numbers: the sheet's 1 to 7 with 20,
/// then 4, 9, 13.
pub fn fixed_charges<const RECIPROCAL: bool>(
    sheet: &[u8],
    model: u32,
    amounts: [u32; 3],
    charges: &mut [u32],
) -> Result<(), Refusal> {
    let (rows, sums) = checked_rows(sheet)?;
    let by_load = model == MODEL_1S;
    let fits = amounts.iter().all(|&amount| amount <= MAX_CHARGE);
    refuse_if(!fits || !by_load && model != MODEL_2S, HEADER_FIELD)?;
    refuse_if(by_load && sums.load == 0, ZERO_DIVISOR)?;
    refuse_if(charges.len() != 3 * rows.len(), BUFFER_LENGTH)?;
    if rows.len() <= 16 {
        write::<16, RECIPROCAL>(rows, by_load, amounts, charges);
    } else {
        write::<160, RECIPROCAL>(rows, by_load, amounts, charges);
    }
    Ok(())
}

/// With room for `N` units.
fn write<const N: usize, const RECIPROCAL: bool>(
    rows: &[[u8; 32]],
    by_load: bool,
    amounts: [u32; 3],
    charges: &mut [u32],
) {
    let count = rows.len();
    let (mut weights, mut remainders) = ([0; N], [0; N]);
    for (weight, row) in weights.iter_mut().zip(rows) {
        let row = Row(row);
        *weight = if by_load {
            row.heat_load()
        } else {
            row.heated_area()
        };
    }
    let mut columns = [[0u32; N]; 3];
    for (column, amount) in columns.iter_mut().zip(amounts) {
        divide::<RECIPROCAL>(
            amount.into(),
            &weights[..count],
            NEWEST,
            &mut remainders[..count],
            &mut column[..count],
        );
    }
    let (units, _) = charges.as_chunks_mut::<3>();
    for (place, unit) in units.iter_mut().enumerate() {
        *unit = columns.each_ref().map(|column| column[place]);
    }
}
