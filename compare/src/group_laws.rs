//! Request 2026-04: what holds of every group that is accepted.

use crate::group::{adjusted_reading, difference, difference_shares, total_area};
use crate::portions::{portions_with, require, Fraction};
use crate::rules::NEWEST;
use crate::settle::bill;
use crate::sheet::Sheet;

/// Checks the statements of an accepted group: the energies add to the shared
/// reading and in each building to its adjusted reading, the cents to the
/// shared bill, and each energy is within 4 Wh of its unrounded portion. The
/// error names the law that fails.
pub fn check_statements(
    sheets: &[Sheet],
    shared_wh: u64,
    numbers: &[u32],
) -> Result<(), &'static str> {
    let units: Vec<&[u32]> = numbers.chunks(8).collect();
    let count: usize = sheets.iter().map(|sheet| sheet.units.len()).sum();
    require(units.len() == count, "eight numbers a unit")?;
    let bill_cents = bill(shared_wh, sheets[0].header.price);
    let all_energies = add(&units, 0..4) == shared_wh;
    require(all_energies, "energies add to the shared reading")?;
    let all_cents = add(&units, 4..8) == u64::from(bill_cents);
    require(all_cents, "cents add to the shared bill")?;

    let mut rest = &units[..];
    let shares = difference_shares(sheets, shared_wh, NEWEST);
    for ((sheet, share), exact) in sheets
        .iter()
        .zip(shares)
        .zip(exact_shares(sheets, shared_wh))
    {
        let (own, behind) = rest.split_at(sheet.units.len());
        let own_energies = add(own, 0..4) == adjusted_reading(sheet, share) as u64;
        require(own_energies, "energies add to the adjusted reading")?;
        check_portions(sheet, &exact, own)?;
        rest = behind;
    }
    Ok(())
}

fn add(units: &[&[u32]], range: std::ops::Range<usize>) -> u64 {
    let numbers = units.iter().flat_map(|unit| &unit[range.clone()]);
    numbers.map(|&number| u64::from(number)).sum()
}

/// The difference's shares without rounding, with its sign.
pub fn exact_shares(sheets: &[Sheet], shared_wh: u64) -> Vec<Fraction> {
    let difference = difference(sheets, shared_wh);
    let size = Fraction::new(difference.unsigned_abs(), 1);
    let whole = if difference < 0 { size.negated() } else { size };
    let areas: u64 = sheets.iter().map(total_area).sum();
    sheets
        .iter()
        .map(|sheet| whole.part(total_area(sheet), areas))
        .collect()
}

fn check_portions(sheet: &Sheet, share: &Fraction, units: &[&[u32]]) -> Result<(), &'static str> {
    for (unit, portions) in units.iter().zip(portions_with(sheet, NEWEST, share)) {
        for (&wh, portion) in unit.iter().zip(&portions) {
            let near = portion.is_within(4, u64::from(wh));
            require(near, "energy near its portion")?;
        }
    }
    Ok(())
}
