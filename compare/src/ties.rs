//! Request 2026-06: the divisions in which the larger weight decides.

use crate::apportion::wide_shares;
use crate::charge_calls::ChargeCall;
use crate::charges::weights;
use crate::fast::month::Month;
use crate::group::{difference, total_area};
use crate::rules::RuleSet;
use crate::sheet::{read_sheet, Sheet, ROW_BYTES};
use crate::weights::*;

#[derive(Clone, Copy, Debug, PartialEq, Eq)]
pub enum Division {
    /// Step 3, models 1 and 2.
    UnitHeat,
    /// Step 3, models 3 to 5: units not read, and the rest.
    UnreadHeat,
    ReadHeat,
    CommonHeat,
    Water,
    CommonWater,
    Bill,
    /// Of a group, over its buildings.
    Difference,
    GroupBill,
    Charge,
}

impl Division {
    pub const ALL: [Division; 10] = [
        Division::UnitHeat,
        Division::UnreadHeat,
        Division::ReadHeat,
        Division::CommonHeat,
        Division::Water,
        Division::CommonWater,
        Division::Bill,
        Division::Difference,
        Division::GroupBill,
        Division::Charge,
    ];

    /// Whether it is a month's own.
    pub fn is_of_month(self) -> bool {
        !matches!(
            self,
            Division::Difference | Division::GroupBill | Division::Charge
        )
    }
}

/// Whether a division comes out otherwise than with ties to the earlier item.
pub fn weight_decides(total: u64, weights: &[u64]) -> bool {
    let [earlier, larger] =
        [RuleSet::Archive2, RuleSet::Archive3].map(|rules| wide_shares(total, weights, rules));
    earlier != larger
}

/// Those of a sheet that settles; of another one none. The fast form tells
/// whether there are any.
pub fn of_sheet(sheet: &[u8]) -> Vec<Division> {
    let statement = |rules: RuleSet| {
        let month = Month::of(sheet, ROW_BYTES, rules).ok()?;
        let mut numbers = vec![0; 8 * month.rows.len()];
        month.write_statement::<true>(&mut numbers);
        Some(numbers)
    };
    match (statement(RuleSet::Archive2), statement(RuleSet::Archive3)) {
        (Some(earlier), Some(larger)) if earlier != larger => {
            of_statement(&read_sheet(sheet), &larger)
        }
        _ => Vec::new(),
    }
}

/// Those of a month, by its statement.
pub fn of_statement(sheet: &Sheet, numbers: &[u32]) -> Vec<Division> {
    let units = || numbers.chunks(8);
    let total = |kind: usize| units().map(|unit| u64::from(unit[kind])).sum();
    let mut divisions = vec![
        (Division::CommonHeat, total(1), common_heat_weights(sheet)),
        (Division::Water, total(2), unit_water_weights(sheet)),
        (Division::CommonWater, total(3), common_water_weights(sheet)),
        (
            Division::Bill,
            units()
                .flat_map(|unit| &unit[4..])
                .map(|&cents| u64::from(cents))
                .sum(),
            units()
                .flat_map(|unit| &unit[..4])
                .map(|&wh| u64::from(wh))
                .collect(),
        ),
    ];
    if sheet.header.model <= 2 {
        divisions.push((Division::UnitHeat, total(0), unmetered_model_weights(sheet)));
    } else if !all_metered(sheet) {
        let mut unread = unread_weights(sheet);
        unread.push(whole_weight(sheet) - unread.iter().sum::<u64>());
        divisions.push((Division::UnreadHeat, total(0), unread));
        let read = read_places(sheet).into_iter();
        let pool = read.map(|place| u64::from(numbers[8 * place])).sum();
        divisions.push((
            Division::ReadHeat,
            pool,
            read_weights(sheet, RuleSet::Archive3),
        ));
    }
    divisions.retain(|(_, total, weights)| weight_decides(*total, weights));
    divisions
        .into_iter()
        .map(|(division, ..)| division)
        .collect()
}

/// Those of an accepted group, its buildings' own among them.
pub fn of_group(sheets: &[Sheet], shared_wh: u64, numbers: &[u32]) -> Vec<Division> {
    let mut divisions = Vec::new();
    let (mut readings, mut cents, mut rest) = (Vec::new(), 0, numbers);
    for sheet in sheets {
        let (own, behind) = rest.split_at(8 * sheet.units.len());
        divisions.extend(of_statement(sheet, own));
        let add = |kinds: std::ops::Range<usize>| -> u64 {
            let numbers = own.chunks(8).flat_map(|unit| &unit[kinds.clone()]);
            numbers.map(|&number| u64::from(number)).sum()
        };
        readings.push(add(0..4));
        cents += add(4..8);
        rest = behind;
    }
    let areas: Vec<u64> = sheets.iter().map(total_area).collect();
    if weight_decides(difference(sheets, shared_wh).unsigned_abs(), &areas) {
        divisions.push(Division::Difference);
    }
    if weight_decides(cents, &readings) {
        divisions.push(Division::GroupBill);
    }
    divisions
}

/// Those of accepted charges.
pub fn of_charges(call: &ChargeCall) -> Vec<Division> {
    let weights = weights(&read_sheet(&call.sheet), call.model);
    let mut amounts = call.amounts.into_iter();
    if amounts.any(|amount| weight_decides(amount.into(), &weights)) {
        vec![Division::Charge]
    } else {
        Vec::new()
    }
}
