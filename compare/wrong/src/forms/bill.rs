//! Wrong readings of step 7 and of the statement.

use super::dividing::half_up_share;
use crate::apportion::apportion;
use crate::rules::RuleSet;
use crate::{current, Reading::*};

type Energies = [[u32; 4]];

/// The bill before it is divided.
pub fn bill(cost: u64) -> Option<u64> {
    let cents = cost / 1_000_000;
    match current()? {
        BillRoundedDown => Some(cents),
        BillRoundedUp => Some(cost.div_ceil(1_000_000)),
        BillHalfEven if cost % 1_000_000 == 500_000 => Some(cents + cents % 2),
        _ => None,
    }
}

/// The bill divided over the energies.
pub fn costs(bill: u64, energies: &Energies, rules: RuleSet) -> Option<Vec<[u32; 4]>> {
    match current()? {
        BillByColumn => Some(by_column(bill, energies, rules)),
        BillByUnit => Some(by_unit(bill, energies, rules)),
        BillInColumnOrder => Some(in_column_order(bill, energies, rules)),
        BillHalfUpEach => Some(half_up_each(bill, energies)),
        _ => None,
    }
}

fn column(energies: &Energies, kind: usize) -> Vec<u64> {
    energies.iter().map(|row| u64::from(row[kind])).collect()
}

fn by_column(bill: u64, energies: &Energies, rules: RuleSet) -> Vec<[u32; 4]> {
    let sums: Vec<u64> = (0..4)
        .map(|kind| column(energies, kind).iter().sum())
        .collect();
    let mut costs = vec![[0; 4]; energies.len()];
    for (kind, part) in apportion(bill, &sums, rules).into_iter().enumerate() {
        let cents = apportion(part.into(), &column(energies, kind), rules);
        for (cost, cents) in costs.iter_mut().zip(cents) {
            cost[kind] = cents;
        }
    }
    costs
}

fn by_unit(bill: u64, energies: &Energies, rules: RuleSet) -> Vec<[u32; 4]> {
    let rows: Vec<[u64; 4]> = energies.iter().map(|row| row.map(u64::from)).collect();
    let sums: Vec<u64> = rows.iter().map(|row| row.iter().sum()).collect();
    let parts = apportion(bill, &sums, rules).into_iter().zip(&rows);
    let cents = parts.map(|(part, row)| apportion(part.into(), row, rules));
    cents
        .map(|four| [four[0], four[1], four[2], four[3]])
        .collect()
}

fn in_column_order(bill: u64, energies: &Energies, rules: RuleSet) -> Vec<[u32; 4]> {
    let weights: Vec<u64> = (0..4).flat_map(|kind| column(energies, kind)).collect();
    let cents = apportion(bill, &weights, rules);
    let count = energies.len();
    (0..count)
        .map(|unit| std::array::from_fn(|kind| cents[kind * count + unit]))
        .collect()
}

fn half_up_each(bill: u64, energies: &Energies) -> Vec<[u32; 4]> {
    let meter: u128 = energies.iter().flatten().map(|&wh| u128::from(wh)).sum();
    let cents = |wh: u32| half_up_share(bill, wh.into(), meter.max(1)) as u32;
    energies.iter().map(|row| row.map(cents)).collect()
}

/// The statement's order.
pub fn statement(energies: &[[u32; 4]], costs: &[[u32; 4]]) -> Option<Vec<u32>> {
    match current()? {
        StatementByKind => Some(energies.iter().chain(costs).flatten().copied().collect()),
        StatementInPairs => {
            let pairs = energies.iter().flatten().zip(costs.iter().flatten());
            Some(pairs.flat_map(|(&wh, &cents)| [wh, cents]).collect())
        }
        _ => None,
    }
}
