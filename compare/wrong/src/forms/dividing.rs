//! Wrong readings of "Dividing", and of request 2026-06 in every division.

use crate::rules::RuleSet;
use crate::{current, Reading, Reading::*};
use std::cmp::Reverse;

/// Shares of a division without a leftover.
pub fn shares(total: u64, weights: &[u64], weight_sum: u128) -> Option<Vec<u64>> {
    let share: fn(u64, u64, u128) -> u128 = match current()? {
        EachShareHalfUp => half_up_share,
        ProductIn64Bits => |total, weight, sum| u128::from(total.wrapping_mul(weight)) / sum,
        _ => return None,
    };
    let shares = weights
        .iter()
        .map(|&weight| u64::from(share(total, weight, weight_sum) as u32));
    Some(shares.collect())
}

pub fn half_up_share(total: u64, weight: u64, weight_sum: u128) -> u128 {
    (2 * u128::from(total) * u128::from(weight) + weight_sum) / (2 * weight_sum)
}

/// Who gets one of the leftover each.
pub fn takers(
    total: u64,
    weights: &[u64],
    remainders: &[u128],
    leftover: usize,
    rules: RuleSet,
) -> Option<Vec<usize>> {
    let mut order: Vec<usize> = (0..weights.len()).collect();
    match current()? {
        LeftoverToLast => order = vec![weights.len() - 1; leftover],
        LeftoverToFirst => order = vec![0; leftover],
        LeftoverInOrder => {}
        LeftoverToLargestWeights => order.sort_by_key(|&i| Reverse(weights[i])),
        TiesToLater => order.sort_by_key(|&i| Reverse((remainders[i], i))),
        RemaindersAsFloats => by_floats(total, weights, &mut order, rules),
        TiesInOldVersions if !rules.larger_first() => {
            order.sort_by_key(|&i| Reverse((remainders[i], weights[i])));
        }
        reading if rules.larger_first() => tied(reading, weights, remainders, &mut order)?,
        _ => return None,
    }
    order.truncate(leftover);
    Some(order)
}

/// The order of items by what follows the point in floats, ties by the rules.
fn by_floats(total: u64, weights: &[u64], order: &mut [usize], rules: RuleSet) {
    let sum = weights.iter().sum::<u64>() as f64;
    let part = |item: usize| (total as f64 * weights[item] as f64 / sum).fract();
    if rules.larger_first() {
        order.sort_by_key(|&i| Reverse(weights[i]));
    }
    order.sort_by(|&a, &b| part(b).total_cmp(&part(a)));
}

/// The order of items by their remainders, ties misread.
fn tied(reading: Reading, weights: &[u64], remainders: &[u128], order: &mut [usize]) -> Option<()> {
    match reading {
        TiesToEarlier => order.sort_by_key(|&i| Reverse(remainders[i])),
        TiesToSmallerWeight => order.sort_by_key(|&i| (Reverse(remainders[i]), weights[i])),
        TiesToLaterOfEqual => order.sort_by_key(|&i| Reverse((remainders[i], weights[i], i))),
        TiesIn32Bits => order.sort_by_key(|&i| Reverse((remainders[i], weights[i] as u32))),
        TiesToLargestAlone => {
            order.sort_by_key(|&i| Reverse(remainders[i]));
            for tied in order.chunk_by_mut(|&a, &b| remainders[a] == remainders[b]) {
                let largest = (0..tied.len()).max_by_key(|&k| (weights[tied[k]], Reverse(k)))?;
                tied[..=largest].rotate_right(1);
            }
        }
        _ => return None,
    }
    Some(())
}
