//! Document 01, "Dividing", with request 2026-06: the largest-remainder method.

use crate::rules::RuleSet;
use std::cmp::Reverse;

/// Divides `total` by `weights`. The total is below 2^32, so that every share
/// fits 32 bits.
pub fn apportion(total: u64, weights: &[u64], rules: RuleSet) -> Vec<u32> {
    wide_shares(total, weights, rules)
        .into_iter()
        .map(|share| u32::try_from(share).expect("the total is below 2^32"))
        .collect()
}

/// The same for any total. With a weight sum of 0 every share is 0.
pub fn wide_shares(total: u64, weights: &[u64], rules: RuleSet) -> Vec<u64> {
    let weight_sum: u128 = weights.iter().map(|&weight| u128::from(weight)).sum();
    if weight_sum == 0 {
        return vec![0; weights.len()];
    }
    let products: Vec<u128> = weights
        .iter()
        .map(|&weight| u128::from(total) * u128::from(weight))
        .collect();
    let mut shares: Vec<u128> = products
        .iter()
        .map(|product| product / weight_sum)
        .collect();
    let remainders: Vec<u128> = products
        .iter()
        .map(|product| product % weight_sum)
        .collect();
    let leftover = u128::from(total) - shares.iter().sum::<u128>();
    for place in takers(weights, &remainders, leftover as usize, rules) {
        shares[place] += 1;
    }
    shares
        .into_iter()
        .map(|share| u64::try_from(share).expect("no share is above the total"))
        .collect()
}

/// Who gets one of the leftover each: the largest remainders, ties to the
/// larger weight where the rules say so, then to the earlier item.
fn takers(weights: &[u64], remainders: &[u128], leftover: usize, rules: RuleSet) -> Vec<usize> {
    let tie_key = |item: usize| {
        if rules.larger_first() {
            weights[item]
        } else {
            0
        }
    };
    // A stable sort keeps the earlier of two equal items in front.
    let mut order: Vec<usize> = (0..remainders.len()).collect();
    order.sort_by_key(|&item| Reverse((remainders[item], tie_key(item))));
    order.truncate(leftover);
    order
}
