//! "Dividing" against a form that hands out the leftover one by one.

use compare::apportion::apportion;
use compare::rng::Rng;
use compare::rules::RuleSet;

/// Gives each unit of the leftover to the item with the largest remainder that
/// has none yet; of equal ones, where the rules go by it, to that of the largest
/// weight; of these to the earliest.
fn one_by_one(total: u64, weights: &[u64], rules: RuleSet) -> Vec<u32> {
    let weight_sum: u128 = weights.iter().map(|&w| u128::from(w)).sum();
    if weight_sum == 0 {
        return vec![0; weights.len()];
    }
    let product = |w: u64| u128::from(total) * u128::from(w);
    let mut shares: Vec<u32> = weights
        .iter()
        .map(|&w| (product(w) / weight_sum) as u32)
        .collect();
    let mut open: Vec<Option<u128>> = weights
        .iter()
        .map(|&w| Some(product(w) % weight_sum))
        .collect();
    while shares.iter().map(|&share| u64::from(share)).sum::<u64>() < total {
        let mut best = 0;
        for place in 1..open.len() {
            let tied = open[place].is_some() && open[place] == open[best];
            let heavier = rules.larger_first() && weights[place] > weights[best];
            if open[place] > open[best] || tied && heavier {
                best = place;
            }
        }
        shares[best] += 1;
        open[best] = None;
    }
    shares
}

#[test]
fn both_forms_agree() {
    let mut rng = Rng::new(1);
    for _ in 0..20_000 {
        let count = rng.between(1, 12) as usize;
        let highest = [1, 3, 10, 1_000, 24_000_000_000_000_000][rng.below(5) as usize];
        let weights: Vec<u64> = (0..count).map(|_| rng.edge(0, highest)).collect();
        let highest_total = [5, 100, 4_000_000_000][rng.below(3) as usize];
        let total = rng.edge(0, highest_total);
        for rules in RuleSet::ALL {
            let shares = apportion(total, &weights, rules);
            assert_eq!(shares, one_by_one(total, &weights, rules));
            if weights.iter().any(|&weight| weight > 0) {
                let sum: u64 = shares.iter().map(|&share| u64::from(share)).sum();
                assert_eq!(sum, total);
            }
            for (share, weight) in shares.iter().zip(&weights) {
                assert!(*weight > 0 || *share == 0);
            }
        }
    }
}

#[test]
fn no_weight_gives_zeros() {
    for rules in RuleSet::ALL {
        assert_eq!(apportion(0, &[0, 0], rules), [0, 0]);
        assert_eq!(apportion(7, &[0, 0], rules), [0, 0]);
        assert_eq!(apportion(0, &[], rules), []);
    }
}
