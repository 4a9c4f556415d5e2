//! The division alone (compare/division), with ties to the earlier item and to
//! the larger weight.

use super::{print_head, print_line};
use crate::calls;
use compare::fast::dividing::divide;
use compare::rng::Rng;
use compare::rules::RuleSet;
use std::hint::black_box;

const MANY: usize = 40;
const TOTAL: u64 = 399_999_999;

pub fn run(seed: u64) {
    for (title, rules) in [
        ("division, ties to the earlier", RuleSet::Archive2),
        ("division, ties to the larger", RuleSet::Archive3),
    ] {
        print_head(title);
        for count in [2, 3, 160, 640] {
            run_count(seed, count, rules);
        }
    }
}

fn run_count(seed: u64, count: usize, rules: RuleSet) {
    let mut rng = Rng::new(seed);
    // The widest weights that the division takes, and energies.
    let wide = weights(&mut rng, count, (1 << 61) / count as u64);
    print_division(&format!("{count} random weights, wide"), &wide, rules);
    let energies = weights(&mut rng, count, 4_000_000_000 / count as u64);
    print_division(
        &format!("{count} random weights, energies"),
        &energies,
        rules,
    );
    let equal = vec![vec![1_000_000; count]; MANY];
    print_division(&format!("{count} equal weights"), &equal, rules);
    let tied = tied_weights(&mut rng, count);
    print_division(&format!("{count} tied weights"), &tied, rules);
}

/// Weights of a sum that is twice the total, odd but for one of an odd count:
/// all odd ones tie.
fn tied_weights(rng: &mut Rng, count: usize) -> Vec<Vec<u64>> {
    let mut list = || {
        let highest = TOTAL / count as u64;
        let mut weights: Vec<u64> = (0..count).map(|_| 2 * rng.below(highest) + 1).collect();
        weights[0] = 0;
        weights[0] = 2 * TOTAL - weights.iter().sum::<u64>();
        weights
    };
    (0..MANY).map(|_| list()).collect()
}

fn weights(rng: &mut Rng, count: usize, highest: u64) -> Vec<Vec<u64>> {
    let mut list = || (0..count).map(|_| rng.between(1, highest)).collect();
    (0..MANY).map(|_| list()).collect()
}

fn print_division(name: &str, lists: &[Vec<u64>], rules: RuleSet) {
    let count = lists[0].len();
    let shares = || vec![0; count];
    let [mut a, mut b, mut c] = [shares(), shares(), shares()];
    let mut rests = [vec![0; count], vec![0; count], vec![0; count]];
    let [rest_a, rest_b, rest_c] = &mut rests;
    let mut library = || {
        for weights in lists {
            calls::divide(black_box(TOTAL), weights, rules, rest_a, &mut a);
        }
    };
    let mut division = || {
        for weights in lists {
            divide::<false>(black_box(TOTAL), weights, rules, rest_b, &mut b);
        }
    };
    let mut reciprocal = || {
        for weights in lists {
            divide::<true>(black_box(TOTAL), weights, rules, rest_c, &mut c);
        }
    };
    let sides = [&mut library as _, &mut division as _, &mut reciprocal as _];
    print_line(name, lists.len(), sides);
    assert!(a == b && a == c, "the sides divide alike");
}
