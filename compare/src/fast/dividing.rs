//! "Dividing" with 128-bit products.

use crate::rules::RuleSet;

/// A share's type: 64 bits where the total has more than 32.
pub trait Share: Copy {
    fn new(share: u64) -> Self;
    fn get(self) -> u64;
}

impl Share for u32 {
    fn new(share: u64) -> u32 {
        share as u32
    }
    fn get(self) -> u64 {
        self.into()
    }
}

impl Share for u64 {
    fn new(share: u64) -> u64 {
        share
    }
    fn get(self) -> u64 {
        self
    }
}

/// Quotient and remainder of T × w / W for one T and W.
///
/// With `RECIPROCAL` there is one division for all items: 2^64 × T / W is
/// rounded down once, and a quotient taken from it is at most one too small.
struct Divider<const RECIPROCAL: bool> {
    total: u64,
    weight_sum: u64,
    scaled: u128,
}

impl<const RECIPROCAL: bool> Divider<RECIPROCAL> {
    fn new(total: u64, weight_sum: u64) -> Self {
        let scaled = if RECIPROCAL {
            (u128::from(total) << 64) / u128::from(weight_sum)
        } else {
            0
        };
        Divider {
            total,
            weight_sum,
            scaled,
        }
    }

    #[inline(always)]
    fn divide(&self, weight: u64) -> (u64, u64) {
        if RECIPROCAL {
            let low = ((u128::from(weight) * self.scaled) >> 64) as u64;
            let product = self.total.wrapping_mul(weight);
            let rest = product.wrapping_sub(low.wrapping_mul(self.weight_sum));
            let more = rest >= self.weight_sum;
            let less = if more { self.weight_sum } else { 0 };
            return (low + u64::from(more), rest - less);
        }
        let product = u128::from(self.total) * u128::from(weight);
        if product >> 64 == 0 {
            let product = product as u64;
            return (product / self.weight_sum, product % self.weight_sum);
        }
        let sum = u128::from(self.weight_sum);
        ((product / sum) as u64, (product % sum) as u64)
    }

    /// The remainder again, from the quotient.
    #[inline(always)]
    fn rest(&self, weight: u64, quotient: u64) -> u64 {
        let product = self.total.wrapping_mul(weight);
        product.wrapping_sub(quotient.wrapping_mul(self.weight_sum))
    }

    /// One more for each remainder above the threshold and, at it, for each key
    /// above the last one and so many earliest of this key. The keys are the
    /// weights, or all 0.
    #[inline(always)]
    fn hand_out<const BY_WEIGHT: bool>(
        &self,
        threshold: u64,
        (last_key, mut left): (u64, usize),
        weights: &[u64],
        shares: &mut [impl Share],
    ) {
        for (&weight, share) in weights.iter().zip(shares) {
            let rest = self.rest(weight, share.get());
            let key = if BY_WEIGHT { weight } else { 0 };
            let tied = rest == threshold;
            let spared = tied && key == last_key && left > 0;
            left -= usize::from(spared);
            let more = rest > threshold || tied && key > last_key || spared;
            *share = Share::new(share.get() + u64::from(more));
        }
    }
}

/// Divides `total` by `weights`, whose sum is below 2^63. `remainders` is
/// scratch of the same length.
pub fn divide<const RECIPROCAL: bool>(
    total: u64,
    weights: &[u64],
    rules: RuleSet,
    remainders: &mut [u64],
    shares: &mut [impl Share],
) {
    let weight_sum: u64 = weights.iter().sum();
    if weight_sum == 0 || total == 0 {
        shares.fill(Share::new(0));
        return;
    }
    let divider = Divider::<RECIPROCAL>::new(total, weight_sum);
    let mut leftover = total;
    for ((&weight, remainder), share) in weights.iter().zip(&mut *remainders).zip(&mut *shares) {
        let (quotient, rest) = divider.divide(weight);
        *share = Share::new(quotient);
        *remainder = rest;
        leftover -= quotient;
    }
    if leftover > 0 {
        let leftover = leftover as usize;
        give(leftover, divider, weights, rules, remainders, shares);
    }
}

/// One more for each of the `leftover` largest remainders, ties by the rules.
/// The selections move the remainders about, so that they are taken again from
/// the weights.
fn give<const RECIPROCAL: bool>(
    leftover: usize,
    divider: Divider<RECIPROCAL>,
    weights: &[u64],
    rules: RuleSet,
    remainders: &mut [u64],
    shares: &mut [impl Share],
) {
    let (threshold, left) = select(remainders, leftover);
    let tied = |list: &[u64]| list.iter().filter(|&&rest| rest == threshold).count();
    if !rules.larger_first() || tied(remainders) == left {
        return divider.hand_out::<false>(threshold, (0, left), weights, shares);
    }
    let mut count = 0;
    for (&weight, share) in weights.iter().zip(&*shares) {
        remainders[count] = weight;
        count += usize::from(divider.rest(weight, share.get()) == threshold);
    }
    let last = select(&mut remainders[..count], left);
    divider.hand_out::<true>(threshold, last, weights, shares);
}

/// The smallest of the `count` largest, and how many of these are equal to it.
#[inline(always)]
fn select(list: &mut [u64], count: usize) -> (u64, usize) {
    let (larger, &mut smallest, _) = list.select_nth_unstable_by(count - 1, |a, b| b.cmp(a));
    let above = larger.iter().filter(|&&value| value > smallest).count();
    (smallest, count - above)
}
