//! Whole numbers of any size and sign, for the exact portions.
//!
//! A portion of heat passes four divisions, and its upper number can need some
//! 140 bits; comparing it needs more.

use std::cmp::Ordering;

/// Sign and size. The limbs go from low to high, the highest is not 0; zero
/// has no limbs and is not negative.
#[derive(Clone, Debug, PartialEq, Eq)]
pub struct Whole {
    negative: bool,
    limbs: Vec<u32>,
}

impl From<u64> for Whole {
    fn from(value: u64) -> Whole {
        Whole::new(false, vec![value as u32, (value >> 32) as u32])
    }
}

impl Whole {
    fn new(negative: bool, mut limbs: Vec<u32>) -> Whole {
        while limbs.last() == Some(&0) {
            limbs.pop();
        }
        let negative = negative && !limbs.is_empty();
        Whole { negative, limbs }
    }

    pub fn is_negative(&self) -> bool {
        self.negative
    }

    pub fn is_zero(&self) -> bool {
        self.limbs.is_empty()
    }

    pub fn negated(&self) -> Whole {
        Whole::new(!self.negative, self.limbs.clone())
    }

    pub fn size(&self) -> Whole {
        Whole::new(false, self.limbs.clone())
    }

    pub fn plus(&self, other: &Whole) -> Whole {
        if self.negative == other.negative {
            return Whole::new(self.negative, add_limbs(&self.limbs, &other.limbs));
        }
        match compare_limbs(&self.limbs, &other.limbs) {
            Ordering::Less => Whole::new(other.negative, subtract_limbs(&other.limbs, &self.limbs)),
            _ => Whole::new(self.negative, subtract_limbs(&self.limbs, &other.limbs)),
        }
    }

    pub fn minus(&self, other: &Whole) -> Whole {
        self.plus(&other.negated())
    }

    pub fn times(&self, other: &Whole) -> Whole {
        let mut limbs = vec![0u32; self.limbs.len() + other.limbs.len()];
        for (i, &left) in self.limbs.iter().enumerate() {
            let mut carry = 0u64;
            for (j, &right) in other.limbs.iter().enumerate() {
                let value = u64::from(left) * u64::from(right) + u64::from(limbs[i + j]) + carry;
                limbs[i + j] = value as u32;
                carry = value >> 32;
            }
            limbs[i + other.limbs.len()] = carry as u32;
        }
        Whole::new(self.negative != other.negative, limbs)
    }

    pub fn at_most(&self, other: &Whole) -> bool {
        !other.minus(self).negative
    }
}

fn compare_limbs(left: &[u32], right: &[u32]) -> Ordering {
    let by_length = left.len().cmp(&right.len());
    by_length.then_with(|| left.iter().rev().cmp(right.iter().rev()))
}

fn add_limbs(left: &[u32], right: &[u32]) -> Vec<u32> {
    let mut limbs = Vec::new();
    let mut carry = 0u64;
    for i in 0..left.len().max(right.len()) {
        let value = limb(left, i) + limb(right, i) + carry;
        limbs.push(value as u32);
        carry = value >> 32;
    }
    limbs.push(carry as u32);
    limbs
}

/// `left` is not below `right`.
fn subtract_limbs(left: &[u32], right: &[u32]) -> Vec<u32> {
    let mut limbs = Vec::new();
    let mut borrow = 0u64;
    for i in 0..left.len() {
        let value = (1 << 32) + limb(left, i) - limb(right, i) - borrow;
        limbs.push(value as u32);
        borrow = 1 - (value >> 32);
    }
    limbs
}

fn limb(limbs: &[u32], place: usize) -> u64 {
    u64::from(limbs.get(place).copied().unwrap_or(0))
}
