//! Large whole numbers against 128-bit ones.

use compare::rng::Rng;
use compare::whole::Whole;

/// Built from high and low half, so that sums and products are exercised.
fn whole(value: i128) -> Whole {
    let size = value.unsigned_abs();
    let half = Whole::from(1 << 32).times(&Whole::from(1 << 32));
    let high = Whole::from((size >> 64) as u64).times(&half);
    let sum = high.plus(&Whole::from(size as u64));
    if value < 0 {
        sum.negated()
    } else {
        sum
    }
}

fn random(rng: &mut Rng) -> i128 {
    let bits = rng.below(64);
    let size = i128::from(rng.draw() >> bits);
    [size, -size][rng.below(2) as usize]
}

#[test]
fn agrees_with_128_bits() {
    let mut rng = Rng::new(4);
    for _ in 0..100_000 {
        let (a, b) = (random(&mut rng) / 2, random(&mut rng) / 2);
        assert_eq!(whole(a).plus(&whole(b)), whole(a + b));
        assert_eq!(whole(a).minus(&whole(b)), whole(a - b));
        assert_eq!(whole(a).times(&whole(b)), whole(a * b));
        assert_eq!(whole(a).at_most(&whole(b)), a <= b);
        assert_eq!(whole(a).size(), whole(a.abs()));
        assert_eq!(whole(a).is_negative(), a < 0);
        assert_eq!(whole(a).is_zero(), a == 0);
    }
}
