//! Vectors for document 01's "Dividing", with request 2026-06.

use compare::apportion::apportion;
use compare::cases::TIES;
use compare::rng::Rng;
use compare::rules::RuleSet;
use compare::vectors::write_files;

const HIGHEST_WEIGHT: u64 = 24_000_000_000_000_000;
const HIGHEST_TOTAL: u64 = 4_000_000_000;
/// The program under test reads into so many bytes.
const MOST_BYTES: usize = 65_536;
/// Ties to the earlier item, and to the larger weight.
const RULES: [RuleSet; 2] = [RuleSet::Archive2, RuleSet::Archive3];

struct Division {
    total: u64,
    weights: Vec<u64>,
}

/// The list of divisions under construction.
struct Divisions(Vec<Division>);

impl Divisions {
    fn add(&mut self, total: u64, weights: &[u64]) {
        assert!(total <= HIGHEST_TOTAL);
        assert!(weights.iter().sum::<u64>() < 1 << 62);
        assert!(total == 0 || weights.iter().any(|&weight| weight > 0));
        let weights = weights.to_vec();
        self.0.push(Division { total, weights });
    }

    /// Cases G and H, and other small ones that can be followed by hand.
    fn add_small(&mut self) {
        self.add(10, &[1, 1, 1]);
        self.add(5, &[0, 3, 1]);
        self.add(0, &[0]);
        self.add(0, &[7]);
        self.add(HIGHEST_TOTAL, &[1]);
        self.add(HIGHEST_TOTAL, &[HIGHEST_WEIGHT]);
        self.add(0, &[0, 0]);
        self.add(1, &[50, 50]);
        self.add(999_999_999, &[80, 20]);
        self.add(3_999_999_999, &[100, 0]);
        self.add(1, &[0, 0, 1]);
        self.add(2, &[1, 1, 1]);
        self.add(HIGHEST_TOTAL, &[1, HIGHEST_WEIGHT, HIGHEST_WEIGHT - 1]);
    }

    /// Equal remainders, of two to six items.
    fn add_ties(&mut self) {
        for (total, weights) in TIES {
            let weights: Vec<u64> = weights.iter().copied().map(u64::from).collect();
            self.add(total.into(), &weights);
        }
        self.add(8, &[7, 1, 4]);
        self.add(8, &[4, 1, 7]);
        self.add(4, &[1, 7, 4]);
        self.add(4, &[3, 1, 3, 1]);
        self.add(9, &[5, 1, 1, 5, 1, 5]);
    }

    /// Half of the sum, by which all odd weights tie, and a third, by which those
    /// tie that leave 1, behind those that leave 2.
    fn add_many_ties(&mut self, rng: &mut Rng) {
        for (count, parts) in [(640, 2), (160, 2), (160, 3), (40, 3)] {
            let rest = |i: usize| if i.is_multiple_of(4) { 2 } else { 1 };
            let mut weights: Vec<u64> = (0..count)
                .map(|i| parts * rng.below(2_000_000) + rest(i))
                .collect();
            weights[1] += parts - weights.iter().sum::<u64>() % parts;
            self.add(weights.iter().sum::<u64>() / parts, &weights);
        }
        // Every item, of weights past 32 bits: 2^31 by a sum of 2^61, and each
        // weight leaves 2^29 of 2^30.
        let odd_halves = |i: u64| (1 << 29) + ((14_000_000 + i * 67 % 150) << 30);
        let mut weights: Vec<u64> = (0..150).map(odd_halves).collect();
        weights[75] += (1 << 61) - weights.iter().sum::<u64>();
        self.add(1 << 31, &weights);
    }

    /// Sums just below 2^62, where remainders need 62 bits.
    fn add_widest(&mut self) {
        let half = 1 << 61;
        self.add(HIGHEST_TOTAL, &[half - 1, half]);
        self.add(HIGHEST_TOTAL - 1, &[half, half - 1]);
        self.add(HIGHEST_TOTAL, &[half - 2, 1, half]);
        self.add(1, &[half - 2, half - 1, 2]);
        self.add(3, &[half / 2, half / 2, half - 1]);
        // 2^31 by a sum of 2^61: weights that differ by a multiple of 2^30 tie.
        let tied = 400_000_000;
        self.add(1 << 31, &[tied, tied + half / 2, half / 2 - 2 * tied]);
        self.add(1 << 31, &[tied + half / 2, tied, half / 2 - 2 * tied]);
    }

    fn add_long(&mut self, rng: &mut Rng) {
        for count in [159, 160, 640] {
            let highest = HIGHEST_WEIGHT.min(((1 << 62) - 1) / count as u64);
            let mut weights = vec![1; count];
            self.add(HIGHEST_TOTAL - 1, &weights);
            weights.fill(highest);
            self.add(HIGHEST_TOTAL - count as u64 / 2, &weights);
            weights.fill(0);
            weights[count * 2 / 3] = highest;
            self.add(HIGHEST_TOTAL, &weights);
            weights.fill_with(|| rng.edge(0, highest));
            self.add(HIGHEST_TOTAL, &weights);
            // Few different weights: many ties.
            weights.fill_with(|| rng.between(0, 2));
            self.add(count as u64 / 3, &weights);
        }
        self.add(0, &[0; 160]);
        self.add(0, &[HIGHEST_WEIGHT; 160]);
        self.add(HIGHEST_TOTAL, &[HIGHEST_WEIGHT; 160]);
        let rising: Vec<u64> = (0..160).map(|i| HIGHEST_WEIGHT - i).collect();
        self.add(3_999_999_937, &rising);
        // A bill over 640 energies.
        let energies: Vec<u64> = (0..640).map(|_| rng.edge(0, 6_250_000)).collect();
        self.add(399_999_999, &energies);
        self.add(1, &energies);
    }

    fn add_random(&mut self, rng: &mut Rng) {
        for _ in 0..20 {
            let count = rng.between(1, 9) as usize;
            let highest = [4, 100, 25_000_000, HIGHEST_WEIGHT][rng.below(4) as usize];
            let mut weights: Vec<u64> = (0..count).map(|_| rng.edge(0, highest)).collect();
            weights[rng.below(count as u64) as usize] = rng.between(1, highest);
            let highest_total = [9, 1_000, HIGHEST_TOTAL][rng.below(3) as usize];
            self.add(rng.edge(0, highest_total), &weights);
        }
    }
}

fn main() {
    let mut rng = Rng::new(101);
    let mut divisions = Divisions(Vec::new());
    divisions.add_small();
    divisions.add_ties();
    divisions.add_widest();
    divisions.add_long(&mut rng);
    divisions.add_many_ties(&mut rng);
    divisions.add_random(&mut rng);

    let mut stdin = Vec::new();
    let mut stdout = String::new();
    for Division { total, weights } in &divisions.0 {
        stdin.extend((weights.len() as u16).to_le_bytes());
        stdin.extend((*total as u32).to_le_bytes());
        for weight in weights {
            stdin.extend(weight.to_le_bytes());
        }
        for rules in RULES {
            let shares = apportion(*total, weights, rules);
            let words: Vec<String> = shares.iter().map(|share| share.to_string()).collect();
            stdout += &words.join(" ");
            stdout += "\n";
        }
    }
    assert!(stdin.len() < MOST_BYTES, "{} bytes", stdin.len());
    write_files(&stdin, &stdout);
}
