//! Request 2026-02: sums of another length, damaged ones and foreign ones.

use super::*;
use compare::book::matching_sums;

impl Run {
    /// Case A in January and March, on lists of any contents.
    fn opened(&mut self) {
        self.open(&in_month(case_a(), 1));
        self.post(&in_month(case_a(), 1));
        self.post(&in_month(case_a(), 3));
    }

    /// Writes the numbers right again that no longer match the book.
    fn set_right(&mut self) {
        for (place, sum) in matching_sums(&self.list).into_iter().enumerate() {
            if self.sums[place] != sum {
                self.set_sum(place as u16, sum);
            }
        }
    }

    /// One number too few or too many: 19 in each call, after all the others.
    pub fn other_lengths(&mut self) {
        self.opened();
        for count in [1_279, 1_281, 0] {
            self.lend(count);
            self.open(&in_month(case_a(), 1));
            self.open(&in_month(case_a(), 13));
            self.post(&[]);
            self.post(&in_month(case_a(), 2));
            self.post(&in_month(case_a(), 1));
            self.post(&by_area(2, 1_000, [11, 12]));
            self.replace(&in_month(case_a(), 1));
            self.replace(&in_month(case_a(), 2));
            self.replace(&overcharged(1));
            self.withdraw(1);
            self.withdraw(2);
            self.years();
            self.set(12, 2);
            self.open(&in_month(case_a(), 1));
            self.post(&in_month(case_a(), 2));
            self.withdraw(1);
            self.year(0);
            self.set(12, 0);
        }
        self.lend(1_280);
        self.post(&in_month(case_a(), 2));
        self.years();
    }

    /// Replace and withdraw take off before anything is added; 17 and 18 come
    /// first, and post takes nothing off.
    pub fn below_zero(&mut self) {
        for (place, low) in [(0, 115_999), (21, 499)] {
            self.opened();
            self.set_sum(place, low);
            self.replace(&in_month(case_a(), 1));
            self.replace(&in_month(case_a_with_meter(0), 1));
            self.replace(&in_month(case_a_with_meter(4_000_000_000), 3));
            self.withdraw(1);
            self.withdraw(3);
            self.withdraw(2);
            self.replace(&in_month(case_a(), 2));
            self.post(&in_month(case_a(), 3));
            self.years();
            self.post(&in_month(case_a(), 2));
            self.withdraw(1);
            self.withdraw(2);
            self.set_right();
            self.replace(&in_month(case_a_with_meter(7_654_321), 3));
            self.withdraw(2);
            self.years();
        }
    }

    /// The largest sum is reached, not passed.
    pub fn past_64_bits(&mut self) {
        self.opened();
        let free = u64::MAX - 116_000;
        self.set_sum(0, free + 1);
        self.post(&in_month(case_a(), 2));
        self.post(&in_month(case_a(), 3));
        self.replace(&in_month(case_a(), 1));
        self.set_sum(0, free);
        self.post(&in_month(case_a(), 2));
        self.year(0);
        self.replace(&in_month(case_a_with_meter(1_000_010), 2));
        self.replace(&in_month(case_a(), 2));
        self.post(&in_month(case_a(), 4));
        self.replace(&in_month(case_a_with_meter(999_990), 2));
        self.year(0);
        self.withdraw(2);
        self.set_right();
        self.post(&in_month(case_a(), 2));
        self.years();
    }

    /// A stored block goes off with all that it holds; a block of a month that
    /// doesn't stand is nobody's.
    pub fn whole_blocks(&mut self) {
        self.opened();
        self.set(197, 5);
        self.set(197 + 24, 65_535);
        self.set(197 + 1_279, 1);
        self.withdraw(1);
        self.replace(&in_month(case_a(), 1));
        self.set_sum(24, 65_535);
        self.withdraw(1);
        self.replace(&in_month(case_a(), 1));
        self.set_right();
        self.replace(&in_month(case_a(), 1));
        self.set(197 + 2 * 1_280 + 100, 77);
        self.set_sum(100, 78);
        self.withdraw(3);
        self.set(197 + 4 * 1_280, 99);
        self.set(197 + 4 * 1_280 + 1_279, 99);
        self.post(&in_month(case_a(), 5));
        self.years();
    }

    /// The year call compares nothing, and open takes any contents.
    pub fn foreign_sums(&mut self) {
        self.opened();
        for place in 0..24 {
            self.set_sum(place, u64::MAX - 10_000_000_000 * u64::from(place));
        }
        self.set_sum(1_279, u64::MAX);
        self.years();
        self.set(3, 0);
        self.years();
        self.post(&in_month(case_a(), 12));
        self.withdraw(1);
        self.set(0, 160);
        self.year(159);
        self.opened();
        self.years();
    }

    /// The last of 160 units.
    pub fn last_unit(&mut self) {
        let rows: Vec<(u32, u8, u32, u32)> = (1..=160).map(|id| (id, 0, 100, 0)).collect();
        let sheet = small_sheet(8, [2, 0, 0], 1_600_000, &rows);
        let heat = 8 * 159;
        self.open(&sheet);
        self.set_sum(heat, u64::MAX - 9_999);
        self.post(&sheet);
        self.set_sum(heat, 0);
        self.post(&sheet);
        self.year(159);
        self.set_sum(heat, 9_999);
        self.replace(&sheet);
        self.withdraw(8);
        self.set_right();
        self.withdraw(8);
    }

    /// Calls with numbers of the sums written between them, near what a month
    /// would take off or near the end.
    pub fn random_sums(&mut self, rng: &mut Rng) {
        let ids = [5, 6];
        self.open(&sheet_of_building(rng, &ids));
        for _ in 0..150 {
            let (index, place) = (rng.below(12), rng.below(17));
            let stored = self.list[(197 + 1_280 * index + place) as usize];
            let near = u64::from(stored) + rng.below(2);
            match rng.below(8) {
                0 | 1 => self.set_sum(place as u16, near.saturating_sub(1)),
                2 => self.set_sum(place as u16, u64::MAX - rng.below(2) * near),
                3 | 4 => self.set_right(),
                _ => {}
            }
            let call = random_call(rng, &ids);
            self.call(&call);
        }
    }
}
