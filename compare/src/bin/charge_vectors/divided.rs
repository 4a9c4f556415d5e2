//! Calls that are accepted.

use super::*;
use compare::cases::{building, refused_months};
use compare::samples::{good_sheet, random_ids, random_sheet_of};

impl Calls {
    /// By load and by area, each amount alone and all at their limits.
    pub fn add_cases(&mut self) {
        let sheet = case_a_with_loads([2_000, 6_000, 2_000]);
        for amounts in [
            [1_000, 50, 5],
            [1_000, 0, 0],
            [0, 1_000, 0],
            [0, 0, 1_000],
            [0; 3],
            [1, 2, 3],
            [MAX_CHARGE; 3],
            [MAX_CHARGE, MAX_CHARGE - 1, 99_999_998],
        ] {
            self.add_both(&sheet, amounts);
        }
        // The sheet's own model, its source and a unit not read.
        for model in 1..=5 {
            self.add_both(&good_sheet(model, model % 4), [1_000, 200, 31]);
        }
        let mut unread = sheet.clone();
        (unread.units[0].status, unread.units[0].reading) = (2, 0);
        unread.units[1].location_factor = 1;
        self.add_both(&unread, [1_000, 200, 31]);
    }

    /// Equal remainders with equal and with other weights (request 2026-06), and
    /// weights of 0.
    pub fn add_ties(&mut self) {
        for loads in [
            [7, 7, 7],
            [0, 3, 1],
            [1, 1, 2],
            [3, 1, 1],
            [0, 0, 1],
            [1, 0, 0],
            [1, 3, 2],
            [1, 7, 4],
            [7, 1, 4],
            [1, 0, 3],
        ] {
            let sheet = case_a_with_loads(loads);
            self.add_sheet(&sheet, 1, [10, 11, 1]);
            self.add_sheet(&sheet, 1, [5, 0, 2]);
            self.add_sheet(&sheet, 1, [3, 4, 8]);
        }
        let equal = building(2, 0, &[(5, 0); 7]);
        let halves = building(2, 0, &[(1, 0), (3, 0), (1, 0), (3, 0)]);
        for sheet in [equal, halves] {
            for amounts in [[0, 1, 2], [3, 4, 5], [6, 7, 8], [12, 20, 28]] {
                self.add_sheet(&sheet, 2, amounts);
            }
        }
    }

    /// Months that 8 to 12 refuse; case A has no loads.
    pub fn add_months_not_settled(&mut self) {
        for mut sheet in refused_months() {
            self.add_both(&sheet, [900, 80, 7]);
            sheet.units[0].heat_load_w = 100_000;
            self.add_sheet(&sheet, 1, [900, 80, 7]);
        }
    }

    /// One unit, lists about as long as are printed whole, and 160 units.
    pub fn add_sizes(&mut self, rng: &mut Rng) {
        for count in [1, 2, 21, 22, 160, 160] {
            let model = rng.between(1, 5) as u8;
            let ids = random_ids(rng, count);
            let sheet = random_sheet_of(rng, 6, model, 0, &ids);
            for model in [1, 2] {
                let amounts = [MAX_CHARGE, 12_345_678, rng.below(400) as u32];
                self.add_sheet(&sheet, model, amounts);
            }
        }
        let widest = building(2, 0, &[(10_000, 0); 160]);
        self.add_sheet(&widest, 2, [99_999_999, 159, 161]);
        self.add_sheet(&widest, 1, [99_999_999, 159, 161]);
    }
}
