//! Fees and payments that are accepted, and payments that aren't.

use super::*;
use compare::samples::{good_sheet, random_ids, random_sheet_of};
use compare::sheet::MAX_WH;

impl Calls {
    /// 50 m² at 0.5 EUR, and the ends of area, rate and balance.
    pub fn add_cases(&mut self) {
        for balance in [0, 1, 2_500, u64::from(u32::MAX), u64::MAX - 2_500] {
            self.collect_sheet(balance, &building(2, 0, &[(500, 0)]), 50_000);
        }
        for area in [1, 500, 9_999, 10_000] {
            for rate in [0, 1, 50_000, 429_497, 999_999, MAX_RATE] {
                self.collect_sheet(7, &building(2, 0, &[(area, 0)]), rate);
            }
        }
    }

    /// Half a cent, just below and just above; each fee is rounded by itself.
    pub fn add_halves(&mut self) {
        for rate in [4_999, 5_000, 5_001, 14_999, 15_000, 25_000] {
            self.collect_sheet(0, &building(2, 0, &[(1, 0)]), rate);
            self.collect_sheet(0, &building(2, 0, &[(1, 0), (1, 0), (1, 0)]), rate);
        }
        for (areas, rate) in [
            // 24,999 and 15,000 of 10,000 each.
            ([(3, 0), (3, 0)], 8_333),
            ([(3, 0), (3, 0)], 5_000),
            ([(4_999, 0), (5_001, 0)], 1),
            ([(5_000, 0), (5_000, 0)], 1),
            ([(9_999, 0), (10_000, 0)], 999_999),
            ([(25, 0), (75, 0)], 200),
        ] {
            self.collect_sheet(9, &building(2, 0, &areas), rate);
        }
    }

    /// Models and statuses. The readings of models 1 and 2 are 0.
    pub fn add_units_that_pay(&mut self) {
        for model in 1..=5 {
            self.collect_sheet(100, &good_sheet(model, model % 4), 50_000);
        }
        for model in 3..=5 {
            for status in 0..=4 {
                let mut sheet = good_sheet(model, 0);
                sheet.units[1].status = status;
                sheet.units[1].location_factor = 500;
                if status > 0 {
                    sheet.units[1].reading = 0;
                }
                self.collect_sheet(100, &sheet, 50_000);
            }
            self.collect_sheet(100, &every_status(model), 12_345);
        }
    }

    /// Up to 160 units, and the most that a month brings.
    pub fn add_sizes(&mut self, rng: &mut Rng) {
        for count in [1, 2, 9, 40, 160] {
            let model = rng.between(1, 2) as u8;
            let ids = random_ids(rng, count);
            let mut sheet = random_sheet_of(rng, 6, model, 0, &ids);
            sheet.units[0].heat_load_w = 1;
            self.collect_sheet(rng.draw(), &sheet, rng.below(1_000_000) as u32);
        }
        let widest = building(2, MAX_WH, &[(10_000, 0); 160]);
        for balance in [0, u64::MAX - 160_000_000, u64::MAX - 159_999_999] {
            self.collect_sheet(balance, &widest, MAX_RATE);
        }
    }

    /// Nothing, the whole balance, one cent less and one more.
    pub fn add_payments(&mut self) {
        let wide = 1 << 32;
        for balance in [0, 1, 2_500, wide - 1, wide, 1 << 63, u64::MAX - 1, u64::MAX] {
            let below = balance.saturating_sub(1);
            let above = balance.saturating_add(1);
            for amount in [0, 1, below, balance, above, balance ^ wide, u64::MAX] {
                self.pay(balance, amount);
            }
        }
    }
}

/// Twice each status, of different areas; the units not read don't outweigh the
/// whole.
fn every_status(model: u8) -> Sheet {
    let mut sheet = building(model, 5_000_000, &[(1, 0); 10]);
    for (place, unit) in sheet.units.iter_mut().enumerate() {
        unit.status = (place % 5) as u8;
        unit.location_factor = 200;
        unit.heated_area = 1 << place;
        unit.riser_surface = 3;
        unit.heat_load_w = 7;
    }
    sheet.header.base_percent = if model == 3 { 20 } else { 0 };
    sheet
}
