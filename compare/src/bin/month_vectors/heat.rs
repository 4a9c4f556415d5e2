//! Steps 2 to 4: readings, limits, meters, units not read.

use super::*;

impl Sheets {
    /// Step 4: limits, location factors, readings of 0, models 3 to 5.
    pub fn add_readings(&mut self) {
        let readings = [
            [0, 0, 0],
            [0, 0, 1],
            [1_000, 0, 0],
            [0, 400, 600],
            [50_000, 50_000, 50_000],
            [0, 2_000, 4_000],
            [100, 300, 600],
        ];
        let factors = [[1_000, 1_000, 1_000], [400, 1_000, 250], [1, 1_000, 999]];
        for (place, readings) in readings.into_iter().enumerate() {
            for model in 3..=5 {
                let mut sheet = case_a_with_readings(readings);
                sheet.header.model = model;
                sheet.header.base_percent = [20, 60, 0][usize::from(model) - 3];
                let factors = factors[(place + usize::from(model)) % 3];
                for (row, unit) in sheet.units.iter_mut().enumerate() {
                    unit.location_factor = factors[row];
                    unit.riser_surface = [0, 300, 41][row];
                }
                self.add(&sheet);
            }
        }
        self.add_near_limits(3);
    }

    /// Request 2026-01: units above and below their limits, s = 0, B = 0.
    pub fn add_riser_limits(&mut self) {
        self.add_near_limits(4);
        for risers in [[50, 50, 100], [0, 50, 100], [50, 0, 100], [1, 10_000, 0]] {
            let base = case_c_by_risers(risers);
            self.add(&base);
            self.add_changed(&base, |sheet| sheet.header.base_percent = 0);
            self.add_changed(&base, |sheet| sheet.header.base_percent = 60);
            self.add_changed(&base, |sheet| sheet.units[0].reading = 0);
            self.add_changed(&base, |sheet| {
                for (unit, factor) in sheet.units.iter_mut().zip([400, 1, 999]) {
                    unit.location_factor = factor;
                }
            });
            self.add_changed(&base, |sheet| set_status(&mut sheet.units[1], 2));
        }
        // 39, 40 and 41 × s × B by v alone.
        for base_percent in [39, 40, 41] {
            self.add_changed(&case_c_by_risers([50, 60, 70]), |sheet| {
                sheet.header.base_percent = base_percent;
            });
        }
    }

    /// Articles 8 (6), (7) and 9 (6), (7): the first unit's r below, at and
    /// above its upper limit, then its lower one.
    fn add_near_limits(&mut self, model: u8) {
        for first in [699, 700, 701] {
            self.add_limit(model, 100, [first, 800 - first, 0]);
        }
        for first in [99, 100, 101] {
            self.add_limit(model, 300, [first, 500, 1_100 - first]);
        }
    }

    /// Case A with v 20, s a tenth of p in model 4, the readings and the first
    /// unit's location factor.
    fn add_limit(&mut self, model: u8, location_factor: u16, readings: [u32; 3]) {
        self.add_changed(&case_a_with_readings(readings), |sheet| {
            sheet.header.model = model;
            sheet.header.base_percent = 20;
            sheet.units[0].location_factor = location_factor;
            if model == 4 {
                for unit in &mut sheet.units {
                    unit.riser_surface = unit.heated_area / 10;
                }
            }
        });
    }

    /// Step 2's exception and refusal 11.
    pub fn add_heat_meters(&mut self) {
        let mut base = good_sheet(5, 1);
        base.header.shared_meter_wh = 1_000_000;
        base.header.hot_water_inputs[0] = 100_000;
        for first in [0, 199_999, 200_000, 200_001, 25_000_000] {
            self.add_changed(&base, |sheet| {
                let readings = [first, 300_000, 400_000];
                for (unit, reading) in sheet.units.iter_mut().zip(readings) {
                    unit.reading = reading;
                }
            });
        }
        // 81.54 Wh of hot water leave 918 Wh of 1,000.
        let mut base = good_sheet(5, 2);
        base.header.shared_meter_wh = 1_000;
        base.header.loss_factor = 51;
        base.header.hot_water_inputs[0] = 1;
        for first in [117, 118, 119] {
            self.add_changed(&base, |sheet| {
                let readings = [first, 400, 400];
                for (unit, reading) in sheet.units.iter_mut().zip(readings) {
                    unit.reading = reading;
                }
            });
        }
        // One unit not read: no refusal 11.
        for status in 1..=4 {
            self.add_changed(&base, |sheet| {
                sheet.units[1].reading = 25_000_000;
                set_status(&mut sheet.units[2], status);
            });
        }
    }

    /// Step 3 for models 3 to 5, refusals 10 and 12.
    pub fn add_unread(&mut self) {
        for model in 3..=5 {
            let base = uneven_sheet(model);
            for statuses in [
                [2, 0, 3],
                [0, 4, 0],
                [1, 0, 0],
                [1, 1, 0],
                [4, 0, 2],
                [3, 3, 3],
                [1, 4, 1],
            ] {
                self.add_changed(&base, |sheet| {
                    for (unit, status) in sheet.units.iter_mut().zip(statuses) {
                        set_status(unit, status);
                    }
                });
            }
            self.add_changed(&base, |sheet| {
                set_status(&mut sheet.units[0], 1);
                sheet.units[0].location_factor = 1;
                sheet.units[1].reading = 0;
                sheet.units[2].reading = 0;
                sheet.units[2].location_factor = 450;
                sheet.units[2].riser_surface = 31;
            });
        }
    }

    /// Areas and location factors that leave the pool a weight of 1, 9,999, −1.
    pub fn add_pool_weights(&mut self) {
        for (first, second, location_factor) in [(27, 19, 631), (29, 7, 447), (29, 6, 447)] {
            let mut sheet = two_units(27);
            sheet.header.shared_meter_wh = 1_234_567;
            sheet.units[0].heated_area = first;
            sheet.units[0].location_factor = location_factor;
            sheet.units[1].heated_area = second;
            self.add(&sheet);
            sheet.units[0].status = 4;
            sheet.header.shared_meter_wh = MAX_WH;
            self.add(&sheet);
        }
    }
}
