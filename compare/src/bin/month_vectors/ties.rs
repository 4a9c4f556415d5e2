//! Request 2026-06: equal remainders in every division.

use super::*;
use compare::tied::tie;
use compare::ties::of_sheet;

/// A sheet whose units have areas, loads, riser surfaces, litres and persons of
/// these sizes.
fn sized(model: u8, meter: u32, sizes: &[u32]) -> Sheet {
    let rows: Vec<(u32, u32)> = sizes.iter().map(|&size| (size, 0)).collect();
    let mut sheet = building(model, meter, &rows);
    sheet.header.base_percent = if model == 3 { 20 } else { 0 };
    for (unit, &size) in sheet.units.iter_mut().zip(sizes) {
        unit.heat_load_w = size;
        unit.riser_surface = size;
    }
    sheet
}

/// The same with hot water, all units of a class.
fn with_water(mut sheet: Sheet, class: u8, hot_water: u32) -> Sheet {
    sheet.header.source = 1;
    sheet.header.hot_water_inputs[0] = hot_water;
    for unit in &mut sheet.units {
        unit.water_class = class;
        unit.persons = unit.heated_area as u16;
        unit.litres = if class == 1 { unit.heated_area } else { 0 };
    }
    sheet
}

impl Sheets {
    /// Each total in every division of a month.
    pub fn add_ties(&mut self) {
        for (total, sizes) in TIES {
            // Heat of models 1 and 2, read units without readings and, in model 5,
            // common heat.
            for model in 1..=5 {
                self.add(&sized(model, total, sizes));
            }
            self.add_readings_that_tie(total, sizes);
            self.add_unread_that_tie(total, sizes);
            self.add_changed(&sized(3, 2 * total, sizes), |sheet| {
                sheet.header.common_heat_percent = 50;
            });
            // Units' water by litres and by persons, common water, and the bill.
            self.add(&with_water(sized(2, total, sizes), 1, total));
            self.add(&with_water(sized(2, total, sizes), 2, total));
            self.add_changed(
                &with_water(sized(2, 2 * total, sizes), 1, 2 * total),
                |sheet| sheet.header.common_water_percent = 50,
            );
            let meter = 20 * sizes.iter().sum::<u32>();
            self.add_changed(&sized(2, meter, sizes), |sheet| {
                sheet.header.price = total * 1_000_000 / meter;
            });
        }
        self.add(&other_by_every_version());
        // By weight p x KF, not by p.
        self.add_changed(&sized(3, 2, &[3, 1]), |sheet| {
            sheet.units[0].location_factor = 100;
            sheet.units[1].location_factor = 900;
        });
    }

    /// Readings in proportion to the sizes, and one unit more that isn't read in
    /// model 5.
    fn add_readings_that_tie(&mut self, total: u32, sizes: &[u32]) {
        for model in 3..=4 {
            self.add_changed(&sized(model, total, sizes), |sheet| {
                for unit in &mut sheet.units {
                    unit.reading = 50 * unit.heated_area;
                }
            });
        }
        let whole: u32 = sizes.iter().sum();
        let more = [sizes, &[whole]].concat();
        self.add_changed(&sized(5, 2 * total, &more), |sheet| {
            for unit in &mut sheet.units {
                unit.reading = 50 * unit.heated_area;
            }
            if let Some(unit) = sheet.units.last_mut() {
                set_status(unit, 3);
            }
        });
    }

    /// All units but one not read, which comes last as the rest, wherever its row
    /// is.
    fn add_unread_that_tie(&mut self, total: u32, sizes: &[u32]) {
        for read in [0, sizes.len() - 1] {
            self.add_changed(&sized(3, total, sizes), |sheet| {
                for (place, unit) in sheet.units.iter_mut().enumerate() {
                    set_status(unit, if place == read { 0 } else { 2 });
                }
            });
        }
    }

    /// Random sheets with ties that the weight decides, two of them large.
    pub fn add_random_ties(&mut self, rng: &mut Rng) {
        for count in [2, 3, 4, 5, 6, 7, 8, 9, 159, 160] {
            loop {
                let ids = random_ids(rng, count);
                let mut sheet = random_sheet_of(rng, 7, 2, 0, &ids);
                tie(rng, &mut sheet);
                if !of_sheet(&build_sheet(&sheet)).is_empty() {
                    self.add(&sheet);
                    break;
                }
            }
        }
    }
}
