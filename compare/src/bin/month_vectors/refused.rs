//! Refusals 8 to 12 and 20, and two at once.

use super::*;

impl Sheets {
    /// Step 3 for models 1 and 2, and refusal 9 by heat.
    pub fn add_heat_divisors(&mut self) {
        let set_loads = |loads: [u32; 3]| {
            move |sheet: &mut Sheet| {
                for (unit, load) in sheet.units.iter_mut().zip(loads) {
                    unit.heat_load_w = load;
                }
            }
        };
        self.add_changed(&good_sheet(1, 0), set_loads([0, 0, 0]));
        self.add_changed(&good_sheet(1, 3), set_loads([0, 0, 0]));
        self.add_changed(&good_sheet(1, 0), set_loads([0, 0, 1]));
        self.add_changed(&good_sheet(1, 0), set_loads([100_000, 1, 99_999]));
        self.add_changed(&good_sheet(2, 0), set_loads([0, 0, 0]));

        let set_risers = |risers: [u32; 3], statuses: [u8; 3]| {
            move |sheet: &mut Sheet| {
                for (place, unit) in sheet.units.iter_mut().enumerate() {
                    unit.riser_surface = risers[place];
                    set_status(unit, statuses[place]);
                }
            }
        };
        self.add_changed(&good_sheet(4, 0), set_risers([0, 0, 0], [0, 0, 0]));
        self.add_changed(&good_sheet(4, 0), set_risers([0, 90, 0], [0, 2, 0]));
        self.add_changed(&good_sheet(4, 0), set_risers([90, 90, 90], [1, 2, 3]));
        self.add_changed(&good_sheet(4, 0), set_risers([90, 0, 0], [0, 2, 0]));
        self.add_changed(&good_sheet(3, 0), set_risers([0, 0, 0], [0, 0, 0]));
    }

    /// Two refusals of 8 to 12 at once.
    pub fn add_refusal_pairs(&mut self) {
        let unread = |sheet: &mut Sheet| {
            for unit in &mut sheet.units {
                set_status(unit, 1);
                unit.location_factor = 1_000;
            }
        };
        for model in 3..=5 {
            let mut sheet = good_sheet(model, 1);
            sheet.header.hot_water_inputs[0] = 6_000_000;
            unread(&mut sheet);
            self.add(&sheet);
            sheet.header.hot_water_inputs[0] = 5_000_000;
            self.add(&sheet);
            sheet.units[1].litres = 0;
            self.add(&sheet);
            // One read unit: 9 against 12, then 12 alone.
            sheet.units[0].status = 0;
            self.add(&sheet);
            sheet.units[1].litres = 1;
            self.add(&sheet);
        }
        // 8 against 9 and 11, then 9 against 11, then 11 alone.
        let mut sheet = good_sheet(5, 1);
        sheet.units[0].reading = 5_000_000;
        sheet.units[2].persons = 0;
        sheet.header.hot_water_inputs[0] = 5_000_001;
        self.add(&sheet);
        sheet.header.hot_water_inputs[0] = 4_000_000;
        self.add(&sheet);
        sheet.units[2].persons = 1;
        self.add(&sheet);
    }

    /// Refusals 1 to 7, and 7 against 8.
    pub fn add_bad_sheets(&mut self) {
        let good = build_sheet(&case_a());
        for length in [0, 47, 48, 143] {
            self.0.push(good[..length].to_vec());
        }
        self.0.push([&good[..], &[0]].concat());
        for (place, value) in [
            (0, 0),
            (3, 1),
            (4, 2),
            (5, 1),
            (6, 0),
            (7, 6),
            (11, 19),
            (8, 4),
            (110, 1),
            (54, 0),
            (143, 1),
        ] {
            let mut bytes = good.clone();
            bytes[place] = value;
            // A location factor of 0 needs both of its bytes.
            if place == 54 {
                bytes[55] = 0;
            }
            self.0.push(bytes);
        }
        for row in 1..3 {
            self.add_changed(&case_a(), |sheet| sheet.units[row].id = 11);
        }
        self.add_changed(&good_sheet(2, 1), |sheet| {
            sheet.units[2].id = 0;
            sheet.header.hot_water_inputs[0] = MAX_WH;
        });
    }

    /// 20 alone, against 8 to 12, and 4 with its byte.
    pub fn add_clashes(&mut self) {
        self.add_changed(&good_sheet(1, 0), |sheet| sheet.units[2].status = 1);
        self.add_changed(&case_a(), |sheet| sheet.units[1].water_class = 1);
        self.add_changed(&case_a(), |sheet| sheet.units[1].status = 2);
        self.add_changed(&case_a(), |sheet| sheet.units[2].reading = 50_001);
        self.add_changed(&good_sheet(5, 1), |sheet| sheet.units[2].litres = 1);
        self.add_changed(&case_a(), |sheet| sheet.units[0].persons = 1);
        // 8, 9, 10, 11, 12 in turn.
        self.add_changed(&good_sheet(2, 1), |sheet| {
            sheet.header.hot_water_inputs[0] = MAX_WH;
            sheet.units[0].litres = 1;
        });
        self.add_changed(&good_sheet(1, 0), |sheet| {
            for unit in &mut sheet.units {
                unit.heat_load_w = 0;
            }
            sheet.units[1].reading = 1;
        });
        self.add_changed(&good_sheet(3, 0), |sheet| {
            for unit in &mut sheet.units {
                unit.status = 1;
            }
        });
        self.add_changed(&good_sheet(5, 0), |sheet| {
            sheet.units[0].reading = 25_000_000;
            sheet.units[2].persons = 1;
        });
        self.add_changed(&two_units(31), |sheet| sheet.units[1].water_class = 2);
        self.add_changed(&case_a(), |sheet| sheet.header.hot_water_inputs[5] = 1);
        self.add_changed(&case_a(), |sheet| sheet.header.base_percent = 31);
    }
}
