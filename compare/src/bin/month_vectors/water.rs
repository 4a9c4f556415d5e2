//! Steps 1 and 6: hot water and its classes.

use super::*;

impl Sheets {
    /// A water case with M and the inputs set.
    pub fn add_water(&mut self, base: &Sheet, shared_meter_wh: u32, inputs: [u32; 6]) {
        self.add_changed(base, |sheet| {
            sheet.header.shared_meter_wh = shared_meter_wh;
            sheet.header.hot_water_inputs = inputs;
        });
    }

    /// Step 1 and refusal 8, sources 1 and 2.
    pub fn add_hot_water(&mut self) {
        let first = |input| [input, 0, 0, 0, 0, 0];
        let by_meter = good_sheet(2, 1);
        for input in [0, 1, 999_999, 1_000_000, 1_000_001, MAX_WH] {
            self.add_water(&by_meter, 1_000_000, first(input));
        }
        // 81.54 Wh count as 82.
        let by_volume = water_by_volume(51, 1);
        for meter in [81, 82, 83] {
            self.add_water(&by_volume, meter, first(1));
        }
        let mut by_volume = good_sheet(3, 2);
        by_volume.header.loss_factor = 200;
        self.add_water(&by_volume, 3_240_000_000, first(20_000_000));
        self.add_water(&by_volume, 3_239_999_999, first(20_000_000));
        by_volume.header.loss_factor = 50;
        self.add_water(&by_volume, MAX_WH, first(20_000_000));
    }

    /// Step 1 and refusal 8, source 3.
    pub fn add_summer_water(&mut self) {
        let by_summer = good_sheet(4, 3);
        self.add_water(&by_summer, 1, [0, 0, 0, 0, 0, 1]);
        self.add_water(&by_summer, 0, [0, 0, 0, 0, 0, 1]);
        self.add_water(&by_summer, 0, [0; 6]);
        self.add_water(&by_summer, MAX_WH, [MAX_WH; 6]);
        // Hot water of 4,000,000,000 and one more.
        self.add_water(
            &by_summer,
            MAX_WH,
            [MAX_WH, MAX_WH, 869_565_217, MAX_WH, MAX_WH, MAX_WH],
        );
        self.add_water(
            &by_summer,
            MAX_WH,
            [MAX_WH, MAX_WH, 869_565_218, MAX_WH, MAX_WH, MAX_WH],
        );
        // Hot water just past 32 bits.
        self.add_water(
            &by_summer,
            MAX_WH,
            [MAX_WH, MAX_WH, MAX_WH, MAX_WH, MAX_WH, 2_408_525_023],
        );
        self.add_water(
            &by_summer,
            1_000,
            [MAX_WH, MAX_WH, MAX_WH, MAX_WH, MAX_WH, 2_408_525_023],
        );
    }

    /// Step 6 and refusal 9 by water: classes, litres, persons, y, with hot
    /// water and without.
    pub fn add_water_classes(&mut self) {
        // Per unit: class, litres, persons.
        let mixes: [[(u8, u32, u16); 3]; 11] = [
            [(0, 0, 0), (0, 0, 0), (0, 0, 0)],
            [(1, 0, 2), (1, 0, 1), (0, 0, 0)],
            [(2, 0, 0), (2, 0, 0), (0, 0, 0)],
            [(1, 500, 0), (1, 100, 0), (0, 0, 0)],
            [(1, 0, 2), (2, 0, 3), (0, 0, 0)],
            [(1, 700, 2), (2, 0, 0), (0, 0, 0)],
            [(1, 700, 0), (2, 0, 3), (1, 0, 50)],
            [(1, 1_000_000, 50), (2, 0, 50), (2, 0, 1)],
            [(1, 1, 1), (1, 1, 1), (1, 1, 1)],
            [(2, 0, 1), (2, 0, 1), (2, 0, 1)],
            [(0, 0, 0), (2, 0, 7), (1, 1, 0)],
        ];
        for (place, mix) in mixes.into_iter().enumerate() {
            for (y, hot_water) in [(0, 77_777), (50, 77_777), (33, 0)] {
                let mut sheet = good_sheet(1 + place as u8 % 5, 1);
                sheet.header.common_water_percent = y;
                sheet.header.hot_water_inputs[0] = hot_water;
                for (unit, (class, litres, persons)) in sheet.units.iter_mut().zip(mix) {
                    unit.water_class = class;
                    unit.litres = litres;
                    unit.persons = persons;
                }
                self.add(&sheet);
            }
        }
    }
}
