//! Request 2026-03: 4 with its byte, 6 and 20, in records of each archive
//! version. The records are small and their statements zeros.

use super::*;
use compare::sheet::{Header, Unit};

/// A good sheet of two units, read and of class 2.
fn sheet(model: u8) -> Sheet {
    let mut sheet = good_sheet(model, 3);
    sheet.units.remove(0);
    sheet.units[0].water_class = 2;
    sheet.units[0].litres = 0;
    sheet.header.unit_count = 2;
    sheet
}

/// A sheet of one unit with a header field changed.
fn with_header(change: impl FnOnce(&mut Header)) -> Sheet {
    let mut sheet = sheet(4);
    sheet.units.truncate(1);
    sheet.header.unit_count = 1;
    change(&mut sheet.header);
    sheet
}

impl Records {
    /// Each header field, and two at once.
    pub fn add_header_places(&mut self, rules: RuleSet) {
        let changes: [fn(&mut Header); 13] = [
            |header| header.month = 13,
            |header| header.model = 6,
            |header| header.unit_count = 161,
            |header| header.source = 4,
            |header| header.base_percent = 61,
            |header| header.common_heat_percent = 51,
            |header| header.common_water_percent = 51,
            |header| header.unmetered_factor = 36,
            |header| header.loss_factor = 50,
            |header| header.shared_meter_wh = 4_000_000_001,
            |header| header.price = 100_001,
            |header| (header.model, header.price) = (2, 100_001),
            |header| (header.source, header.hot_water_inputs[5]) = (0, 1),
        ];
        for change in changes {
            self.add(unsettled(&with_header(change), rules));
        }
        for place in 0..6 {
            let change = |header: &mut Header| header.hot_water_inputs[place] = 4_000_000_001;
            self.add(unsettled(&with_header(change), rules));
        }
    }

    /// Each clash, 6 beside it, and which comes first.
    pub fn add_clashes(&mut self, rules: RuleSet) {
        let mut add = |model, change: fn(&mut Unit)| {
            let mut sheet = sheet(model);
            change(&mut sheet.units[1]);
            self.add(unsettled(&sheet, rules));
        };
        add(2, |unit| unit.status = 1);
        add(2, |unit| unit.status = 5);
        add(1, |unit| unit.reading = 1);
        add(5, |unit| unit.status = 1);
        add(3, |unit| unit.reading = 50_001);
        add(3, |unit| unit.reading = 25_000_001);
        add(3, |unit| (unit.water_class, unit.litres) = (0, 1));
        add(4, |unit| (unit.litres, unit.reserved) = (1, 1));
        add(4, |unit| (unit.heat_load_w, unit.litres) = (100_001, 1));
        add(4, |unit| (unit.water_class, unit.id) = (0, 0));
        let mut no_source = with_header(|header| header.source = 0);
        self.add(unsettled(&no_source, rules));
        no_source.header.source = 1;
        no_source.units[0].litres = 1;
        no_source.header.hot_water_inputs[0] = 5_000_001;
        self.add(unsettled(&no_source, rules));
    }
}
