//! Refusals of groups, alone and two at once.

use super::*;
use compare::cases::refused_months;
use compare::damage::put;
use compare::group::Building;
use compare::samples::good_sheet;

/// Offset and size of fields in a sheet of three units.
const MONTH: (usize, usize) = (6, 1);
const PRICE: (usize, usize) = (20, 4);
const LAST_INPUT: (usize, usize) = (44, 4);
const SECOND_ID: (usize, usize) = (80, 4);
const LAST_FACTOR: (usize, usize) = (118, 2);
const LAST_PERSONS: (usize, usize) = (140, 2);

/// Writes a field of one of three sheets of case A.
fn set(group: &mut Group, building: usize, (offset, size): (usize, usize), value: u64) {
    put(&mut group.buffer, (144 * building + offset, size), value);
}

impl Groups {
    /// Count, shared reading, offsets and lengths.
    pub fn add_first_22(&mut self) {
        let one = Group::of(&[by_area()], 500_000);
        for count in [0, 1, 11, 12, 13] {
            self.add_changed(&one, |group| {
                group.buildings = vec![group.buildings[0]; count];
                group.shared_wh *= count as u64;
                group.list_len *= count;
            });
        }
        self.add_changed(&one, |group| group.buildings.clear());
        let limit = 4_000_000_000;
        for shared_wh in [limit, limit + 1, (1 << 32) + 3_000_000, 1 << 63, u64::MAX] {
            self.add_changed(&three(), |group| group.shared_wh = shared_wh);
        }
        for (offset, length) in [
            (288, 145),
            (289, 144),
            (433, 0),
            (432, 0),
            (432, 1),
            (288, 143),
            (287, 144),
            (0, 432),
            (0, 144),
            (u64::MAX, 0),
            (u64::MAX, 1),
            (0, u64::MAX),
            (288, u64::MAX - 287),
            (u64::MAX - 143, 288),
            (1 << 63, 1 << 63),
            ((1 << 32) + 288, 144),
            (288, (1 << 32) + 144),
        ] {
            for building in [0, 2] {
                self.add_changed(&three(), |group| {
                    group.buildings[building] = Building { offset, length };
                });
            }
        }
    }

    /// 1 to 12 and 20 in the first and in a later building.
    pub fn add_own_refusals(&mut self) {
        for building in [0, 2] {
            for length in [0, 47, 48, 143] {
                self.add_changed(&three(), |group| group.buildings[building].length = length);
            }
            for (field, value) in [
                ((0, 1), 0),
                ((3, 1), 1),
                ((4, 2), 2),
                (MONTH, 13),
                (LAST_INPUT, 1),
                ((8, 2), 2),
                (LAST_PERSONS, 1),
                (LAST_PERSONS, 51),
                (LAST_FACTOR, 0),
                (SECOND_ID, 11),
            ] {
                self.add_changed(&three(), |group| set(group, building, field, value));
            }
        }
        for sheet in refused_months() {
            let mut sheets = vec![good_sheet(2, 0); 3];
            for sheet in &mut sheets {
                sheet.header.month = 1;
                sheet.header.price = 10_000;
            }
            for place in [0, 2] {
                let mut sheets = sheets.clone();
                sheets[place] = sheet.clone();
                self.add_sheets(&sheets, 15_000_000);
            }
        }
        // The last of twelve.
        let mut twelve = vec![by_area(); 12];
        twelve[11].units[1].id = 21;
        self.add_sheets(&twelve, 6_000_000);
        twelve[11].units[1].reserved = 1;
        self.add_sheets(&twelve, 6_000_000);
        twelve[11].header.hot_water_inputs[5] = 1;
        self.add_sheets(&twelve, 6_000_000);
    }

    /// Of two faults the earlier in the order answers.
    pub fn add_orders(&mut self) {
        type Change = fn(&mut Group);
        let faults: [Change; 9] = [
            |group| group.buildings[2].length += 1,
            |group| group.buildings[0].length = 47,
            |group| set(group, 1, LAST_FACTOR, 0),
            |group| set(group, 1, SECOND_ID, 0),
            |group| set(group, 2, LAST_INPUT, 1),
            |group| set(group, 1, MONTH, 2),
            |group| set(group, 2, PRICE, 9_999),
            |group| group.list_len += 1,
            |group| group.shared_wh = 0,
        ];
        for (place, first) in faults.iter().enumerate() {
            for later in &faults[place + 1..] {
                self.add_changed(&three(), |group| {
                    later(group);
                    first(group);
                });
            }
        }
        // 8 of an earlier building against 1 of a later one and all that follows.
        let mut group = Group::of(&[case_a(), refused_months()[0].clone(), case_a()], 0);
        group.buildings[2].length = 0;
        set(&mut group, 0, MONTH, 2);
        group.list_len = 0;
        self.add(group.clone());
        group.shared_wh = u64::MAX;
        self.add(group);
    }

    /// Month and price of each building.
    pub fn add_second_22(&mut self) {
        for building in 0..3 {
            for (field, value) in [(MONTH, 12), (PRICE, 10_001), (PRICE, 75_536)] {
                self.add_changed(&three(), |group| set(group, building, field, value));
            }
        }
        self.add_changed(&three(), |group| {
            for building in 0..3 {
                set(group, building, MONTH, 12);
                set(group, building, PRICE, 75_536);
            }
        });
        // Other ids, models and sources are as they like.
        self.add_changed(&three(), |group| set(group, 1, SECOND_ID, 99));
    }

    /// 13.
    pub fn add_lists(&mut self) {
        for list_len in [0, 1, 8, 24, 48, 71, 73, 80, 1_280] {
            self.add_changed(&three(), |group| group.list_len = list_len);
        }
    }
}
