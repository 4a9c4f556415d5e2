//! Refusals, alone and two at once.

use super::*;
use compare::charge_calls::ordered_faults;
use compare::damage::put;

impl Calls {
    /// The sheet's 1 to 7 and 20, with their places.
    pub fn add_own_refusals(&mut self) {
        for length in [0, 10, 47, 48, 143, 145, 176] {
            self.add_changed(|call| call.sheet.resize(length, 0));
        }
        for (field, value) in [
            ((0, 1), 0),
            ((3, 1), 1),
            ((4, 2), 2),
            ((4, 2), 257),
            ((6, 1), 13),
            ((7, 1), 0),
            ((7, 1), 6),
            ((8, 2), 0),
            ((8, 2), 161),
            ((11, 1), 31),
            ((44, 4), 1),
            ((48 + 4, 1), 5),
            ((80 + 8, 4), 0),
            ((112 + 16, 4), 100_001),
            ((112 + 28, 2), 1),
            ((112 + 30, 2), 1),
            ((48 + 4, 1), 1),
            ((80, 4), 11),
            ((112, 4), 0),
        ] {
            self.add_changed(|call| put(&mut call.sheet, field, value));
        }
    }

    /// 4 of the call: each amount, and models.
    pub fn add_amounts_and_models(&mut self) {
        for place in 0..3 {
            for amount in [MAX_CHARGE, MAX_CHARGE + 1, 1 << 31, u32::MAX] {
                self.add_changed(|call| call.amounts[place] = amount);
            }
        }
        self.add_changed(|call| call.amounts = [MAX_CHARGE + 1; 3]);
        for model in [0, 3, 4, 5, 6, 255, 257, 258, 65_537, 65_538, u32::MAX] {
            self.add_changed(|call| call.model = model);
        }
    }

    /// 9, also when there is nothing to divide.
    pub fn add_loads(&mut self) {
        for amounts in [[1_000, 200, 30], [0, 0, 1], [0; 3]] {
            self.add_both(&case_a(), amounts);
        }
    }

    /// 13.
    pub fn add_lists(&mut self) {
        for list_len in [0, 1, 3, 6, 8, 10, 12, 24, 27, 480, 481] {
            self.add_changed(|call| call.list_len = list_len);
        }
    }

    /// Of two faults the earlier in the order answers.
    pub fn add_orders(&mut self) {
        let faults = ordered_faults();
        for (place, (first, _)) in faults.iter().enumerate() {
            for (later, _) in &faults[place + 1..] {
                self.add_changed(|call| {
                    later(call);
                    first(call);
                });
            }
        }
    }
}
