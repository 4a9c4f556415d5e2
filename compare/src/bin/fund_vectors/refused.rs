//! Refused fees, by one fault and by two at once.

use super::*;
use compare::cases::refused_months;
use compare::damage::put;
use compare::fund_calls::ordered_faults;

impl Calls {
    /// The sheet's 1 to 7 and 20, with their places.
    pub fn add_own_refusals(&mut self) {
        for length in [0, 10, 47, 48, 143, 145, 176] {
            self.collect_changed(|call| call.sheet.resize(length, 0));
        }
        for (field, value) in [
            ((0, 1), 0),
            ((4, 2), 257),
            ((6, 1), 13),
            ((7, 1), 0),
            ((8, 2), 161),
            ((11, 1), 31),
            ((48 + 4, 1), 5),
            ((80 + 8, 4), 0),
            ((112 + 8, 4), 10_001),
            ((112 + 20, 4), 50_001),
            ((48 + 20, 4), 1),
            ((80 + 4, 1), 1),
            ((80, 4), 11),
        ] {
            self.collect_changed(|call| put(&mut call.sheet, field, value));
        }
    }

    /// 8 to 12, also with a rate that is too high and a full fund.
    pub fn add_months_not_settled(&mut self) {
        for sheet in refused_months() {
            self.collect_sheet(5, &sheet, 50_000);
            self.collect_sheet(u64::MAX, &sheet, MAX_RATE + 1);
        }
    }

    /// 24, whoever pays.
    pub fn add_rates(&mut self) {
        for rate in [MAX_RATE, MAX_RATE + 1, 1 << 31, u32::MAX] {
            self.collect_changed(|call| call.rate = rate);
            self.collect_sheet(3, &building(3, 1, &[(500, 1)]), rate);
        }
    }

    /// 25, and a full fund without fees.
    pub fn add_full(&mut self) {
        for missing in [0, 1, 2_499, 2_500, 2_501] {
            self.collect_changed(|call| call.balance = u64::MAX - missing);
        }
        for rate in [0, 9, 10, MAX_RATE] {
            self.collect_changed(|call| {
                call.balance = u64::MAX;
                call.rate = rate;
            });
        }
        // The first two units' fees have room.
        let three = building(2, 0, &[(500, 0); 3]);
        self.collect_sheet(u64::MAX - 5_000, &three, 50_000);
        self.collect_sheet(u64::MAX - 7_500, &three, 50_000);
    }

    /// Of two faults the earlier in the order answers.
    pub fn add_orders(&mut self) {
        let faults = ordered_faults();
        for (place, (first, _)) in faults.iter().enumerate() {
            for (later, _) in &faults[place + 1..] {
                self.collect_changed(|call| {
                    later(call);
                    first(call);
                });
            }
        }
    }
}
