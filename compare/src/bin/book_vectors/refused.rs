//! Calls that are refused: by the sheet, the building, the book.

use super::*;
use compare::cases::{two_units, water_by_volume};
use compare::damage::put;
use compare::samples::good_sheet;

impl Run {
    /// 1 to 8, 10 and 12, the last also over a month that stands.
    pub fn bad_sheets(&mut self) {
        let good = in_month(case_a(), 1);
        self.post(&[]);
        for (field, value) in [
            ((0, 1), 0),
            ((4, 2), 2),
            ((6, 1), 13),
            ((8, 2), 2),
            ((48 + 32 + 8, 4), 0),
            ((48 + 32, 4), 0),
        ] {
            let mut bad = good.clone();
            put(&mut bad, field, value);
            self.post(&bad);
            self.replace(&bad);
        }
        let mut water = water_by_volume(100, 20_000_000);
        water.header.shared_meter_wh = 1;
        self.post(&build_sheet(&water));
        let mut unread = good_sheet(3, 0);
        for unit in &mut unread.units {
            unit.status = 1;
            unit.reading = 0;
        }
        self.post(&build_sheet(&unread));
        self.post(&build_sheet(&two_units(31)));
        let mut short = good.clone();
        short.pop();
        self.open(&short);
        self.years();
    }

    /// 16: fewer units, another id, and before 17.
    pub fn other_buildings(&mut self) {
        let mut fewer = case_a();
        fewer.units.pop();
        fewer.header.unit_count = 2;
        let mut renamed = case_a();
        renamed.units[2].id += 1;
        for month in [1, 2] {
            for sheet in [&fewer, &renamed] {
                self.post(&in_month(sheet.clone(), month));
                self.replace(&in_month(sheet.clone(), month));
            }
        }
    }

    /// 15: n over 160, a mark over 1; other numbers are nobody's fault.
    pub fn bad_books(&mut self) {
        let sheet = in_month(case_a(), 3);
        for (place, bad, good) in [(0, 161, 3), (1, 2, 1), (12, 2, 0)] {
            self.set(place, bad);
            self.post(&sheet);
            self.replace(&[]);
            self.withdraw(0);
            self.year(3);
            self.set(place, good);
        }
        self.set(13, 65_535);
        self.set(197 + 1_280, 99);
        self.set(196, 7);
        self.year(0);
        self.post(&in_month(case_a(), 2));
        self.year(0);
        self.set(0, 160);
        self.year(159);
        self.open(&sheet);
        self.year(0);
    }

    /// 20 and 4's byte before 16, 17 and 19, in each call with a sheet.
    pub fn clashes(&mut self) {
        self.open(&in_month(case_a(), 1));
        self.post(&in_month(case_a(), 1));
        // Row and header fields: litres, b with a status, b past 50,000 with an
        // id, b past its range, h6.
        let faults: [&[((usize, usize), u64)]; 5] = [
            &[((48 + 64 + 24, 4), 1)],
            &[((48 + 32 + 4, 1), 1)],
            &[((48 + 32 + 20, 4), 50_001), ((48 + 32, 4), 0)],
            &[((48 + 20, 4), 25_000_001), ((48 + 24, 4), 1)],
            &[((44, 4), 1), ((48 + 24, 4), 1)],
        ];
        for lent in [1_280, 1_279] {
            self.lend(lent);
            for fault in faults {
                for month in [1, 2] {
                    let mut bad = in_month(case_a(), month);
                    fault
                        .iter()
                        .for_each(|&(field, value)| put(&mut bad, field, value));
                    self.post(&bad);
                    self.replace(&bad);
                    self.open(&bad);
                    // Another building: one unit less.
                    put(&mut bad, (8, 2), 2);
                    bad.drain(48..80);
                    self.post(&bad);
                }
            }
        }
        self.lend(1_280);
        self.years();
    }
}
