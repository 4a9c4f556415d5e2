//! Request 2026-03: clashes, fixed ranges beside them, and which fault comes
//! first.

use super::*;

/// A value that clashes in a row of model 2 and source 0.
const CLASHES: [(Field, u64); 5] = [
    (STATUS, 1),
    (WATER_CLASS, 1),
    (READING, 1),
    (LITRES, 1),
    (PERSONS, 1),
];

/// A value outside each field's fixed range, in layout order.
const OUTSIDE: [(Field, u64); 10] = [
    (STATUS, 5),
    (WATER_CLASS, 3),
    (LOCATION_FACTOR, 0),
    (HEATED_AREA, 0),
    (RISER_SURFACE, 10_001),
    (HEAT_LOAD, 100_001),
    (READING, 25_000_001),
    (LITRES, 1_000_001),
    (PERSONS, 51),
    (RESERVED, 1),
];

fn in_row(row: usize, (field, value): (Field, u64)) -> (Field, u64) {
    (row_field(row, field), value)
}

impl Sheets {
    /// Status by model, class by source, b by model and by status.
    pub fn add_clashes(&mut self) {
        for model in 1..=5 {
            let base = good_bytes(model, 0);
            let row = usize::from(model + 1) % 3;
            let zero = (READING, 0);
            for status in [1, 4, 5] {
                self.add_set(&base, &[in_row(row, (STATUS, status)), in_row(row, zero)]);
            }
            let readings = [1, 50_000, 50_001, 25_000_000, 25_000_001];
            self.add_values(&base, row_field(row, READING), &readings);
            for (status, reading) in [(1, 50_000), (2, 50_001), (3, 25_000_000), (4, 25_000_001)] {
                let status = in_row(row, (STATUS, status));
                self.add_set(&base, &[status, in_row(row, (READING, reading))]);
            }
        }
    }

    /// Class by source, litres and persons by class. The good sheet's rows are
    /// of classes 0, 1 and 2, with source 0 all of class 0.
    pub fn add_water_clashes(&mut self) {
        for source in [0, 2] {
            let base = good_bytes(2 + source, source);
            for row in 0..3 {
                self.add_values(&base, row_field(row, WATER_CLASS), &[1, 2, 3]);
                let litres = [1, 1_000_000, 1_000_001];
                self.add_values(&base, row_field(row, LITRES), &litres);
                self.add_values(&base, row_field(row, PERSONS), &[1, 50, 51]);
            }
        }
    }

    /// A clash and a field out of range, in a row or in two; then with ids.
    pub fn add_clash_pairs(&mut self) {
        let base = good_bytes(2, 0);
        for clash in CLASHES {
            for outside in OUTSIDE {
                self.add_set(&base, &[in_row(1, clash), in_row(1, outside)]);
            }
            for outside in [OUTSIDE[0], OUTSIDE[9]] {
                self.add_set(&base, &[in_row(1, clash), in_row(0, outside)]);
                self.add_set(&base, &[in_row(1, clash), in_row(2, outside)]);
            }
            for row in 1..3 {
                self.add_set(&base, &[in_row(1, clash), in_row(row, (ID, 0))]);
                self.add_set(&base, &[in_row(row, (ID, 0)), in_row(2, clash)]);
            }
            self.add_set(&base, &[in_row(0, clash), (UNIT_COUNT, 2)]);
            self.add_set(&base, &[in_row(0, clash), (hot_water_input(5), 1)]);
        }
    }

    /// Each header field out of range alone, then with the next one and with
    /// the last.
    pub fn add_header_places(&mut self) {
        let mut fields = vec![
            (MONTH, 13),
            (MODEL, 6),
            (UNIT_COUNT, 161),
            (SOURCE, 4),
            (BASE_PERCENT, 61),
            (COMMON_HEAT_PERCENT, 51),
            (COMMON_WATER_PERCENT, 51),
            (UNMETERED_FACTOR, 36),
            (LOSS_FACTOR, 50),
            (SHARED_METER, MAX_METER + 1),
            (PRICE, 100_001),
        ];
        fields.extend((0..6).map(|place| (hot_water_input(place), MAX_METER + 1)));
        let base = good_bytes(4, 3);
        for (place, &field) in fields.iter().enumerate() {
            self.add_set(&base, &[field]);
            self.add_set(&base, &[field, fields[(place + 1).min(16)]]);
            self.add_set(&base, &[field, fields[16]]);
            self.add_set(&base, &[field, in_row(0, (STATUS, 5))]);
        }
    }
}
