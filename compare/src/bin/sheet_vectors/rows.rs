//! The rows' fields at the ends of their ranges, and the order of ids.

use super::*;

impl Sheets {
    /// Refusal 6, fields of one range. The row changes from field to field.
    pub fn add_row_ranges(&mut self) {
        let ranges = [
            (LOCATION_FACTOR, 1, 1_000),
            (HEATED_AREA, 1, 10_000),
            (RISER_SURFACE, 0, 10_000),
            (HEAT_LOAD, 0, 100_000),
            (RESERVED, 0, 0),
        ];
        for (place, (field, low, high)) in ranges.into_iter().enumerate() {
            for (model, source) in [(2, 0), (4, 3)] {
                let base = good_bytes(model, source);
                let row = (place + usize::from(model)) % 3;
                self.add_ends(&base, row_field(row, field), low, high);
                // Good low bytes under a high byte.
                let highest_bit = 1 << (8 * field.1 - 1);
                self.add_values(&base, row_field(2, field), &[highest_bit + low]);
            }
        }
        let base = good_bytes(3, 0);
        self.add_values(&base, row_field(1, HEATED_AREA), &[65_536 + 600]);
        self.add_values(&base, row_field(0, RISER_SURFACE), &[65_536, 0x0100_0000]);
        self.add_values(&base, row_field(2, RESERVED), &[256, 65_535]);
        self.add_values(&base, row_field(0, RESERVED), &[255]);
    }

    /// Refusals 6 and 20, status and reading by model, reading by status.
    pub fn add_reading_ranges(&mut self) {
        for (model, highest) in [(1, 0), (2, 0), (3, 50_000), (4, 50_000), (5, 25_000_000)] {
            let base = good_bytes(model, 0);
            let row = usize::from(model) % 3;
            self.add_ends(&base, row_field(row, READING), 0, highest);
            self.add_values(&base, row_field(2, READING), &[65_536, u64::from(u32::MAX)]);
            for status in 1..=5 {
                let status = (row_field(1, STATUS), status);
                self.add_set(&base, &[status, (row_field(1, READING), 0)]);
                if model >= 3 {
                    self.add_set(&base, &[status, (row_field(1, READING), 1)]);
                }
            }
        }
    }

    /// Refusals 6 and 20, water class by source, litres and persons by class.
    pub fn add_water_ranges(&mut self) {
        for source in 0..=3 {
            let base = good_bytes(3, source);
            for class in 1..=3 {
                self.add_set(&base, &[(row_field(0, WATER_CLASS), class)]);
            }
            self.add_values(&base, row_field(0, WATER_CLASS), &[255]);
            self.add_values(&base, row_field(0, LITRES), &[1]);
            self.add_values(&base, row_field(0, PERSONS), &[1, 256]);
        }
        let base = good_bytes(5, 1);
        self.add_ends(&base, row_field(1, LITRES), 0, 1_000_000);
        self.add_ends(&base, row_field(2, LITRES), 0, 0);
        self.add_ends(&base, row_field(1, PERSONS), 0, 50);
        self.add_ends(&base, row_field(2, PERSONS), 0, 50);
        self.add_values(&base, row_field(1, LITRES), &[0x0100_0000]);
        self.add_values(&base, row_field(2, PERSONS), &[256, 65_535]);
        self.add_values(&base, row_field(1, WATER_CLASS), &[0, 2]);
        self.add_values(&base, row_field(2, WATER_CLASS), &[0, 1]);
    }

    /// Refusal 7 and the ids that pass.
    pub fn add_ids(&mut self) {
        let base = good_bytes(2, 2);
        let triples = [
            [0, 1, 2],
            [0, 0, 1],
            [0, 1, 1],
            [5, 4, 6],
            [5, 6, 5],
            [5, 7, 6],
            [255, 256, 257],
            [256, 255, 257],
            [0x0001_0000, 0x0001_0001, 0x0100_0000],
            [0x0100_0000, 0x0001_0000, 0x0200_0000],
            [0x7fff_ffff, 0x8000_0000, 0xffff_ffff],
            [0x8000_0000, 0x7fff_ffff, 0xffff_ffff],
            [1, 0xffff_ffff, 0],
            [0xffff_ffff, 0xffff_ffff, 0xffff_ffff],
        ];
        for [first, second, third] in triples {
            let ids = [
                (row_field(0, ID), first),
                (row_field(1, ID), second),
                (row_field(2, ID), third),
            ];
            self.add_set(&base, &ids);
        }
    }
}
