//! The header's fields at the ends of their ranges.

use super::*;

impl Sheets {
    /// Refusal 4, fields of one range.
    pub fn add_header_ranges(&mut self) {
        let base = good_bytes(5, 2);
        self.add_ends(&base, MONTH, 1, 12);
        self.add_ends(&base, SHARED_METER, 0, MAX_METER);
        self.add_ends(&base, PRICE, 0, 100_000);
        let base = good_bytes(2, 0);
        self.add_values(&base, MONTH, &[255]);
        self.add_values(&base, MODEL, &[0, 6, 255]);
        self.add_values(&base, UNIT_COUNT, &[0, 161, 256, 257, 259, 65_535]);
        self.add_values(&base, SOURCE, &[4, 255]);
        self.add_values(&base, SHARED_METER, &[u64::from(u32::MAX)]);
        self.add_values(
            &base,
            PRICE,
            &[65_536, 131_072, 0x0100_0000, u64::from(u32::MAX)],
        );
    }

    /// Refusal 4, v, z and f by model.
    pub fn add_model_ranges(&mut self) {
        let ranges = [
            (1, (0, 0), (0, 0), (0, 0)),
            (2, (0, 0), (0, 0), (0, 0)),
            (3, (20, 30), (0, 50), (25, 35)),
            (4, (0, 60), (0, 50), (25, 35)),
            (5, (0, 0), (0, 50), (25, 35)),
        ];
        for (model, v, z, f) in ranges {
            let base = good_bytes(model, model % 4);
            self.add_ends(&base, BASE_PERCENT, v.0, v.1);
            self.add_ends(&base, COMMON_HEAT_PERCENT, z.0, z.1);
            self.add_ends(&base, UNMETERED_FACTOR, f.0, f.1);
            // The field at 0, and the model changed under good fields.
            self.add_values(&base, UNMETERED_FACTOR, &[0]);
            self.add_values(&base, MODEL, &[1 + u64::from(model) % 5]);
        }
    }

    /// Refusal 4, y, t and h1 to h6 by source.
    pub fn add_source_ranges(&mut self) {
        let ranges = [
            (0, 0, (0, 0), 0, 0),
            (1, 50, (0, 0), MAX_METER, 0),
            (2, 50, (50, 200), 20_000_000, 0),
            (3, 50, (0, 0), MAX_METER, MAX_METER),
        ];
        for (source, y, t, first, later) in ranges {
            let base = good_bytes(1 + source, source);
            self.add_ends(&base, COMMON_WATER_PERCENT, 0, y);
            self.add_ends(&base, LOSS_FACTOR, t.0, t.1);
            self.add_ends(&base, hot_water_input(0), 0, first);
            for place in 1..6 {
                self.add_values(&base, hot_water_input(place), &[later, later + 1]);
            }
            self.add_values(&base, hot_water_input(5), &[0x0100_0000]);
            self.add_values(&base, LOSS_FACTOR, &[255]);
        }
    }
}
