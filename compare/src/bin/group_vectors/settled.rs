//! Groups that are accepted, and those next to refusal 21.

use super::*;
use compare::group::Building;
use compare::rules::NEWEST;
use compare::samples::{good_sheet, random_ids, random_metered_sheet};
use compare::settle::settle_sheet;
use compare::sheet::{build_sheet, MAX_WH};

impl Groups {
    /// One building, two with a difference above and below zero, to zero and
    /// below it.
    pub fn add_cases(&mut self) {
        for shared_wh in [1_000_000, 1_000_001, 999_999, 800_000, 799_999, 0] {
            self.add_sheets(&[case_a()], shared_wh);
        }
        for shared_wh in [1_500_000, 1_530_000, 1_530_001, 4_000_000_000] {
            self.add_sheets(&[case_a(), by_area()], shared_wh);
            self.add_sheets(&[by_area(), case_a()], shared_wh);
        }
        for shared_wh in [1_470_000, 1_470_001, 1_200_000, 1_199_999, 1_199_998, 0] {
            self.add_sheets(&[case_a(), by_meters()], shared_wh);
            self.add_sheets(&[by_meters(), case_a()], shared_wh);
        }
        // An unread unit's area counts.
        let mut unread = case_a();
        (unread.units[0].status, unread.units[0].reading) = (2, 0);
        self.add_sheets(&[unread, by_area()], 1_503_000);
        // Every model, and hot water.
        let mixed: Vec<Sheet> = (1..=5).map(|model| good_sheet(model, model % 4)).collect();
        for shared_wh in [25_000_000, 25_000_777, 24_999_990] {
            self.add_sheets(&mixed, shared_wh);
            self.add_sheets(&mixed[2..], shared_wh - 10_000_000);
        }
    }

    /// A building without common heat: its share is 0, or more by its area, by
    /// its place and by the leftover.
    pub fn add_shares_of_zero(&mut self) {
        let small = building(2, 500_000, &[(1, 0)]);
        let equal = building(2, 500_000, &[(1_000, 0), (1_000, 0)]);
        for size in [1, 2, 1_000, 1_001, 2_001] {
            self.add_sheets(&[case_a(), small.clone()], 1_500_000 - size);
        }
        for size in [1, 2] {
            self.add_sheets(&[case_a(), equal.clone()], 1_500_000 - size);
            self.add_sheets(&[equal.clone(), case_a()], 1_500_000 - size);
        }
        self.add_sheets(&[by_area(), by_area()], 1_000_000);
        self.add_sheets(&[by_area(), by_area()], 999_999);
        self.add_sheets(&[by_area(), by_area(), by_area()], 1_500_002);
        // No heat at all.
        let none = building(2, 0, &[(400, 0), (600, 0)]);
        for shared_wh in [0, 1, 7] {
            self.add_sheets(&[none.clone(), none.clone()], shared_wh);
        }
    }

    /// Up to 48,000,000,000 Wh to take away.
    pub fn add_past_32_bits(&mut self) {
        let sheet = building(5, MAX_WH, &[(100, 0)]);
        let mut twelve = vec![sheet; 12];
        for shared_wh in [0, 1, 11, 12, 4_000_000_000] {
            self.add_sheets(&twelve, shared_wh);
            self.add_sheets(&twelve[..2], shared_wh);
        }
        twelve[11].units[0].heated_area = 101;
        self.add_sheets(&twelve, 0);
        self.add_sheets(&twelve, 4_000_000_000);
        twelve[11].units[0].heated_area = 99;
        self.add_sheets(&twelve, 4_000_000_000);
    }

    /// Sheets in another order, apart, the same, and one over another's end.
    pub fn add_places_in_buffer(&mut self) {
        let at = |offset, length| Building { offset, length };
        let [first, second] = [case_a(), by_area()].map(|sheet| build_sheet(&sheet));
        let apart = [&[7; 5], &second[..], &[0; 33], &first, &[1]].concat();
        let group = |buffer: &[u8], buildings: &[Building], list_len| Group {
            buffer: buffer.to_vec(),
            buildings: buildings.to_vec(),
            shared_wh: 3_000_000,
            list_len,
        };
        let (a, b) = (at(150, 144), at(5, 112));
        for buildings in [&[a, b][..], &[b, a], &[a, b, a], &[b, b, b, b]] {
            let units: usize = buildings
                .iter()
                .map(|one| if *one == a { 3 } else { 2 })
                .sum();
            self.add(group(&apart, buildings, 8 * units));
        }
        // The second sheet's first 32 bytes are the first one's last row.
        let mut over = building(2, 90_000, &[(400, 0), (600, 0)]);
        over.header.price = 0;
        let mut under = case_a();
        under.header.price = 0;
        under.header.unit_count = 4;
        under.units.push(Unit {
            id: u32::from_le_bytes(*b"HCS\0"),
            status: 1,
            location_factor: 256 * 2 + 1,
            heated_area: 2,
            heat_load_w: 90_000,
            ..Unit::default()
        });
        let buffer = [build_sheet(&under), build_sheet(&over)[32..].to_vec()].concat();
        self.add(group(&buffer, &[at(0, 176), at(144, 112)], 48));
        self.add(group(
            &buffer,
            &[at(144, 112), at(0, 176), at(144, 112)],
            64,
        ));
    }

    /// The shared bill: half up, its leftover, a building without cents.
    pub fn add_bills(&mut self) {
        let small = |meter| building(2, meter, &[(500, 0)]);
        for shared_wh in [0, 1, 49, 50, 149, 150] {
            self.add_sheets(&[small(0), small(0), small(0)], shared_wh);
        }
        for shared_wh in [100, 150, 250, 251, 349, 350] {
            self.add_sheets(&[small(33), small(33), small(34)], shared_wh);
            self.add_sheets(&[small(0), small(100)], shared_wh);
        }
        for price in [0, 1, 99_999, 100_000] {
            let mut sheets = [case_a(), by_area(), by_meters()];
            for sheet in &mut sheets {
                sheet.header.price = price;
            }
            self.add_sheets(&sheets, 2_000_123);
            self.add_sheets(&sheets, MAX_WH.into());
        }
    }

    /// Request 2026-06: equal remainders of the difference, above and below zero, of
    /// the bill over the buildings, and in a building.
    pub fn add_ties(&mut self) {
        for (total, sizes) in TIES {
            let total = u64::from(total);
            let by_size = |model, meter: fn(u32) -> u32| -> Vec<Sheet> {
                let sizes = sizes.iter();
                sizes
                    .map(|&size| building(model, meter(size), &[(size, 0)]))
                    .collect()
            };
            self.add_sheets(&by_size(2, |_| 0), total);
            let meters = by_size(5, |_| 100);
            let sum = 100 * sizes.len() as u64;
            self.add_sheets(&meters, sum + total);
            self.add_sheets(&meters, sum - total);
            // The bill is the total.
            let whole = 20 * u64::from(sizes.iter().sum::<u32>());
            let mut sheets = by_size(2, |size| 20 * size);
            for sheet in &mut sheets {
                sheet.header.price = (1_000_000 * total / whole) as u32;
            }
            self.add_sheets(&sheets, whole);
            let rows: Vec<(u32, u32)> = sizes.iter().map(|&size| (size, 0)).collect();
            let building = building(2, total as u32, &rows);
            self.add_sheets(&[building.clone(), building], 3 * total);
        }
    }

    /// 320 units in two buildings, 312 in twelve.
    pub fn add_large(&mut self, rng: &mut Rng) {
        for (count, units) in [(2, 160), (12, 26)] {
            let sheets = random_sheets(rng, count, units);
            let meters = sheets
                .iter()
                .map(|sheet| u64::from(sheet.header.shared_meter_wh));
            let sum: u64 = meters.sum();
            self.add_sheets(&sheets, sum + 7_654_321);
            self.add_sheets(&sheets, sum - 97);
        }
        // The last row of the last building.
        let mut sheets = random_sheets(rng, 2, 160);
        sheets[1].units[159].id = sheets[1].units[158].id;
        self.add_sheets(&sheets, 0);
    }
}

/// Sheets of models 3 to 5 with common heat, for February.
fn random_sheets(rng: &mut Rng, count: usize, units: usize) -> Vec<Sheet> {
    let mut sheets = Vec::new();
    while sheets.len() < count {
        let kind = [2, rng.between(3, 5) as u8, rng.below(4) as u8];
        let ids = random_ids(rng, units);
        let meter = |rng: &mut Rng| rng.between(1_000_000, 300_000_000) as u32;
        let mut sheet = random_metered_sheet(rng, kind, &ids, meter);
        sheet.header.price = 11_111;
        sheet.header.common_heat_percent = 10;
        let all_read = sheet.units.iter().all(|unit| unit.status == 0);
        if !(kind[1] == 5 && all_read) && settle_sheet(&sheet, NEWEST).is_ok() {
            sheets.push(sheet);
        }
    }
    sheets
}
