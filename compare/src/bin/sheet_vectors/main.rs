//! Vectors for document 01's "The sheet", with request 2026-03: refusals 1 to 7
//! and 20.
mod clashes;
mod header;
mod rows;

use compare::cases::case_a;
use compare::damage::{damaged_sheet, put};
use compare::faults::faulty_sheet;
use compare::rng::Rng;
use compare::samples::{good_sheet, random_ids, random_sheet_of};
use compare::sheet::{build_sheet, check, MAX_WH};
use compare::vectors::{pack, write_files};

/// Offset and size of a field; a row's offsets count from its first byte.
type Field = (usize, usize);
const MONTH: Field = (6, 1);
const MODEL: Field = (7, 1);
const UNIT_COUNT: Field = (8, 2);
const SOURCE: Field = (10, 1);
const BASE_PERCENT: Field = (11, 1);
const COMMON_HEAT_PERCENT: Field = (12, 1);
const COMMON_WATER_PERCENT: Field = (13, 1);
const UNMETERED_FACTOR: Field = (14, 1);
const LOSS_FACTOR: Field = (15, 1);
const SHARED_METER: Field = (16, 4);
const PRICE: Field = (20, 4);
const ID: Field = (0, 4);
const STATUS: Field = (4, 1);
const WATER_CLASS: Field = (5, 1);
const LOCATION_FACTOR: Field = (6, 2);
const HEATED_AREA: Field = (8, 4);
const RISER_SURFACE: Field = (12, 4);
const HEAT_LOAD: Field = (16, 4);
const READING: Field = (20, 4);
const LITRES: Field = (24, 4);
const PERSONS: Field = (28, 2);
const RESERVED: Field = (30, 2);
const MAX_METER: u64 = MAX_WH as u64;

fn hot_water_input(place: usize) -> Field {
    (24 + 4 * place, 4)
}

fn row_field(row: usize, field: Field) -> Field {
    (48 + 32 * row + field.0, field.1)
}

fn good_bytes(model: u8, source: u8) -> Vec<u8> {
    build_sheet(&good_sheet(model, source))
}

/// The list of sheets under construction.
struct Sheets(Vec<Vec<u8>>);

impl Sheets {
    /// Adds a sheet that is not in the list yet.
    fn add(&mut self, bytes: Vec<u8>) {
        if !self.0.contains(&bytes) {
            self.0.push(bytes);
        }
    }

    /// Adds `base` with the fields set.
    fn add_set(&mut self, base: &[u8], changes: &[(Field, u64)]) {
        let mut bytes = base.to_vec();
        for &(field, value) in changes {
            put(&mut bytes, field, value);
        }
        self.add(bytes);
    }

    /// Adds `base` once for each value of the field.
    fn add_values(&mut self, base: &[u8], field: Field, values: &[u64]) {
        for &value in values {
            self.add_set(base, &[(field, value)]);
        }
    }

    /// Adds both ends of a range, and the values next to it outside.
    fn add_ends(&mut self, base: &[u8], field: Field, low: u64, high: u64) {
        if low > 0 {
            self.add_values(base, field, &[low - 1]);
        }
        if low < high {
            self.add_values(base, field, &[low, high]);
        }
        self.add_values(base, field, &[high + 1]);
    }

    fn add_good(&mut self) {
        for model in 1..=5 {
            for source in 0..=3 {
                self.add(good_bytes(model, source));
            }
        }
    }

    /// Refusals 1, 2, 3 and 5.
    fn add_shape(&mut self) {
        let good = good_bytes(3, 1);
        for length in [0, 1, 3, 4, 47, 48, 49, 79, 80, 111, 112, 143] {
            self.add(good[..length].to_vec());
        }
        for extra in [1, 31, 32, 33, 96] {
            let mut bytes = good.clone();
            bytes.resize(good.len() + extra, 0);
            self.add(bytes);
        }
        self.add(vec![0; 47]);
        self.add(vec![0; 48]);
        self.add(vec![255; 144]);
        for place in 0..4 {
            self.add_set(&good, &[((place, 1), u64::from(good[place]) + 1)]);
            self.add_set(&good, &[((place, 1), u64::from(good[place] ^ 32))]);
        }
        self.add_set(&good, &[((2, 1), u64::from(b'A'))]);
        self.add_values(&good, (4, 2), &[0, 2, 256, 257, 65_535]);
        self.add_values(&good, UNIT_COUNT, &[2, 4, 6, 160]);
    }

    /// Two or more faults at once.
    fn add_fault_pairs(&mut self) {
        let good = build_sheet(&case_a());
        let mark = ((0, 1), 0);
        let version = ((4, 2), 9);
        let month = (MONTH, 0);
        let count = (UNIT_COUNT, 2);
        let field = |row| (row_field(row, LOCATION_FACTOR), 0);
        let last_field = |row| (row_field(row, RESERVED), 1);
        let id = |row| (row_field(row, ID), 0);
        let pairs: [&[(Field, u64)]; 19] = [
            &[mark, version],
            &[mark, month, count],
            &[version, month],
            &[version, count],
            &[month, count],
            &[month, field(0)],
            &[count, field(0)],
            &[count, id(1)],
            &[id(1), field(2)],
            &[id(1), last_field(2)],
            &[id(1), field(0)],
            &[field(1), id(2)],
            &[field(2), id(2)],
            &[last_field(1), id(1)],
            &[last_field(2), id(2)],
            &[field(0), field(1), field(2)],
            &[id(1), id(2)],
            &[last_field(0), field(1)],
            &[id(2), field(2), last_field(1)],
        ];
        for pair in pairs {
            self.add_set(&good, pair);
        }
        let mut short = good[..47].to_vec();
        short[0] = 0;
        self.add(short);
        let mut short = good[..143].to_vec();
        put(&mut short, row_field(0, HEATED_AREA), 0);
        self.add(short);
    }

    /// Sheets of one, two and four units.
    fn add_counts(&mut self, rng: &mut Rng) {
        for (unit_count, model) in [(1, 5), (2, 4), (4, 3)] {
            let ids = random_ids(rng, unit_count);
            let base = build_sheet(&random_sheet_of(rng, 7, model, 3, &ids));
            let last = unit_count - 1;
            self.add(base.clone());
            self.add(base[..base.len() - 1].to_vec());
            self.add(base[..base.len() - 32].to_vec());
            self.add([&base[..], &[0]].concat());
            self.add_set(&base, &[(row_field(last, ID), 0)]);
            self.add_set(&base, &[(row_field(last, RESERVED), 1)]);
            self.add_set(
                &base,
                &[(row_field(last, STATUS), 5), (row_field(last, ID), 0)],
            );
            for row in 1..unit_count {
                let id = u64::from(ids[row - 1]);
                self.add_set(&base, &[(row_field(row, ID), id)]);
                self.add_set(
                    &base,
                    &[(row_field(row, ID), id), (row_field(last, PERSONS), 51)],
                );
            }
        }
    }

    /// Sheets of 159 and 160 units.
    fn add_large(&mut self, rng: &mut Rng) {
        let ids = random_ids(rng, 160);
        let full = build_sheet(&random_sheet_of(rng, 12, 3, 3, &ids));
        self.add(full.clone());
        self.add_set(&full, &[(row_field(159, RESERVED), 1)]);
        self.add_set(&full, &[(row_field(159, ID), 0)]);
        let status = (row_field(159, STATUS), 1);
        self.add_set(&full, &[status, (row_field(159, READING), 1)]);
        self.add_set(
            &full,
            &[(row_field(100, ID), 0), (row_field(101, HEATED_AREA), 0)],
        );
        self.add_set(&full, &[(UNIT_COUNT, 159)]);
        self.add_set(&full, &[(UNIT_COUNT, 161)]);
        self.add(full[..full.len() - 1].to_vec());
        self.add([&full[..], &[0]].concat());
        self.add_set(&[&full[..], &[0; 32]].concat(), &[(UNIT_COUNT, 161)]);
        let most = build_sheet(&random_sheet_of(rng, 1, 5, 1, &ids[1..]));
        self.add(most.clone());
        self.add_set(&most, &[(row_field(158, STATUS), 5)]);
        self.add_set(&most, &[(UNIT_COUNT, 160)]);
    }

    fn add_damaged(&mut self, rng: &mut Rng) {
        let mut count = 0;
        while count < 80 {
            let bytes = if count % 2 == 0 {
                damaged_sheet(rng)
            } else {
                faulty_sheet(rng)
            };
            if bytes.len() < 400 {
                self.add(bytes);
                count += 1;
            }
        }
    }
}

fn main() {
    let mut rng = Rng::new(102);
    let mut sheets = Sheets(Vec::new());
    sheets.add_good();
    sheets.add_shape();
    sheets.add_header_ranges();
    sheets.add_model_ranges();
    sheets.add_source_ranges();
    sheets.add_row_ranges();
    sheets.add_reading_ranges();
    sheets.add_water_ranges();
    sheets.add_ids();
    sheets.add_clashes();
    sheets.add_water_clashes();
    sheets.add_clash_pairs();
    sheets.add_header_places();
    sheets.add_fault_pairs();
    sheets.add_counts(&mut rng);
    sheets.add_large(&mut rng);
    sheets.add_damaged(&mut rng);

    let mut stdout = String::new();
    for bytes in &sheets.0 {
        let (number, place) = match check(bytes, 32) {
            Ok(()) => (0, 0),
            Err(refusal) => (refusal.number, refusal.place),
        };
        stdout += &format!("{number} {place}\n");
    }
    write_files(&pack(&sheets.0), &stdout);
}
