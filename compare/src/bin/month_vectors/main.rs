//! Vectors for document 01's "Steps of a month" and "Printing", with requests
//! 2026-01, 2026-03 and 2026-06.
mod heat;
mod refused;
mod ties;
mod water;

use compare::cases::*;
use compare::print::print_statement;
use compare::rng::Rng;
use compare::rules::NEWEST;
use compare::samples::{good_sheet, random_ids, random_sheet_of};
use compare::settle::{settle, settle_sheet};
use compare::sheet::{build_sheet, Sheet, Unit, MAX_WH};
use compare::vectors::{digest, pack, write_files};

/// The list of sheets under construction.
struct Sheets(Vec<Vec<u8>>);

impl Sheets {
    fn add(&mut self, sheet: &Sheet) {
        self.0.push(build_sheet(sheet));
    }

    /// Adds `base` after a change.
    fn add_changed(&mut self, base: &Sheet, change: impl FnOnce(&mut Sheet)) {
        let mut sheet = base.clone();
        change(&mut sheet);
        self.add(&sheet);
    }

    fn add_cases(&mut self) {
        self.add(&case_a());
        self.add(&case_a_with_readings([0, 400, 600]));
        self.add(&case_a_with_readings([1_000, 0, 0]));
        self.add(&case_d());
        self.add(&two_units(30));
        self.add(&two_units(31));
        self.add(&water_by_volume(51, 1));
        self.add(&water_by_summer([1_000; 6]));
        self.add(&case_a_with_meter(50));
        self.add(&case_a_with_meter(49));
    }

    /// Step 7 and small shared meters: ties, half up, ends of price and M.
    fn add_bills(&mut self) {
        for meter in [0, 1, 2, 3, 7, 150, 250, MAX_WH] {
            self.add(&case_a_with_meter(meter));
        }
        for price in [0, 1, 99_999, 100_000] {
            self.add_changed(&case_a_with_meter(MAX_WH), |sheet| {
                sheet.header.price = price
            });
            self.add_changed(&good_sheet(1, 0), |sheet| sheet.header.price = price);
        }
        self.add_changed(&good_sheet(2, 0), |sheet| {
            sheet.header.shared_meter_wh = 5;
            sheet.header.price = 100_000;
        });
        // Twelve energies of 100 Wh each, and a few cents.
        for cents in [1, 5, 7, 11] {
            let mut sheet = case_a_with_readings([9, 9, 9]);
            sheet.header.source = 1;
            sheet.header.common_heat_percent = 50;
            sheet.header.common_water_percent = 50;
            sheet.header.shared_meter_wh = 1_200;
            sheet.header.price = cents * 833;
            sheet.header.hot_water_inputs[0] = 600;
            for unit in &mut sheet.units {
                unit.heated_area = 500;
                unit.water_class = 2;
                unit.persons = 3;
            }
            self.add(&sheet);
        }
    }

    /// Sheets of 159 and 160 units at the ends of their ranges.
    fn add_large(&mut self, rng: &mut Rng) {
        let ids: Vec<u32> = (0..160).map(|i| u32::MAX - 159 + i).collect();
        let mut widest = random_sheet_of(rng, 12, 3, 0, &ids);
        widest.header.shared_meter_wh = MAX_WH;
        widest.header.price = 100_000;
        for unit in &mut widest.units {
            set_status(unit, 0);
            unit.location_factor = 1_000;
            unit.heated_area = 10_000;
            unit.riser_surface = 10_000;
            unit.reading = 50_000;
        }
        self.add(&widest);
        self.add_changed(&widest, |sheet| {
            for unit in &mut sheet.units[80..] {
                unit.reading = 0;
            }
        });
        self.add_changed(&widest, |sheet| {
            sheet.header.model = 4;
            sheet.header.base_percent = 60;
        });
        self.add_changed(&widest, |sheet| {
            for unit in &mut sheet.units[..159] {
                set_status(unit, 2);
            }
        });
        widest.header.model = 5;
        widest.header.base_percent = 0;
        for unit in &mut widest.units {
            unit.reading = 25_000_000;
        }
        self.add(&widest);
        self.add_changed(&widest, |sheet| sheet.header.shared_meter_wh -= 1);
        self.add_changed(&widest, |sheet| set_status(&mut sheet.units[77], 3));
    }

    /// Random sheets that settle: one of 159 or 160 units for each model, and
    /// small ones for each model and source. Those of seven units have a unit
    /// not read, where the model allows it.
    fn add_random(&mut self, rng: &mut Rng) {
        for model in 1..=5 {
            let large = 159 + usize::from(model % 2);
            self.add_settled(rng, model, 1 + model % 3, large);
            for source in 0..=3 {
                for unit_count in [1, 4, 7] {
                    self.add_settled(rng, model, source, unit_count);
                }
            }
        }
    }

    fn add_settled(&mut self, rng: &mut Rng, model: u8, source: u8, unit_count: usize) {
        loop {
            let ids = random_ids(rng, unit_count);
            let month = rng.between(1, 12) as u8;
            let sheet = random_sheet_of(rng, month, model, source, &ids);
            let has_heat = sheet.header.shared_meter_wh > 1_000;
            let unread_wanted = unit_count == 7 && model >= 3;
            let all_read = sheet.units.iter().all(|unit| unit.status == 0);
            if has_heat && !(unread_wanted && all_read) && settle_sheet(&sheet, NEWEST).is_ok() {
                return self.add(&sheet);
            }
        }
    }
}

/// Units that differ in reading and riser surface; model 4 with v 40.
fn uneven_sheet(model: u8) -> Sheet {
    let mut sheet = good_sheet(model, 0);
    if model == 4 {
        sheet.header.base_percent = 40;
    }
    for (row, unit) in sheet.units.iter_mut().enumerate() {
        unit.reading = [400, 90, 1_500][row];
        unit.riser_surface = [70, 20, 50][row];
    }
    sheet
}

/// Sets a status, and the reading that goes with it.
fn set_status(unit: &mut Unit, status: u8) {
    unit.status = status;
    if status != 0 {
        unit.reading = 0;
    }
}

/// What the settle call answers for lists of 8n, 8n + 1 and 8n - 1 numbers
/// that held nines: the length, the refusal's number and place, and the
/// list afterwards as one number.
fn list_lines(bytes: &[u8]) -> String {
    let n = match bytes.get(8..10) {
        Some(count) => usize::from(u16::from_le_bytes([count[0], count[1]])).min(160),
        None => 0,
    };
    let lengths = [8 * n, 8 * n + 1, (8 * n).saturating_sub(1)];
    lengths.iter().map(|len| list_line(bytes, *len)).collect()
}

fn list_line(bytes: &[u8], len: usize) -> String {
    let (number, place, list) = match settle(bytes, len) {
        Ok(outcome) => (0, 0, outcome.numbers),
        Err(refusal) => (refusal.number, refusal.place, vec![9; len]),
    };
    let digest = digest(list.into_iter().map(u64::from));
    format!("list {len} {number} {place} {digest}\n")
}

fn main() {
    let mut rng = Rng::new(103);
    let mut sheets = Sheets(Vec::new());
    sheets.add_cases();
    sheets.add_bills();
    sheets.add_hot_water();
    sheets.add_summer_water();
    sheets.add_water_classes();
    sheets.add_heat_divisors();
    sheets.add_readings();
    sheets.add_riser_limits();
    sheets.add_heat_meters();
    sheets.add_unread();
    sheets.add_pool_weights();
    sheets.add_refusal_pairs();
    sheets.add_bad_sheets();
    sheets.add_clashes();
    sheets.add_ties();
    sheets.add_large(&mut rng);
    sheets.add_random(&mut rng);
    sheets.add_random_ties(&mut rng);

    let stdout: String = sheets
        .0
        .iter()
        .map(|bytes| print_statement(bytes) + &list_lines(bytes))
        .collect();
    write_files(&pack(&sheets.0), &stdout);
}
