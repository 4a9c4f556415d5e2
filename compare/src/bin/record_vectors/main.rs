//! Vectors for document 01's "Archive record", with requests 2026-01, 2026-03
//! and 2026-06.
mod clashes;
mod versions;

use compare::cases::*;
use compare::damage::damage;
use compare::record::{head, read_record, record_of, RecordAnswer};
use compare::rng::Rng;
use compare::rules::{RuleSet, NEWEST};
use compare::samples::{good_sheet, random_ids, random_sheet, random_sheet_of};
use compare::sheet::{build_sheet, Sheet};
use compare::vectors::{pack, write_files};

/// Bytes of the head, and of the head with the sheet's header.
const HEAD: usize = 8;
const HEAD_AND_HEADER: usize = 56;

/// The list of records under construction.
struct Records(Vec<Vec<u8>>);

fn record(sheet: &Sheet, rules: RuleSet) -> Vec<u8> {
    record_of(&build_sheet(sheet), rules).expect("the sheet settles")
}

/// The sheet as a record with a statement of zeros, also where it is refused.
fn unsettled(sheet: &Sheet, rules: RuleSet) -> Vec<u8> {
    let mut record = head(rules).to_vec();
    record.extend(build_sheet(sheet));
    record.resize(HEAD_AND_HEADER + 64 * sheet.units.len(), 0);
    record
}

/// Where the statement begins.
fn statement(record: &[u8]) -> usize {
    HEAD_AND_HEADER + (record.len() - HEAD_AND_HEADER) / 2
}

impl Records {
    fn add(&mut self, record: Vec<u8>) {
        self.0.push(record);
    }

    /// Adds the record with the byte at `place` changed.
    fn add_changed(&mut self, record: &[u8], place: usize, change: u8) {
        let mut record = record.to_vec();
        record[place] ^= change;
        self.add(record);
    }

    /// The record; then damaged in the statement's first, middle and last
    /// byte, cut and lengthened by one byte.
    fn add_with_damage(&mut self, record: &[u8]) {
        self.add(record.to_vec());
        let first = statement(record);
        let last = record.len() - 1;
        for place in [first, (first + last) / 2, last] {
            self.add_changed(record, place, 1);
        }
        self.add(record[..last].to_vec());
        self.add([record, &[0]].concat());
    }

    fn add_cases(&mut self) {
        self.add_with_damage(&record(&case_a(), NEWEST));
        for sheet in [
            case_a_with_readings([0, 400, 600]),
            case_a_with_readings([1_000, 0, 0]),
            case_d(),
            two_units(30),
            water_by_volume(51, 1),
            water_by_summer([1_000; 6]),
            case_a_with_meter(50),
            case_a_with_meter(0),
        ] {
            self.add(record(&sheet, NEWEST));
        }
    }

    /// Every byte of case A's record, and each bit of its head.
    fn add_bytes(&mut self) {
        let good = record(&case_a(), NEWEST);
        for place in 0..good.len() {
            self.add_changed(&good, place, 0x10);
        }
        for place in 0..HEAD {
            for bit in 0..8 {
                self.add_changed(&good, place, 1 << bit);
            }
        }
    }

    /// Lengths around each end: head, header, sheet, units of the statement.
    fn add_lengths(&mut self) {
        let good = record(&case_a(), NEWEST);
        for length in [0, 1, 7, 8, 9, 55, 56, 57, 151, 152, 153, 183, 184, 216, 247] {
            self.add(good[..length].to_vec());
        }
        let mut bad = good[..7].to_vec();
        bad[0] = 0;
        self.add(bad);
        for more in [1, 32, 64] {
            self.add([&good[..], &vec![0; more]].concat());
        }
        // The head alone, twice; the sheet without its head.
        self.add([&good[..HEAD], &good[..HEAD]].concat());
        self.add(good[HEAD..].to_vec());
    }

    /// Every model and source.
    fn add_models(&mut self) {
        for model in 1..=5 {
            for source in 0..4 {
                let mut sheet = good_sheet(model, source);
                sheet.header.hot_water_inputs[0] = [0, 77_777, 9, 600][usize::from(source)];
                self.add_with_damage(&record(&sheet, NEWEST));
            }
        }
    }

    /// Sheets that 8 to 12 refuse, whatever the statement.
    fn add_refused(&mut self, rules: RuleSet) {
        let mut water = good_sheet(2, 1);
        water.header.hot_water_inputs[0] = water.header.shared_meter_wh + 1;
        self.add(unsettled(&water, rules));
        let mut divisor = good_sheet(1, 0);
        for unit in &mut divisor.units {
            unit.heat_load_w = 0;
        }
        self.add(unsettled(&divisor, rules));
        self.add(unsettled(&case_c_by_risers([0, 0, 0]), rules));
        for model in [3, 4] {
            let mut unread = good_sheet(model, 0);
            for unit in &mut unread.units {
                unit.status = 2;
                unit.reading = 0;
            }
            self.add(unsettled(&unread, rules));
        }
        let mut meters = good_sheet(5, 0);
        meters.units[0].reading = 25_000_000;
        self.add(unsettled(&meters, rules));
        self.add(unsettled(&two_units(31), rules));
    }

    /// Good sheets with another month's statement, and with zeros.
    fn add_other_statements(&mut self, rules: RuleSet) {
        let mut mixed = record(&case_a(), rules);
        let other = record(&case_a_with_readings([0, 400, 600]), rules);
        let start = statement(&mixed);
        mixed[start..].copy_from_slice(&other[start..]);
        self.add(mixed);
        self.add(unsettled(&case_a(), rules));
        self.add(unsettled(&case_c_by_risers([50, 50, 100]), rules));
    }

    /// Records of 159 and 160 units, and one of them damaged.
    fn add_large(&mut self, rng: &mut Rng) {
        let ids = random_ids(rng, 160);
        let mut found = 0;
        for model in [3, 1, 4, 5, 2] {
            let count = if model == 1 { 159 } else { 160 };
            let bytes = build_sheet(&random_sheet_of(rng, 12, model, 1, &ids[..count]));
            let Ok(record) = record_of(&bytes, NEWEST) else {
                continue;
            };
            self.add(record.clone());
            if found == 0 {
                let last = record.len() - 1;
                for place in [statement(&record), last] {
                    self.add_changed(&record, place, 0x80);
                }
                self.add(record[..last].to_vec());
                self.add([&record[..], &[0]].concat());
            }
            found += 1;
            if found == 2 {
                return;
            }
        }
    }

    /// Random records of every archive version in turn, good and with one to
    /// three damages in the sheet or behind it.
    fn add_random(&mut self, rng: &mut Rng) {
        let mut count = 0;
        while count < 60 {
            let sheet = build_sheet(&random_sheet(rng));
            let rules = RuleSet::ALL[count % RuleSet::ALL.len()];
            let Ok(record) = record_of(&sheet, rules) else {
                continue;
            };
            if record.len() > 700 {
                continue;
            }
            let mut body = record[HEAD..].to_vec();
            for _ in 0..rng.between(1, 3) {
                damage(rng, &mut body);
            }
            self.add([&record[..HEAD], &body].concat());
            self.add(record);
            count += 1;
        }
    }
}

/// Number, place, the length of the sheet's part, and 1 where that sheet's
/// record is this one, else 0.
fn line(record: &[u8]) -> String {
    let RecordAnswer {
        number,
        place,
        part_start,
        part_length,
    } = read_record(record);
    let part = &record[part_start..][..part_length];
    let written = record_of(part, NEWEST).is_ok_and(|written| written == record);
    format!("{number} {place} {part_length} {}\n", u8::from(written))
}

fn main() {
    let mut rng = Rng::new(103);
    let mut records = Records(Vec::new());
    records.add_cases();
    records.add_bytes();
    records.add_lengths();
    records.add_versions();
    records.add_version_pairs();
    records.add_damaged_versions();
    records.add_models();
    for rules in RuleSet::ALL {
        records.add_refused(rules);
        records.add_other_statements(rules);
        records.add_header_places(rules);
        records.add_clashes(rules);
    }
    records.add_large(&mut rng);
    records.add_random(&mut rng);

    let stdout: String = records.0.iter().map(|record| line(record)).collect();
    write_files(&pack(&records.0), &stdout);
}
