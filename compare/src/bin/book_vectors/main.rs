//! Vectors for document 01's "Year book", with requests 2026-01 to 2026-03 and
//! 2026-06: calls on one book and its sums, one after the other.
mod refused;
mod run;
mod sums;

use compare::calls::{random_call, sheet_of_building};
use compare::cases::{case_a, case_a_with_meter, case_c_by_risers, other_by_every_version};
use compare::rng::Rng;
use compare::samples::random_sheet_of;
use compare::sheet::{build_sheet, Header, Sheet, Unit};
use compare::vectors::write_files;
use run::Run;

impl Run {
    /// The year calls of three units, and one place too far.
    fn years(&mut self) {
        for place in 0..4 {
            self.year(place);
        }
    }

    /// Before the opening n is 0: no unit, and every sheet is of another
    /// building.
    fn unopened(&mut self) {
        self.year(0);
        self.post(&build_sheet(&case_a()));
        self.withdraw(1);
    }

    /// The run that the definitions compute (crate yearbook, specs/Cases/Runs.antt).
    fn computed(&mut self) {
        self.open(&overcharged(6));
        self.year(0);
        self.replace(&by_area(1, 1_000, [11, 12]));
        self.post(&by_area(1, 1_000, [11, 12]));
        self.post(&by_area(1, 2_000, [11, 12]));
        self.year(0);
        self.post(&by_area(12, 50, [11, 12]));
        self.replace(&by_area(1, 2_000, [11, 12]));
        self.year(1);
        self.post(&[]);
        self.post(&by_area(13, 1_000, [11, 12]));
        self.post(&overcharged(2));
        self.post(&small_sheet(2, [2, 0, 0], 1_000, &[(11, 0, 100, 0)]));
        self.replace(&by_area(1, 1_000, [11, 13]));
        self.post(&by_area(1, 1_000, [11, 13]));
        self.post(&by_area(1, 1_000, [12, 11]));
        for month in [1, 1, 0, 13] {
            self.withdraw(month);
        }
        self.year(0);
        self.post(&by_area(1, 1_000, [11, 12]));
        self.year(2);
        self.year(1);
    }

    /// Post, replace and withdraw, each accepted and refused by 17.
    fn months(&mut self) {
        let january = in_month(case_a(), 1);
        let december = in_month(case_a_with_meter(4_321_000), 12);
        self.open(&january);
        self.years();
        self.replace(&january);
        self.post(&january);
        self.post(&january);
        self.year(0);
        self.replace(&in_month(case_a_with_meter(7_654_321), 1));
        self.post(&december);
        self.years();
        for month in [0, 2, 13, u32::MAX, 1, 1] {
            self.withdraw(month);
        }
        self.years();
        self.post(&january);
        self.withdraw(12);
        self.replace(&december);
        self.years();
        self.year(u32::MAX);
    }

    /// Request 2026-01: months with limits in model 4.
    fn riser_limits(&mut self) {
        self.post(&in_month(case_c_by_risers([50, 50, 100]), 5));
        self.years();
        self.replace(&in_month(case_c_by_risers([0, 50, 100]), 5));
        self.post(&in_month(case_c_by_risers([100, 50, 0]), 6));
        self.years();
        self.withdraw(5);
        self.withdraw(6);
    }

    /// Request 2026-06: months with equal remainders, of heat and of the bill.
    fn ties(&mut self) {
        self.post(&in_month(other_by_every_version(), 7));
        self.post(&in_month(by_1_3_2(3, 10_000), 8));
        self.years();
        self.replace(&in_month(by_1_3_2(120, 25_000), 7));
        self.years();
        self.withdraw(7);
        self.withdraw(8);
    }

    /// Two months of 160 units, with the smallest building after them.
    fn large(&mut self, rng: &mut Rng) {
        let ids: Vec<u32> = (1..=160).map(|place| 3 * place).collect();
        for month in [4, 11] {
            let sheet = build_sheet(&random_sheet_of(rng, month, 2, 0, &ids));
            if month == 4 {
                self.open(&sheet);
            }
            self.post(&sheet);
        }
        for place in [0, 80, 159, 160] {
            self.year(place);
        }
        self.withdraw(4);
        self.year(159);
    }

    fn random(&mut self, rng: &mut Rng) {
        let ids = [5, 6];
        self.open(&sheet_of_building(rng, &ids));
        for _ in 0..40 {
            let call = random_call(rng, &ids);
            self.call(&call);
        }
        self.year(0);
        self.year(1);
    }
}

/// A sheet without hot water at a price of 10,000: model, base percent and
/// unmetered factor, and rows of id, status, area and reading.
fn small_sheet(month: u8, model: [u8; 3], meter: u32, rows: &[(u32, u8, u32, u32)]) -> Vec<u8> {
    let header = Header {
        month,
        model: model[0],
        unit_count: rows.len() as u16,
        base_percent: model[1],
        unmetered_factor: model[2],
        shared_meter_wh: meter,
        price: 10_000,
        ..Header::default()
    };
    let unit = |&(id, status, heated_area, reading): &(u32, u8, u32, u32)| Unit {
        id,
        status,
        location_factor: 1_000,
        heated_area,
        reading,
        ..Unit::default()
    };
    let units = rows.iter().map(unit).collect();
    build_sheet(&Sheet { header, units })
}

/// A quarter and three quarters by area.
fn by_area(month: u8, meter: u32, ids: [u32; 2]) -> Vec<u8> {
    let rows = [(ids[0], 0, 100, 0), (ids[1], 0, 300, 0)];
    small_sheet(month, [2, 0, 0], meter, &rows)
}

/// Case F.
fn overcharged(month: u8) -> Vec<u8> {
    let rows = [(11, 1, 500, 0), (12, 0, 1_000, 300)];
    small_sheet(month, [3, 30, 31], 1_000, &rows)
}

/// Case A by areas of 1, 3, 2, model 2.
fn by_1_3_2(meter: u32, price: u32) -> Sheet {
    let mut sheet = case_a_with_meter(meter);
    let header = &mut sheet.header;
    (header.model, header.price) = (2, price);
    (header.base_percent, header.common_heat_percent) = (0, 0);
    header.unmetered_factor = 0;
    for (unit, area) in sheet.units.iter_mut().zip([1, 3, 2]) {
        (unit.heated_area, unit.reading) = (area, 0);
    }
    sheet
}

fn in_month(mut sheet: Sheet, month: u8) -> Vec<u8> {
    sheet.header.month = month;
    build_sheet(&sheet)
}

fn main() {
    let mut rng = Rng::new(104);
    let mut run = Run::new();
    // Behind the 1,280 that are lent, nobody writes it.
    run.set_sum(1_280, 9);
    run.unopened();
    run.computed();
    run.months();
    run.riser_limits();
    run.ties();
    run.bad_sheets();
    run.other_buildings();
    run.bad_books();
    run.large(&mut rng);
    run.random(&mut rng);
    run.other_lengths();
    run.below_zero();
    run.past_64_bits();
    run.whole_blocks();
    run.foreign_sums();
    run.last_unit();
    run.clashes();
    run.random_sums(&mut rng);
    write_files(&run.stdin, &run.stdout);
}
