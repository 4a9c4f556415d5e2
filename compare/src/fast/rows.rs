//! The rows: fields, refusals 6, 7 and 20, and all sums in the same pass.

use super::header::Header;
use crate::refusal::*;
use std::ops::RangeInclusive;

#[derive(Clone, Copy)]
pub struct Row<'a>(pub &'a [u8; 32]);

impl Row<'_> {
    #[inline(always)]
    fn short(self, at: usize) -> u64 {
        u64::from(u16::from_le_bytes([self.0[at], self.0[at + 1]]))
    }

    #[inline(always)]
    fn long(self, at: usize) -> u64 {
        self.short(at) | self.short(at + 2) << 16
    }

    pub fn id(self) -> u64 {
        self.long(0)
    }
    pub fn status(self) -> u8 {
        self.0[4]
    }
    pub fn water_class(self) -> u8 {
        self.0[5]
    }
    pub fn location_factor(self) -> u64 {
        self.short(6)
    }
    pub fn heated_area(self) -> u64 {
        self.long(8)
    }
    pub fn riser_surface(self) -> u64 {
        self.long(12)
    }
    pub fn heat_load(self) -> u64 {
        self.long(16)
    }
    pub fn reading(self) -> u64 {
        self.long(20)
    }
    pub fn litres(self) -> u64 {
        self.long(24)
    }
    pub fn persons(self) -> u64 {
        self.short(28)
    }

    /// The weight of a unit not read.
    pub fn unread_weight(self, unmetered_factor: u64) -> u64 {
        let factor = match self.status() {
            1 | 4 => self.location_factor() * unmetered_factor,
            _ => 10_000,
        };
        self.heated_area() * factor
    }
}

#[derive(Default)]
pub struct Sums {
    pub area: u64,
    pub load: u64,
    pub read_units: u64,
    pub read_area: u64,
    pub read_riser: u64,
    pub readings: u64,
    pub unread_weight: u64,
    pub volume_units: u64,
    pub person_units: u64,
    pub litres: u64,
    pub class_2_persons: u64,
    pub persons: u64,
}

impl Sums {
    #[inline(always)]
    fn add(&mut self, header: &Header, row: Row) {
        let area = row.heated_area();
        self.area += area;
        self.load += row.heat_load();
        self.readings += row.reading();
        if row.status() == 0 {
            self.read_units += 1;
            self.read_area += area;
            self.read_riser += row.riser_surface();
        } else {
            self.unread_weight += row.unread_weight(header.unmetered_factor);
        }
        let persons = row.persons();
        let by_persons = row.water_class() == 2;
        self.volume_units += u64::from(row.water_class() == 1);
        self.person_units += u64::from(by_persons);
        self.litres += row.litres();
        self.class_2_persons += if by_persons { persons } else { 0 };
        self.persons += persons;
    }
}

/// The highest values that hang on model and source.
struct Highest {
    status: u8,
    water_class: u8,
    reading: u64,
}

impl Highest {
    fn of(header: &Header) -> Highest {
        Highest {
            status: if header.model <= 2 { 0 } else { 4 },
            water_class: if header.source == 0 { 0 } else { 2 },
            reading: [0, 0, 0, 50_000, 50_000, 25_000_000][usize::from(header.model)],
        }
    }

    /// The highest reading, litres and persons, by the row's status and class.
    #[inline(always)]
    fn in_row(&self, row: Row) -> (u64, u64, u64) {
        (
            if row.status() == 0 { self.reading } else { 0 },
            if row.water_class() == 1 { 1_000_000 } else { 0 },
            if row.water_class() == 0 { 0 } else { 50 },
        )
    }

    /// Whether no field is out of range or clashes, without a branch a field.
    #[inline(always)]
    fn fits(&self, row: Row) -> bool {
        let (reading, litres, persons) = self.in_row(row);
        (row.status() <= self.status)
            & (row.water_class() <= self.water_class)
            & (row.location_factor().wrapping_sub(1) < 1_000)
            & (row.heated_area().wrapping_sub(1) < 10_000)
            & (row.riser_surface() <= 10_000)
            & (row.heat_load() <= 100_000)
            & (row.reading() <= reading)
            & (row.litres() <= litres)
            & (row.persons() <= persons)
            & (row.short(30) == 0)
    }

    /// What refuses a row that doesn't fit, by its first wrong field: 6 or 20.
    #[cold]
    fn fault(&self, row: Row) -> u32 {
        let (reading, litres, persons) = self.in_row(row);
        // A value, its fixed range, and the highest that doesn't clash.
        let fields = [
            (row.status().into(), 0..=4, self.status.into()),
            (row.water_class().into(), 0..=2, self.water_class.into()),
            (row.location_factor(), 1..=1_000, 1_000),
            (row.heated_area(), 1..=10_000, 10_000),
            (row.riser_surface(), 0..=10_000, 10_000),
            (row.heat_load(), 0..=100_000, 100_000),
            (row.reading(), 0..=25_000_000, reading),
            (row.litres(), 0..=1_000_000, litres),
            (row.persons(), 0..=50, persons),
        ];
        let clash = |(value, range, highest): &(u64, RangeInclusive<u64>, u64)| {
            let in_range = range.contains(value);
            (!in_range || value > highest).then_some(in_range)
        };
        match fields.iter().find_map(clash) {
            Some(true) => FIELD_CONFLICT,
            // The last two bytes have no clash.
            _ => ROW_FIELD,
        }
    }
}

/// The rows of a sheet that passes 1 to 7 and 20, and their sums.
pub fn checked_rows(sheet: &[u8]) -> Result<(&[[u8; 32]], Sums), Refusal> {
    let header = Header::of(sheet, 32)?;
    let (rows, _) = sheet[48..].as_chunks::<32>();
    let sums = check_and_sum(&header, rows)?;
    Ok((rows, sums))
}

/// Refusals 6, 20 and 7, and the sums of rows that pass.
pub fn check_and_sum(header: &Header, rows: &[[u8; 32]]) -> Result<Sums, Refusal> {
    let highest = Highest::of(header);
    let mut sums = Sums::default();
    // One past the id before.
    let mut lowest_id = 0;
    for (place, row) in rows.iter().enumerate() {
        let row = Row(row);
        if !highest.fits(row) {
            return refuse_at(highest.fault(row), place);
        }
        if row.id() < lowest_id {
            return refuse_at(ID_ORDER, place);
        }
        lowest_id = row.id() + 1;
        sums.add(header, row);
    }
    Ok(sums)
}
