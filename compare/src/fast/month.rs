//! "Steps of a month": refusals 8 to 12 and the statement.

use super::dividing::divide;
use super::header::Header;
use super::rows::{check_and_sum, Row, Sums};
use crate::refusal::*;
use crate::rules::RuleSet;
use crate::weights::limited;

/// A month that is not refused.
pub struct Month<'a> {
    pub header: Header,
    pub rows: &'a [[u8; 32]],
    sums: Sums,
    hot_water_wh: u64,
    rules: RuleSet,
}

impl<'a> Month<'a> {
    /// Refusals 1 to 12 with 20. `unit_bytes` is 64 where the statement is
    /// behind the rows, else 32.
    pub fn of(bytes: &'a [u8], unit_bytes: usize, rules: RuleSet) -> Result<Month<'a>, Refusal> {
        let header = Header::of(bytes, unit_bytes)?;
        let (rows, _) = bytes[48..48 + 32 * header.unit_count].as_chunks::<32>();
        let sums = check_and_sum(&header, rows)?;
        let hot_water_wh = header.hot_water_wh();
        let month = Month {
            header,
            rows,
            sums,
            hot_water_wh,
            rules,
        };
        month.check()?;
        Ok(month)
    }

    /// Refusals 8 to 12.
    fn check(&self) -> Result<(), Refusal> {
        let (header, sums) = (&self.header, &self.sums);
        let meter = header.shared_meter_wh;
        refuse_if(self.hot_water_wh > meter, HOT_WATER_EXCEEDS_METER)?;
        let no_water_divisor = sums.volume_units + sums.person_units == 0
            || sums.volume_units > 0 && sums.litres == 0
            || sums.person_units > 0 && sums.class_2_persons == 0
            || header.common_water_percent > 0 && sums.persons == 0;
        let zero_divisor = self.hot_water_wh > 0 && no_water_divisor
            || header.model == 1 && sums.load == 0
            || header.model == 4 && sums.read_riser == 0;
        refuse_if(zero_divisor, ZERO_DIVISOR)?;
        if header.model <= 2 {
            return Ok(());
        }
        refuse_if(sums.read_units == 0, NO_READINGS)?;
        let meters_exceed = self.all_metered() && sums.readings + self.hot_water_wh > meter;
        refuse_if(meters_exceed, METERS_EXCEED_HEAT)?;
        let overcharge = sums.unread_weight > 10_000 * sums.area;
        refuse_if(overcharge, UNMETERED_EXCEEDS_HEAT)
    }

    fn all_metered(&self) -> bool {
        self.header.model == 5 && self.sums.read_units == self.rows.len() as u64
    }

    pub fn area(&self) -> u64 {
        self.sums.area
    }

    pub fn bill_cents(&self) -> u64 {
        bill_cents(self.header.shared_meter_wh, self.header.price)
    }

    /// Writes the 8n numbers.
    pub fn write_statement<const RECIPROCAL: bool>(&self, statement: &mut [u32]) {
        let (_, common_heat) = self.heat();
        self.write::<RECIPROCAL>(common_heat, self.bill_cents(), statement);
    }

    /// Writes the 8n numbers by a common heat and a bill.
    pub fn write<const RECIPROCAL: bool>(
        &self,
        common_heat: u64,
        bill_cents: u64,
        statement: &mut [u32],
    ) {
        if self.rows.len() <= 16 {
            self.write_sized::<16, RECIPROCAL>(common_heat, bill_cents, statement);
        } else {
            self.write_sized::<160, RECIPROCAL>(common_heat, bill_cents, statement);
        }
    }

    /// With room for `N` units.
    fn write_sized<const N: usize, const RECIPROCAL: bool>(
        &self,
        common_heat: u64,
        bill_cents: u64,
        statement: &mut [u32],
    ) {
        let count = self.rows.len();
        let mut energies = Columns::<N>::new(self.rules);
        self.energies::<N, RECIPROCAL>(common_heat, &mut energies);

        let mut weights = [[0u64; 4]; N];
        for (i, weight) in weights[..count].iter_mut().enumerate() {
            *weight = energies.shares.each_ref().map(|column| column[i].into());
        }
        let mut remainders = [[0u64; 4]; N];
        let mut cents = [[0u32; 4]; N];
        divide::<RECIPROCAL>(
            bill_cents,
            weights[..count].as_flattened(),
            self.rules,
            remainders[..count].as_flattened_mut(),
            cents[..count].as_flattened_mut(),
        );
        let (units, _) = statement.as_chunks_mut::<8>();
        for ((unit, weight), cents) in units.iter_mut().zip(&weights).zip(&cents) {
            let [a, b, c, d] = weight.map(|wh| wh as u32);
            let [e, f, g, h] = *cents;
            *unit = [a, b, c, d, e, f, g, h];
        }
    }

    /// Step 2: the units' heat and the common heat.
    pub fn heat(&self) -> (u64, u64) {
        let space_heat = self.header.shared_meter_wh - self.hot_water_wh;
        if self.all_metered() {
            return (self.sums.readings, space_heat - self.sums.readings);
        }
        split(space_heat, self.header.common_heat_percent)
    }

    /// Steps 3 to 6.
    fn energies<const N: usize, const RECIPROCAL: bool>(
        &self,
        common_heat: u64,
        columns: &mut Columns<N>,
    ) {
        let header = &self.header;
        let (units, _) = self.heat();
        match header.model {
            1 => columns.divide::<RECIPROCAL>(0, units, self.rows, Row::heat_load),
            2 => columns.divide::<RECIPROCAL>(0, units, self.rows, Row::heated_area),
            _ if self.all_metered() => {
                for (share, row) in columns.shares[0].iter_mut().zip(self.rows) {
                    *share = Row(row).reading() as u32;
                }
            }
            _ => self.metered_heat::<N, RECIPROCAL>(units, columns),
        }
        columns.divide::<RECIPROCAL>(1, common_heat, self.rows, Row::heated_area);
        if self.hot_water_wh == 0 {
            return;
        }
        let (units, common) = split(self.hot_water_wh, header.common_water_percent);
        let (by_litres, by_persons) = self.water_factors();
        columns.divide::<RECIPROCAL>(2, units, self.rows, |row| match row.water_class() {
            1 => row.litres() * by_litres,
            _ => row.persons() * by_persons,
        });
        columns.divide::<RECIPROCAL>(3, common, self.rows, Row::persons);
    }

    /// What litres and persons are multiplied by in step 6. Class 0 has
    /// neither.
    fn water_factors(&self) -> (u64, u64) {
        let sums = &self.sums;
        if sums.volume_units == 0 || sums.person_units == 0 {
            return (1, 1);
        }
        (
            sums.volume_units * sums.class_2_persons,
            sums.person_units * sums.litres,
        )
    }

    /// Steps 3 and 4, models 3 to 5.
    fn metered_heat<const N: usize, const RECIPROCAL: bool>(
        &self,
        unit_heat: u64,
        columns: &mut Columns<N>,
    ) {
        let mut unread = [0u32; N];
        let unread_count = self.rows.len() - self.sums.read_units as usize;
        let mut pool = unit_heat;
        if unread_count > 0 {
            let mut kept = 0;
            for row in self.rows.iter().map(Row).filter(|row| row.status() != 0) {
                columns.weights[kept] = row.unread_weight(self.header.unmetered_factor);
                kept += 1;
            }
            columns.weights[kept] = 10_000 * self.sums.area - self.sums.unread_weight;
            columns.divide_weights::<RECIPROCAL>(unit_heat, kept + 1, &mut unread);
            pool = unread[kept].into();
        }
        let mut read = [0u32; N];
        self.read_weights(&mut columns.weights);
        columns.divide_weights::<RECIPROCAL>(pool, self.sums.read_units as usize, &mut read);

        let (mut next_unread, mut next_read) = (unread.iter(), read.iter());
        for (share, row) in columns.shares[0].iter_mut().zip(self.rows) {
            let next = if Row(row).status() == 0 {
                next_read.next()
            } else {
                next_unread.next()
            };
            *share = next.copied().unwrap_or(0);
        }
    }

    /// Step 4's weights, one read unit after the other.
    fn read_weights(&self, weights: &mut [u64]) {
        let sums = &self.sums;
        let v = self.header.base_percent;
        let by_reading = 100 - v;
        let limits_risers = self.rules.limits_risers();
        let rows = self.rows.iter().map(Row).filter(|row| row.status() == 0);
        let read = weights.iter_mut().zip(rows);
        match (self.header.model, sums.readings) {
            (4, 0) => read.for_each(|(w, row)| *w = row.riser_surface() * row.location_factor()),
            (_, 0) => read.for_each(|(w, row)| *w = row.heated_area() * row.location_factor()),
            (5, _) => read.for_each(|(w, row)| *w = row.reading()),
            (4, readings) => read.for_each(|(w, row)| {
                let riser = row.riser_surface() * readings;
                let r = by_reading * sums.read_riser * row.reading() + v * riser;
                let has_limits = limits_risers && riser > 0;
                *w = if has_limits { limited(r, riser) } else { r } * row.location_factor();
            }),
            (_, readings) => read.for_each(|(w, row)| {
                let area = row.heated_area() * readings;
                let r = by_reading * sums.read_area * row.reading() + v * area;
                *w = limited(r, area) * row.location_factor();
            }),
        }
    }
}

/// The four columns of energies, and scratch for a division by the rules.
struct Columns<const N: usize> {
    rules: RuleSet,
    shares: [[u32; N]; 4],
    weights: [u64; N],
    remainders: [u64; N],
}

impl<const N: usize> Columns<N> {
    fn new(rules: RuleSet) -> Self {
        Columns {
            rules,
            shares: [[0; N]; 4],
            weights: [0; N],
            remainders: [0; N],
        }
    }

    /// Divides by a weight of every row.
    fn divide<'a, const RECIPROCAL: bool>(
        &mut self,
        column: usize,
        total: u64,
        rows: &'a [[u8; 32]],
        weight: impl Fn(Row<'a>) -> u64,
    ) {
        if total == 0 {
            return;
        }
        for (slot, row) in self.weights.iter_mut().zip(rows) {
            *slot = weight(Row(row));
        }
        let count = rows.len();
        divide::<RECIPROCAL>(
            total,
            &self.weights[..count],
            self.rules,
            &mut self.remainders[..count],
            &mut self.shares[column][..count],
        );
    }

    fn divide_weights<const RECIPROCAL: bool>(
        &mut self,
        total: u64,
        count: usize,
        shares: &mut [u32; N],
    ) {
        divide::<RECIPROCAL>(
            total,
            &self.weights[..count],
            self.rules,
            &mut self.remainders[..count],
            &mut shares[..count],
        );
    }
}

/// M × price / 1,000,000, half up.
pub fn bill_cents(shared_meter_wh: u64, price: u64) -> u64 {
    (shared_meter_wh * price + 500_000) / 1_000_000
}

/// Divided by (100 − percent, percent): of two remainders the larger gets the
/// one that is left, the units' on a tie: they come first, and a percent is at
/// most 50.
fn split(total: u64, percent: u64) -> (u64, u64) {
    let units = (total * (100 - percent) + 50) / 100;
    (units, total - units)
}
