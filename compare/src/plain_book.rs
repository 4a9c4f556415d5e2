//! Document 01, the plain year book of demand 3: it keeps sheets, no numbers.

use crate::refusal::*;
use crate::settle::{settle_bytes, Outcome};
use crate::sheet::{check, read_sheet, ROW_BYTES};

/// n and ids of the opening sheet, and for each month a sheet or nothing.
pub struct PlainBook {
    ids: Vec<u32>,
    months: [Option<Vec<u8>>; 12],
}

impl PlainBook {
    /// Refused by 1 to 7 and 20.
    pub fn open(sheet: &[u8]) -> Result<PlainBook, Refusal> {
        check(sheet, ROW_BYTES)?;
        let units = read_sheet(sheet).units;
        let ids = units.iter().map(|unit| unit.id).collect();
        Ok(PlainBook {
            ids,
            months: Default::default(),
        })
    }

    pub fn post(&mut self, sheet: &[u8]) -> Result<(), Refusal> {
        let month = self.month_of(sheet)?;
        if self.months[month].is_some() {
            return refuse(MONTH_STATE);
        }
        self.months[month] = Some(sheet.to_vec());
        Ok(())
    }

    pub fn replace(&mut self, sheet: &[u8]) -> Result<(), Refusal> {
        let month = self.month_of(sheet)?;
        if self.months[month].is_none() {
            return refuse(MONTH_STATE);
        }
        self.months[month] = Some(sheet.to_vec());
        Ok(())
    }

    pub fn withdraw(&mut self, month: u32) -> Result<(), Refusal> {
        if !(1..=12).contains(&month) || self.months[month as usize - 1].is_none() {
            return refuse(MONTH_STATE);
        }
        self.months[month as usize - 1] = None;
        Ok(())
    }

    /// k and the eight sums of the unit at `place`.
    pub fn year(&self, place: u32) -> Result<(u32, [u64; 8]), Refusal> {
        let place = place as usize;
        if place >= self.ids.len() {
            return refuse(NO_SUCH_UNIT);
        }
        let outcomes: Vec<Outcome> = (1..=12).filter_map(|month| self.outcome(month)).collect();
        let number = |outcome: &Outcome, i| u64::from(outcome.numbers[8 * place + i]);
        let sums = std::array::from_fn(|i| outcomes.iter().map(|o| number(o, i)).sum());
        Ok((outcomes.len() as u32, sums))
    }

    /// The shared meter's reading of a posted month.
    pub fn shared_meter_wh(&self, month: u32) -> Option<u32> {
        self.outcome(month).map(|outcome| outcome.shared_meter_wh)
    }

    /// The bill of a posted month.
    pub fn bill_cents(&self, month: u32) -> Option<u32> {
        self.outcome(month).map(|outcome| outcome.bill_cents)
    }

    /// What the sheet of a posted month settles to.
    pub fn outcome(&self, month: u32) -> Option<Outcome> {
        let sheet = self.months[month as usize - 1].as_ref()?;
        Some(settle_bytes(sheet).expect("kept sheets settle"))
    }

    /// The month (from 0) of a sheet that settles and is of this building.
    fn month_of(&self, sheet: &[u8]) -> Result<usize, Refusal> {
        let outcome = settle_bytes(sheet)?;
        if outcome.ids != self.ids {
            return refuse(OTHER_BUILDING);
        }
        Ok(usize::from(outcome.month) - 1)
    }
}
