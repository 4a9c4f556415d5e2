//! Random calls of request 2026-07.

use crate::damage::put;
use crate::faults::{ordered_sheet_faults, OrderedFault};
use crate::fund::{collect_fees, fees, pay_out, pays, MAX_RATE};
use crate::group_faults::faulty_bytes;
use crate::refusal::Refusal;
use crate::rng::Rng;
use crate::samples::random_sheet;
use crate::sheet::{build_sheet, Sheet, HEADER_BYTES, ROW_BYTES};
use crate::weights::heated_area;

/// A month's fees into a fund of some balance.
#[derive(Clone, Debug)]
pub struct Collection {
    pub balance: u64,
    pub sheet: Vec<u8>,
    pub rate: u32,
}

/// An amount out of a fund of some balance.
#[derive(Clone, Copy, Debug)]
pub struct Payment {
    pub balance: u64,
    pub amount: u64,
}

#[derive(Clone, Debug)]
pub enum FundCall {
    Collect(Collection),
    Pay(Payment),
}

impl Collection {
    /// The plain form's answer, and the balance afterwards.
    pub fn run(&self) -> (Result<(), Refusal>, u64) {
        let mut fund = self.balance;
        let answer = collect_fees(&mut fund, &self.sheet, self.rate);
        (answer, fund)
    }
}

impl Payment {
    /// The same.
    pub fn run(self) -> (Result<(), Refusal>, u64) {
        let mut fund = self.balance;
        let answer = pay_out(&mut fund, self.amount);
        (answer, fund)
    }
}

impl FundCall {
    /// Before the call.
    pub fn balance(&self) -> u64 {
        match self {
            FundCall::Collect(call) => call.balance,
            FundCall::Pay(call) => call.balance,
        }
    }

    /// The plain form's answer, and the balance afterwards.
    pub fn run(&self) -> (Result<(), Refusal>, u64) {
        match self {
            FundCall::Collect(call) => call.run(),
            FundCall::Pay(call) => call.run(),
        }
    }
}

/// A call on a fund that holds any number.
pub fn random_fund_call(rng: &mut Rng) -> FundCall {
    if rng.once_in(4) {
        let balance = random_balance(rng);
        return FundCall::Pay(random_payment(rng, balance));
    }
    let mut call = random_collection(rng, 0);
    call.balance = match fees(&call.sheet, call.rate.min(MAX_RATE)) {
        Ok(fees) if rng.once_in(2) => near_full(rng, fees),
        _ => random_balance(rng),
    };
    FundCall::Collect(call)
}

/// The next call on a fund.
pub fn next_fund_call(rng: &mut Rng, balance: u64) -> FundCall {
    if rng.once_in(3) {
        FundCall::Pay(random_payment(rng, balance))
    } else {
        FundCall::Collect(random_collection(rng, balance))
    }
}

/// The largest number, one less or one more after these fees.
fn near_full(rng: &mut Rng, fees: u64) -> u64 {
    (u64::MAX - fees)
        .saturating_add(rng.below(3))
        .saturating_sub(1)
}

fn random_balance(rng: &mut Rng) -> u64 {
    match rng.below(8) {
        0 => 0,
        1 => rng.below(10),
        2 => u64::MAX - rng.below(3),
        3 => u64::MAX - rng.below(200_000_000),
        4 => (1 << 32) - rng.below(3),
        _ => rng.draw() >> rng.below(64),
    }
}

/// Often the whole balance, one cent less or one more.
fn random_payment(rng: &mut Rng, balance: u64) -> Payment {
    let amount = match rng.below(10) {
        0 => 0,
        1 => balance,
        2 => balance.saturating_sub(1),
        3 | 4 => balance.saturating_add(1),
        5 => 1,
        6 => u64::MAX - rng.below(2),
        7 => balance ^ 1 << 32,
        8 => rng.draw() >> rng.below(64),
        _ => rng.below(balance.max(1)),
    };
    Payment { balance, amount }
}

/// A month of any kind at any rate: a third with a fault of the sheet, which 8 to
/// 12 may refuse too, an eighth with a rate that is too high.
fn random_collection(rng: &mut Rng, balance: u64) -> Collection {
    let mut sheet = random_sheet(rng);
    shape_statuses(rng, &mut sheet);
    shape_areas(rng, &mut sheet);
    let rate = if rng.once_in(8) {
        rate_past_limit(rng)
    } else {
        random_rate(rng, &sheet)
    };
    let sheet = if rng.once_in(3) {
        faulty_bytes(rng, &sheet)
    } else {
        build_sheet(&sheet)
    };
    Collection {
        balance,
        sheet,
        rate,
    }
}

/// Models 3 to 5: often any status for all units but one. By a small factor the
/// units not read don't outweigh the whole.
fn shape_statuses(rng: &mut Rng, sheet: &mut Sheet) {
    if sheet.header.model < 3 || rng.once_in(4) {
        return;
    }
    let read = rng.below(sheet.units.len() as u64) as usize;
    for (place, unit) in sheet.units.iter_mut().enumerate() {
        unit.status = if place == read { 0 } else { rng.below(5) as u8 };
        if unit.status > 0 {
            unit.reading = 0;
            unit.location_factor = rng.between(1, 285) as u16;
        }
    }
    sheet.units[read].riser_surface = rng.between(1, 10_000) as u32;
}

/// Equal areas, small ones, or as they are.
fn shape_areas(rng: &mut Rng, sheet: &mut Sheet) {
    let style = rng.below(6);
    let equal = rng.between(1, 10_000) as u32;
    for unit in &mut sheet.units {
        match style {
            0 => unit.heated_area = equal,
            1 => unit.heated_area = rng.between(1, 3) as u32,
            _ => {}
        }
    }
}

/// Often one at which a fee is about half a cent or ends in about half a cent.
fn random_rate(rng: &mut Rng, sheet: &Sheet) -> u32 {
    match rng.below(12) {
        0 => 0,
        1 => 1,
        2 => 50_000,
        3 => MAX_RATE,
        4 => MAX_RATE - 1,
        5 => 5_000 * (2 * rng.below(100) as u32 + 1),
        6..=9 => rate_near_half(rng, sheet),
        10 => rng.below(10_000) as u32,
        _ => rng.below(u64::from(MAX_RATE)) as u32,
    }
}

/// A rate at which the fee of some unit that pays ends next to half a cent, where
/// there is one.
fn rate_near_half(rng: &mut Rng, sheet: &Sheet) -> u32 {
    let paying: Vec<u64> = sheet
        .units
        .iter()
        .filter(|unit| pays(sheet, unit))
        .map(heated_area)
        .collect();
    let start = rng.below(u64::from(MAX_RATE) - 10_000);
    let wanted = 4_999 + rng.below(3);
    let area = match paying.len() as u64 {
        0 => return start as u32,
        count => paying[rng.below(count) as usize],
    };
    let ends_there = |rate: &u64| area * rate % 10_000 == wanted;
    (start..start + 10_000).find(ends_there).unwrap_or(start) as u32
}

fn rate_past_limit(rng: &mut Rng) -> u32 {
    match rng.below(5) {
        0 | 1 => MAX_RATE + 1,
        2 => u32::MAX,
        3 => 1 << 31,
        _ => rng.between(u64::from(MAX_RATE) + 1, u32::MAX.into()) as u32,
    }
}

/// Faults of a collection on case D, whose first unit pays; each is refused before
/// those below it.
pub fn ordered_faults() -> Vec<OrderedFault<Collection>> {
    let mut faults = ordered_sheet_faults(|call: &mut Collection| &mut call.sheet);
    faults.extend::<[OrderedFault<Collection>; 6]>([
        (Box::new(|call| water(call, 1_000_001)), (8, 0)),
        (Box::new(|call| water(call, 1)), (9, 0)),
        (Box::new(|call| unread(call, &[3, 3, 3])), (10, 0)),
        (Box::new(|call| unread(call, &[1, 1])), (12, 0)),
        (Box::new(|call| call.rate = MAX_RATE + 1), (24, 0)),
        (Box::new(|call| call.balance = u64::MAX), (25, 0)),
    ]);
    faults
}

/// Source 1 with hot water that no unit takes.
fn water(call: &mut Collection, wh: u64) {
    put(&mut call.sheet, (10, 1), 1);
    put(&mut call.sheet, (24, 4), wh);
}

/// Statuses of the first units.
fn unread(call: &mut Collection, statuses: &[u64]) {
    for (place, &status) in statuses.iter().enumerate() {
        let row = HEADER_BYTES + ROW_BYTES * place;
        put(&mut call.sheet, (row + 4, 1), status);
        put(&mut call.sheet, (row + 20, 4), 0);
    }
}
