//! The ways of calls on a fund: accepted fees by who pays and by their rounding,
//! 24 and 25 by how far the limit is passed, payments beside the balance.

use compare::fund::{fees, pays, MAX_RATE};
use compare::fund_calls::{Collection, FundCall, Payment};
use compare::refusal::*;
use compare::sheet::{read_sheet, Sheet};

/// Declares the ways with their names.
macro_rules! ways {
    ($($name:ident $text:literal,)*) => {
        #[derive(Clone, Copy, PartialEq)]
        pub enum FundWay {
            $($name,)*
        }

        const NAMED: &[(FundWay, &str)] = &[$((FundWay::$name, $text),)*];
    };
}

ways! {
    NoFees "0 no fees",
    Model1 "0 fees of model 1",
    Model2 "0 fees of model 2",
    Status1 "0 fees and status 1",
    Status4 "0 fees and status 4",
    Fault "0 status 2 or 3",
    Half "0 half a cent",
    BelowHalf "0 just below half",
    HighestRate "0 highest rate",
    Fills "0 fund just full",
    RateByOne "24 by one",
    RateAndFull "24 where 25 holds",
    FullByOne "25 by one cent",
    FullByFees "25 by the fees alone",
    PaysNothing "0 pays nothing",
    PaysAll "0 pays all",
    ShortByOne "23 by one cent",
    ShortOfNothing "23 of nothing",
}

use FundWay::*;

impl FundWay {
    pub fn all() -> impl Iterator<Item = FundWay> {
        NAMED.iter().map(|&(way, _)| way)
    }

    pub fn name(self) -> String {
        let entry = NAMED.iter().find(|(way, _)| *way == self);
        entry.expect("every way is named").1.to_string()
    }

    pub fn calls(self) -> &'static [&'static str] {
        match self {
            PaysNothing | PaysAll | ShortByOne | ShortOfNothing => &["pay"],
            _ => &["collect"],
        }
    }

    /// The ways of a call by its answer.
    pub fn of(answer: u32, call: &FundCall) -> Vec<FundWay> {
        match call {
            FundCall::Collect(call) if answer == 0 => of_fees(call),
            FundCall::Collect(call) => of_refused_fees(answer, call),
            FundCall::Pay(call) => of_payment(call),
        }
    }
}

/// The ways of accepted fees.
fn of_fees(call: &Collection) -> Vec<FundWay> {
    let sheet = read_sheet(&call.sheet);
    let fees = fees(&call.sheet, call.rate).unwrap_or(0);
    let model = sheet.header.model;
    let has = |status| sheet.units.iter().any(|unit| unit.status == status);
    let ends = endings(&sheet, call.rate);
    those(&[
        (NoFees, fees == 0),
        (Model1, model == 1 && fees > 0),
        (Model2, model == 2 && fees > 0),
        (Status1, has(1) && fees > 0),
        (Status4, has(4) && fees > 0),
        (Fault, has(2) || has(3)),
        (Half, ends.contains(&5_000)),
        (BelowHalf, ends.contains(&4_999)),
        (HighestRate, call.rate == MAX_RATE),
        (Fills, fees > 0 && fees == u64::MAX - call.balance),
    ])
}

fn of_refused_fees(answer: u32, call: &Collection) -> Vec<FundWay> {
    let passes_by = |rate| {
        let fees = fees(&call.sheet, rate).unwrap_or(0);
        fees.saturating_sub(u64::MAX - call.balance)
    };
    match answer {
        RATE_TOO_HIGH => those(&[
            (RateByOne, call.rate == MAX_RATE + 1),
            (RateAndFull, passes_by(MAX_RATE) > 0),
        ]),
        FUND_FULL => those(&[
            (FullByOne, passes_by(call.rate) == 1),
            (FullByFees, call.balance < u64::MAX),
        ]),
        _ => Vec::new(),
    }
}

fn of_payment(call: &Payment) -> Vec<FundWay> {
    let Payment { balance, amount } = *call;
    those(&[
        (PaysNothing, amount == 0),
        (PaysAll, amount == balance && balance > 0),
        (ShortByOne, amount.checked_sub(balance) == Some(1)),
        (ShortOfNothing, balance == 0 && amount > 0),
    ])
}

/// What the fees end in, in 0.0001 cents.
fn endings(sheet: &Sheet, rate: u32) -> Vec<u64> {
    let paying = sheet.units.iter().filter(|unit| pays(sheet, unit));
    paying
        .map(|unit| u64::from(unit.heated_area) * u64::from(rate) % 10_000)
        .collect()
}

fn those(ways: &[(FundWay, bool)]) -> Vec<FundWay> {
    let held = ways.iter().filter(|(_, holds)| *holds);
    held.map(|&(way, _)| way).collect()
}
