//! Vectors for request 2026-07: the efficiency fund.
mod fees;
mod refused;
mod runs;

use compare::cases::{building, case_d};
use compare::fund::MAX_RATE;
use compare::fund_calls::{random_fund_call, Collection, FundCall, Payment};
use compare::rng::Rng;
use compare::sheet::{build_sheet, Sheet};
use compare::vectors::{fund_bytes, write_files};

/// What a sheet may have at most.
const MOST_BYTES: usize = 5_200;
const RANDOM_VECTORS: usize = 60;
/// What a random sheet has at most.
const SMALL: usize = 600;

/// The list of calls under construction.
struct Calls(Vec<FundCall>);

impl Calls {
    fn collect(&mut self, call: Collection) {
        assert!(call.sheet.len() <= MOST_BYTES, "{} bytes", call.sheet.len());
        self.0.push(FundCall::Collect(call));
    }

    fn collect_sheet(&mut self, balance: u64, sheet: &Sheet, rate: u32) {
        let sheet = build_sheet(sheet);
        self.collect(Collection {
            balance,
            sheet,
            rate,
        });
    }

    fn pay(&mut self, balance: u64, amount: u64) {
        self.0.push(FundCall::Pay(Payment { balance, amount }));
    }

    /// Case D's fees, 2,500 cents of its first unit, after a change.
    fn collect_changed(&mut self, change: impl FnOnce(&mut Collection)) {
        let mut call = Collection {
            balance: 1_234_567,
            sheet: build_sheet(&case_d()),
            rate: 50_000,
        };
        change(&mut call);
        self.collect(call);
    }

    /// Random calls, with faults and without.
    fn add_random(&mut self, rng: &mut Rng) {
        let mut added = 0;
        while added < RANDOM_VECTORS {
            let call = random_fund_call(rng);
            if is_small(&call) {
                self.0.push(call);
                added += 1;
            }
        }
    }
}

fn is_small(call: &FundCall) -> bool {
    fund_bytes(call).len() < SMALL
}

/// Number, place and the balance afterwards.
fn line(call: &FundCall) -> String {
    match call.run() {
        (Ok(()), balance) => format!("0 0 {balance}\n"),
        (Err(refusal), balance) => format!("{} {} {balance}\n", refusal.number, refusal.place),
    }
}

fn main() {
    let mut rng = Rng::new(107);
    let mut calls = Calls(Vec::new());
    calls.add_cases();
    calls.add_halves();
    calls.add_units_that_pay();
    calls.add_sizes(&mut rng);
    calls.add_payments();
    calls.add_own_refusals();
    calls.add_months_not_settled();
    calls.add_rates();
    calls.add_full();
    calls.add_orders();
    calls.add_run_by_hand();
    calls.add_random_runs(&mut rng);
    calls.add_random(&mut rng);

    let vectors: Vec<u8> = calls.0.iter().flat_map(fund_bytes).collect();
    let stdout: String = calls.0.iter().map(line).collect();
    write_files(&vectors, &stdout);
}
