//! Vectors for request 2026-05: connection power and fees; with request 2026-06.
mod divided;
mod refused;

use compare::cases::{case_a, case_a_with_loads};
use compare::charge_calls::{random_charge_call, ChargeCall};
use compare::charges::MAX_CHARGE;
use compare::rng::Rng;
use compare::sheet::{build_sheet, Sheet};
use compare::vectors::{charge_bytes, list_line, pack, write_files};

/// What a vector may have at most.
const MOST_BYTES: usize = 5_300;
const MOST_NUMBERS: usize = 3 * 160 + 1;
const RANDOM_VECTORS: usize = 40;

/// The list of calls under construction.
struct Calls(Vec<ChargeCall>);

impl Calls {
    fn add(&mut self, call: ChargeCall) {
        assert!(fits(&call), "{} bytes", call.sheet.len());
        self.0.push(call);
    }

    /// A sheet's call for a list of the right length.
    fn add_sheet(&mut self, sheet: &Sheet, model: u32, amounts: [u32; 3]) {
        self.add(ChargeCall::of(build_sheet(sheet), model, amounts));
    }

    /// The same by load and by area.
    fn add_both(&mut self, sheet: &Sheet, amounts: [u32; 3]) {
        self.add_sheet(sheet, 1, amounts);
        self.add_sheet(sheet, 2, amounts);
    }

    /// A good call by area after a change; case A has no loads.
    fn add_changed(&mut self, change: impl FnOnce(&mut ChargeCall)) {
        let mut call = ChargeCall::of(build_sheet(&case_a()), 2, [1_000, 200, 30]);
        change(&mut call);
        self.add(call);
    }

    /// Random calls, with faults and without.
    fn add_random(&mut self, rng: &mut Rng) {
        let mut added = 0;
        while added < RANDOM_VECTORS {
            let call = random_charge_call(rng);
            if fits(&call) && call.sheet.len() < 600 {
                self.add(call);
                added += 1;
            }
        }
    }
}

fn fits(call: &ChargeCall) -> bool {
    call.list_len <= MOST_NUMBERS && charge_bytes(call).len() <= MOST_BYTES
}

fn line(call: &ChargeCall) -> String {
    list_line(call.divide(), call.list_len)
}

fn main() {
    let mut rng = Rng::new(106);
    let mut calls = Calls(Vec::new());
    calls.add_cases();
    calls.add_ties();
    calls.add_months_not_settled();
    calls.add_sizes(&mut rng);
    calls.add_own_refusals();
    calls.add_amounts_and_models();
    calls.add_loads();
    calls.add_lists();
    calls.add_orders();
    calls.add_random(&mut rng);

    let vectors: Vec<Vec<u8>> = calls.0.iter().map(charge_bytes).collect();
    let stdout: String = calls.0.iter().map(line).collect();
    write_files(&pack(&vectors), &stdout);
}
