//! Lists of calls on a new fund, each given it as the last one left it.

use super::*;
use compare::fund_calls::next_fund_call;

impl Calls {
    /// Adds a call with the balance that the last one left.
    fn next(&mut self, call: FundCall) -> u64 {
        let (_, balance) = call.run();
        self.0.push(call);
        balance
    }

    /// Fees, payments and refusals in between.
    pub fn add_run_by_hand(&mut self) {
        let months = [case_d(), building(2, 0, &[(1, 0), (3, 0)])];
        let mut balance = 0;
        for amount in [1, 0, 2_500, 1, 100] {
            for (sheet, rate) in [(0, 50_000), (0, MAX_RATE + 1), (1, 5_000)] {
                balance = self.next(FundCall::Collect(Collection {
                    balance,
                    sheet: build_sheet(&months[sheet]),
                    rate,
                }));
            }
            balance = self.next(FundCall::Pay(Payment { balance, amount }));
            let amount = balance + 1;
            balance = self.next(FundCall::Pay(Payment { balance, amount }));
        }
        let amount = balance;
        for _ in 0..2 {
            balance = self.next(FundCall::Pay(Payment { balance, amount }));
        }
    }

    /// Any calls.
    pub fn add_random_runs(&mut self, rng: &mut Rng) {
        for _ in 0..3 {
            let mut balance = 0;
            let mut added = 0;
            while added < 20 {
                let call = next_fund_call(rng, balance);
                if is_small(&call) {
                    balance = self.next(call);
                    added += 1;
                }
            }
        }
    }
}
