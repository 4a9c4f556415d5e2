//! Request 2026-07, the plain fund: it keeps the accepted fees and payments, and
//! never a balance.

use crate::fund::fees;
use crate::refusal::*;

/// A new one has neither.
#[derive(Default)]
pub struct PlainFund {
    fees: Vec<u64>,
    payments: Vec<u64>,
}

impl PlainFund {
    /// Refused by 1 to 12 with 20, 24, and 25 when the fees less the payments
    /// would pass 64 bits.
    pub fn collect_fees(&mut self, sheet: &[u8], rate: u32) -> Result<(), Refusal> {
        let fees = fees(sheet, rate)?;
        let after = self.accepted_fees() + u128::from(fees) - self.accepted_payments();
        refuse_if(after >= 1 << 64, FUND_FULL)?;
        self.fees.push(fees);
        Ok(())
    }

    /// Refused by 23 when the payments would exceed the fees.
    pub fn pay_out(&mut self, amount: u64) -> Result<(), Refusal> {
        let after = self.accepted_payments() + u128::from(amount);
        refuse_if(after > self.accepted_fees(), FUND_SHORT)?;
        self.payments.push(amount);
        Ok(())
    }

    pub fn accepted_fees(&self) -> u128 {
        total(&self.fees)
    }

    pub fn accepted_payments(&self) -> u128 {
        total(&self.payments)
    }
}

fn total(cents: &[u64]) -> u128 {
    cents.iter().copied().map(u128::from).sum()
}
