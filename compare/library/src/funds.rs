//! Calls on an efficiency fund.

use crate::calls;
use crate::difference::{same, Compared};
use crate::fund_ways::FundWay;
use crate::side::{answer, Side};
use crate::tally::Tally;
use crate::ways::Way;
use compare::fund_calls::{next_fund_call, random_fund_call, Collection, FundCall, Payment};
use compare::plain_fund::PlainFund;
use compare::rng::Rng;
use compare::vectors::fund_bytes;

const CALLS_A_FUND: u64 = 40;

/// A call's names: its own, of the balance, and of one that a refused call
/// leaves.
type Names = [&'static str; 3];
const COLLECT: Names = ["collect", "collect: balance", "collect: refused"];
const PAY: Names = ["pay", "pay: balance", "pay: refused"];

/// A call on a fund that holds any number: the answer, and the balance, which a
/// refused call leaves.
pub fn compare_fund_call(side: &Side, rng: &mut Rng, tally: &mut Tally) -> Compared<()> {
    compare_call(side, &random_fund_call(rng), tally)?;
    Ok(())
}

/// A list of calls on a new fund, with the plain fund beside it.
pub fn compare_new_fund(side: &Side, rng: &mut Rng, tally: &mut Tally) -> Compared<()> {
    let (mut balance, mut plain) = (0, PlainFund::default());
    for _ in 0..CALLS_A_FUND {
        let call = next_fund_call(rng, balance);
        let (number, after) = compare_call(side, &call, tally)?;
        let expected = match &call {
            FundCall::Collect(call) => plain.collect_fees(&call.sheet, call.rate),
            FundCall::Pay(call) => plain.pay_out(call.amount),
        };
        let input = fund_bytes(&call);
        same("plain fund", &input, answer(&expected), number)?;
        let left = plain.accepted_fees() - plain.accepted_payments();
        same("plain fund: balance", &input, left, u128::from(after))?;
        balance = after;
    }
    Ok(())
}

/// The answer that both sides gave, and the balance that both left.
fn compare_call(side: &Side, call: &FundCall, tally: &mut Tally) -> Compared<(u32, u64)> {
    let (mut ours, mut theirs) = (call.balance(), call.balance());
    let (names, expected, number) = match call {
        FundCall::Collect(Collection { sheet, rate, .. }) => (
            COLLECT,
            (side.collect_fees)(&mut ours, sheet, *rate),
            calls::collect_fees(&mut theirs, sheet, *rate),
        ),
        FundCall::Pay(Payment { amount, .. }) => (
            PAY,
            (side.pay_out)(&mut ours, *amount),
            calls::pay_out(&mut theirs, *amount),
        ),
    };
    let input = fund_bytes(call);
    same(names[0], &input, expected, number)?;
    same(names[1], &input, ours, theirs)?;
    count(call, names[0], number, tally);
    if number != 0 {
        same(names[2], &input, call.balance(), theirs)?;
    }
    Ok((number, theirs))
}

fn count(call: &FundCall, name: &str, number: u32, tally: &mut Tally) {
    match call {
        FundCall::Collect(Collection { sheet, .. }) => tally.count_sheet(name, number, sheet),
        FundCall::Pay(_) => tally.count(name, number),
    }
    for way in FundWay::of(number, call) {
        tally.count_way(name, Way::Fund(way));
    }
}
