//! Connection power and fees.

use crate::calls;
use crate::difference::{same, Compared};
use crate::side::Side;
use crate::tally::Tally;
use crate::ways::Way;
use compare::charge_calls::{random_charge_call, ChargeCall};
use compare::rng::Rng;
use compare::vectors::charge_bytes;

/// What a list holds before a call.
const BEFORE: u32 = 9;

/// A random call: the answer, every number of the list, and a list that a
/// refused call leaves.
pub fn compare_charges(side: &Side, rng: &mut Rng, tally: &mut Tally) -> Compared<()> {
    let call = random_charge_call(rng);
    let ChargeCall {
        sheet,
        model,
        amounts,
        list_len,
    } = &call;
    let before = vec![BEFORE; *list_len];
    let (mut ours, mut theirs) = (before.clone(), before.clone());
    let expected = (side.fixed_charges)(sheet, *model, *amounts, &mut ours);
    let number = calls::fixed_charges(sheet, *model, *amounts, &mut theirs);
    let input = charge_bytes(&call);
    same("charges", &input, expected, number)?;
    same("charges: list", &input, &ours, &theirs)?;
    tally.count_sheet("charges", number, sheet);
    for way in Way::of_charges(number, &call) {
        tally.count_way("charges", way);
    }
    if number != 0 {
        return same("charges: refused", &input, before, theirs);
    }
    Ok(())
}
