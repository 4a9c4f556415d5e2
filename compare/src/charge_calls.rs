//! Random calls of request 2026-05.

use crate::charges::{fixed_charges, weights, MAX_CHARGE, MODEL_1S, MODEL_2S};
use crate::damage::unit_count;
use crate::faults::{ordered_sheet_faults, OrderedFault};
use crate::group_faults::faulty_bytes;
use crate::refusal::Refusal;
use crate::rng::Rng;
use crate::samples::random_sheet;
use crate::sheet::{build_sheet, Sheet};
use crate::tied::tied_total;

/// What a call is given, and how long its list is.
#[derive(Clone, Debug)]
pub struct ChargeCall {
    pub sheet: Vec<u8>,
    pub model: u32,
    /// Power, buyer's fee, supplier's fee.
    pub amounts: [u32; 3],
    pub list_len: usize,
}

impl ChargeCall {
    /// A call for a list of the right length.
    pub fn of(sheet: Vec<u8>, model: u32, amounts: [u32; 3]) -> ChargeCall {
        let list_len = 3 * unit_count(&sheet);
        ChargeCall {
            sheet,
            model,
            amounts,
            list_len,
        }
    }

    /// The plain form's answer.
    pub fn divide(&self) -> Result<Vec<u32>, Refusal> {
        fixed_charges(&self.sheet, self.model, self.amounts, self.list_len)
    }
}

#[derive(Clone, Copy, PartialEq, Eq)]
enum Fault {
    /// Of the sheet; also one that 8 to 12 would refuse.
    Sheet,
    Amount,
    Model,
    /// 1S with all q 0.
    Loads,
    List,
}

impl Fault {
    fn random(rng: &mut Rng) -> Fault {
        match rng.below(11) {
            0..=4 => Fault::Sheet,
            5 | 6 => Fault::Amount,
            7 => Fault::Model,
            8 => Fault::Loads,
            _ => Fault::List,
        }
    }
}

/// Any call: two in five without a fault, else with one or two.
pub fn random_charge_call(rng: &mut Rng) -> ChargeCall {
    let count = [0, 0, 1, 1, 2][rng.below(5) as usize];
    let faults: Vec<Fault> = (0..count).map(|_| Fault::random(rng)).collect();
    let mut sheet = random_sheet(rng);
    shape_weights(rng, &mut sheet);
    let mut model = rng.between(MODEL_1S.into(), MODEL_2S.into()) as u32;
    if faults.contains(&Fault::Loads) {
        model = MODEL_1S;
        for unit in &mut sheet.units {
            unit.heat_load_w = 0;
        }
    }
    let bytes = if faults.contains(&Fault::Sheet) {
        faulty_bytes(rng, &sheet)
    } else {
        build_sheet(&sheet)
    };
    let amounts = random_amounts(rng, &weights(&sheet, model));
    let mut call = ChargeCall::of(bytes, model, amounts);
    for fault in faults {
        match fault {
            Fault::Amount => call.amounts[rng.below(3) as usize] = amount_past_limit(rng),
            Fault::Model => call.model = other_model(rng),
            Fault::List => call.list_len = other_len(rng, call.list_len as u64),
            Fault::Sheet | Fault::Loads => {}
        }
    }
    call
}

/// Equal weights, few different ones, some q 0, or as they are.
fn shape_weights(rng: &mut Rng, sheet: &mut Sheet) {
    let style = rng.below(8);
    for unit in &mut sheet.units {
        match style {
            0 => (unit.heat_load_w, unit.heated_area) = (7, 5),
            1 | 2 => {
                unit.heat_load_w = rng.below(3) as u32;
                unit.heated_area = rng.between(1, 3) as u32;
            }
            3 if rng.once_in(2) => unit.heat_load_w = 0,
            _ => {}
        }
    }
}

/// Often few cents a unit, so that remainders decide, or such that many are
/// equal.
fn random_amounts(rng: &mut Rng, weights: &[u64]) -> [u32; 3] {
    let nothing = rng.once_in(8);
    let limit = u64::from(MAX_CHARGE);
    let units = weights.len() as u64;
    std::array::from_fn(|_| match rng.below(9) {
        _ if nothing => 0,
        0 => 0,
        1 => MAX_CHARGE,
        2 | 3 => rng.below(3 * units + 2) as u32,
        4..=6 => tied_total(rng, weights).min(limit) as u32,
        _ => rng.edge(0, limit) as u32,
    })
}

fn amount_past_limit(rng: &mut Rng) -> u32 {
    let limit = u64::from(MAX_CHARGE);
    match rng.below(4) {
        0 | 1 => MAX_CHARGE + 1,
        2 => u32::MAX - rng.below(2) as u32,
        _ => rng.between(limit + 1, u32::MAX.into()) as u32,
    }
}

/// Neither 1 nor 2; some have the lower bytes of these.
fn other_model(rng: &mut Rng) -> u32 {
    let models = [0, 0, 3, 3, 4, 5, 6, 257, 258, 65_537, 1 << 31, u32::MAX];
    models[rng.below(12) as usize]
}

/// Another length than 3n; now and then that one after all.
fn other_len(rng: &mut Rng, right: u64) -> usize {
    let other = match rng.below(8) {
        0 | 1 => right + 1,
        2 => right.saturating_sub(1),
        3 => right / 3 * 8,
        4 => 0,
        5 => right + 3,
        6 => 480,
        _ => rng.below(2 * right + 2),
    };
    other as usize
}

/// Faults of a call by area on case A, which has no loads; each is refused
/// before those below it.
pub fn ordered_faults() -> Vec<OrderedFault<ChargeCall>> {
    let mut faults = ordered_sheet_faults(|call: &mut ChargeCall| &mut call.sheet);
    faults.extend::<[OrderedFault<ChargeCall>; 3]>([
        (Box::new(|call| call.amounts[1] = MAX_CHARGE + 1), (4, 0)),
        (Box::new(|call| call.model = MODEL_1S), (9, 0)),
        (Box::new(|call| call.list_len = 24), (13, 0)),
    ]);
    faults
}
