//! Request 2026-05: charges by hand, the order of the refusals, and the laws on
//! random calls.

use compare::cases::{case_a, case_a_with_loads, refused_months};
use compare::charge_calls::{ordered_faults, random_charge_call, ChargeCall};
use compare::charges::{fixed_charges_into, MAX_CHARGE};
use compare::rng::Rng;
use compare::settle::settle_bytes;
use compare::sheet::{build_sheet, read_sheet, Sheet};

fn call_of(sheet: &Sheet, model: u32, amounts: [u32; 3]) -> ChargeCall {
    ChargeCall::of(build_sheet(sheet), model, amounts)
}

fn pair(call: &ChargeCall) -> (u32, u32) {
    call.divide()
        .map_or_else(|refusal| (refusal.number, refusal.place), |_| (0, 0))
}

#[test]
fn by_load_and_by_area() {
    let sheet = case_a_with_loads([2_000, 6_000, 2_000]);
    // By 1, 3, 1.
    let numbers = call_of(&sheet, 1, [1_000, 50, 5]).divide().unwrap();
    assert_eq!(numbers, [200, 10, 1, 600, 30, 3, 200, 10, 1]);
    // By 1, 1, 2.
    let numbers = call_of(&sheet, 2, [1_000, 400, 4]).divide().unwrap();
    assert_eq!(numbers, [250, 100, 1, 250, 100, 1, 500, 200, 2]);
}

#[test]
fn remainders_and_ties() {
    // 10 by 1, 1, 1 is 4, 3, 3 (case G); 11 is 4, 4, 3; 1 is 1, 0, 0.
    let equal = case_a_with_loads([7; 3]);
    let numbers = call_of(&equal, 1, [10, 11, 1]).divide().unwrap();
    assert_eq!(numbers, [4, 4, 1, 3, 4, 0, 3, 3, 0]);
    // 5 by 0, 3, 1 is 0, 4, 1 (case H).
    let numbers = call_of(&case_a_with_loads([0, 3, 1]), 1, [5, 0, 5])
        .divide()
        .unwrap();
    assert_eq!(numbers, [0, 0, 0, 4, 0, 4, 1, 0, 1]);
}

#[test]
fn limits() {
    let sheet = case_a_with_loads([1, 1, 2]);
    let most = [MAX_CHARGE; 3];
    let numbers = call_of(&sheet, 1, most).divide().unwrap();
    let [part, half] = [25_000_000, 50_000_000];
    assert_eq!(numbers, [[part; 3], [part; 3], [half; 3]].as_flattened());
    for place in 0..3 {
        let mut amounts = [0; 3];
        amounts[place] = MAX_CHARGE + 1;
        assert_eq!(pair(&call_of(&sheet, 2, amounts)), (4, 0));
        amounts[place] = u32::MAX;
        assert_eq!(pair(&call_of(&sheet, 2, amounts)), (4, 0));
    }
    for (model, answer) in [
        (0, (4, 0)),
        (1, (0, 0)),
        (2, (0, 0)),
        (3, (4, 0)),
        (257, (4, 0)),
        (u32::MAX, (4, 0)),
    ] {
        assert_eq!(pair(&call_of(&sheet, model, most)), answer);
    }
}

#[test]
fn loads_of_zero() {
    // Case A has none.
    assert_eq!(pair(&call_of(&case_a(), 1, [1, 1, 1])), (9, 0));
    assert_eq!(pair(&call_of(&case_a(), 1, [0, 0, 0])), (9, 0));
    assert_eq!(pair(&call_of(&case_a(), 2, [1, 1, 1])), (0, 0));
    assert_eq!(
        pair(&call_of(&case_a_with_loads([0, 0, 1]), 1, [1, 1, 1])),
        (0, 0)
    );
}

#[test]
fn lists() {
    let call = call_of(&case_a(), 2, [1, 2, 3]);
    for list_len in [0, 1, 3, 8, 10, 24, 480] {
        let other = ChargeCall {
            list_len,
            ..call.clone()
        };
        assert_eq!(pair(&other), (13, 0));
        let mut list = vec![5; list_len];
        assert!(fixed_charges_into(&call.sheet, 2, [1, 2, 3], &mut list).is_err());
        assert_eq!(list, vec![5; list_len]);
    }
}

#[test]
fn months_that_settling_refuses() {
    for sheet in refused_months() {
        assert!(settle_bytes(&build_sheet(&sheet)).is_err());
        assert_eq!(pair(&call_of(&sheet, 2, [9; 3])), (0, 0));
    }
}

#[test]
fn the_sheets_own_model_plays_no_part() {
    let mut sheet = case_a_with_loads([1, 2, 3]);
    let [by_load, by_area] = [1, 2].map(|model| call_of(&sheet, model, [600, 60, 6]).divide());
    let header = &mut sheet.header;
    (header.base_percent, header.common_heat_percent) = (0, 0);
    header.unmetered_factor = 0;
    for unit in &mut sheet.units {
        unit.reading = 0;
    }
    for model in [1, 2] {
        sheet.header.model = model;
        assert_eq!(call_of(&sheet, 1, [600, 60, 6]).divide(), by_load);
        assert_eq!(call_of(&sheet, 2, [600, 60, 6]).divide(), by_area);
    }
}

#[test]
fn order_of_refusals() {
    let faults = ordered_faults();
    for (place, (first, answer)) in faults.iter().enumerate() {
        for (later, _) in &faults[place..] {
            let mut call = call_of(&case_a(), 2, [1, 2, 3]);
            later(&mut call);
            first(&mut call);
            assert_eq!(pair(&call), *answer);
        }
    }
    // A model of neither, before 13.
    let mut call = call_of(&case_a(), 3, [1, 2, 3]);
    call.list_len = 0;
    assert_eq!(pair(&call), (4, 0));
}

/// Each column adds to its amount, and each number is less than one cent from
/// its exact part.
#[test]
fn random_calls_keep_the_laws() {
    let mut rng = Rng::new(43);
    let mut accepted = [0; 2];
    for _ in 0..20_000 {
        let call = random_charge_call(&mut rng);
        let Ok(numbers) = call.divide() else {
            continue;
        };
        accepted[call.model as usize - 1] += 1;
        let units = read_sheet(&call.sheet).units;
        let weights = units.iter().map(|unit| match call.model {
            1 => u64::from(unit.heat_load_w),
            _ => u64::from(unit.heated_area),
        });
        let weights: Vec<u64> = weights.collect();
        let whole: u64 = weights.iter().sum();
        assert_eq!(numbers.len(), 3 * units.len());
        for (place, amount) in call.amounts.into_iter().enumerate() {
            let column = numbers.iter().skip(place).step_by(3);
            assert_eq!(column.clone().sum::<u32>(), amount);
            for (&number, weight) in column.zip(&weights) {
                let exact = u64::from(amount) * weight;
                assert!(exact.abs_diff(u64::from(number) * whole) < whole);
            }
        }
    }
    assert!(accepted.iter().all(|&count| count > 3_000), "{accepted:?}");
}
