//! Request 2026-06: ties by hand, in every division and by every archive
//! version's rules, and on random inputs.

use compare::apportion::apportion;
use compare::calls::sheet_of_building;
use compare::cases::{building, case_a_with_loads, other_by_every_version};
use compare::charge_calls::{random_charge_call, ChargeCall};
use compare::groups::{sound_group, Group};
use compare::rng::Rng;
use compare::rules::RuleSet::{self, Archive1, Archive2, Archive3};
use compare::samples::random_ids;
use compare::settle::settle_sheet;
use compare::sheet::{build_sheet, Sheet};
use compare::tied::tied_sheet;
use compare::ties::{of_charges, of_group, of_sheet, Division};

/// One kind of number of every unit.
fn column(sheet: &Sheet, rules: RuleSet, kind: usize) -> Vec<u32> {
    let outcome = settle_sheet(sheet, rules).expect("the month settles");
    outcome.numbers.chunks(8).map(|unit| unit[kind]).collect()
}

/// A column by the three rules: twice with ties to the earlier, then with ties to
/// the larger weight.
fn assert_column(sheet: &Sheet, kind: usize, earlier: &[u32], larger: &[u32]) {
    assert_eq!(column(sheet, Archive1, kind), earlier);
    assert_eq!(column(sheet, Archive2, kind), earlier);
    assert_eq!(column(sheet, Archive3, kind), larger);
}

/// Units of areas 1 and 3.
fn one_and_three(model: u8, meter: u32) -> Sheet {
    let mut sheet = building(model, meter, &[(1, 0), (3, 0)]);
    sheet.header.base_percent = if model == 3 { 20 } else { 0 };
    sheet
}

#[test]
fn the_larger_weight_then_the_earlier_item() {
    for (total, weights, earlier, larger) in [
        (2, &[1, 3][..], &[1, 1][..], &[0, 2][..]),
        (2, &[3, 1], &[2, 0], &[2, 0]),
        (3, &[1, 3, 2], &[1, 1, 1], &[0, 2, 1]),
        // All three leave 8 of 12, and two are left: the largest and the middle.
        (8, &[1, 7, 4], &[1, 5, 2], &[0, 5, 3]),
        (8, &[7, 1, 4], &[5, 1, 2], &[5, 0, 3]),
        (4, &[1, 7, 4], &[1, 2, 1], &[0, 3, 1]),
        // Of equal weights the earlier.
        (5, &[1, 3, 3, 3], &[1, 2, 1, 1], &[0, 2, 2, 1]),
        (10, &[1, 1, 1], &[4, 3, 3], &[4, 3, 3]),
        // A larger remainder comes before a larger weight.
        (5, &[1, 2, 7, 4, 1], &[1, 1, 2, 1, 0], &[0, 1, 3, 1, 0]),
        (1, &[2, 3, 3], &[0, 1, 0], &[0, 1, 0]),
        (3, &[2, 7], &[1, 2], &[1, 2]),
    ] {
        assert_eq!(apportion(total, weights, Archive1), earlier);
        assert_eq!(apportion(total, weights, Archive2), earlier);
        assert_eq!(apportion(total, weights, Archive3), larger);
    }
}

#[test]
fn heat_of_models_1_and_2() {
    assert_column(&one_and_three(2, 2), 0, &[1, 1], &[0, 2]);
    let mut by_load = one_and_three(1, 2);
    by_load.units[0].heat_load_w = 300;
    by_load.units[1].heat_load_w = 100;
    assert_column(&by_load, 0, &[2, 0], &[2, 0]);
    // By q, not by p.
    by_load.units[0].heated_area = 9;
    by_load.units[0].heat_load_w = 100;
    by_load.units[1].heat_load_w = 300;
    assert_column(&by_load, 0, &[1, 1], &[0, 2]);
}

#[test]
fn units_not_read_and_the_rest() {
    for (unread, earlier, larger) in [(0, [1, 1], [0, 2]), (1, [0, 2], [0, 2])] {
        let mut sheet = one_and_three(3, 2);
        sheet.units[unread].status = 2;
        // The rest is the last item, but not by its weight.
        assert_column(&sheet, 0, &earlier, &larger);
    }
}

#[test]
fn read_units() {
    for model in [3, 4] {
        let mut sheet = one_and_three(model, 2);
        for unit in &mut sheet.units {
            unit.riser_surface = unit.heated_area;
        }
        assert_column(&sheet, 0, &[1, 1], &[0, 2]);
        for unit in &mut sheet.units {
            unit.reading = 100 * unit.heated_area;
        }
        assert_column(&sheet, 0, &[1, 1], &[0, 2]);
    }
    // By p x KF, 900 and 300, then 300 and 900.
    let mut sheet = building(3, 2, &[(9, 0), (3, 0)]);
    sheet.header.base_percent = 20;
    for (factors, earlier, larger) in [([100, 100], [2, 0], [2, 0]), ([100, 900], [1, 1], [0, 2])] {
        for (unit, factor) in sheet.units.iter_mut().zip(factors) {
            unit.location_factor = factor;
        }
        assert_column(&sheet, 0, &earlier, &larger);
    }
}

#[test]
fn common_heat_and_water() {
    // Model 5 without readings: all heat is common.
    assert_column(&one_and_three(5, 2), 1, &[1, 1], &[0, 2]);
    let mut water = one_and_three(2, 2);
    water.header.source = 1;
    water.header.hot_water_inputs[0] = 2;
    for unit in &mut water.units {
        unit.water_class = 1;
        unit.litres = 10 * unit.heated_area;
        unit.persons = unit.heated_area as u16;
    }
    assert_column(&water, 2, &[1, 1], &[0, 2]);
    water.header.shared_meter_wh = 4;
    water.header.hot_water_inputs[0] = 4;
    water.header.common_water_percent = 50;
    assert_column(&water, 2, &[1, 1], &[0, 2]);
    assert_column(&water, 3, &[1, 1], &[0, 2]);
}

#[test]
fn bill() {
    // 10 and 30 Wh, 2 cents.
    let mut sheet = one_and_three(2, 40);
    sheet.header.price = 50_000;
    assert_column(&sheet, 0, &[10, 30], &[10, 30]);
    assert_column(&sheet, 4, &[1, 1], &[0, 2]);
    // The larger energy, not the larger unit: 20, 30 and 30, 20 Wh, half of the
    // heat common; of 100 Wh and 5 cents 20s leave 0 and 30s a half.
    let mut sheet = building(5, 100, &[(2, 20), (3, 30)]);
    sheet.header.price = 50_000;
    assert_column(&sheet, 0, &[20, 30], &[20, 30]);
    assert_column(&sheet, 1, &[20, 30], &[20, 30]);
    assert_column(&sheet, 4, &[1, 2], &[1, 2]);
    assert_column(&sheet, 5, &[1, 1], &[1, 1]);
}

#[test]
fn a_split_ties_to_the_units() {
    // 1 by (50, 50), 2 by (75, 25).
    for (meter, percent, unit_heat) in [(1, 50, 1), (2, 25, 2)] {
        let mut sheet = building(3, meter, &[(1, 0)]);
        sheet.header.base_percent = 20;
        sheet.header.common_heat_percent = percent;
        assert_column(&sheet, 0, &[unit_heat], &[unit_heat]);
    }
}

#[test]
fn a_month_that_every_version_settles_otherwise() {
    let sheet = other_by_every_version();
    assert_eq!(column(&sheet, Archive1, 0), [1, 23, 6]);
    assert_eq!(column(&sheet, Archive2, 0), [2, 21, 7]);
    assert_eq!(column(&sheet, Archive3, 0), [1, 22, 7]);
}

#[test]
fn groups() {
    let common = |sheets: &[Sheet], shared_wh| -> Vec<u32> {
        let numbers = Group::of(sheets, shared_wh).settle().unwrap();
        numbers.chunks(8).map(|unit| unit[1]).collect()
    };
    // 2 Wh by areas of 1 and 3: added to no heat, taken from 10 Wh each.
    let [first, second] = [1, 3].map(|area| building(5, 0, &[(area, 0)]));
    assert_eq!(common(&[first.clone(), second.clone()], 2), [0, 2]);
    assert_eq!(common(&[second, first], 2), [2, 0]);
    let sheets = [1, 3].map(|area| building(5, 10, &[(area, 0)]));
    assert_eq!(common(&sheets, 18), [10, 8]);
    // 2 cents by 10 and 30 Wh.
    let mut sheets = [10, 30].map(|meter| building(2, meter, &[(1, 0)]));
    for sheet in &mut sheets {
        sheet.header.price = 50_000;
    }
    let numbers = Group::of(&sheets, 40).settle().unwrap();
    assert_eq!((numbers[4], numbers[12]), (0, 2));
}

#[test]
fn charges() {
    let sheet = build_sheet(&case_a_with_loads([1, 3, 2]));
    let numbers = ChargeCall::of(sheet, 1, [3, 9, 6]).divide().unwrap();
    assert_eq!(numbers, [0, 1, 1, 2, 5, 3, 1, 3, 2]);
    let sheet = build_sheet(&building(2, 0, &[(1, 0), (3, 0)]));
    let numbers = ChargeCall::of(sheet, 2, [2, 6, 0]).divide().unwrap();
    assert_eq!(numbers, [0, 1, 0, 2, 5, 0]);
}

/// How often each division met a tie that the weight decides.
struct Met([u32; Division::ALL.len()]);

impl Met {
    fn count(&mut self, divisions: Vec<Division>) {
        for division in divisions {
            self.0[division as usize] += 1;
        }
    }

    fn assert_often(&self, wanted: fn(&Division) -> bool) {
        for division in Division::ALL.into_iter().filter(wanted) {
            assert!(self.0[division as usize] > 50, "{division:?}: {:?}", self.0);
        }
    }
}

#[test]
fn random_inputs_meet_ties_in_every_division() {
    let mut rng = Rng::new(44);
    let [mut sheets, mut books, mut groups] = [(); 3].map(|()| Met([0; Division::ALL.len()]));
    for _ in 0..8_000 {
        sheets.count(of_sheet(&tied_sheet(&mut rng)));
        let ids = random_ids(&mut rng, 4);
        books.count(of_sheet(&sheet_of_building(&mut rng, &ids)));
    }
    sheets.assert_often(|division| division.is_of_month());
    books.assert_often(|division| division.is_of_month());
    for _ in 0..20_000 {
        let (sheets, shared_wh) = sound_group(&mut rng);
        if let Ok(numbers) = Group::of(&sheets, shared_wh).settle() {
            groups.count(of_group(&sheets, shared_wh, &numbers));
        }
        let call = random_charge_call(&mut rng);
        if call.divide().is_ok() {
            groups.count(of_charges(&call));
        }
    }
    groups.assert_often(|_| true);
}
