//! Request 2026-04: groups by hand, the order of their refusals, and the laws on
//! random groups.

use compare::cases::{building, by_area, by_meters, case_a};
use compare::damage::put;
use compare::group::{settle_group, Building};
use compare::group_laws::check_statements;
use compare::groups::{sound_group, Group};
use compare::refusal::Refusal;
use compare::rng::Rng;
use compare::settle::settle_bytes;
use compare::sheet::{build_sheet, Sheet, Unit};

/// A group of sheets for a list of the right length.
fn settled(sheets: &[Sheet], shared_wh: u64) -> Result<Vec<u32>, Refusal> {
    Group::of(sheets, shared_wh).settle()
}

fn pair<T>(answer: Result<T, Refusal>) -> (u32, u32) {
    answer.map_or_else(|refusal| (refusal.number, refusal.place), |_| (0, 0))
}

#[test]
fn a_difference_above_zero() {
    // 30,000 by 2,000 and 1,000: 20,000 and 10,000. 15,300 cents by 1,020,000
    // and 510,000.
    let numbers = settled(&[case_a(), by_area()], 1_530_000).unwrap();
    let expected = [
        [116_000, 55_000, 0, 0, 1_160, 550, 0, 0],
        [228_000, 55_000, 0, 0, 2_280, 550, 0, 0],
        [456_000, 110_000, 0, 0, 4_560, 1_100, 0, 0],
        [200_000, 4_000, 0, 0, 2_000, 40, 0, 0],
        [300_000, 6_000, 0, 0, 3_000, 60, 0, 0],
    ];
    assert_eq!(numbers, expected.as_flattened());
}

#[test]
fn remainders_of_difference_and_bill() {
    // 30,001: 20,000 2/3 and 10,000 1/3. 220,001 by 1, 1, 2: the last gets one
    // more. 15,300 by 1,020,001 and 510,000: 10,200 and, with the leftover,
    // 5,100. Of 10,200 by six energies five get one more.
    let numbers = settled(&[case_a(), by_area()], 1_530_001).unwrap();
    let expected = [
        [116_000, 55_000, 0, 0, 1_160, 550, 0, 0],
        [228_000, 55_000, 0, 0, 2_280, 550, 0, 0],
        [456_000, 110_001, 0, 0, 4_560, 1_100, 0, 0],
        [200_000, 4_000, 0, 0, 2_000, 40, 0, 0],
        [300_000, 6_000, 0, 0, 3_000, 60, 0, 0],
    ];
    assert_eq!(numbers, expected.as_flattened());
}

#[test]
fn a_difference_below_zero() {
    // 30,000 off: 20,000 of 200,000 and 10,000 of 100,000.
    let numbers = settled(&[case_a(), by_meters()], 1_470_000).unwrap();
    let expected = [
        [116_000, 45_000, 0, 0, 1_160, 450, 0, 0],
        [228_000, 45_000, 0, 0, 2_280, 450, 0, 0],
        [456_000, 90_000, 0, 0, 4_560, 900, 0, 0],
        [150_000, 36_000, 0, 0, 1_500, 360, 0, 0],
        [250_000, 54_000, 0, 0, 2_500, 540, 0, 0],
    ];
    assert_eq!(numbers, expected.as_flattened());
}

#[test]
fn to_zero_and_below() {
    let group = [case_a(), by_meters()];
    // 300,000 off: both common heats are 0 afterwards.
    let numbers = settled(&group, 1_200_000).unwrap();
    let common: Vec<u32> = numbers.chunks(8).map(|unit| unit[1]).collect();
    assert_eq!(common, [0; 5]);
    // 300,001 off: 200,000 2/3 and 100,000 1/3.
    assert_eq!(pair(settled(&group, 1_199_999)), (21, 0));
    assert_eq!(pair(settled(&group, 0)), (21, 0));
}

#[test]
fn without_common_heat() {
    // 30,000 off, of which 10,000 from a building that has none.
    assert_eq!(pair(settled(&[case_a(), by_area()], 1_470_000)), (21, 0));
    assert_eq!(pair(settled(&[by_area(), case_a()], 1_470_000)), (21, 0));
    // 1 off by 2,000 and 1: the second share is 0.
    let small = building(2, 500_000, &[(1, 0)]);
    let numbers = settled(&[case_a(), small.clone()], 1_499_999).unwrap();
    assert_eq!(numbers[17], 99_999);
    assert_eq!(numbers[24..28], [500_000, 0, 0, 0]);
    // 1 off by equal areas: the earlier building's.
    let equal = building(2, 500_000, &[(1_000, 0), (1_000, 0)]);
    let equals = [case_a(), equal.clone()];
    assert_eq!(pair(settled(&equals, 1_499_999)), (0, 0));
    assert_eq!(pair(settled(&equals, 1_499_998)), (21, 0));
    assert_eq!(pair(settled(&[equal, case_a()], 1_499_999)), (21, 0));
}

#[test]
fn past_32_bits() {
    // Twelve times 4,000,000,000 of common heat.
    let sheet = building(5, 4_000_000_000, &[(100, 0)]);
    let group = vec![sheet; 12];
    let common = |shared_wh| -> Vec<u32> {
        let numbers = settled(&group, shared_wh).unwrap();
        numbers.chunks(8).map(|unit| unit[1]).collect()
    };
    assert_eq!(common(0), [0; 12]);
    assert_eq!(common(11), [0, 1, 1, 1, 1, 1, 1, 1, 1, 1, 1, 1]);
    let [low, high] = [333_333_333, 333_333_334];
    let whole = [&[low; 8][..], &[high; 4]].concat();
    assert_eq!(common(4_000_000_000), whole);
    let mut other = group.clone();
    other[11].units[0].heated_area = 101;
    assert_eq!(pair(settled(&other, 0)), (21, 0));
}

#[test]
fn areas_of_all_units() {
    // An unread unit's area counts: 3,000 by 2,000 and 1,000.
    let mut first = case_a();
    first.units[0].status = 2;
    first.units[0].reading = 0;
    let numbers = settled(&[first, by_area()], 1_503_000).unwrap();
    let common: Vec<u32> = numbers.chunks(8).map(|unit| unit[1]).collect();
    assert_eq!(common, [50_500, 50_500, 101_000, 400, 600]);
}

#[test]
fn overlapping_and_equal_sheets() {
    // The second sheet's first 32 bytes are the first one's last row.
    let mut second = building(2, 90_000, &[(400, 0), (600, 0)]);
    second.header.price = 0;
    let mut first = case_a();
    first.header.price = 0;
    first.header.unit_count = 4;
    first.units.push(Unit {
        id: 5_456_712,
        status: 1,
        location_factor: 513,
        heated_area: 2,
        heat_load_w: 90_000,
        ..Unit::default()
    });
    let [first, second] = [build_sheet(&first), build_sheet(&second)];
    assert_eq!(first[144..], second[..32]);
    let buffer = [&first[..], &second[32..]].concat();
    let at = |offset, length| Building { offset, length };
    let buildings = [at(0, 176), at(144, 112), at(0, 176)];
    let apart = Group {
        buffer: [&first[..], &second, &first].concat(),
        buildings: vec![at(0, 176), at(176, 112), at(288, 176)],
        shared_wh: 2_095_000,
        list_len: 80,
    };
    let numbers = settle_group(&buffer, &buildings, 2_095_000, 80);
    assert_eq!(pair(numbers.clone()), (0, 0));
    assert_eq!(numbers, apart.settle());
}

/// A group of three times case A, whose bytes and list can be changed.
fn three() -> Group {
    Group::of(&[case_a(), case_a(), case_a()], 3_000_000)
}

fn changed(change: impl FnOnce(&mut Group)) -> (u32, u32) {
    let mut group = three();
    change(&mut group);
    pair(group.settle())
}

#[test]
fn a_group_of_its_own_reading() {
    let own = settle_bytes(&build_sheet(&case_a())).unwrap().numbers;
    assert_eq!(
        three().settle(),
        Ok([own.clone(), own.clone(), own].concat())
    );
}

#[test]
fn the_first_22() {
    let counted = |count: usize| {
        changed(|group| {
            let last = group.buildings[2];
            group.buildings.resize(count, last);
            group.shared_wh = 1_000_000 * count as u64;
            group.list_len = 24 * count;
        })
    };
    assert_eq!([counted(0), counted(13), counted(268)], [(22, 0); 3]);
    let four = [counted(1), counted(2), counted(3), counted(4)];
    assert_eq!(four, [(0, 0); 4]);
    for (shared_wh, answer) in [
        (4_000_000_000, (0, 0)),
        (4_000_000_001, (22, 0)),
        (4_294_967_296 + 3_000_000, (22, 0)),
        (u64::MAX, (22, 0)),
    ] {
        assert_eq!(changed(|group| group.shared_wh = shared_wh), answer);
    }
    for (offset, length, answer) in [
        (288, 145, (22, 0)),
        (289, 144, (22, 0)),
        (433, 0, (22, 0)),
        (432, 0, (1, 320)),
        (288, 143, (5, 320)),
        (287, 144, (2, 320)),
        (0, 432, (5, 320)),
        (0, 144, (0, 0)),
        (u64::MAX, 0, (22, 0)),
        (u64::MAX, 1, (22, 0)),
        (288, u64::MAX - 287, (22, 0)),
        (u64::MAX - 143, 288, (22, 0)),
        (1 << 63, 1 << 63, (22, 0)),
        ((1 << 32) + 288, 144, (22, 0)),
        (288, (1 << 32) + 144, (22, 0)),
    ] {
        let found = changed(|group| group.buildings[2] = Building { offset, length });
        assert_eq!(found, answer, "{offset} {length}");
    }
}

/// Offsets of a building's fields in the buffer.
const MONTH: usize = 6;
const PRICE: usize = 20;
const INPUT: usize = 44;
const KF: usize = 48 + 2 * 32 + 6;
const PERSONS: usize = 48 + 2 * 32 + 28;
const ID: usize = 48 + 32;

fn set(group: &mut Group, building: usize, field: usize, value: u64) {
    put(&mut group.buffer, (144 * building + field, 1), value);
}

#[test]
fn places() {
    for building in 0..3 {
        let raised = 160 * building as u32;
        for (field, value, number, place) in [
            (0, 0, 2, 0),
            (4, 2, 3, 0),
            (MONTH, 13, 4, 6),
            (INPUT, 1, 4, 44),
            (8, 2, 5, 0),
            (PERSONS, 1, 20, 2),
            (PERSONS, 51, 6, 2),
            (ID, 11, 7, 1),
        ] {
            let found = changed(|group| set(group, building, field, value));
            assert_eq!(found, (number, place + raised));
        }
    }
    // The last row of the last of twelve buildings of 160 units.
    let unit = case_a().units[0].clone();
    let mut large = case_a();
    large.header.unit_count = 160;
    large.units = (0..160).map(|id| Unit { id, ..unit.clone() }).collect();
    let mut sheets = vec![large; 12];
    sheets[11].units[159].id = 158;
    assert_eq!(pair(settled(&sheets, 0)), (7, 1_919));
    sheets[11].units[159].reserved = 1;
    assert_eq!(pair(settled(&sheets, 0)), (6, 1_919));
    sheets[11].header.hot_water_inputs[5] = 1;
    assert_eq!(pair(settled(&sheets, 0)), (4, 1_804));
}

#[test]
fn order_of_refusals() {
    type Change = fn(&mut Group);
    // Each of these comes before those below it.
    let faults: [(Change, (u32, u32)); 8] = [
        (|group| group.buildings[2].length += 1, (22, 0)),
        (|group| group.buildings[0].length = 47, (1, 0)),
        (|group| set(group, 1, KF, 0), (6, 162)),
        (|group| set(group, 2, INPUT, 1), (4, 364)),
        (|group| set(group, 1, MONTH, 2), (22, 0)),
        (|group| set(group, 2, PRICE, 17), (22, 0)),
        (|group| group.list_len += 1, (13, 0)),
        (|group| group.shared_wh = 0, (21, 0)),
    ];
    for (place, (first, answer)) in faults.iter().enumerate() {
        for (later, _) in &faults[place..] {
            let found = changed(|group| {
                // So that the field's lower byte alone makes it 0.
                put(&mut group.buffer, (144 + KF, 2), 1);
                later(group);
                first(group);
            });
            assert_eq!(found, *answer);
        }
    }
    // 8 to 12 of an earlier building before 1 of a later one, and before 22.
    let mut water = case_a();
    water.header.source = 1;
    water.header.hot_water_inputs[0] = 1_000_001;
    let mut group = Group::of(&[case_a(), water, case_a()], 3_000_000);
    assert_eq!(pair(group.settle()), (8, 160));
    group.buildings[2].length = 0;
    assert_eq!(pair(group.settle()), (8, 160));
    set(&mut group, 0, MONTH, 2);
    group.list_len = 0;
    assert_eq!(pair(group.settle()), (8, 160));
    group.shared_wh = 4_000_000_001;
    assert_eq!(pair(group.settle()), (22, 0));
}

#[test]
fn the_second_22_is_about_any_building() {
    for building in 0..3 {
        assert_eq!(changed(|group| set(group, building, MONTH, 2)), (22, 0));
        assert_eq!(changed(|group| set(group, building, PRICE, 17)), (22, 0));
    }
    let other = |group: &mut Group| {
        for building in 0..3 {
            set(group, building, MONTH, 2);
            set(group, building, PRICE, 17);
        }
    };
    assert_eq!(changed(other), (0, 0));
}

#[test]
fn models_and_ids_mix() {
    let ids = |group: &mut Group| {
        set(group, 1, 48, 1);
        set(group, 2, 48 + 64, 255);
    };
    assert_eq!(changed(ids), (0, 0));
    let mixed = [by_area(), case_a(), by_meters()];
    assert_eq!(pair(settled(&mixed, 2_000_000)), (0, 0));
}

#[test]
fn random_groups_keep_the_laws() {
    let mut rng = Rng::new(41);
    let (mut accepted, mut below) = (0, 0);
    for _ in 0..6_000 {
        let (sheets, shared_wh) = sound_group(&mut rng);
        match settled(&sheets, shared_wh) {
            Ok(numbers) => {
                let kept = check_statements(&sheets, shared_wh, &numbers);
                assert_eq!(kept, Ok(()), "{shared_wh} {sheets:?}");
                accepted += 1;
            }
            Err(refusal) => {
                assert_eq!((refusal.number, refusal.place), (21, 0));
                below += 1;
            }
        }
    }
    assert!(accepted > 3_000 && below > 600, "{accepted} {below}");
}

#[test]
fn wrong_statements_are_found() {
    let sheets = [case_a(), by_meters()];
    let shared_wh = 1_470_000;
    let numbers = settled(&sheets, shared_wh).unwrap();
    let changed = |place: usize, other: usize, by: u32| {
        let mut numbers = numbers.clone();
        numbers[place] += by;
        numbers[other] -= by;
        check_statements(&sheets, shared_wh, &numbers)
    };
    assert_eq!(changed(0, 1, 4), Ok(()));
    assert_eq!(changed(0, 1, 5), Err("energy near its portion"));
    assert_eq!(
        changed(0, 24, 1),
        Err("energies add to the adjusted reading")
    );
    assert_eq!(changed(0, 4, 1), Err("energies add to the shared reading"));
    let mut other = numbers.clone();
    other[4] += 1;
    let found = check_statements(&sheets, shared_wh, &other);
    assert_eq!(found, Err("cents add to the shared bill"));
}

#[test]
fn one_building_settles_as_alone() {
    let mut rng = Rng::new(42);
    for _ in 0..300 {
        for sheet in sound_group(&mut rng).0 {
            let own = settle_bytes(&build_sheet(&sheet)).unwrap().numbers;
            let shared_wh = u64::from(sheet.header.shared_meter_wh);
            assert_eq!(settled(&[sheet], shared_wh), Ok(own));
        }
    }
}
