//! Document 01's cases A to L by every archive version's rules, the printed
//! output of A, and case C as model 4 (request 2026-01).

use compare::apportion::apportion;
use compare::book::{self, BOOK_LEN, SUMS_LEN};
use compare::cases::*;
use compare::print::{print_into, print_statement};
use compare::rules::{RuleSet, NEWEST};
use compare::settle::{hot_water_wh, settle, settle_bytes, settle_sheet, Outcome};
use compare::sheet::{build_sheet, Sheet};

/// What a case settles to, by every archive version's rules alike.
fn settled(sheet: &Sheet) -> Outcome {
    let outcome = settle_bytes(&build_sheet(sheet)).expect("the case settles");
    for rules in RuleSet::ALL {
        assert_eq!(settle_sheet(sheet, rules).as_ref(), Ok(&outcome));
    }
    outcome
}

fn heats_of(outcome: Outcome) -> Vec<u32> {
    outcome.numbers.chunks(8).map(|unit| unit[0]).collect()
}

fn heats(sheet: &Sheet) -> Vec<u32> {
    heats_of(settled(sheet))
}

fn heats_by(rules: RuleSet, sheet: &Sheet) -> Vec<u32> {
    heats_of(settle_sheet(sheet, rules).expect("the case settles"))
}

#[test]
fn case_a_prints_whole() {
    let expected = "month 1 units 3 wh 1000000 cents 10000\n\
        11 116000 50000 0 0 1160 500 0 0\n\
        12 228000 50000 0 0 2280 500 0 0\n\
        13 456000 100000 0 0 4560 1000 0 0\n";
    assert_eq!(print_statement(&build_sheet(&case_a())), expected);
}

#[test]
fn a_list_has_the_text_at_its_front_or_stays() {
    let sheet = build_sheet(&case_a());
    let text = print_statement(&sheet);
    assert_eq!(print_into(&sheet, &mut []), text.len());
    let mut longer = vec![5; text.len() + 1];
    assert_eq!(print_into(&sheet, &mut longer), text.len());
    assert_eq!(longer, [text.as_bytes(), &[5]].concat());
    let mut shorter = vec![5; text.len() - 1];
    assert_eq!(print_into(&sheet, &mut shorter), text.len());
    assert_eq!(shorter, vec![5; text.len() - 1]);
}

#[test]
fn empty_input_prints_refusal_1() {
    assert_eq!(print_statement(&[]), "refused 1 0\n");
}

#[test]
fn cases_b_and_c() {
    assert_eq!(
        heats(&case_a_with_readings([0, 400, 600])),
        [78_049, 277_073, 444_878]
    );
    assert_eq!(
        heats(&case_a_with_readings([1_000, 0, 0])),
        [571_429, 76_190, 152_381]
    );
}

#[test]
fn case_d_by_hand() {
    assert_eq!(heats(&case_d()), [600_000, 66_667, 133_333]);
}

#[test]
fn cases_e_and_f() {
    assert_eq!(heats(&two_units(30)), [800_000, 0]);
    for rules in RuleSet::ALL {
        let refusal = settle_sheet(&two_units(31), rules).unwrap_err();
        assert_eq!((refusal.number, refusal.place), (12, 0));
    }
}

#[test]
fn cases_g_and_h() {
    for rules in RuleSet::ALL {
        assert_eq!(apportion(10, &[1, 1, 1], rules), [4, 3, 3]);
        assert_eq!(apportion(5, &[0, 3, 1], rules), [0, 4, 1]);
    }
}

#[test]
fn cases_i_and_j() {
    for (sheet, wh) in [
        (water_by_volume(51, 1), 82),
        (water_by_summer([1_000; 6]), 1_150),
    ] {
        assert_eq!(hot_water_wh(&sheet), wh);
        // The heat beside J's water has a tie.
        for rules in RuleSet::ALL {
            let outcome = settle_sheet(&sheet, rules).expect("the case settles");
            let water = outcome.numbers.chunks(8).map(|unit| unit[2] + unit[3]);
            assert_eq!(u64::from(water.sum::<u32>()), wh);
        }
    }
}

#[test]
fn cases_k_and_l() {
    assert_eq!(settled(&case_a_with_meter(50)).bill_cents, 1);
    assert_eq!(settled(&case_a_with_meter(49)).bill_cents, 0);
}

#[test]
fn case_c_as_model_4() {
    let mut by_readings_alone = case_c_by_risers([50, 50, 100]);
    by_readings_alone.header.base_percent = 0;
    for (sheet, by_archive_1, later) in [
        (
            case_c_by_risers([50, 50, 100]),
            [620_000, 60_000, 120_000],
            [571_429, 76_190, 152_381],
        ),
        (
            case_c_by_risers([0, 50, 100]),
            [560_000, 80_000, 160_000],
            [509_091, 96_970, 193_939],
        ),
        (
            case_c_by_risers([1, 50, 100]),
            [561_590, 79_470, 158_940],
            [38_095, 253_968, 507_937],
        ),
        (
            by_readings_alone,
            [800_000, 0, 0],
            [571_429, 76_190, 152_381],
        ),
    ] {
        assert_eq!(heats_by(RuleSet::Archive1, &sheet), by_archive_1);
        assert_eq!(heats_by(RuleSet::Archive2, &sheet), later);
        assert_eq!(heats_by(RuleSet::Archive3, &sheet), later);
    }
}

#[test]
fn limits_of_model_4_stand_before_the_location_factor() {
    // r is 300, 40 and 80 × 50 × B, the first weight half of it.
    let mut sheet = case_c_by_risers([50, 50, 100]);
    sheet.units[0].location_factor = 500;
    for rules in [RuleSet::Archive2, RuleSet::Archive3] {
        assert_eq!(heats_by(rules, &sheet), [444_444, 118_519, 237_037]);
    }
}

#[test]
fn model_4_without_readings_has_no_limits() {
    let mut sheet = case_c_by_risers([50, 0, 100]);
    sheet.units[0].reading = 0;
    sheet.units[2].location_factor = 250;
    assert_eq!(heats(&sheet), [533_333, 0, 266_667]);
}

#[test]
fn entry_points_go_by_the_newest_rules() {
    assert_eq!(NEWEST, RuleSet::Archive3);
    let sheet = other_by_every_version();
    let newest = settle_sheet(&sheet, NEWEST).unwrap();
    let bytes = build_sheet(&sheet);
    assert_eq!(settle_bytes(&bytes).as_ref(), Ok(&newest));
    assert_eq!(settle(&bytes, 24).as_ref(), Ok(&newest));
    let text = print_statement(&bytes);
    assert!(text.contains("\n12 22 "), "{text}");
    let (mut book, mut sums) = (vec![0; BOOK_LEN], vec![0; SUMS_LEN]);
    book::open(&mut book, &mut sums, &bytes).unwrap();
    book::post(&mut book, &mut sums, &bytes).unwrap();
    assert_eq!(book[197..221], newest.numbers);
    book::replace(&mut book, &mut sums, &bytes).unwrap();
    assert_eq!(book[197..221], newest.numbers);
}
