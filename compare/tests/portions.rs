//! The statement's promises on random accepted sheets, by every archive
//! version's rules.

use compare::cases::{case_a, case_c_by_risers};
use compare::portions::{check_statement, portions, Fraction};
use compare::rng::Rng;
use compare::rules::{RuleSet, NEWEST};
use compare::samples::random_sheet;
use compare::settle::settle_sheet;
use compare::sheet::Sheet;

/// Adds fractions of equal lower numbers first, so that the numbers stay small.
fn portion_sum(sheet: &Sheet, rules: RuleSet) -> Fraction {
    let mut groups: Vec<Fraction> = Vec::new();
    for portion in portions(sheet, rules).into_iter().flatten() {
        match groups.iter_mut().find(|group| group.lower == portion.lower) {
            Some(group) => *group = group.plus(&portion),
            None => groups.push(portion),
        }
    }
    let zero = Fraction::new(0, 1);
    groups.iter().fold(zero, |sum, group| sum.plus(group))
}

#[test]
fn random_statements_keep_the_promises() {
    let mut rng = Rng::new(3);
    let mut accepted = 0;
    for round in 0..8_000 {
        let sheet = random_sheet(&mut rng);
        let rules = RuleSet::ALL[round % RuleSet::ALL.len()];
        let Ok(outcome) = settle_sheet(&sheet, rules) else {
            continue;
        };
        accepted += 1;
        let kept = check_statement(&sheet, &outcome, rules);
        assert_eq!(kept, Ok(()), "{sheet:?}");
        let meter = u64::from(sheet.header.shared_meter_wh);
        assert!(portion_sum(&sheet, rules).equals(meter), "{sheet:?}");
    }
    assert!(accepted > 4_000, "only {accepted} sheets settled");
}

#[test]
fn wrong_statements_are_found() {
    let sheet = case_a();
    let outcome = settle_sheet(&sheet, NEWEST).unwrap();
    let changed = |place: usize, by: i64, other: usize| {
        let mut outcome = outcome.clone();
        outcome.numbers[place] = (i64::from(outcome.numbers[place]) + by) as u32;
        outcome.numbers[other] = (i64::from(outcome.numbers[other]) - by) as u32;
        check_statement(&sheet, &outcome, NEWEST)
    };
    assert_eq!(changed(0, 4, 8), Ok(()));
    assert_eq!(changed(0, 5, 8), Err("energy near its portion"));
    assert_eq!(changed(4, 1, 12), Ok(()));
    assert_eq!(changed(4, 2, 12), Err("cents near the bill's part"));
    assert_eq!(changed(0, 1, 4), Err("energies add to M"));
}

#[test]
fn another_archive_versions_statement_is_not_near() {
    let sheet = case_c_by_risers([50, 50, 100]);
    let [one, two] = [RuleSet::Archive1, RuleSet::Archive2];
    for (of, by) in [(one, two), (two, one)] {
        let outcome = settle_sheet(&sheet, of).unwrap();
        assert_eq!(check_statement(&sheet, &outcome, of), Ok(()));
        let found = check_statement(&sheet, &outcome, by);
        assert_eq!(found, Err("energy near its portion"));
    }
}

#[test]
fn fractions_by_hand() {
    let third = Fraction::new(1, 3);
    let sum = third.plus(&Fraction::new(2, 3));
    assert!(sum.equals(1));
    assert!(third.is_within(1, 1) && !third.is_within(0, 1) && !third.is_within(1, 2));
    assert!(Fraction::new(10, 2).is_within(4, 9) && !Fraction::new(9, 2).is_within(4, 9));
}
