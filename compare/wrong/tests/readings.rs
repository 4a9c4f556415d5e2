//! The list of wrong readings.

use wrong::apportion::apportion;
use wrong::rules::NEWEST;
use wrong::{current, with_reading, Reading};

#[test]
fn none_is_in_force_by_itself() {
    assert_eq!(current(), None);
    assert_eq!(apportion(1, &[1, 1], NEWEST), [1, 0]);
}

#[test]
fn one_is_in_force_while_it_is_asked_for() {
    with_reading(Reading::TiesToLater, || {
        assert_eq!(apportion(1, &[1, 1], NEWEST), [0, 1]);
        assert_eq!(
            compare::apportion::apportion(1, &[1, 1], compare::rules::NEWEST),
            [1, 0]
        );
    });
    assert_eq!(apportion(1, &[1, 1], NEWEST), [1, 0]);
}

#[test]
fn descriptions_differ() {
    let mut descriptions: Vec<String> = Reading::all()
        .into_iter()
        .map(Reading::description)
        .collect();
    let count = descriptions.len();
    descriptions.sort();
    descriptions.dedup();
    assert_eq!(descriptions.len(), count);
}
