//! Refusals 1 to 7 and 20 by hand, and building against reading.

use compare::cases::case_a;
use compare::damage::put;
use compare::refusal::Refusal;
use compare::rng::Rng;
use compare::samples::random_sheet;
use compare::settle::settle;
use compare::sheet::{build_sheet, check, read_sheet};

fn numbers(answer: Result<(), Refusal>) -> (u32, u32) {
    match answer {
        Ok(()) => (0, 0),
        Err(refusal) => (refusal.number, refusal.place),
    }
}

/// Case A with fields changed: offset, size, value.
fn changed(changes: &[(usize, usize, u64)]) -> (u32, u32) {
    let mut bytes = build_sheet(&case_a());
    for &(offset, size, value) in changes {
        put(&mut bytes, (offset, size), value);
    }
    numbers(check(&bytes, 32))
}

#[test]
fn bytes_of_case_a() {
    let bytes = build_sheet(&case_a());
    assert_eq!(bytes.len(), 144);
    let header = [
        72, 67, 83, 0, 1, 0, 1, 3, 3, 0, 0, 30, 20, 0, 30, 0, 64, 66, 15, 0, 16, 39, 0, 0,
    ];
    assert_eq!(bytes[..24], header);
    assert_eq!(bytes[24..48], [0; 24]);
    let row = [
        11, 0, 0, 0, 0, 0, 232, 3, 244, 1, 0, 0, 0, 0, 0, 0, 0, 0, 0, 0, 100, 0, 0, 0, 0, 0, 0, 0,
        0, 0, 0, 0,
    ];
    assert_eq!(bytes[48..80], row);
}

#[test]
fn random_sheets_pass_and_read_back() {
    let mut rng = Rng::new(2);
    for _ in 0..5_000 {
        let sheet = random_sheet(&mut rng);
        let bytes = build_sheet(&sheet);
        assert_eq!(check(&bytes, 32), Ok(()));
        assert_eq!(read_sheet(&bytes), sheet);
    }
}

#[test]
fn each_refusal() {
    assert_eq!(changed(&[]), (0, 0));
    assert_eq!(numbers(check(&[0; 47], 32)), (1, 0));
    assert_eq!(numbers(check(&[0; 48], 32)), (2, 0));
    assert_eq!(changed(&[(3, 1, 1)]), (2, 0));
    assert_eq!(changed(&[(4, 2, 2)]), (3, 0));
    assert_eq!(changed(&[(4, 2, 257)]), (3, 0));
    assert_eq!(changed(&[(6, 1, 13)]), (4, 6));
    assert_eq!(changed(&[(8, 2, 2)]), (5, 0));
    assert_eq!(changed(&[(48 + 32 + 30, 2, 256)]), (6, 1));
    assert_eq!(changed(&[(48 + 64, 4, 12)]), (7, 2));
    assert_eq!(changed(&[(48, 4, 0)]), (0, 0));
}

#[test]
fn order_of_faults() {
    let bad_field = |row: usize| (48 + 32 * row + 6, 2, 0);
    let bad_id = |row: usize| (48 + 32 * row, 4, 0);
    assert_eq!(changed(&[bad_id(1), bad_field(2)]), (7, 1));
    assert_eq!(changed(&[bad_field(1), bad_id(2)]), (6, 1));
    assert_eq!(changed(&[bad_field(1), bad_id(1)]), (6, 1));
    assert_eq!(changed(&[(4, 2, 0), (6, 1, 0)]), (3, 0));
    assert_eq!(changed(&[(6, 1, 0), bad_field(0)]), (4, 6));
}

#[test]
fn statement_list_is_tested_last() {
    let mut bytes = build_sheet(&case_a());
    assert!(settle(&bytes, 24).is_ok());
    assert_eq!(
        settle(&bytes, 25),
        Err(Refusal {
            number: 13,
            place: 0
        })
    );
    bytes[6] = 0;
    assert_eq!(
        settle(&bytes, 25),
        Err(Refusal {
            number: 4,
            place: 6
        })
    );
}
