//! Request 2026-03: fixed ranges and clashes of a row's fields, and the byte of
//! a wrong header field.

use compare::book::{self, BOOK_LEN, SUMS_LEN};
use compare::cases::case_a;
use compare::damage::put;
use compare::print::print_statement;
use compare::record::{read_record, record_of, write_record};
use compare::refusal::Refusal;
use compare::rules::RuleSet;
use compare::samples::good_sheet;
use compare::settle::settle;
use compare::sheet::{build_sheet, check};

type Change = (usize, usize, u64);

/// Offsets and sizes inside a row.
const ID: (usize, usize) = (0, 4);
const STATUS: (usize, usize) = (4, 1);
const CLASS: (usize, usize) = (5, 1);
const KF: (usize, usize) = (6, 2);
const READING: (usize, usize) = (20, 4);
const LITRES: (usize, usize) = (24, 4);
const PERSONS: (usize, usize) = (28, 2);
const LAST: (usize, usize) = (30, 2);

fn in_row(row: usize, (offset, size): (usize, usize), value: u64) -> Change {
    (48 + 32 * row + offset, size, value)
}

/// `good_sheet` with fields changed.
fn bytes(model: u8, source: u8, changes: &[Change]) -> Vec<u8> {
    let mut bytes = build_sheet(&good_sheet(model, source));
    for &(offset, size, value) in changes {
        put(&mut bytes, (offset, size), value);
    }
    bytes
}

fn pair<T>(answer: Result<T, Refusal>) -> (u32, u32) {
    answer.map_or_else(|refusal| (refusal.number, refusal.place), |_| (0, 0))
}

/// The answer to `good_sheet` with fields changed. In sources 1 to 3 its rows
/// are of classes 0, 1 and 2.
fn changed(model: u8, source: u8, changes: &[Change]) -> (u32, u32) {
    pair(check(&bytes(model, source, changes), 32))
}

#[test]
fn status_clashes_in_models_1_and_2() {
    for model in 1..=5 {
        let status = |value| changed(model, 0, &[in_row(1, STATUS, value), in_row(1, READING, 0)]);
        let clash = if model <= 2 { (20, 1) } else { (0, 0) };
        assert_eq!([status(0), status(1), status(4)], [(0, 0), clash, clash]);
        assert_eq!([status(5), status(255)], [(6, 1), (6, 1)]);
    }
}

#[test]
fn class_clashes_with_source_0() {
    for source in 0..=3 {
        let class = |value| {
            let zeros = [in_row(2, LITRES, 0), in_row(2, PERSONS, 0)];
            changed(3, source, &[in_row(2, CLASS, value), zeros[0], zeros[1]])
        };
        let clash = if source == 0 { (20, 2) } else { (0, 0) };
        assert_eq!([class(0), class(1), class(2)], [(0, 0), clash, clash]);
        assert_eq!([class(3), class(255)], [(6, 2), (6, 2)]);
    }
}

#[test]
fn reading_clashes_with_model() {
    for (model, highest) in [(1, 0), (2, 0), (3, 50_000), (4, 50_000), (5, 25_000_000)] {
        let reading = |value| changed(model, 0, &[in_row(1, READING, value)]);
        assert_eq!(reading(0), (0, 0));
        assert_eq!(reading(highest), (0, 0));
        if model < 5 {
            assert_eq!(reading(highest + 1), (20, 1));
            assert_eq!(reading(25_000_000), (20, 1));
        }
        assert_eq!(reading(25_000_001), (6, 1));
        assert_eq!(reading(4_294_967_295), (6, 1));
    }
}

#[test]
fn reading_clashes_with_status() {
    for model in 3..=5 {
        for status in 1..=4 {
            let reading = |value| {
                let status = in_row(0, STATUS, status);
                changed(model, 0, &[status, in_row(0, READING, value)])
            };
            assert_eq!(reading(0), (0, 0));
            assert_eq!([reading(1), reading(50_001)], [(20, 0), (20, 0)]);
            assert_eq!(reading(25_000_000), (20, 0));
            assert_eq!(reading(25_000_001), (6, 0));
        }
    }
}

#[test]
fn litres_and_persons_clash_with_class() {
    for source in 1..=3 {
        let litres = |row, value| changed(2, source, &[in_row(row, LITRES, value)]);
        let persons = |row, value| changed(2, source, &[in_row(row, PERSONS, value)]);
        assert_eq!([litres(0, 1), litres(0, 1_000_000)], [(20, 0), (20, 0)]);
        assert_eq!([litres(1, 1), litres(1, 1_000_000)], [(0, 0), (0, 0)]);
        assert_eq!([litres(2, 1), litres(2, 1_000_000)], [(20, 2), (20, 2)]);
        assert_eq!([persons(0, 1), persons(0, 50)], [(20, 0), (20, 0)]);
        assert_eq!([persons(1, 50), persons(2, 50)], [(0, 0), (0, 0)]);
        for row in 0..3 {
            assert_eq!(litres(row, 1_000_001), (6, row as u32));
            assert_eq!(persons(row, 51), (6, row as u32));
        }
    }
}

#[test]
fn fields_of_a_row_in_layout_order() {
    let status = in_row(1, STATUS, 1);
    let reading = in_row(1, READING, 25_000_001);
    let kf = in_row(1, KF, 0);
    let litres = in_row(1, LITRES, 7);
    let last = in_row(1, LAST, 1);
    // Model 3: a status of 1 with the reading that stands there clashes at b.
    assert_eq!(changed(3, 0, &[status]), (20, 1));
    assert_eq!(changed(3, 0, &[status, kf]), (6, 1));
    assert_eq!(changed(3, 0, &[status, last]), (20, 1));
    assert_eq!(changed(3, 0, &[litres, reading]), (6, 1));
    // Model 2: the status itself.
    assert_eq!(changed(2, 0, &[status, kf]), (20, 1));
    assert_eq!(changed(2, 0, &[status, reading]), (20, 1));
    assert_eq!(changed(2, 0, &[kf, litres]), (6, 1));
    assert_eq!(changed(2, 0, &[litres, last]), (20, 1));
}

#[test]
fn rows_in_order_and_7_after_the_fields() {
    let id = |row| in_row(row, ID, 0);
    let clash = |row| in_row(row, LITRES, 1);
    let out = |row| in_row(row, KF, 1_001);
    assert_eq!(changed(2, 0, &[id(1), clash(1)]), (20, 1));
    assert_eq!(changed(2, 0, &[id(1), clash(2)]), (7, 1));
    assert_eq!(changed(2, 0, &[clash(1), id(2)]), (20, 1));
    assert_eq!(changed(2, 0, &[clash(1), out(2)]), (20, 1));
    assert_eq!(changed(2, 0, &[out(1), clash(2)]), (6, 1));
    assert_eq!(changed(2, 0, &[clash(2), out(0)]), (6, 0));
}

#[test]
fn header_fields_and_their_bytes() {
    let fields = [
        (6, 1, 13),
        (7, 1, 6),
        (8, 2, 161),
        (10, 1, 4),
        (11, 1, 61),
        (12, 1, 51),
        (13, 1, 51),
        (14, 1, 36),
        (15, 1, 1),
        (16, 4, 4_000_000_001),
        (20, 4, 100_001),
        (24, 4, 4_000_000_001),
        (28, 4, 4_000_000_001),
        (32, 4, 4_000_000_001),
        (36, 4, 4_000_000_001),
        (40, 4, 4_000_000_001),
        (44, 4, 4_000_000_001),
    ];
    for (place, &first) in fields.iter().enumerate() {
        let byte = first.0 as u32;
        assert_eq!(changed(4, 3, &[first]), (4, byte));
        for &later in &fields[place..] {
            assert_eq!(changed(4, 3, &[later, first]), (4, byte));
        }
    }
}

#[test]
fn a_header_clash_is_4_at_the_later_field() {
    assert_eq!(changed(5, 0, &[(11, 1, 20)]), (4, 11));
    assert_eq!(changed(2, 0, &[(12, 1, 10)]), (4, 12));
    assert_eq!(changed(2, 0, &[(14, 1, 30)]), (4, 14));
    assert_eq!(changed(3, 0, &[(13, 1, 10)]), (4, 13));
    assert_eq!(changed(3, 1, &[(15, 1, 100)]), (4, 15));
    assert_eq!(changed(3, 2, &[(24, 4, 20_000_001)]), (4, 24));
    assert_eq!(changed(3, 0, &[(24, 4, 1)]), (4, 24));
    assert_eq!(changed(3, 2, &[(44, 4, 1)]), (4, 44));
    // Model 3 made model 5 has a wrong v, model 3 made model 2 also z and f.
    assert_eq!(changed(3, 0, &[(7, 1, 5)]), (4, 11));
    assert_eq!(changed(3, 0, &[(7, 1, 2)]), (4, 11));
    assert_eq!(changed(2, 2, &[(10, 1, 1)]), (4, 15));
}

/// Every call with a sheet: 20 and the byte of 4 come before what is tested
/// after 6 and 4.
#[test]
fn in_every_call() {
    let clash = bytes(2, 1, &[in_row(2, LITRES, 1), (24, 4, 5_000_001)]);
    let header = bytes(2, 1, &[(44, 4, 1)]);
    for (sheet, expected) in [(&clash, (20, 2)), (&header, (4, 44))] {
        assert_eq!(pair(settle(sheet, 0)), expected);
        let (number, place) = expected;
        let text = format!("refused {number} {place}\n");
        assert_eq!(print_statement(sheet), text);
        assert_eq!(pair(write_record(sheet, &mut [])), expected);
        let mut list = vec![0; BOOK_LEN];
        assert_eq!(pair(book::post(&mut list, &mut [], sheet)), expected);
        list[5] = 1;
        assert_eq!(pair(book::post(&mut list, &mut [], sheet)), expected);
        assert_eq!(pair(book::replace(&mut list, &mut [], sheet)), expected);
        assert_eq!(pair(book::open(&mut list, &mut [], sheet)), expected);
        list[1] = 2;
        let mut sums = [0; SUMS_LEN];
        assert_eq!(pair(book::post(&mut list, &mut sums, sheet)), (15, 0));
    }
}

#[test]
fn in_records_of_both_versions() {
    for rules in RuleSet::ALL {
        let sheet = build_sheet(&case_a());
        let good = record_of(&sheet, rules).expect("case A settles");
        let read = |changes: &[Change]| {
            let mut record = good.clone();
            for &(offset, size, value) in changes {
                put(&mut record, (8 + offset, size), value);
            }
            let answer = read_record(&record);
            assert_eq!((answer.part_start, answer.part_length), (0, 0));
            (answer.number, answer.place)
        };
        assert_eq!(read(&[(7, 1, 6)]), (4, 7));
        assert_eq!(read(&[(11, 1, 31), (16, 4, 4_000_000_001)]), (4, 11));
        assert_eq!(read(&[(44, 4, 1)]), (4, 44));
        assert_eq!(read(&[in_row(2, READING, 50_001)]), (20, 2));
        assert_eq!(read(&[in_row(2, READING, 25_000_001)]), (6, 2));
        assert_eq!(read(&[in_row(1, CLASS, 1), in_row(1, KF, 0)]), (20, 1));
        assert_eq!(read(&[in_row(1, KF, 0), in_row(1, PERSONS, 1)]), (6, 1));
        assert_eq!(read(&[in_row(1, ID, 0), in_row(1, PERSONS, 1)]), (20, 1));
    }
}
