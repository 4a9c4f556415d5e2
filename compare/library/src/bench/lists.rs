//! The check, printing and the archive record.

use super::cases::settled_sheets;
use super::{books, print_pair, print_pair_head};
use crate::calls;
use compare::book::{BOOK_LEN, SUMS_LEN};
use compare::fast;
use std::hint::black_box;

const MODELS: [u8; 5] = [1, 2, 3, 4, 5];
const MANY: usize = 40;

pub fn run(seed: u64) {
    print_pair_head("other calls", ["library", "fast form"]);
    for count in [160, 8] {
        let sheets = settled_sheets(seed, 1, count, &MODELS);
        check(count, &sheets[0]);
        print(count, &sheets[0]);
        write(count, &sheets[0]);
        read(count, &sheets[0]);
        books::run(count, &sheets[0]);
    }
    print_pair_head("year beside adding blocks", ["library", "adding"]);
    for count in [160, 8] {
        books::beside_adding(count, &settled_sheets(seed, 1, count, &MODELS)[0]);
    }
    print_pair_head("records beside settling", ["record", "settle"]);
    for count in [160, 8, 1] {
        beside_settling(count, &settled_sheets(seed, MANY, count, &MODELS));
    }
}

/// A check of all rows: opening refused at the last row's last field.
fn check(count: usize, sheet: &[u8]) {
    let mut sheet = sheet.to_vec();
    *sheet.last_mut().expect("a row") = 1;
    let [mut a, mut b] = [vec![0; BOOK_LEN], vec![0; BOOK_LEN]];
    let mut sums = vec![0; SUMS_LEN];
    let mut other_sums = sums.clone();
    print_pair(
        &format!("n {count}, check, refused at its end"),
        1,
        [
            &mut || {
                black_box(calls::open(&mut a, &mut sums, black_box(&sheet)));
            },
            &mut || {
                black_box(fast::book::open(&mut b, &mut other_sums, black_box(&sheet))).ok();
            },
        ],
    );
}

fn print(count: usize, sheet: &[u8]) {
    let len = 49 + 99 * count;
    let [mut a, mut b] = [vec![0; len], vec![0; len]];
    print_pair(
        &format!("n {count}, print"),
        1,
        [
            &mut || {
                black_box(calls::print(black_box(sheet), &mut a));
            },
            &mut || {
                black_box(fast::print::print(black_box(sheet), &mut b));
            },
        ],
    );
}

fn write(count: usize, sheet: &[u8]) {
    let len = 56 + 64 * count;
    let [mut a, mut b] = [vec![0; len], vec![0; len]];
    print_pair(
        &format!("n {count}, write a record"),
        1,
        [
            &mut || {
                black_box(calls::write_record(black_box(sheet), &mut a));
            },
            &mut || {
                black_box(fast::record::write(black_box(sheet), &mut b)).ok();
            },
        ],
    );
}

fn read(count: usize, sheet: &[u8]) {
    let mut record = vec![0; 56 + 64 * count];
    calls::write_record(sheet, &mut record);
    print_pair(
        &format!("n {count}, read a record"),
        1,
        [
            &mut || {
                black_box(calls::read_record(black_box(&record)));
            },
            &mut || {
                black_box(fast::record::read(black_box(&record))).ok();
            },
        ],
    );
}

/// Writing and reading the records of some sheets, and settling the sheets.
fn beside_settling(count: usize, sheets: &[Vec<u8>]) {
    let mut record = vec![0; 56 + 64 * count];
    let mut records = Vec::new();
    for sheet in sheets {
        calls::write_record(sheet, &mut record);
        records.push(record.clone());
    }
    let [mut a, mut b] = [vec![0; 8 * count], vec![0; 8 * count]];
    print_pair(
        &format!("n {count}, write"),
        sheets.len(),
        [
            &mut || {
                for sheet in sheets {
                    black_box(calls::write_record(black_box(sheet), &mut record));
                }
            },
            &mut || settle_all(sheets, &mut a),
        ],
    );
    print_pair(
        &format!("n {count}, read"),
        sheets.len(),
        [
            &mut || {
                for record in &records {
                    black_box(calls::read_record(black_box(record)));
                }
            },
            &mut || settle_all(sheets, &mut b),
        ],
    );
}

fn settle_all(sheets: &[Vec<u8>], statement: &mut [u32]) {
    for sheet in sheets {
        black_box(calls::settle(black_box(sheet), statement));
    }
}
