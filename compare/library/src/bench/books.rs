//! The year book and its sums.

use super::print_pair;
use crate::calls;
use compare::book::{block, BOOK_LEN, MARKS, SUMS_LEN};
use compare::fast;
use std::hint::black_box;

/// A book and its sums, with all twelve months posted.
struct Year {
    book: Vec<u32>,
    sums: Vec<u64>,
}

impl Year {
    fn of(sheet: &[u8]) -> Year {
        let (mut book, mut sums) = (vec![0; BOOK_LEN], vec![0; SUMS_LEN]);
        let mut sheet = sheet.to_vec();
        calls::open(&mut book, &mut sums, &sheet);
        for month in 1..=12 {
            sheet[6] = month;
            calls::post(&mut book, &mut sums, &sheet);
        }
        Year { book, sums }
    }
}

pub fn run(count: usize, sheet: &[u8]) {
    post(count, sheet);
    replace(count, sheet);
    withdraw(count, sheet);
    year(count, sheet);
}

/// The mark says before each call that the month doesn't stand; the sums grow,
/// which takes no longer.
fn post(count: usize, sheet: &[u8]) {
    let [mut a, mut b] = [Year::of(sheet), Year::of(sheet)];
    let mark = MARKS + usize::from(sheet[6]) - 1;
    print_pair(
        &format!("n {count}, post a month"),
        1,
        [
            &mut || {
                a.book[mark] = 0;
                black_box(calls::post(&mut a.book, &mut a.sums, black_box(sheet)));
            },
            &mut || {
                b.book[mark] = 0;
                black_box(fast::book::post(&mut b.book, &mut b.sums, black_box(sheet))).ok();
            },
        ],
    );
}

fn replace(count: usize, sheet: &[u8]) {
    let [mut a, mut b] = [Year::of(sheet), Year::of(sheet)];
    print_pair(
        &format!("n {count}, replace a month"),
        1,
        [
            &mut || {
                black_box(calls::replace(&mut a.book, &mut a.sums, black_box(sheet)));
            },
            &mut || {
                black_box(fast::book::replace(
                    &mut b.book,
                    &mut b.sums,
                    black_box(sheet),
                ))
                .ok();
            },
        ],
    );
}

/// The mark says before each call that the month stands; its block is zeros
/// after the first, which takes no less time.
fn withdraw(count: usize, sheet: &[u8]) {
    let [mut a, mut b] = [Year::of(sheet), Year::of(sheet)];
    let month = u32::from(sheet[6]);
    let mark = MARKS + usize::from(sheet[6]) - 1;
    print_pair(
        &format!("n {count}, withdraw a month"),
        1,
        [
            &mut || {
                a.book[mark] = 1;
                black_box(calls::withdraw(&mut a.book, &mut a.sums, black_box(month)));
            },
            &mut || {
                b.book[mark] = 1;
                black_box(fast::book::withdraw(
                    &mut b.book,
                    &mut b.sums,
                    black_box(month),
                ))
                .ok();
            },
        ],
    );
}

/// The last unit's year over twelve months.
fn year(count: usize, sheet: &[u8]) {
    let Year { book, sums } = Year::of(sheet);
    let place = count as u32 - 1;
    let mut totals = [0; 9];
    print_pair(
        &format!("n {count}, year of a unit"),
        1,
        [
            &mut || {
                black_box(calls::year(black_box(&book), &sums, place, &mut totals));
            },
            &mut || {
                black_box(fast::book::year(black_box(&book), &sums, place)).ok();
            },
        ],
    );
}

/// The same beside the blocks of the months that stand, added without a test.
pub fn beside_adding(count: usize, sheet: &[u8]) {
    let Year { book, sums } = Year::of(sheet);
    let place = count - 1;
    let [mut a, mut b] = [[0; 9], [0; 9]];
    print_pair(
        &format!("n {count}, year of a unit"),
        1,
        [
            &mut || {
                black_box(calls::year(black_box(&book), &sums, place as u32, &mut a));
            },
            &mut || {
                add_blocks(black_box(&book), black_box(place), &mut b);
                black_box(&b);
            },
        ],
    );
    assert_eq!(a, b);
}

/// k and the eight sums from the book alone.
fn add_blocks(book: &[u32], place: usize, totals: &mut [u64; 9]) {
    *totals = [0; 9];
    for index in (0..12).filter(|index| book[MARKS + index] == 1) {
        totals[0] += 1;
        let (units, _) = block(book, index).as_chunks::<8>();
        for (sum, &number) in totals[1..].iter_mut().zip(&units[place]) {
            *sum += u64::from(number);
        }
    }
}
