//! Request 2026-02: the sums beside a book, and refusal 19.

use compare::book::{self, block, matching_sums, BOOK_LEN, SUMS_LEN};
use compare::calls::{random_call, Call};
use compare::cases::{case_a, case_a_with_meter, two_units};
use compare::damage::put;
use compare::refusal::Refusal;
use compare::rng::Rng;
use compare::samples::random_ids;
use compare::sheet::{build_sheet, Sheet};

/// A book and the sums lent with it.
#[derive(Clone, Debug, PartialEq)]
struct Pair {
    list: Vec<u32>,
    sums: Vec<u64>,
}

impl Pair {
    /// Opened with case A, which stands in January and March.
    fn new() -> Pair {
        let (list, sums) = (vec![9; BOOK_LEN], vec![9; SUMS_LEN]);
        let mut pair = Pair { list, sums };
        assert_eq!(pair.open(&in_month(case_a(), 1)), 0);
        for month in [1, 3] {
            assert_eq!(pair.post(&in_month(case_a(), month)), 0);
        }
        pair
    }

    fn open(&mut self, sheet: &[u8]) -> u32 {
        self.call(|list, sums| book::open(list, sums, sheet))
    }

    fn post(&mut self, sheet: &[u8]) -> u32 {
        self.call(|list, sums| book::post(list, sums, sheet))
    }

    fn replace(&mut self, sheet: &[u8]) -> u32 {
        self.call(|list, sums| book::replace(list, sums, sheet))
    }

    fn withdraw(&mut self, month: u32) -> u32 {
        self.call(|list, sums| book::withdraw(list, sums, month))
    }

    fn year(&mut self, place: u32) -> u32 {
        self.call(|list, sums| book::year(list, sums, place).map(|_| ()))
    }

    /// The refusal's number, or 0. A refused call keeps both lists.
    fn call(&mut self, run: impl Fn(&mut [u32], &mut [u64]) -> Result<(), Refusal>) -> u32 {
        let before = self.clone();
        let Err(refusal) = run(&mut self.list, &mut self.sums) else {
            return 0;
        };
        assert!(*self == before, "refused and written");
        if refusal.number == 19 {
            assert_eq!(refusal.place, 0);
        }
        refusal.number
    }

    fn matches(&self) -> bool {
        self.sums == matching_sums(&self.list)
    }
}

fn in_month(mut sheet: Sheet, month: u8) -> Vec<u8> {
    sheet.header.month = month;
    build_sheet(&sheet)
}

/// Case A without heat: 24 zeros.
fn nothing(month: u8) -> Vec<u8> {
    in_month(case_a_with_meter(0), month)
}

#[test]
fn another_length_in_each_call() {
    for length in [0, 24, SUMS_LEN - 1, SUMS_LEN + 1] {
        let mut pair = Pair::new();
        pair.sums.resize(length, 0);
        assert_eq!(pair.open(&in_month(case_a(), 1)), 19);
        assert_eq!(pair.post(&in_month(case_a(), 2)), 19);
        assert_eq!(pair.replace(&in_month(case_a(), 1)), 19);
        assert_eq!(pair.withdraw(1), 19);
        assert_eq!(pair.year(2), 19);
    }
}

/// 19 by length is the last refusal of each call.
#[test]
fn another_length_comes_last() {
    let good = in_month(case_a(), 1);
    let mut pair = Pair::new();
    pair.sums.pop();
    for (field, value, number) in [
        ((0, 1), 0, 2),
        ((4, 2), 2, 3),
        ((6, 1), 13, 4),
        ((8, 2), 2, 5),
        ((48 + 32 + 8, 4), 0, 6),
        ((48 + 32, 4), 0, 7),
    ] {
        let mut bad = good.clone();
        put(&mut bad, field, value);
        assert_eq!(pair.open(&bad), number);
        assert_eq!(pair.post(&bad), number);
        assert_eq!(pair.replace(&bad), number);
    }
    assert_eq!(pair.open(&good[..47]), 1);
    assert_eq!(pair.post(&build_sheet(&two_units(31))), 12);
    assert_eq!(pair.replace(&build_sheet(&two_units(30))), 16);
    assert_eq!(pair.post(&good), 17);
    assert_eq!(pair.replace(&in_month(case_a(), 2)), 17);
    for month in [0, 2, 13] {
        assert_eq!(pair.withdraw(month), 17);
    }
    assert_eq!(pair.year(3), 18);
    let refused = |totals: &mut [u64], place| {
        let answer = book::year_into(&pair.list, &pair.sums, place, totals);
        answer.unwrap_err().number
    };
    assert_eq!(refused(&mut [0; 8], 3), 13);
    assert_eq!(refused(&mut [0; 9], 3), 18);
    assert_eq!(refused(&mut [0; 9], 2), 19);
}

/// Each number of the list counts, behind 8n too.
#[test]
fn below_zero() {
    for place in [0, 8, 23, 24, SUMS_LEN - 1] {
        let mut pair = Pair::new();
        pair.list[197 + place] = 700;
        for (sum, answer) in [(0, 19), (699, 19), (700, 0)] {
            pair.sums[place] = sum;
            assert_eq!(pair.clone().replace(&nothing(1)), answer);
            assert_eq!(pair.clone().withdraw(1), answer);
            // 17 and 18 come first, and post takes nothing off.
            assert_eq!(pair.post(&in_month(case_a(), 1)), 17);
            assert_eq!(pair.replace(&nothing(2)), 17);
            assert_eq!(pair.withdraw(2), 17);
            assert_eq!(pair.year(3), 18);
            assert_eq!(pair.clone().post(&nothing(2)), 0);
        }
    }
}

/// The old block goes off before the new one comes.
#[test]
fn only_the_new_block_would_lift_it() {
    let mut pair = Pair::new();
    pair.sums[0] = 115_999;
    assert_eq!(pair.replace(&in_month(case_a(), 1)), 19);
    assert_eq!(pair.replace(&in_month(case_a_with_meter(9_000_000), 1)), 19);
    pair.sums[0] = 116_000;
    assert_eq!(pair.replace(&in_month(case_a(), 1)), 0);
    assert_eq!(pair.sums[0], 116_000);
}

#[test]
fn past_64_bits() {
    let mut pair = Pair::new();
    let free = u64::MAX - 116_000;
    for (sum, answer) in [(u64::MAX, 19), (free + 1, 19), (free, 0)] {
        pair.sums[0] = sum;
        let mut posted = pair.clone();
        assert_eq!(posted.post(&in_month(case_a(), 2)), answer);
        assert_eq!(posted.sums[0], if answer == 0 { u64::MAX } else { sum });
    }
    // A replacement as large as the old month is none too large.
    pair.sums[0] = u64::MAX;
    assert_eq!(pair.replace(&in_month(case_a(), 1)), 0);
    assert_eq!(pair.sums[0], u64::MAX);
    assert_eq!(pair.replace(&in_month(case_a_with_meter(1_000_010), 1)), 19);
    assert_eq!(pair.replace(&nothing(1)), 0);
    assert_eq!(pair.sums[0], free);
    assert_eq!(pair.replace(&in_month(case_a(), 1)), 0);
    assert_eq!(pair.sums[0], u64::MAX);
    assert_eq!(pair.withdraw(1), 0);
    assert_eq!(pair.sums[0], free);
}

/// The stored block goes off whole, whatever it holds.
#[test]
fn numbers_behind_8n() {
    let mut pair = Pair::new();
    for place in [24, 100, SUMS_LEN - 1] {
        pair.list[197 + place] = u32::MAX;
    }
    pair.list[197] = 5;
    pair.sums = matching_sums(&pair.list);
    let mut replaced = pair.clone();
    assert_eq!(replaced.replace(&nothing(1)), 0);
    assert!(replaced.matches());
    assert_eq!(replaced.sums[24..], [0; SUMS_LEN - 24]);
    assert_eq!(pair.withdraw(1), 0);
    assert!(pair.matches());
    assert_eq!(pair.sums[0], 116_000);
    assert_eq!(pair.sums[24..], [0; SUMS_LEN - 24]);
}

/// What stands in the block of a month that doesn't stand is nobody's.
#[test]
fn post_only_adds() {
    let mut pair = Pair::new();
    pair.list[197 + 1_280..197 + 2 * 1_280].fill(u32::MAX);
    assert!(pair.matches());
    assert_eq!(pair.post(&in_month(case_a(), 2)), 0);
    assert!(pair.matches());
    assert_eq!(block(&pair.list, 1)[24..], [0; SUMS_LEN - 24]);
}

/// The year call compares nothing; updates go by numbers, not by matching.
#[test]
fn a_foreign_list() {
    let mut pair = Pair::new();
    pair.sums = (0..SUMS_LEN as u64).map(|place| place << 40).collect();
    let year = book::year(&pair.list, &pair.sums, 1).unwrap();
    assert_eq!(year.months, 2);
    assert_eq!(year.sums[..], pair.sums[8..16]);
    let before = pair.sums.clone();
    assert_eq!(pair.post(&in_month(case_a(), 2)), 0);
    assert_eq!(pair.sums[0], 116_000);
    assert_eq!(pair.sums[8], before[8] + 228_000);
    assert_eq!(pair.sums[24..], before[24..]);
    assert_eq!(pair.withdraw(2), 0);
    assert_eq!(pair.sums, before);
    assert_eq!(pair.open(&nothing(1)), 0);
    assert_eq!(pair.sums, [0; SUMS_LEN]);
}

/// Whatever a book holds: sums that match before a call match after it, and 19
/// doesn't arise.
#[test]
fn matching_is_kept_on_any_book() {
    let mut rng = Rng::new(19);
    for _ in 0..100 {
        let ids = random_ids(&mut rng, 3);
        let mut list: Vec<u32> = (0..BOOK_LEN).map(|_| rng.draw() as u32).collect();
        list[0] = 3;
        list[1..13].fill_with(|| rng.below(2) as u32);
        list[37..40].copy_from_slice(&ids);
        let sums = matching_sums(&list);
        let mut pair = Pair { list, sums };
        for _ in 0..30 {
            let number = match random_call(&mut rng, &ids) {
                Call::Post(sheet) => pair.post(&sheet),
                Call::Replace(sheet) => pair.replace(&sheet),
                Call::Withdraw(month) => pair.withdraw(month),
                Call::Year(place) => pair.year(place),
            };
            assert_ne!(number, 19);
            assert!(pair.matches());
        }
    }
}
