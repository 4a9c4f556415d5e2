//! "Year book": the lists against the plain year book, and refusal 15.

use compare::book::{self, BOOK_LEN, SUMS_LEN};
use compare::calls::{random_call, sheet_of_building, Call};
use compare::cases::case_a;
use compare::plain_book::PlainBook;
use compare::refusal::Refusal;
use compare::rng::Rng;
use compare::samples::random_ids;
use compare::settle::settle_bytes;
use compare::sheet::build_sheet;

/// Every place of the list as the plain book has it.
fn assert_same_contents(list: &[u32], plain: &PlainBook, ids: &[u32]) {
    let mut expected = vec![0; BOOK_LEN];
    expected[0] = ids.len() as u32;
    expected[37..37 + ids.len()].copy_from_slice(ids);
    for month in 1..=12 {
        let Some(outcome) = plain.outcome(month as u32) else {
            continue;
        };
        expected[month] = 1;
        expected[12 + month] = plain.shared_meter_wh(month as u32).unwrap();
        expected[24 + month] = plain.bill_cents(month as u32).unwrap();
        let start = 197 + 1_280 * (month - 1);
        expected[start..start + 8 * ids.len()].copy_from_slice(&outcome.numbers);
    }
    assert!(list == expected);
}

/// Each sum is the plain book's year of that unit, and 0 after 8n.
fn assert_same_sums(sums: &[u64], plain: &PlainBook, ids: &[u32]) {
    let year = |place| plain.year(place).unwrap().1;
    let mut expected: Vec<u64> = (0..ids.len() as u32).flat_map(year).collect();
    expected.resize(SUMS_LEN, 0);
    assert!(sums == expected);
}

/// Request 2026-02: the list matches the months of mark 1.
fn assert_matching(list: &[u32], sums: &[u64]) {
    assert_eq!(sums.len(), 1_280);
    for (place, &sum) in sums.iter().enumerate() {
        let marked = (0..12).filter(|index| list[1 + index] == 1);
        let numbers = marked.map(|index| u64::from(list[197 + 1_280 * index + place]));
        assert_eq!(sum, numbers.sum(), "number {place}");
    }
}

/// Runs one call on both books and returns the refusal's number, or 0.
fn run(list: &mut [u32], sums: &mut [u64], plain: &mut PlainBook, call: &Call) -> u32 {
    let (of_list, of_plain) = match call {
        Call::Post(sheet) => (book::post(list, sums, sheet), plain.post(sheet)),
        Call::Replace(sheet) => (book::replace(list, sums, sheet), plain.replace(sheet)),
        Call::Withdraw(month) => (book::withdraw(list, sums, *month), plain.withdraw(*month)),
        Call::Year(place) => {
            let answer = book::year(list, sums, *place);
            let expected = plain.year(*place);
            assert_eq!(answer.map(|year| (year.months, year.sums)), expected);
            (answer.map(|_| ()), expected.map(|_| ()))
        }
    };
    assert_eq!(of_list, of_plain);
    of_list.err().map_or(0, |refusal| refusal.number)
}

#[test]
fn random_call_lists() {
    let mut rng = Rng::new(6);
    let mut answers = [0; 21];
    for _ in 0..150 {
        let unit_count = rng.between(1, 8) as usize;
        let ids = random_ids(&mut rng, unit_count);
        let sheet = sheet_of_building(&mut rng, &ids);
        let mut list: Vec<u32> = (0..BOOK_LEN).map(|_| rng.draw() as u32).collect();
        let mut sums: Vec<u64> = (0..SUMS_LEN).map(|_| rng.draw()).collect();
        book::open(&mut list, &mut sums, &sheet).unwrap();
        let mut plain = PlainBook::open(&sheet).unwrap();
        assert_same_contents(&list, &plain, &ids);
        for _ in 0..80 {
            let call = random_call(&mut rng, &ids);
            answers[run(&mut list, &mut sums, &mut plain, &call) as usize] += 1;
            assert_same_contents(&list, &plain, &ids);
            assert_matching(&list, &sums);
        }
        assert_same_sums(&sums, &plain, &ids);
        for place in 0..=ids.len() {
            run(&mut list, &mut sums, &mut plain, &Call::Year(place as u32));
        }
    }
    for number in [0, 4, 5, 6, 8, 9, 16, 17, 18, 20] {
        assert!(answers[number] > 0, "no answer {number}: {answers:?}");
    }
    assert_eq!([answers[15], answers[19]], [0, 0]);
}

#[test]
fn book_refusal_comes_first() {
    let sheet = build_sheet(&case_a());
    let bad_book = Err(Refusal {
        number: 15,
        place: 0,
    });
    for (length, place, value) in [
        (BOOK_LEN - 1, 0, 3),
        (BOOK_LEN + 1, 0, 3),
        (BOOK_LEN, 0, 161),
        (BOOK_LEN, 12, 2),
    ] {
        let mut list = vec![0; length];
        list[place] = value;
        let before = list.clone();
        // Not even 19 by length comes before 15.
        let mut sums = vec![7; SUMS_LEN + 1];
        assert_eq!(book::post(&mut list, &mut sums, &[]), bad_book);
        assert_eq!(book::replace(&mut list, &mut sums, &sheet), bad_book);
        assert_eq!(book::withdraw(&mut list, &mut sums, 13), bad_book);
        assert_eq!(book::year(&list, &sums, 999).map(|_| ()), bad_book);
        assert_eq!(list, before);
        assert_eq!(sums, [7; SUMS_LEN + 1]);
        let opened = book::open(&mut list, &mut sums[1..], &sheet);
        assert_eq!(opened, if length == BOOK_LEN { Ok(()) } else { bad_book });
    }
}

#[test]
fn a_book_of_no_units() {
    let (mut list, mut sums) = (vec![0; BOOK_LEN], vec![0; SUMS_LEN]);
    let sheet = build_sheet(&case_a());
    let number = |answer: Result<(), Refusal>| answer.unwrap_err().number;
    assert_eq!(number(book::post(&mut list, &mut sums, &sheet)), 16);
    assert_eq!(number(book::year(&list, &sums, 0).map(|_| ())), 18);
    assert_eq!(number(book::withdraw(&mut list, &mut sums, 1)), 17);
}

#[test]
fn opening_takes_sheets_that_do_not_settle() {
    let mut sheet = case_a();
    sheet.header.source = 1;
    sheet.header.hot_water_inputs[0] = 2_000_000;
    let sheet = build_sheet(&sheet);
    assert_eq!(settle_bytes(&sheet).unwrap_err().number, 8);
    let (mut list, mut sums) = (vec![9; BOOK_LEN], vec![9; SUMS_LEN]);
    assert_eq!(book::open(&mut list, &mut sums, &sheet), Ok(()));
    let number = |answer: Result<(), Refusal>| answer.unwrap_err().number;
    assert_eq!(number(book::post(&mut list, &mut sums, &sheet)), 8);
    assert_eq!(number(book::open(&mut list, &mut sums, &sheet[..47])), 1);
    assert_eq!(list[0], 3);
}
