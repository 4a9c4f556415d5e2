//! The fast form against the plain one: answers and every list.

use compare::book::{self, BOOK_LEN, SUMS_LEN};
use compare::charge_calls::{random_charge_call, ChargeCall};
use compare::damage::{damaged_sheet, unit_count};
use compare::edges::{border_sheet, sheet_at_an_end};
use compare::faults::faulty_sheet;
use compare::fund_calls::{random_fund_call, FundCall};
use compare::groups::{random_group, Group};
use compare::refusal::Refusal;
use compare::rng::Rng;
use compare::rules::RuleSet;
use compare::samples::random_sheet;
use compare::sheet::build_sheet;
use compare::tied::{tied_sheet, tied_total};
use compare::{apportion, fast, print, record, settle};

fn random_bytes(rng: &mut Rng) -> Vec<u8> {
    match rng.below(9) {
        0 => damaged_sheet(rng),
        1 => border_sheet(rng),
        2 => sheet_at_an_end(rng),
        3 => faulty_sheet(rng),
        4 | 5 => tied_sheet(rng),
        _ => build_sheet(&random_sheet(rng)),
    }
}

#[test]
fn statements() {
    let mut rng = Rng::new(31);
    for _ in 0..40_000 {
        let sheet = random_bytes(&mut rng);
        let len = 8 * unit_count(&sheet) + usize::from(rng.once_in(20));
        let expected = settle::settle(&sheet, len).map(|outcome| outcome.numbers);
        let mut list = vec![0; len];
        let answer = fast::settle::<true>(&sheet, &mut list).map(|()| list.clone());
        assert_eq!(answer, expected);
        let answer = fast::settle::<false>(&sheet, &mut list).map(|()| list.clone());
        assert_eq!(answer, expected);
    }
}

#[test]
fn texts() {
    let mut rng = Rng::new(35);
    for _ in 0..10_000 {
        let sheet = random_bytes(&mut rng);
        let len = print::print_into(&sheet, &mut []) + 1 - rng.below(3) as usize;
        let (mut plain, mut other) = (vec![5; len], vec![5; len]);
        let expected = print::print_into(&sheet, &mut plain);
        assert_eq!(fast::print::print(&sheet, &mut other), expected);
        assert_eq!(other, plain);
    }
}

#[test]
fn records() {
    let mut rng = Rng::new(32);
    for _ in 0..5_000 {
        let sheet = random_bytes(&mut rng);
        let len = 56 + 64 * unit_count(&sheet);
        let (mut plain, mut other) = (vec![0; len], vec![0; len]);
        let expected = record::write_record(&sheet, &mut plain);
        assert_eq!(fast::record::write(&sheet, &mut other), expected);
        assert_eq!(other, plain);
        let rules = RuleSet::ALL[rng.below(3) as usize];
        if let Ok(record) = record::record_of(&sheet, rules) {
            plain = record;
        }
        if expected.is_err() {
            plain = [&record::head(rules), &sheet[..]].concat();
            plain.resize(plain.len() + sheet.len().saturating_sub(48), 0);
        }
        if rng.once_in(4) {
            plain[4] = rng.below(5) as u8;
        }
        if rng.once_in(4) {
            let place = rng.below(plain.len() as u64) as usize;
            plain[place] ^= 1;
        }
        let expected = record::read_record(&plain);
        match fast::record::read(&plain) {
            Ok(length) => assert_eq!((0, length), (expected.number, expected.part_length)),
            Err(Refusal { number, place }) => {
                assert_eq!((number, place), (expected.number, expected.place));
            }
        }
    }
}

/// Sums that match or not, sometimes of another length.
fn sums_beside(rng: &mut Rng, list: &[u32]) -> Vec<u64> {
    let mut sums = book::matching_sums(list);
    let places = if rng.once_in(2) { 16 } else { 1_280 };
    let place = rng.below(places) as usize;
    match rng.below(8) {
        0 => sums[place] = sums[place].wrapping_sub(1),
        1 => sums[place] = u64::MAX - rng.below(2),
        2 => sums[place] = rng.draw() >> rng.below(64),
        3 => sums.resize(SUMS_LEN + 1, 0),
        4 if rng.once_in(2) => sums.truncate(SUMS_LEN - 1),
        _ => {}
    }
    sums
}

#[test]
fn books() {
    let mut rng = Rng::new(33);
    let mut answers = [0; 21];
    for _ in 0..2_000 {
        let sheet = random_bytes(&mut rng);
        let mut plain: Vec<u32> = (0..BOOK_LEN).map(|_| rng.draw() as u32).collect();
        if book::open(&mut plain, &mut [0; SUMS_LEN], &sheet).is_err() && rng.once_in(2) {
            // Nobody's book, but a book.
            plain.fill(0);
        }
        for _ in 0..6 {
            let mut other = plain.clone();
            let mut sums = sums_beside(&mut rng, &plain);
            let mut other_sums = sums.clone();
            let (month, place) = (rng.below(14) as u32, rng.below(5) as u32);
            let called = rng.below(8);
            let expected = match called {
                0 => book::open(&mut plain, &mut sums, &sheet),
                1..=3 => book::post(&mut plain, &mut sums, &sheet),
                4 | 5 => book::replace(&mut plain, &mut sums, &sheet),
                _ => book::withdraw(&mut plain, &mut sums, month),
            };
            let answer = match called {
                0 => fast::book::open(&mut other, &mut other_sums, &sheet),
                1..=3 => fast::book::post(&mut other, &mut other_sums, &sheet),
                4 | 5 => fast::book::replace(&mut other, &mut other_sums, &sheet),
                _ => fast::book::withdraw(&mut other, &mut other_sums, month),
            };
            assert_eq!(answer, expected);
            assert!(other == plain && other_sums == sums);
            answers[answer.err().map_or(0, |refusal| refusal.number) as usize] += 1;
            let expected = book::year(&plain, &sums, place);
            assert_eq!(fast::book::year(&plain, &sums, place), expected);
        }
    }
    for number in [0, 4, 6, 9, 15, 17, 19, 20] {
        assert!(answers[number] > 50, "few answers {number}: {answers:?}");
    }
}

/// A call's answer, and its list of sevens afterwards.
type After = (Result<(), Refusal>, Vec<u32>);

/// The plain form's.
fn after(answer: Result<Vec<u32>, Refusal>, list_len: usize) -> After {
    match answer {
        Ok(numbers) => (Ok(()), numbers),
        Err(refusal) => (Err(refusal), vec![7; list_len]),
    }
}

/// The fast form's.
fn fast_group<const RECIPROCAL: bool>(group: &Group) -> After {
    let Group {
        buffer,
        buildings,
        shared_wh,
        list_len,
    } = group;
    let mut list = vec![7; *list_len];
    let answer = fast::group::settle_group::<RECIPROCAL>(buffer, buildings, *shared_wh, &mut list);
    (answer, list)
}

#[test]
fn groups() {
    let mut rng = Rng::new(36);
    let mut answers = [0; 23];
    for _ in 0..30_000 {
        let group = random_group(&mut rng);
        let expected = after(group.settle(), group.list_len);
        assert_eq!(fast_group::<true>(&group), expected, "{group:?}");
        assert_eq!(fast_group::<false>(&group), expected, "{group:?}");
        answers[expected.0.err().map_or(0, |refusal| refusal.number) as usize] += 1;
    }
    for number in (0..=13).chain(20..=22) {
        assert!(answers[number] > 100, "few answers {number}: {answers:?}");
    }
}

/// The same for charges.
fn fast_charges<const RECIPROCAL: bool>(call: &ChargeCall) -> After {
    let mut list = vec![7; call.list_len];
    let answer = fast::charges::fixed_charges::<RECIPROCAL>(
        &call.sheet,
        call.model,
        call.amounts,
        &mut list,
    );
    (answer, list)
}

#[test]
fn fixed_charges() {
    let mut rng = Rng::new(37);
    let mut answers = [0; 21];
    for _ in 0..30_000 {
        let call = random_charge_call(&mut rng);
        let expected = after(call.divide(), call.list_len);
        assert_eq!(fast_charges::<true>(&call), expected, "{call:?}");
        assert_eq!(fast_charges::<false>(&call), expected, "{call:?}");
        answers[expected.0.err().map_or(0, |refusal| refusal.number) as usize] += 1;
    }
    for number in [0, 1, 2, 3, 4, 5, 6, 7, 9, 13, 20] {
        assert!(answers[number] > 180, "few answers {number}: {answers:?}");
    }
}

#[test]
fn funds() {
    let mut rng = Rng::new(38);
    let mut answers = [0; 26];
    for _ in 0..30_000 {
        let call = random_fund_call(&mut rng);
        let mut fund = call.balance();
        let answer = match &call {
            FundCall::Collect(call) => fast::fund::collect_fees(&mut fund, &call.sheet, call.rate),
            FundCall::Pay(call) => fast::fund::pay_out(&mut fund, call.amount),
        };
        assert_eq!((answer, fund), call.run(), "{call:?}");
        answers[answer.err().map_or(0, |refusal| refusal.number) as usize] += 1;
    }
    for number in (0..=12).chain([20, 23, 24, 25]) {
        assert!(answers[number] > 80, "few answers {number}: {answers:?}");
    }
}

/// Both fast forms against the plain one, with ties by every rule.
fn same_division(total: u64, weights: &[u64]) {
    let count = weights.len();
    let mut rest = vec![0; count];
    for rules in RuleSet::ALL {
        let expected = apportion::wide_shares(total, weights, rules);
        let mut shares = vec![0u64; count];
        fast::dividing::divide::<true>(total, weights, rules, &mut rest, &mut shares);
        assert_eq!(shares, expected);
        fast::dividing::divide::<false>(total, weights, rules, &mut rest, &mut shares);
        assert_eq!(shares, expected);
        if total < 1 << 32 {
            let mut shares = vec![0u32; count];
            fast::dividing::divide::<true>(total, weights, rules, &mut rest, &mut shares);
            assert_eq!(shares, apportion::apportion(total, weights, rules));
        }
    }
}

#[test]
fn divisions() {
    let mut rng = Rng::new(34);
    for _ in 0..20_000 {
        let count = rng.between(1, 40) as usize;
        let highest = [1, 3, 1_000, 4_000_000_000, 24_000_000_000_000_000][rng.below(5) as usize];
        let weights: Vec<u64> = (0..count).map(|_| rng.edge(0, highest)).collect();
        same_division(rng.edge(0, 4_000_000_000), &weights);
        same_division(rng.edge(0, 48_000_000_000), &weights);
        same_division(tied_total(&mut rng, &weights), &weights);
    }
}

#[test]
fn long_divisions_with_ties() {
    let mut rng = Rng::new(38);
    for _ in 0..300 {
        let count = rng.between(100, 640) as usize;
        let highest = [4, 1_000, 100_000][rng.below(3) as usize];
        let weights: Vec<u64> = (0..count).map(|_| rng.between(0, highest)).collect();
        same_division(tied_total(&mut rng, &weights), &weights);
    }
}
