//! With no reading in force the copy answers as the plain form does. The two
//! have types of their own, so that answers are compared as they print.

use compare::calls::{random_call, sheet_of_building, Call};
use compare::charge_calls::random_charge_call;
use compare::damage::damaged_sheet;
use compare::edges::{border_sheet, sheet_at_an_end};
use compare::faults::faulty_sheet;
use compare::fund_calls::{random_fund_call, FundCall};
use compare::groups::random_group;
use compare::record::{head, record_of};
use compare::rng::Rng;
use compare::rules::RuleSet;
use compare::samples::{random_ids, random_sheet};
use compare::sheet::build_sheet;
use compare::tied::tied_sheet;
use std::fmt::Debug;

fn same(copy: impl Debug, plain: impl Debug) {
    assert_eq!(format!("{copy:?}"), format!("{plain:?}"));
}

fn random_bytes(rng: &mut Rng) -> Vec<u8> {
    match rng.below(6) {
        0 => build_sheet(&random_sheet(rng)),
        1 => border_sheet(rng),
        2 => sheet_at_an_end(rng),
        3 => faulty_sheet(rng),
        4 => tied_sheet(rng),
        _ => damaged_sheet(rng),
    }
}

/// A refused sheet as a record.
fn before_zeros(rules: RuleSet, sheet: &[u8]) -> Vec<u8> {
    let mut record = [&head(rules), sheet].concat();
    record.resize(8 + sheet.len() + sheet.len().saturating_sub(48), 0);
    record
}

#[test]
fn sheets_texts_and_records() {
    let mut rng = Rng::new(1);
    for _ in 0..4_000 {
        let sheet = random_bytes(&mut rng);
        let list_len = sheet.len().saturating_sub(48) / 4 + rng.below(2) as usize;
        same(
            wrong::settle::settle(&sheet, list_len),
            compare::settle::settle(&sheet, list_len),
        );
        let mut copy = vec![3; 8 + 2 * sheet.len().saturating_sub(24)];
        let mut plain = copy.clone();
        same(
            wrong::record::write_record(&sheet, &mut copy),
            compare::record::write_record(&sheet, &mut plain),
        );
        assert_eq!(copy, plain);
        let text_len = compare::print::print_statement(&sheet).len();
        let mut text = vec![5; text_len + 1 - rng.below(3) as usize];
        let mut plain_text = text.clone();
        same(
            wrong::print::print_into(&sheet, &mut text),
            compare::print::print_into(&sheet, &mut plain_text),
        );
        assert_eq!(text, plain_text);
        let rules = RuleSet::ALL[rng.below(3) as usize];
        plain = record_of(&sheet, rules).unwrap_or_else(|_| before_zeros(rules, &sheet));
        plain[4] ^= [0, 0, 0, 1, 2, 3, 4][rng.below(7) as usize];
        let place = rng.below(plain.len() as u64) as usize;
        plain[place] ^= rng.below(2) as u8;
        same(
            wrong::record::read_record(&plain),
            compare::record::read_record(&plain),
        );
    }
}

#[test]
fn groups() {
    let mut rng = Rng::new(3);
    for _ in 0..4_000 {
        let group = random_group(&mut rng);
        let named = group.buildings.iter().map(|b| wrong::group::Building {
            offset: b.offset,
            length: b.length,
        });
        let named: Vec<_> = named.collect();
        let mut copy = vec![9; group.list_len];
        let mut plain = copy.clone();
        same(
            wrong::group::settle_group_into(&group.buffer, &named, group.shared_wh, &mut copy),
            compare::group::settle_group_into(
                &group.buffer,
                &group.buildings,
                group.shared_wh,
                &mut plain,
            ),
        );
        assert_eq!(copy, plain);
    }
}

#[test]
fn charges() {
    let mut rng = Rng::new(4);
    for _ in 0..8_000 {
        let call = random_charge_call(&mut rng);
        let (sheet, model, amounts) = (&call.sheet, call.model, call.amounts);
        let mut copy = vec![9; call.list_len];
        let mut plain = copy.clone();
        same(
            wrong::charges::fixed_charges_into(sheet, model, amounts, &mut copy),
            compare::charges::fixed_charges_into(sheet, model, amounts, &mut plain),
        );
        assert_eq!(copy, plain);
    }
}

#[test]
fn funds() {
    let mut rng = Rng::new(5);
    for _ in 0..8_000 {
        let call = random_fund_call(&mut rng);
        let mut copy = call.balance();
        let answer = match &call {
            FundCall::Collect(call) => wrong::fund::collect_fees(&mut copy, &call.sheet, call.rate),
            FundCall::Pay(call) => wrong::fund::pay_out(&mut copy, call.amount),
        };
        same((answer, copy), call.run());
    }
}

/// Sums between two calls: sometimes right again, one number wrong, or one
/// number more.
fn disturb(rng: &mut Rng, book: &[u32], sums: &mut Vec<u64>) {
    let place = rng.below(25) as usize;
    match rng.below(8) {
        0 | 1 => *sums = compare::book::matching_sums(book),
        2 => sums[place] = rng.draw() >> rng.below(64),
        3 => sums[place] = u64::MAX,
        4 => sums.push(0),
        _ => {}
    }
}

#[test]
fn books() {
    let mut rng = Rng::new(2);
    for _ in 0..80 {
        let ids = random_ids(&mut rng, 3);
        let sheet = sheet_of_building(&mut rng, &ids);
        let mut copy = (vec![7; compare::book::BOOK_LEN], vec![7; 1_280]);
        let mut plain = copy.clone();
        same(
            wrong::book::open(&mut copy.0, &mut copy.1, &sheet),
            compare::book::open(&mut plain.0, &mut plain.1, &sheet),
        );
        for round in 0..60 {
            let call = random_call(&mut rng, &ids);
            same_call(&mut copy, &mut plain, &call);
            assert_eq!(copy, plain);
            if round >= 30 {
                disturb(&mut rng, &plain.0, &mut plain.1);
                copy.1.clone_from(&plain.1);
            }
        }
    }
}

/// A book and its sums.
type Lists = (Vec<u32>, Vec<u64>);

fn same_call(copy: &mut Lists, plain: &mut Lists, call: &Call) {
    use {compare::book as right, wrong::book as bent};
    let ((book, sums), (plain, plain_sums)) = (copy, plain);
    match call {
        Call::Post(sheet) => same(
            bent::post(book, sums, sheet),
            right::post(plain, plain_sums, sheet),
        ),
        Call::Replace(sheet) => same(
            bent::replace(book, sums, sheet),
            right::replace(plain, plain_sums, sheet),
        ),
        Call::Withdraw(month) => same(
            bent::withdraw(book, sums, *month),
            right::withdraw(plain, plain_sums, *month),
        ),
        Call::Year(place) => {
            let (mut list, mut totals) = ([0; 9], [0; 9]);
            same(
                bent::year_into(book, sums, *place, &mut list),
                right::year_into(plain, plain_sums, *place, &mut totals),
            );
            assert_eq!(list, totals);
        }
    }
}
