//! Request 2026-07: fees and payments by hand, the order of the refusals, and the
//! laws on random calls and lists of calls.

use compare::cases::{building, by_meters, case_a, case_d, refused_months};
use compare::fund::{collect_fees, fees, pay_out, MAX_RATE};
use compare::fund_calls::{
    next_fund_call, ordered_faults, random_fund_call, Collection, FundCall, Payment,
};
use compare::plain_fund::PlainFund;
use compare::refusal::Refusal;
use compare::rng::Rng;
use compare::settle::settle_bytes;
use compare::sheet::{build_sheet, read_sheet, Sheet, Unit};

/// Number, place, and the balance afterwards.
type After = (u32, u32, u64);

fn after((answer, balance): (Result<(), Refusal>, u64)) -> After {
    match answer {
        Ok(()) => (0, 0, balance),
        Err(refusal) => (refusal.number, refusal.place, balance),
    }
}

fn collected(balance: u64, sheet: &Sheet, rate: u32) -> After {
    let sheet = build_sheet(sheet);
    let call = Collection {
        balance,
        sheet,
        rate,
    };
    after(call.run())
}

fn paid(balance: u64, amount: u64) -> After {
    after(Payment { balance, amount }.run())
}

/// The fees of a sheet that is accepted.
fn fees_of(sheet: &Sheet, rate: u32) -> u64 {
    fees(&build_sheet(sheet), rate).unwrap()
}

/// Model 2, one unit.
fn flat(area: u32) -> Sheet {
    building(2, 0, &[(area, 0)])
}

#[test]
fn fees_by_hand() {
    // 50 m² at 0.5 EUR.
    assert_eq!(fees_of(&flat(500), 50_000), 2_500);
    assert_eq!(fees_of(&case_d(), 50_000), 2_500);
    assert_eq!(fees_of(&flat(10_000), MAX_RATE), 1_000_000);
    assert_eq!(fees_of(&flat(10_000), 0), 0);
    let widest = building(2, 0, &[(10_000, 0); 160]);
    assert_eq!(fees_of(&widest, MAX_RATE), 160_000_000);
}

#[test]
fn half_a_cent() {
    for (rate, fee) in [
        (4_999, 0),
        (5_000, 1),
        (14_999, 1),
        (15_000, 2),
        (25_000, 3),
    ] {
        assert_eq!(fees_of(&flat(1), rate), fee);
        // Each by itself.
        let three = building(2, 0, &[(1, 0); 3]);
        assert_eq!(fees_of(&three, rate), 3 * fee);
    }
    // 0.3 cents and 0.7.
    assert_eq!(fees_of(&building(2, 0, &[(3, 0), (7, 0)]), 1_000), 1);
    // 0.4 cents each.
    assert_eq!(fees_of(&building(2, 0, &[(4, 0); 9]), 1_000), 0);
}

#[test]
fn who_pays() {
    // 40 and 60 m².
    for (model, wanted) in [(1, 5_000), (2, 5_000), (3, 0), (4, 0), (5, 0)] {
        let mut sheet = building(model, 500_000, &[(400, 0), (600, 0)]);
        sheet.header.base_percent = if model == 3 { 20 } else { 0 };
        for unit in &mut sheet.units {
            (unit.heat_load_w, unit.riser_surface) = (1, 1);
        }
        assert_eq!(fees_of(&sheet, 50_000), wanted);
        if model < 3 {
            continue;
        }
        sheet.units[0].location_factor = 100;
        for (status, wanted) in [(1, 2_000), (2, 0), (3, 0), (4, 2_000)] {
            sheet.units[0].status = status;
            assert_eq!(fees_of(&sheet, 50_000), wanted);
        }
    }
}

#[test]
fn limits() {
    let sheet = flat(500);
    for (rate, number) in [
        (MAX_RATE, 0),
        (MAX_RATE + 1, 24),
        (1 << 31, 24),
        (u32::MAX, 24),
    ] {
        assert_eq!(collected(7, &sheet, rate).0, number);
        // Nobody pays.
        assert_eq!(collected(7, &case_a(), rate), (number, 0, 7));
    }
    let room = u64::MAX - 2_500;
    assert_eq!(collected(room, &sheet, 50_000), (0, 0, u64::MAX));
    assert_eq!(collected(room + 1, &sheet, 50_000), (25, 0, room + 1));
    assert_eq!(collected(u64::MAX, &sheet, 50_000), (25, 0, u64::MAX));
    assert_eq!(collected(u64::MAX, &sheet, 0), (0, 0, u64::MAX));
    assert_eq!(collected(u64::MAX, &case_a(), MAX_RATE), (0, 0, u64::MAX));
    assert_eq!(collected(u64::MAX, &sheet, MAX_RATE + 1), (24, 0, u64::MAX));
}

#[test]
fn payments() {
    assert_eq!(paid(0, 0), (0, 0, 0));
    assert_eq!(paid(0, 1), (23, 0, 0));
    assert_eq!(paid(2_500, 0), (0, 0, 2_500));
    assert_eq!(paid(2_500, 2_499), (0, 0, 1));
    assert_eq!(paid(2_500, 2_500), (0, 0, 0));
    assert_eq!(paid(2_500, 2_501), (23, 0, 2_500));
    assert_eq!(paid(2_500, u64::MAX), (23, 0, 2_500));
    assert_eq!(paid(u64::MAX, u64::MAX), (0, 0, 0));
}

#[test]
fn months_that_settling_refuses() {
    for sheet in refused_months() {
        let refusal = settle_bytes(&build_sheet(&sheet)).unwrap_err();
        let expected = (refusal.number, refusal.place, u64::MAX);
        assert_eq!(collected(u64::MAX, &sheet, MAX_RATE + 1), expected);
    }
    // Model 5 with more than the meter shows: 11.
    let mut meters = by_meters();
    meters.header.shared_meter_wh = 1;
    assert_eq!(collected(9, &meters, 50_000), (11, 0, 9));
}

#[test]
fn order_of_refusals() {
    let good = Collection {
        balance: 1,
        sheet: build_sheet(&case_d()),
        rate: 50_000,
    };
    assert_eq!(after(good.run()), (0, 0, 2_501));
    let faults = ordered_faults();
    for (place, (first, answer)) in faults.iter().enumerate() {
        for (later, _) in &faults[place..] {
            let mut call = good.clone();
            later(&mut call);
            first(&mut call);
            let (number, place) = *answer;
            assert_eq!(after(call.run()), (number, place, call.balance));
        }
    }
}

/// The fee of each unit, exact to half a cent; a refused call leaves the balance.
#[test]
fn random_calls_keep_the_laws() {
    let mut rng = Rng::new(44);
    let mut answers = [0; 26];
    for _ in 0..30_000 {
        let call = random_fund_call(&mut rng);
        let (number, _, balance) = after(call.run());
        answers[number as usize] += 1;
        if number != 0 {
            assert_eq!(balance, call.balance());
            continue;
        }
        match call {
            FundCall::Collect(call) => assert_exact(&call, balance - call.balance),
            FundCall::Pay(call) => assert_eq!(balance + call.amount, call.balance),
        }
    }
    for number in (0..=12).chain([20, 23, 24, 25]) {
        assert!(answers[number] > 80, "few answers {number}: {answers:?}");
    }
}

/// Twice the distance of all fees is at most a cent for each unit that pays.
fn assert_exact(call: &Collection, fees: u64) {
    let sheet = read_sheet(&call.sheet);
    let of_unit = |unit: &&Unit| sheet.header.model < 3 || [1, 4].contains(&unit.status);
    let paying: Vec<u64> = sheet
        .units
        .iter()
        .filter(of_unit)
        .map(|unit| unit.heated_area.into())
        .collect();
    let exact: u64 = paying.iter().map(|area| area * u64::from(call.rate)).sum();
    assert!(2 * exact.abs_diff(10_000 * fees) <= 10_000 * paying.len() as u64);
}

/// Each call is answered as in the plain fund, and the balance is the accepted
/// fees less the accepted payments.
#[test]
fn random_call_lists() {
    let mut rng = Rng::new(45);
    let mut answers = [0; 26];
    for _ in 0..400 {
        let (mut fund, mut plain) = (0, PlainFund::default());
        for _ in 0..60 {
            let (answer, expected) = match next_fund_call(&mut rng, fund) {
                FundCall::Collect(call) => (
                    collect_fees(&mut fund, &call.sheet, call.rate),
                    plain.collect_fees(&call.sheet, call.rate),
                ),
                FundCall::Pay(call) => {
                    let answer = pay_out(&mut fund, call.amount);
                    (answer, plain.pay_out(call.amount))
                }
            };
            assert_eq!(answer, expected);
            let left = plain.accepted_fees() - plain.accepted_payments();
            assert_eq!(u128::from(fund), left);
            answers[answer.err().map_or(0, |refusal| refusal.number) as usize] += 1;
        }
    }
    for number in [0, 4, 6, 9, 20, 23, 24] {
        assert!(answers[number] > 100, "few answers {number}: {answers:?}");
    }
}
