//! Wrong readings of request 2026-07: the calls on a fund.

use crate::fund::{pays, sheet_fees, MAX_RATE};
use crate::refusal::*;
use crate::settle::check_month;
use crate::sheet::{check, read_sheet, Sheet, ROW_BYTES};
use crate::{current, misread, Reading::*};

/// What is tested before the sheet.
pub fn before_sheet(rate: u32) -> Result<(), Refusal> {
    refuse_if(misread(RateBeforeSheet) && rate > MAX_RATE, RATE_TOO_HIGH)
}

/// What is tested before the sheet by the balance.
pub fn before_fees(balance: u64, bytes: &[u8], rate: u32) -> Result<(), Refusal> {
    let passes = |sheet: &Sheet| sheet_fees(sheet, rate) > u64::MAX - balance;
    let sheet = check(bytes, ROW_BYTES).map(|()| read_sheet(bytes));
    let full = match (current(), &sheet) {
        (Some(FullBeforeSheet), _) => balance == u64::MAX,
        (Some(FullBeforeMonth), Ok(sheet)) => passes(sheet),
        (Some(FullBeforeRate), Ok(sheet)) => check_month(sheet).is_ok() && passes(sheet),
        _ => false,
    };
    refuse_if(full, FUND_FULL)
}

/// What is tested between 1 to 7 and 8 to 12.
pub fn before_month(rate: u32) -> Result<(), Refusal> {
    refuse_if(misread(RateBeforeMonth) && rate > MAX_RATE, RATE_TOO_HIGH)
}

/// 8 to 12.
pub fn of_month(checked: Result<(), Refusal>) -> Result<(), Refusal> {
    match (current(), checked) {
        (Some(FeesOfRefusedMonth), _) => Ok(()),
        (Some(FeesOfUnreadMonth), Err(refusal)) if refusal.number == NO_READINGS => Ok(()),
        (Some(FeesOfOvercharge), Err(refusal)) if refusal.number == UNMETERED_EXCEEDS_HEAT => {
            Ok(())
        }
        _ => checked,
    }
}

/// 24.
pub fn refuse_rate(sheet: &Sheet, rate: u32) -> Option<Result<(), Refusal>> {
    let above = |limit| refuse_if(rate > limit, RATE_TOO_HIGH);
    let too_high = rate > MAX_RATE;
    let first = sheet.units.iter().position(|unit| pays(sheet, unit));
    match current()? {
        RateLimitExcluded => Some(above(MAX_RATE - 1)),
        RateLimitPlusOne => Some(above(MAX_RATE + 1)),
        RateNotTested | RateCapped => Some(Ok(())),
        RateOfZero => Some(refuse_if(too_high || rate == 0, RATE_TOO_HIGH)),
        RateBelowFirst => Some(refuse_if(too_high || rate < 50_000, RATE_TOO_HIGH)),
        RateOnlyWithFees => Some(refuse_if(too_high && first.is_some(), RATE_TOO_HIGH)),
        RateAsHeader => Some(refuse_if(too_high, HEADER_FIELD)),
        RateAsFull => Some(refuse_if(too_high, FUND_FULL)),
        RateAtRow if too_high => Some(refuse_at(RATE_TOO_HIGH, first.unwrap_or(0))),
        _ => None,
    }
}

/// The rate as it is taken.
pub fn taken_rate(rate: u32) -> u32 {
    match current() {
        Some(RateCapped) => rate.min(MAX_RATE),
        Some(RateFixed) => 50_000,
        _ => rate,
    }
}

/// What a collection refused before 25 leaves.
pub fn refused(fund: &mut u64, bytes: &[u8], rate: u32, refusal: &Refusal) {
    let by_month = (HOT_WATER_EXCEEDS_METER..=UNMETERED_EXCEEDS_HEAT).contains(&refusal.number);
    let by_rate = refusal.number == RATE_TOO_HIGH;
    match current() {
        Some(RefusedSheetEmpties) if !by_rate => *fund = 0,
        Some(RefusedMonthTaken) if by_month => {
            *fund = fund.wrapping_add(sheet_fees(&read_sheet(bytes), rate));
        }
        Some(RefusedRateTaken) if by_rate => {
            *fund = fund.wrapping_add(sheet_fees(&read_sheet(bytes), rate));
        }
        _ => {}
    }
}

/// The fees go into the fund, or 25.
pub fn filled(fund: &mut u64, fees: u64, bytes: &[u8], rate: u32) -> Option<Result<(), Refusal>> {
    let (sum, full) = fund.overflowing_add(fees);
    let most = match current()? {
        FullAtLargest => u64::MAX - 1,
        FundIn63Bits => u64::MAX >> 1,
        FundIn32Bits => u32::MAX.into(),
        FullWithoutFees => return (*fund == u64::MAX).then(|| refuse(FUND_FULL)),
        FullAsRate if full => return Some(refuse(RATE_TOO_HIGH)),
        FullAtRow if full => return Some(refuse_at(FUND_FULL, fitting(*fund, bytes, rate).0)),
        _ => {
            let (after, answer) = written(*fund, fees, bytes, rate)?;
            *fund = after;
            return Some(answer);
        }
    };
    if full || sum > most {
        return Some(refuse(FUND_FULL));
    }
    *fund = sum;
    Some(Ok(()))
}

/// Another balance afterwards.
fn written(fund: u64, fees: u64, bytes: &[u8], rate: u32) -> Option<(u64, Result<(), Refusal>)> {
    let (sum, full) = fund.overflowing_add(fees);
    match current()? {
        FullWraps => Some((sum, Ok(()))),
        FullStops => Some((fund.saturating_add(fees), Ok(()))),
        FeesReplaceBalance => Some((fees, Ok(()))),
        FeesTakenOff => Some((fund.wrapping_sub(fees), Ok(()))),
        RefusedFeesWrap if full => Some((sum, refuse(FUND_FULL))),
        RefusedFeesStop if full => Some((u64::MAX, refuse(FUND_FULL))),
        RefusedRowsTaken if full => Some((fitting(fund, bytes, rate).1, refuse(FUND_FULL))),
        _ => None,
    }
}

/// How many units' fees the fund has room for, and the balance with these.
fn fitting(fund: u64, bytes: &[u8], rate: u32) -> (usize, u64) {
    let mut sheet = read_sheet(bytes);
    while fund.checked_add(sheet_fees(&sheet, rate)).is_none() {
        sheet.units.pop();
    }
    (sheet.units.len(), fund + sheet_fees(&sheet, rate))
}

/// An amount goes out of the fund, or 23.
pub fn paid(fund: &mut u64, amount: u64) -> Option<Result<(), Refusal>> {
    let (left, short) = fund.overflowing_sub(amount);
    let (after, number) = match current()? {
        ShortAtBalance if left == 0 => (*fund, FUND_SHORT),
        NothingPaidRefused if amount == 0 => (*fund, FUND_SHORT),
        NothingOfNothingRefused if (*fund, amount) == (0, 0) => (0, FUND_SHORT),
        ShortWraps => (left, 0),
        ShortStops => (fund.saturating_sub(amount), 0),
        ShortAsFull if short => (*fund, FUND_FULL),
        ShortAtPlace1 if short => return Some(refuse_at(FUND_SHORT, 1)),
        RefusedPaymentEmpties if short => (0, FUND_SHORT),
        RefusedPaymentWraps if short => (left, FUND_SHORT),
        PaymentAdded => (fund.wrapping_add(amount), 0),
        PaymentKept if !short => (*fund, 0),
        PaymentIn32Bits if !short => (*fund - amount % (1 << 32), 0),
        PaymentInEuro => {
            let cents = amount.checked_mul(100).filter(|cents| cents <= fund);
            cents.map_or((*fund, FUND_SHORT), |cents| (*fund - cents, 0))
        }
        _ => return None,
    };
    *fund = after;
    Some(refuse_if(number != 0, number))
}
