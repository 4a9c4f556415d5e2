//! Wrong readings of which rules a call settles by.

use crate::refusal::Refusal;
use crate::rules::RuleSet;
use crate::settle::{settle_sheet, Outcome};
use crate::sheet::{check, read_sheet, ROW_BYTES};
use crate::{current, Reading, Reading::*};

/// What a sheet settles to in a call that goes by the rules of archive version 1
/// or 2, by one of two readings.
pub fn by_older([first, second]: [Reading; 2], sheet: &[u8]) -> Option<Result<Outcome, Refusal>> {
    let rules = match current()? {
        reading if reading == first => RuleSet::Archive1,
        reading if reading == second => RuleSet::Archive2,
        _ => return None,
    };
    Some(check(sheet, ROW_BYTES).and_then(|()| settle_sheet(&read_sheet(sheet), rules)))
}

/// The same in post and replace.
pub fn in_book(month_posted: bool, sheet: &[u8]) -> Option<Result<Outcome, Refusal>> {
    let second = match current()? {
        ReplaceByVersion2 if month_posted => ReplaceByVersion2,
        _ => BookByVersion2,
    };
    by_older([BookByVersion1, second], sheet)
}
