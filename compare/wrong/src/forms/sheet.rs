//! Wrong readings of "The sheet" and of the order of refusals.

use crate::refusal::*;
use crate::sheet::{check, check_header, get_u16, read_header, HEADER_BYTES, ROW_BYTES};
use crate::{current, misread, Reading, Reading::*};

/// The tests in another order.
pub fn reordered(tests: &[(u32, bool)]) -> Vec<(u32, bool)> {
    let mut tests = tests.to_vec();
    let (earlier, later) = match current() {
        Some(DivisorBeforeWater) => (ZERO_DIVISOR, HOT_WATER_EXCEEDS_METER),
        Some(UnreadBeforeWater) => (NO_READINGS, HOT_WATER_EXCEEDS_METER),
        Some(CalorimetersBeforeWater) => (METERS_EXCEED_HEAT, HOT_WATER_EXCEEDS_METER),
        Some(OverchargeBeforeWater) => (UNMETERED_EXCEEDS_HEAT, HOT_WATER_EXCEEDS_METER),
        Some(UnreadBeforeDivisor) => (NO_READINGS, ZERO_DIVISOR),
        Some(CalorimetersBeforeDivisor) => (METERS_EXCEED_HEAT, ZERO_DIVISOR),
        Some(OverchargeBeforeDivisor) => (UNMETERED_EXCEEDS_HEAT, ZERO_DIVISOR),
        Some(OverchargeBeforeUnread) => (UNMETERED_EXCEEDS_HEAT, NO_READINGS),
        Some(MonthBeforeBuilding) => (MONTH_STATE, OTHER_BUILDING),
        _ => return tests,
    };
    let place = |number| tests.iter().position(|test| test.0 == number);
    if let (Some(from), Some(to)) = (place(earlier), place(later)) {
        tests[to..=from].rotate_right(1);
    }
    tests
}

/// Whether mark or version pass though they are wrong.
pub fn mark_passes(bytes: &[u8]) -> bool {
    misread(MarkByte3) && bytes.starts_with(b"HCS")
}

pub fn version_passes(bytes: &[u8]) -> bool {
    misread(VersionIn8Bits) && bytes[4] == 1
}

/// Refusals of the header's parts in another order.
pub fn before_mark(bytes: &[u8]) -> Result<(), Refusal> {
    let refused = misread(VersionBeforeMark) && get_u16(bytes, 4) != 1;
    refuse_if(refused, UNSUPPORTED_VERSION)
}

pub fn before_version(bytes: &[u8]) -> Result<(), Refusal> {
    if misread(HeaderBeforeVersion) {
        return check_header(&read_header(bytes));
    }
    Ok(())
}

pub fn before_header(bytes: &[u8], unit_bytes: usize) -> Result<(), Refusal> {
    let wanted = HEADER_BYTES + unit_bytes * usize::from(get_u16(bytes, 8));
    refuse_if(
        misread(LengthBeforeHeader) && bytes.len() != wanted,
        WRONG_LENGTH,
    )
}

/// The length that refusal 5 wants.
pub fn length(bytes: &[u8], unit_bytes: usize) -> Option<usize> {
    let count = usize::from(get_u16(bytes, 8));
    match current()? {
        LongerSheet => Some(bytes.len().max(HEADER_BYTES + unit_bytes * count)),
        RecordLength => Some(HEADER_BYTES + 32 * count),
        _ => None,
    }
}

/// A sheet's own refusal in a call beside settling, where 20 passes by one reading
/// and all places are 0 by the other.
pub fn own_refusal(
    checked: Result<(), Refusal>,
    [clash_passes, place_zero]: [Reading; 2],
) -> Result<(), Refusal> {
    match checked {
        Err(refusal) if refusal.number == FIELD_CONFLICT && misread(clash_passes) => Ok(()),
        Err(refusal) if misread(place_zero) => refuse(refusal.number),
        _ => checked,
    }
}

/// Whether 20 refuses a sheet and waits by this reading.
pub fn clash_after(reading: Reading, sheet: &[u8]) -> bool {
    let refused = || check(sheet, ROW_BYTES).err();
    misread(reading) && refused().is_some_and(|refusal| refusal.number == FIELD_CONFLICT)
}

/// Refusal 13 of a statement list that is tested before the sheet.
pub fn list_first(bytes: &[u8], list_len: usize) -> Result<(), Refusal> {
    let count = if bytes.len() < 10 {
        0
    } else {
        usize::from(get_u16(bytes, 8))
    };
    let first = misread(ListFirst) || clash_after(ClashAfterList, bytes);
    refuse_if(first && list_len != 8 * count, BUFFER_LENGTH)
}

/// The length that a statement list is taken to have.
pub fn taken_len(list_len: usize, wanted: usize) -> usize {
    if misread(LongerList) {
        return list_len.min(wanted);
    }
    list_len
}
