//! Document 01, "Refused sheets and calls", with requests 2026-02 to 2026-05 and
//! 2026-07: numbers and places.

/// A refusal's number, and its place: the row for 6, 7 and 20, the header
/// field's byte in the sheet for 4, else 0, also for the 4 of an amount or model
/// of the charges; a building's own refusal in a group has it raised by 160 ×
/// the building's place.
#[derive(Clone, Copy, Debug, PartialEq, Eq)]
pub struct Refusal {
    pub number: u32,
    pub place: u32,
}

/// stub
pub const TOO_SHORT: u32 = 1;
/// mark
pub const BAD_MAGIC: u32 = 2;
/// version
pub const UNSUPPORTED_VERSION: u32 = 3;
/// header
pub const HEADER_FIELD: u32 = 4;
/// length
pub const WRONG_LENGTH: u32 = 5;
/// row
pub const ROW_FIELD: u32 = 6;
/// order
pub const ID_ORDER: u32 = 7;
/// water
pub const HOT_WATER_EXCEEDS_METER: u32 = 8;
/// divisor
pub const ZERO_DIVISOR: u32 = 9;
/// unread
pub const NO_READINGS: u32 = 10;
/// calorimeters
pub const METERS_EXCEED_HEAT: u32 = 11;
/// overcharge
pub const UNMETERED_EXCEEDS_HEAT: u32 = 12;
/// list
pub const BUFFER_LENGTH: u32 = 13;
/// archive
pub const BAD_ARCHIVE: u32 = 14;
/// book
pub const BAD_YEAR_BOOK: u32 = 15;
/// building
pub const OTHER_BUILDING: u32 = 16;
/// month
pub const MONTH_STATE: u32 = 17;
/// place
pub const NO_SUCH_UNIT: u32 = 18;
/// sums
pub const BAD_YEAR_SUMS: u32 = 19;
/// clash
pub const FIELD_CONFLICT: u32 = 20;
/// difference
pub const NEGATIVE_COMMON_HEAT: u32 = 21;
/// group
pub const BAD_GROUP: u32 = 22;
/// fund short
pub const FUND_SHORT: u32 = 23;
/// rate
pub const RATE_TOO_HIGH: u32 = 24;
/// fund full
pub const FUND_FULL: u32 = 25;

/// A refusal at place 0.
pub fn refuse<T>(number: u32) -> Result<T, Refusal> {
    Err(Refusal { number, place: 0 })
}

/// A refusal at a row or at a byte.
pub fn refuse_at<T>(number: u32, place: usize) -> Result<T, Refusal> {
    let place = place as u32;
    Err(Refusal { number, place })
}

/// The first test that holds refuses, with its number.
pub fn refuse_first(tests: &[(u32, bool)]) -> Result<(), Refusal> {
    match tests.iter().find(|(_, fault)| *fault) {
        Some(&(number, _)) => refuse(number),
        None => Ok(()),
    }
}

/// `refuse(number)` when `fault` holds.
pub fn refuse_if(fault: bool, number: u32) -> Result<(), Refusal> {
    if fault {
        refuse(number)
    } else {
        Ok(())
    }
}
