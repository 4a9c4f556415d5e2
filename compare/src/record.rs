//! Document 01, "Archive record": the writer and the reader. A record's head
//! names the rules that its sheet is settled by (request 2026-01).

use crate::refusal::*;
use crate::rules::{RuleSet, NEWEST};
use crate::settle::settle_sheet;
use crate::sheet::{check, read_sheet, HEADER_BYTES, RECORD_UNIT_BYTES, ROW_BYTES};

pub const HEAD_BYTES: usize = 8;

/// Mark, zero, the rules' archive version, two zeros.
pub fn head(rules: RuleSet) -> [u8; HEAD_BYTES] {
    let [low, high] = rules.archive_version().to_le_bytes();
    [b'H', b'C', b'A', 0, low, high, 0, 0]
}

/// The rules that a record's head names; none where the head is wrong.
pub fn named_rules(record: &[u8]) -> Option<RuleSet> {
    RuleSet::ALL
        .into_iter()
        .find(|&rules| record.starts_with(&head(rules)))
}

/// What the reader answers: number and place (0 and 0 for a good record), and
/// where in the record the sheet lies.
#[derive(Clone, Copy, Debug, PartialEq, Eq)]
pub struct RecordAnswer {
    pub number: u32,
    pub place: u32,
    pub part_start: usize,
    pub part_length: usize,
}

/// Settles the sheet and writes its record into `list`. A refusal leaves the
/// list as it was.
pub fn write_record(sheet: &[u8], list: &mut [u8]) -> Result<(), Refusal> {
    let record = record_of(sheet, NEWEST)?;
    refuse_if(list.len() != record.len(), BUFFER_LENGTH)?;
    list.copy_from_slice(&record);
    Ok(())
}

/// A sheet's record by the rules: refusals 1 to 12 with 20.
pub fn record_of(sheet: &[u8], rules: RuleSet) -> Result<Vec<u8>, Refusal> {
    check(sheet, ROW_BYTES)?;
    let outcome = settle_sheet(&read_sheet(sheet), rules)?;
    let statement = statement_bytes(&outcome.numbers);
    Ok([&head(rules), sheet, &statement].concat())
}

fn statement_bytes(numbers: &[u32]) -> Vec<u8> {
    numbers
        .iter()
        .flat_map(|number| number.to_le_bytes())
        .collect()
}

pub fn read_record(record: &[u8]) -> RecordAnswer {
    match sheet_length(record) {
        Ok(part_length) => RecordAnswer {
            number: 0,
            place: 0,
            part_start: HEAD_BYTES,
            part_length,
        },
        Err(Refusal { number, place }) => RecordAnswer {
            number,
            place,
            part_start: 0,
            part_length: 0,
        },
    }
}

/// The length of a good record's sheet, or the record's refusal.
fn sheet_length(record: &[u8]) -> Result<usize, Refusal> {
    let Some(rules) = named_rules(record) else {
        return refuse(BAD_ARCHIVE);
    };
    let body = &record[HEAD_BYTES..];
    check(body, RECORD_UNIT_BYTES)?;
    let outcome = settle_sheet(&read_sheet(body), rules)?;
    let part_length = HEADER_BYTES + ROW_BYTES * outcome.unit_count;
    let statement = &body[part_length..];
    refuse_if(statement != statement_bytes(&outcome.numbers), BAD_ARCHIVE)?;
    Ok(part_length)
}
