//! Wrong readings of "Archive record".

use super::sheet::clash_after;
use crate::record::{head, record_of, HEAD_BYTES};
use crate::refusal::*;
use crate::rules::RuleSet;
use crate::sheet::{check, get_u16, HEADER_BYTES, RECORD_UNIT_BYTES};
use crate::{current, misread, Reading, Reading::*};

/// The rules that a head names: those of another head, read rightly.
pub fn named_rules(record: &[u8]) -> Option<Option<RuleSet>> {
    let mut head = *record.first_chunk::<HEAD_BYTES>()?;
    match (current()?, get_u16(record, 4)) {
        (HeadZeros, _) => head[6..].fill(0),
        (HeadVersion, 0 | 4..) => head[4..6].copy_from_slice(&[3, 0]),
        (HeadVersionIn8Bits, _) => head[5] = 0,
        (Version0Accepted, 0) => head[4] = 1,
        (Version4Accepted, 4) => head[4] = 3,
        (Version1Refused, 1) | (Version2Refused, 2) | (Version3Refused, 3) => head[4] = 0,
        (Version2ByVersion1, 2) | (Version3ByVersion1, 3) => head[4] = 1,
        (Version1ByVersion2, 1) | (Version3ByVersion2, 3) => head[4] = 2,
        (Version1ByNewest, 1) | (Version2ByNewest, 2) => head[4] = 3,
        _ => return None,
    }
    Some(crate::record::named_rules(&head))
}

/// The record that the writer writes.
pub fn written(sheet: &[u8], mut record: Vec<u8>) -> Vec<u8> {
    let rules = match current() {
        Some(
            WrittenHead1 | WrittenByVersion1 | WrittenAsVersion1 | WrittenAsVersion1UnlessModel4,
        ) => RuleSet::Archive1,
        Some(WrittenHead2 | WrittenByVersion2 | WrittenAsVersion2 | WrittenAsVersion2IfAlike) => {
            RuleSet::Archive2
        }
        _ => return record,
    };
    let old = record_of(sheet, rules).expect("the sheet settles");
    match current() {
        Some(WrittenHead1 | WrittenHead2) => record[..HEAD_BYTES].copy_from_slice(&head(rules)),
        Some(WrittenByVersion1 | WrittenByVersion2) => {
            record[HEAD_BYTES..].copy_from_slice(&old[HEAD_BYTES..]);
        }
        Some(WrittenAsVersion1UnlessModel4) if sheet[7] == 4 => {}
        Some(WrittenAsVersion2IfAlike) if old[HEAD_BYTES..] != record[HEAD_BYTES..] => {}
        _ => return old,
    }
    record
}

/// Refusals that come before 14's head.
pub fn before_head(record: &[u8], head_len: usize) -> Result<(), Refusal> {
    refuse_if(misread(ShortRecord) && record.len() < head_len, TOO_SHORT)?;
    match record.get(head_len..) {
        Some(body) if misread(HeadAfterSheet) => check(body, RECORD_UNIT_BYTES),
        _ => Ok(()),
    }
}

/// A refusal of the sheet inside a record.
pub fn sheet_refusal(rules: RuleSet, refusal: Refusal) -> Refusal {
    let Refusal { number, place } = refusal;
    let (number, place) = match (current(), number) {
        (Some(StatementBeforeSheet), ROW_FIELD..) => (BAD_ARCHIVE, 0),
        (Some(RecordClashAs14), FIELD_CONFLICT) => (BAD_ARCHIVE, 0),
        (Some(reading), FIELD_CONFLICT) if without_clash(reading, rules) => (ROW_FIELD, place),
        (Some(reading), HEADER_FIELD) if without_byte(reading, rules) => (number, 0),
        (Some(HeaderFromRecord), HEADER_FIELD) => (number, place + 8),
        (Some(RecordRowAtByte), ROW_FIELD) => (number, 56 + 32 * place),
        _ => (number, place),
    };
    Refusal { number, place }
}

/// Whether a record's rules are taken to have no 20.
fn without_clash(reading: Reading, rules: RuleSet) -> bool {
    match rules {
        RuleSet::Archive1 => reading == Version1ClashAsRow,
        RuleSet::Archive2 => reading == Version2ClashAsRow,
        RuleSet::Archive3 => false,
    }
}

/// Whether a record's rules are taken to have 4 without its byte.
fn without_byte(reading: Reading, rules: RuleSet) -> bool {
    match rules {
        RuleSet::Archive1 => reading == Version1HeaderWithoutByte,
        RuleSet::Archive2 => reading == Version2HeaderWithoutByte,
        RuleSet::Archive3 => false,
    }
}

/// Whether a statement passes that differs.
pub fn statement_passes(rules: RuleSet, sheet: &[u8], statement: &[u8], expected: &[u8]) -> bool {
    let last = expected.len() - 4;
    let is_of =
        |rules: RuleSet| record_of(sheet, rules).is_ok_and(|record| record.ends_with(statement));
    match current() {
        Some(LastNumber) => {
            statement.len() == expected.len() && statement[..last] == expected[..last]
        }
        Some(OnlyEnergies) => {
            let rows = statement.chunks(32).zip(expected.chunks(32));
            statement.len() == expected.len() && rows.into_iter().all(|(a, b)| a[..16] == b[..16])
        }
        Some(NumbersOfAnyVersion) => RuleSet::ALL.into_iter().any(is_of),
        Some(NumbersOfVersion2In3) => rules == RuleSet::Archive3 && is_of(RuleSet::Archive2),
        Some(NumbersOfVersion3In2) => rules == RuleSet::Archive2 && is_of(RuleSet::Archive3),
        _ => false,
    }
}

/// The length of the sheet's part.
pub fn part_length(part_length: usize) -> usize {
    if misread(PartFromStart) {
        return 8 + part_length;
    }
    part_length
}

/// The length of a refused record's part.
pub fn refused_part_length(record: &[u8]) -> usize {
    if misread(PartOfRefused) && record.len() >= 18 {
        return HEADER_BYTES + 32 * usize::from(get_u16(record, 16));
    }
    0
}

/// Refusal 13 of a record list that is tested before the sheet.
pub fn list_first(sheet: &[u8], list_len: usize) -> Result<(), Refusal> {
    let count = if sheet.len() < 10 {
        0
    } else {
        usize::from(get_u16(sheet, 8))
    };
    let wanted = 56 + RECORD_UNIT_BYTES * count;
    let first = misread(RecordListFirst) || clash_after(ClashAfterList, sheet);
    refuse_if(first && list_len != wanted, BUFFER_LENGTH)
}

/// The part of a record list that the writer takes.
pub fn taken(list: &mut [u8], length: usize) -> &mut [u8] {
    if misread(LongerRecordList) && list.len() > length {
        return &mut list[..length];
    }
    list
}

/// A statement number's bytes.
pub fn number_bytes(number: u32) -> [u8; 4] {
    if misread(StatementNotLittleEndian) {
        return number.to_be_bytes();
    }
    number.to_le_bytes()
}
