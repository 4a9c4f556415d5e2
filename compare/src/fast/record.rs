//! The archive record.

use super::month::Month;
use crate::record::{head, named_rules, HEAD_BYTES};
use crate::refusal::*;
use crate::rules::NEWEST;

pub fn statement_of<'a>(month: &Month, numbers: &'a mut [u32; 1280]) -> &'a [u32] {
    let numbers = &mut numbers[..8 * month.rows.len()];
    month.write_statement::<true>(numbers);
    numbers
}

pub fn write(sheet: &[u8], record: &mut [u8]) -> Result<(), Refusal> {
    let month = Month::of(sheet, 32, NEWEST)?;
    refuse_if(record.len() != 56 + 64 * month.rows.len(), BUFFER_LENGTH)?;
    let mut numbers = [0; 1280];
    let numbers = statement_of(&month, &mut numbers);
    let (front, rest) = record.split_at_mut(HEAD_BYTES);
    let (part, statement) = rest.split_at_mut(sheet.len());
    front.copy_from_slice(&head(NEWEST));
    part.copy_from_slice(sheet);
    let (words, _) = statement.as_chunks_mut::<4>();
    for (word, number) in words.iter_mut().zip(numbers) {
        *word = number.to_le_bytes();
    }
    Ok(())
}

/// The length of the sheet's part.
pub fn read(record: &[u8]) -> Result<usize, Refusal> {
    let Some(rules) = named_rules(record) else {
        return refuse(BAD_ARCHIVE);
    };
    let body = &record[HEAD_BYTES..];
    let month = Month::of(body, 64, rules)?;
    let mut numbers = [0; 1280];
    let numbers = statement_of(&month, &mut numbers);
    let length = 48 + 32 * month.rows.len();
    let (words, _) = body[length..].as_chunks::<4>();
    let same = words
        .iter()
        .zip(numbers)
        .all(|(word, number)| *word == number.to_le_bytes());
    refuse_if(!same, BAD_ARCHIVE)?;
    Ok(length)
}
