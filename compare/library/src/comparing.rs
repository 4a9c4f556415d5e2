//! One round: settle, write and read, sometimes a book, a group, charges or a
//! fund, and print.

use crate::books::compare_book;
use crate::calls;
use crate::charges::compare_charges;
use crate::difference::{same, Compared};
use crate::funds::{compare_fund_call, compare_new_fund};
use crate::groups::compare_group;
use crate::inputs::{list_len, random_bytes, record_to_read};
use crate::side::Side;
use crate::tally::Tally;
use crate::ways::Way;
use compare::damage::unit_count;
use compare::refusal::BUFFER_LENGTH;
use compare::rng::Rng;

/// A book has some sixty calls of its own, so that it comes once in so many
/// rounds.
const ROUNDS_A_BOOK: u64 = 125;
/// A group has some four sheets.
const ROUNDS_A_GROUP: u64 = 6;
/// Charges are one sheet's, but are to meet each of its refusals too.
const ROUNDS_A_CHARGE: u64 = 6;
/// So are the fees of a fund, with balances of their own; a quarter are payments.
const ROUNDS_A_FUND_CALL: u64 = 4;
/// A new fund has some forty calls of its own.
const ROUNDS_A_NEW_FUND: u64 = 250;

/// The rounds have numbers of their own, so that each can be run alone.
pub fn compare_round(side: &Side, seed: u64, round: u64, tally: &mut Tally) -> Compared<()> {
    let mut rng = Rng::new(seed ^ Rng::new(round).draw());
    let sheet = random_bytes(&mut rng);
    compare_settle(side, &mut rng, &sheet, tally)?;
    let written = compare_write(side, &mut rng, &sheet, tally)?;
    let record = record_to_read(&mut rng, &sheet, written);
    compare_read(side, &record, tally)?;
    if round.is_multiple_of(ROUNDS_A_BOOK) {
        compare_book(side, &mut rng, tally)?;
    }
    if round.is_multiple_of(ROUNDS_A_GROUP) {
        compare_group(side, &mut rng, tally)?;
    }
    if round.is_multiple_of(ROUNDS_A_CHARGE) {
        compare_charges(side, &mut rng, tally)?;
    }
    if round.is_multiple_of(ROUNDS_A_FUND_CALL) {
        compare_fund_call(side, &mut rng, tally)?;
    }
    if round.is_multiple_of(ROUNDS_A_NEW_FUND) {
        compare_new_fund(side, &mut rng, tally)?;
    }
    compare_print(side, &mut rng, &sheet)
}

fn compare_settle(side: &Side, rng: &mut Rng, sheet: &[u8], tally: &mut Tally) -> Compared<()> {
    let len = list_len(rng, 8 * unit_count(sheet));
    let mut ours = vec![9; len];
    let mut theirs = vec![9; len];
    let expected = (side.settle)(sheet, &mut ours);
    let number = calls::settle(sheet, &mut theirs);
    same("settle", sheet, expected, number)?;
    tally.count_month("settle", number, sheet);
    same("settle: statement", sheet, ours, theirs)
}

/// Writes the record both ways; gives back what the library's list holds.
fn compare_write(side: &Side, rng: &mut Rng, sheet: &[u8], tally: &mut Tally) -> Compared<Vec<u8>> {
    let len = list_len(rng, 56 + 64 * unit_count(sheet));
    let mut ours = vec![3; len];
    let mut theirs = vec![3; len];
    let expected = (side.write_record)(sheet, &mut ours);
    let number = calls::write_record(sheet, &mut theirs);
    same("write", sheet, expected, number)?;
    same("write: record", sheet, &ours, &theirs)?;
    tally.count_month("write", number, sheet);
    Ok(theirs)
}

fn compare_read(side: &Side, bytes: &[u8], tally: &mut Tally) -> Compared<()> {
    let (expected, expected_len) = (side.read_record)(bytes);
    let number = calls::read_record(bytes);
    same("read", bytes, expected, number)?;
    let len = calls::record_sheet_len(bytes);
    tally.count_sheet("read", number, bytes.get(8..).unwrap_or(&[]));
    if let Some(way) = Way::of_record(number, bytes) {
        tally.count_way("read", way);
    }
    same("read: sheet length", bytes, expected_len, len)
}

/// Asks with an empty list for the text's length, then prints.
fn compare_print(side: &Side, rng: &mut Rng, sheet: &[u8]) -> Compared<()> {
    let expected = (side.print)(sheet, &mut []);
    let text_len = calls::print(sheet, &mut []);
    same("print: length", sheet, expected, text_len)?;
    // Settled, it is 13 that refuses an empty list.
    let settled = calls::settle(sheet, &mut []) == BUFFER_LENGTH;
    let longest = 49
        + if settled {
            99 * unit_count(sheet) as u64
        } else {
            0
        };
    same("print: longest", sheet, text_len.max(longest), longest)?;
    let len = list_len(rng, text_len as usize);
    let mut ours = vec![5; len];
    let mut theirs = vec![5; len];
    let expected = (side.print)(sheet, &mut ours);
    let text_len = calls::print(sheet, &mut theirs);
    same("print", sheet, expected, text_len)?;
    same("print: text", sheet, ours, theirs)
}
