//! Random inputs: sheets, damaged sheets, records, books and their sums.

use compare::book::{block, matching_sums, BOOK_LEN, SUMS_LEN};
use compare::calls::Call;
use compare::damage::{damage, damaged_sheet, put};
use compare::edges::{border_sheet, sheet_at_an_end};
use compare::faults::faulty_sheet;
use compare::record::{head, named_rules, record_of};
use compare::rng::Rng;
use compare::rules::RuleSet;
use compare::samples::random_sheet;
use compare::settle::settle_bytes;
use compare::sheet::build_sheet;
use compare::tied::tied_sheet;

/// A sheet, good or bad, or any bytes.
pub fn random_bytes(rng: &mut Rng) -> Vec<u8> {
    match rng.below(22) {
        0..=5 => build_sheet(&random_sheet(rng)),
        6..=8 => border_sheet(rng),
        9..=11 => sheet_at_an_end(rng),
        12..=14 => damaged_sheet(rng),
        15..=17 => faulty_sheet(rng),
        18..=20 => tied_sheet(rng),
        _ => (0..rng.below(200)).map(|_| rng.draw() as u8).collect(),
    }
}

/// The length that a list should have, sometimes another one.
pub fn list_len(rng: &mut Rng, right: usize) -> usize {
    match rng.below(24) {
        0 => right + 1,
        1 => right.saturating_sub(1),
        2 => rng.below(2 * right as u64 + 2) as usize,
        _ => right,
    }
}

/// A record for the reader: one that was written, the sheet's of some archive
/// version, or the sheet's with any statement; then perhaps damaged.
pub fn record_to_read(rng: &mut Rng, sheet: &[u8], written: Vec<u8>) -> Vec<u8> {
    let settled = named_rules(&written).is_some();
    let mut record = match rng.below(8) {
        0..=1 if settled => written,
        2..=6 if settled => record_of_version(rng, sheet),
        _ => record_of_nothing(rng, sheet),
    };
    match rng.below(10) {
        0 => damage(rng, &mut record),
        1 if !record.is_empty() => {
            let place = rng.below(record.len() as u64) as usize;
            record[place] ^= 1 << rng.below(8);
        }
        2 if record.len() >= 8 => record[rng.below(8) as usize] = rng.below(5) as u8,
        3 if record.len() >= 4 => {
            let last = record.len() - 1 - rng.below(4) as usize;
            record[last] ^= 1 << rng.below(8);
        }
        4 => record.truncate(rng.below(record.len() as u64 + 1) as usize),
        _ => {}
    }
    record
}

/// Archive versions of wrong heads; three have the lower byte of a right one.
const WRONG_VERSIONS: [u64; 7] = [0, 4, 256, 257, 258, 259, 512];

/// A settled sheet's record with the numbers of some archive version, under the
/// head of some archive version or under a wrong one.
fn record_of_version(rng: &mut Rng, sheet: &[u8]) -> Vec<u8> {
    let mut record = record_of(sheet, random_rules(rng)).expect("the sheet settles");
    match rng.below(6) {
        0..=3 => record[..8].copy_from_slice(&head(random_rules(rng))),
        4 => put(&mut record, (4, 2), WRONG_VERSIONS[rng.below(7) as usize]),
        _ => {}
    }
    record
}

/// The sheet, settled or not, with random bytes for its statement.
fn record_of_nothing(rng: &mut Rng, sheet: &[u8]) -> Vec<u8> {
    let mut record = [&head(random_rules(rng)), sheet].concat();
    let rows = sheet.len().saturating_sub(48);
    record.extend((0..rows).map(|_| rng.draw() as u8));
    record
}

fn random_rules(rng: &mut Rng) -> RuleSet {
    RuleSet::ALL[rng.below(RuleSet::ALL.len() as u64) as usize]
}

/// A book of random contents, large numbers or small ones, mostly with a right n
/// and right marks, and mostly with the ids of a building.
pub fn random_book(rng: &mut Rng, len: usize, ids: &[u32]) -> Vec<u32> {
    let size = rng.below(2) * rng.below(32);
    let mut book: Vec<u32> = (0..len).map(|_| rng.draw() as u32 >> size).collect();
    if len < 197 {
        return book;
    }
    if !rng.once_in(10) {
        book[0] = ids.len() as u32;
    } else if rng.once_in(2) {
        book[0] = rng.between(159, 162) as u32;
    }
    if !rng.once_in(10) {
        book[1..13].fill_with(|| rng.below(2) as u32);
    }
    book[37..37 + ids.len()].copy_from_slice(ids);
    if rng.once_in(2) {
        book[37 + ids.len()..197].fill(0);
    }
    book
}

/// Sums for a book: mostly those that match, else of any size.
pub fn random_sums(rng: &mut Rng, book: &[u32]) -> Vec<u64> {
    if book.len() == BOOK_LEN && !rng.once_in(8) {
        return matching_sums(book);
    }
    let size = rng.below(64);
    (0..SUMS_LEN).map(|_| rng.draw() >> size).collect()
}

/// Writes the sums before a call, if at all: one number, so that the call just
/// fits or just doesn't; another length; or all anew, mostly right again.
pub fn disturb_sums(rng: &mut Rng, book: &[u32], sums: &mut Vec<u64>, call: &Call) {
    match rng.below(16) {
        0..=6 if book.len() == BOOK_LEN => {
            *sums = matching_sums(book);
            set_one_sum(rng, book, sums, call);
        }
        7 => sums.resize(other_sums_len(rng), 0),
        8..=10 => *sums = random_sums(rng, book),
        _ => {}
    }
}

/// At a place of the month's block, mostly one where something comes: what goes
/// off, or one less; or the most to which the new number can come, or one more.
fn set_one_sum(rng: &mut Rng, book: &[u32], sums: &mut [u64], call: &Call) {
    let (month, new) = match call {
        Call::Post(sheet) | Call::Replace(sheet) => match settle_bytes(sheet) {
            Ok(outcome) => (usize::from(outcome.month), outcome.numbers),
            Err(_) => return,
        },
        Call::Withdraw(month @ 1..=12) => (*month as usize, Vec::new()),
        _ => return,
    };
    let filled: Vec<usize> = (0..new.len()).filter(|&place| new[place] > 0).collect();
    let place = if filled.is_empty() || rng.once_in(4) {
        rng.below(SUMS_LEN as u64) as usize
    } else {
        filled[rng.below(filled.len() as u64) as usize]
    };
    let most = u64::MAX - new.get(place).map_or(0, |&number| u64::from(number));
    let old = u64::from(block(book, month - 1)[place]);
    sums[place] = match (call, rng.below(4)) {
        (Call::Post(_), choice) => most.saturating_add(choice % 2),
        (_, 0) => old,
        (_, 1) => old.saturating_sub(1),
        (_, choice) => most.saturating_add(old).saturating_add(choice % 2),
    };
}

pub fn other_sums_len(rng: &mut Rng) -> usize {
    match rng.below(4) {
        0 => SUMS_LEN - 1,
        1 | 2 => SUMS_LEN + 1,
        _ => rng.below(2 * SUMS_LEN as u64) as usize,
    }
}
