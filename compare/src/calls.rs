//! Random call lists for the year book.

use crate::damage::damage;
use crate::faults::spoil;
use crate::rng::Rng;
use crate::samples::{random_ids, random_sheet_of};
use crate::sheet::build_sheet;
use crate::tied::tie;

/// A book call with its own arguments.
#[derive(Clone, Debug)]
pub enum Call {
    Post(Vec<u8>),
    Replace(Vec<u8>),
    Withdraw(u32),
    Year(u32),
}

/// A random sheet of a building, for any month; half of them with equal
/// remainders.
pub fn sheet_of_building(rng: &mut Rng, ids: &[u32]) -> Vec<u8> {
    let month = rng.between(1, 12) as u8;
    let model = rng.between(1, 5) as u8;
    let source = rng.below(4) as u8;
    let mut sheet = random_sheet_of(rng, month, model, source, ids);
    if rng.once_in(2) {
        tie(rng, &mut sheet);
    }
    build_sheet(&sheet)
}

/// Mostly the building's own sheets; some damaged, some of another building.
fn sheet_for_call(rng: &mut Rng, ids: &[u32]) -> Vec<u8> {
    let mut other = ids.to_vec();
    match rng.below(12) {
        0 => other = random_ids(rng, ids.len()),
        1 => *other.last_mut().expect("a building has a unit") += 1,
        2 if ids.len() > 1 => other.truncate(ids.len() - 1),
        _ => {}
    }
    let mut sheet = sheet_of_building(rng, &other);
    match rng.below(10) {
        0 => damage(rng, &mut sheet),
        1 | 2 => spoil(rng, &mut sheet),
        _ => {}
    }
    sheet
}

pub fn random_call(rng: &mut Rng, ids: &[u32]) -> Call {
    match rng.below(10) {
        0..=4 => Call::Post(sheet_for_call(rng, ids)),
        5 | 6 => Call::Replace(sheet_for_call(rng, ids)),
        7 => Call::Withdraw(rng.below(15) as u32),
        _ if rng.once_in(20) => Call::Year(u32::MAX),
        _ => Call::Year(rng.below(ids.len() as u64 + 1) as u32),
    }
}
