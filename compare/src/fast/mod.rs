//! A fast form of the calls, for the benchmarks: one pass over the rows checks
//! and sums them, lists are fixed arrays, nothing is on the heap, and the
//! largest remainders are selected without a sort.

pub mod book;
pub mod charges;
pub mod dividing;
pub mod fund;
pub mod group;
pub mod header;
pub mod month;
pub mod print;
pub mod record;
pub mod rows;

use crate::refusal::{refuse_if, Refusal, BUFFER_LENGTH};
use crate::rules::NEWEST;
use month::Month;

/// Settles a sheet into a list of 8n numbers: refusals 1 to 12 with 20, then 13.
pub fn settle<const RECIPROCAL: bool>(sheet: &[u8], statement: &mut [u32]) -> Result<(), Refusal> {
    let month = Month::of(sheet, 32, NEWEST)?;
    refuse_if(statement.len() != 8 * month.rows.len(), BUFFER_LENGTH)?;
    month.write_statement::<RECIPROCAL>(statement);
    Ok(())
}
