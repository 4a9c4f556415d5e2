//! The wrong forms, by spot. A function that finds none of its readings in
//! force leaves the spot as the plain form has it.

pub mod bill;
pub mod book;
pub mod charges;
pub mod difference;
pub mod dividing;
pub mod fees;
pub mod fund;
pub mod group;
pub mod group_bill;
pub mod header;
pub mod heat;
pub mod print;
pub mod ranges;
pub mod record;
pub mod refusals;
pub mod rows;
pub mod rules;
pub mod sheet;
pub mod splits;
pub mod sums;
pub mod ties;
pub mod water;
