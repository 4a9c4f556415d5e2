//! Plausible and wrong readings of document 01 and of requests 2026-01 to
//! 2026-07, one at a time in force.
//!
//! The plain form's modules (`compare/src`) stand here as copies, made by
//! `build.rs`: an edit (`edits/`) puts a call of `forms` at each spot where a
//! reading differs. A reading is in force where `with_reading` says so; without
//! one the copy answers as the plain form does.
//!
//! To add a reading:
//!
//! - its name and description in `readings.rs`;
//! - its form in `forms`, in the function for its spot;
//! - where no edit calls such a function yet, an edit that does (`build.rs`
//!   says how one is written).
//!
//! `compare/run mutants` must find it.

pub mod forms;
pub mod readings;

include!(concat!(env!("OUT_DIR"), "/plain.rs"));

pub use readings::Reading;
use std::cell::Cell;

thread_local! {
    static IN_FORCE: Cell<Option<Reading>> = const { Cell::new(None) };
}

/// Runs a function under a wrong reading.
pub fn with_reading<T>(reading: Reading, run: impl FnOnce() -> T) -> T {
    IN_FORCE.set(Some(reading));
    let answer = run();
    IN_FORCE.set(None);
    answer
}

/// The wrong reading in force, if any.
pub fn current() -> Option<Reading> {
    IN_FORCE.get()
}

/// Whether this wrong reading is in force.
pub fn misread(reading: Reading) -> bool {
    current() == Some(reading)
}
