//! An independent implementation of document 01 in plain Rust, with requests
//! 2026-01 to 2026-07.
//!
//! It was written from the documents alone and shares no code with the product.
//! Nothing here is proved. It makes the stored vectors of the gate, and it is
//! the other side when the product is compared on random and damaged input.
//!
//! Each program takes a folder and writes two files into it: `stdin`, the
//! input of a program under test, and `stdout`, the output expected of it.
//! They take no other input and give the same bytes on every run.
//!
//! - `cargo run --release --bin division_vectors FOLDER`: "Dividing". A vector
//!   is the count (16 bits), the total (32 bits) and the weights (64 bits
//!   each); its two lines hold the shares, with ties to the earlier item and with
//!   ties to the larger weight.
//! - `cargo run --release --bin sheet_vectors FOLDER`: refusals 1 to 7 and 20.
//!   A vector is a length (16 bits) and that many bytes; its line is `0 0` or
//!   number and place.
//! - `cargo run --release --bin month_vectors FOLDER`: whole months, vectors as
//!   before; the lines are those of "Printing".
//! - `cargo run --release --bin record_vectors FOLDER`: archive records, vectors
//!   as before; a line is number and place or `0 0`, the length of the sheet's
//!   part, and 1 where that sheet's record is the vector, else 0. The first
//!   vector is case A's record.
//! - `cargo run --release --bin book_vectors FOLDER`: "Year book". A vector is
//!   a call on one book and the first 1,280 of 1,281 sums: its kind (8 bits:
//!   open, post, replace, withdraw, year) and a sheet as before, or a month or
//!   place (32 bits). Kind 5 writes a number (16 bits) at a place of the book
//!   (16 bits), kind 6 a number (64 bits) at a place of the sums (16 bits), and
//!   kind 7 lends another count of sums from there on (16 bits). A line is
//!   number and place, for a year call k and the sums, then the book and all
//!   1,281 sums as a number each.
//! - `cargo run --release --bin group_vectors FOLDER`: request 2026-04. A vector
//!   is the length of all that follows (16 bits, at most 15,999), the count of
//!   buildings (8 bits, at most 13), for each its offset and its length (64 bits
//!   each), the shared reading (64 bits), the count of numbers in the lent list
//!   (16 bits, at most 2,561), and the buffer with the sheets: the bytes that
//!   are left. The list holds 1, 2, 3 and so on before the call. A line is
//!   number and place; then, for an accepted group of at most 64 numbers, the
//!   list's numbers, in every other case the list afterwards as one number
//!   (`vectors::digest`).
//! - `cargo run --release --bin charge_vectors FOLDER`: request 2026-05. A vector
//!   is the length of all that follows (16 bits, at most 5,300), the call's model
//!   and its three amounts (32 bits each: power, buyer's fee, supplier's fee), the
//!   count of numbers in the lent list (16 bits, at most 481), and the sheet: the
//!   bytes that are left. List and line are as for groups.
//! - `cargo run --release --bin fund_vectors FOLDER`: request 2026-07. A vector
//!   is a call on a fund: its kind (8 bits: 0 collect, 1 pay out) and the balance
//!   before it (64 bits); to collect the rate (32 bits), the sheet's length (16
//!   bits, at most 5,200) and the sheet; to pay out the amount (64 bits). A line is
//!   number and place, then the balance afterwards.
//!
//! All numbers in `stdin` are little-endian. `cargo test --release` runs the
//! document's cases and the random checks. `compare/run` compares the library
//! with this crate, and with a copy of it under wrong readings of the documents
//! (`compare/wrong`), which it must find; `fast` is the form that the library's
//! times stand beside.

pub mod apportion;
pub mod book;
pub mod calls;
pub mod cases;
pub mod charge_calls;
pub mod charges;
pub mod damage;
pub mod edges;
pub mod fast;
pub mod faults;
pub mod fund;
pub mod fund_calls;
pub mod group;
pub mod group_faults;
pub mod group_laws;
pub mod groups;
pub mod plain_book;
pub mod plain_fund;
pub mod portions;
pub mod print;
pub mod ranges;
pub mod record;
pub mod refusal;
pub mod rng;
pub mod rules;
pub mod samples;
pub mod settle;
pub mod sheet;
pub mod tied;
pub mod ties;
pub mod vectors;
pub mod weights;
pub mod whole;
