//! Sheets with fields past the ends of their ranges, one or two at a time, so
//! that it shows which is tested first (request 2026-03); and faults in the order
//! of their refusals.

use crate::damage::{put, HEADER_FIELDS};
use crate::ranges::{Field, Range};
use crate::rng::Rng;
use crate::samples::random_sheet;
use crate::sheet::{build_sheet, HEADER_BYTES, ROW_BYTES};

/// A random sheet's bytes with such fields.
pub fn faulty_sheet(rng: &mut Rng) -> Vec<u8> {
    let mut bytes = build_sheet(&random_sheet(rng));
    spoil(rng, &mut bytes);
    bytes
}

/// Puts one or two fields of the header, or of one row, past an end of a range;
/// sometimes that row's id is the one before it.
pub fn spoil(rng: &mut Rng, sheet: &mut [u8]) {
    let rows = (sheet.len() - HEADER_BYTES) / ROW_BYTES;
    let row = HEADER_BYTES + ROW_BYTES * rng.below(rows as u64) as usize;
    let in_header = rng.once_in(3);
    for _ in 0..rng.between(1, 2) {
        if in_header {
            spoil_header(rng, sheet);
        } else {
            spoil_row(rng, &mut sheet[row..]);
        }
    }
    if !in_header && row > HEADER_BYTES && rng.once_in(4) {
        sheet.copy_within(row - ROW_BYTES..row - ROW_BYTES + 4, row);
    }
}

/// Any field, by any of its ranges.
fn spoil_header(rng: &mut Rng, sheet: &mut [u8]) {
    let (byte, size) = one_of(rng, &HEADER_FIELDS);
    let is_of_field = |range: &&Range| match range.field() {
        Field::Header(offset, _) => offset == byte,
        Field::LaterInputs => byte >= 28,
        Field::Row(..) => false,
    };
    let ranges: Vec<Range> = Range::ALL.iter().filter(is_of_field).copied().collect();
    let range = one_of(rng, &ranges);
    put(sheet, (byte, size), past_an_end(rng, range));
}

/// By a fixed range or by one that clashes.
fn spoil_row(rng: &mut Rng, row: &mut [u8]) {
    let range = if rng.once_in(2) {
        one_of(rng, &Range::OF_ROWS)
    } else {
        one_of(rng, &Range::CLASHES)
    };
    if let Field::Row(offset, size) = range.field() {
        put(row, (offset, size), past_an_end(rng, range));
    }
}

/// A value past an end of the range: by one, or by more.
fn past_an_end(rng: &mut Rng, range: Range) -> u64 {
    let (lowest, highest) = range.ends();
    let highest = u64::from(highest);
    match rng.below(4) {
        0 if lowest > 0 => u64::from(lowest) - 1,
        1 => rng.between(highest + 1, 2 * highest + 60_000),
        _ => highest + 1,
    }
}

/// What spoils a call, and the number and place that refuse a call which has this
/// fault alone.
pub type OrderedFault<Call> = (Box<dyn Fn(&mut Call)>, (u32, u32));

/// The same of a sheet's bytes.
type SheetFault = (fn(&mut Vec<u8>), (u32, u32));

/// Faults of case A, or of case D, in a call with its bytes: 1 to 7 and 20, each
/// refused before those below it.
pub fn ordered_sheet_faults<Call: 'static>(
    sheet: fn(&mut Call) -> &mut Vec<u8>,
) -> Vec<OrderedFault<Call>> {
    let faults: [SheetFault; 9] = [
        (|sheet| sheet.truncate(47), (1, 0)),
        (|sheet| put(sheet, (3, 1), 1), (2, 0)),
        (|sheet| put(sheet, (4, 1), 2), (3, 0)),
        (|sheet| put(sheet, (7, 1), 6), (4, 7)),
        (|sheet| put(sheet, (44, 1), 1), (4, 44)),
        (|sheet| sheet.push(0), (5, 0)),
        (|sheet| put(sheet, (80 + 28, 1), 1), (20, 1)),
        (|sheet| put(sheet, (112 + 30, 1), 1), (6, 2)),
        (|sheet| put(sheet, (112, 1), 12), (7, 2)),
    ];
    let in_call = |(spoil, answer): SheetFault| -> OrderedFault<Call> {
        (Box::new(move |call| spoil(sheet(call))), answer)
    };
    faults.map(in_call).into()
}

fn one_of<T: Copy>(rng: &mut Rng, list: &[T]) -> T {
    list[rng.below(list.len() as u64) as usize]
}
