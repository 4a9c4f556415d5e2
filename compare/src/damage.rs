//! Damage to the bytes of sheets.

use crate::rng::Rng;
use crate::samples::random_sheet;
use crate::sheet::{build_sheet, get_u16, HEADER_BYTES, MAX_UNITS, ROW_BYTES};

/// Offset and size of each header field behind mark and version.
pub const HEADER_FIELDS: [(usize, usize); 17] = [
    (6, 1),
    (7, 1),
    (8, 2),
    (10, 1),
    (11, 1),
    (12, 1),
    (13, 1),
    (14, 1),
    (15, 1),
    (16, 4),
    (20, 4),
    (24, 4),
    (28, 4),
    (32, 4),
    (36, 4),
    (40, 4),
    (44, 4),
];

/// Offset inside the row and size of each row field.
const ROW_FIELDS: [(usize, usize); 11] = [
    (0, 4),
    (4, 1),
    (5, 1),
    (6, 2),
    (8, 4),
    (12, 4),
    (16, 4),
    (20, 4),
    (24, 4),
    (28, 2),
    (30, 2),
];

/// Writes the low `size` bytes of `value` at `offset`.
pub fn put(bytes: &mut [u8], (offset, size): (usize, usize), value: u64) {
    bytes[offset..offset + size].copy_from_slice(&value.to_le_bytes()[..size]);
}

/// n as the header has it, at most 160; 0 where it has none.
pub fn unit_count(sheet: &[u8]) -> usize {
    if sheet.len() < 10 {
        return 0;
    }
    usize::from(get_u16(sheet, 8)).min(MAX_UNITS)
}

/// A random sheet's bytes with one to three damages.
pub fn damaged_sheet(rng: &mut Rng) -> Vec<u8> {
    let mut bytes = build_sheet(&random_sheet(rng));
    for _ in 0..rng.between(1, 3) {
        damage(rng, &mut bytes);
    }
    bytes
}

/// Damages bytes in one way. Bytes too short for the damage stay as they are.
pub fn damage(rng: &mut Rng, bytes: &mut Vec<u8>) {
    let length = bytes.len() as u64;
    match rng.below(10) {
        0 => bytes.truncate(rng.below(length + 1) as usize),
        1 => bytes.push(rng.draw() as u8),
        2 => bytes.resize(bytes.len() + ROW_BYTES * rng.between(1, 3) as usize, 0),
        3 if length > 0 => {
            let place = rng.below(length.min(6)) as usize;
            bytes[place] = rng.draw() as u8;
        }
        4 if length > 0 => {
            let place = rng.below(length) as usize;
            bytes[place] ^= 1 << rng.below(8);
        }
        5 | 6 => {
            let (offset, size) = HEADER_FIELDS[rng.below(17) as usize];
            change_field(rng, bytes, (offset, size));
        }
        _ => {
            let rows = length.saturating_sub(HEADER_BYTES as u64) / ROW_BYTES as u64;
            let row = rng.below(rows.max(1)) as usize;
            let (offset, size) = ROW_FIELDS[rng.below(11) as usize];
            change_field(rng, bytes, (HEADER_BYTES + ROW_BYTES * row + offset, size));
        }
    }
}

/// Sets a field to a value near an end of some range.
fn change_field(rng: &mut Rng, bytes: &mut [u8], (offset, size): (usize, usize)) {
    const ENDS: [u64; 18] = [
        0,
        1,
        2,
        5,
        20,
        30,
        50,
        60,
        160,
        200,
        1_000,
        10_000,
        50_000,
        100_000,
        1_000_000,
        20_000_000,
        25_000_000,
        4_000_000_000,
    ];
    if offset + size > bytes.len() {
        return;
    }
    let end = ENDS[rng.below(18) as usize];
    let value = (end + rng.below(3)).wrapping_sub(1);
    put(bytes, (offset, size), value);
}
