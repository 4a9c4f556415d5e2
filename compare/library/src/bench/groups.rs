//! Twelve buildings on one meter.

use super::cases::changed_sheets;
use super::{print_head, print_line, print_pair, print_pair_head};
use crate::calls;
use compare::fast::group::settle_group;
use compare::group::Building;
use compare::sheet::get_u32;
use std::hint::black_box;

const BUILDINGS: usize = 12;

/// Sheets of one month and price, of any model, that settle and whose readings
/// add to less than 4,000,000,000.
pub fn group_sheets(seed: u64, count: usize) -> Vec<Vec<u8>> {
    changed_sheets(seed, BUILDINGS, count, &[1, 2, 3, 4, 5], |sheet| {
        let header = &mut sheet.header;
        header.month = 1;
        header.price = 12_345;
        header.shared_meter_wh = header.shared_meter_wh.min(300_000_000);
    })
}

/// The buildings of twelve sheets of one length, one after the other.
pub fn buildings_of(sheets: &[u8]) -> Vec<Building> {
    let length = sheets.len() / BUILDINGS;
    let place = |place: usize| Building {
        offset: (length * place) as u64,
        length: length as u64,
    };
    (0..BUILDINGS).map(place).collect()
}

pub fn run(seed: u64) {
    print_head("group of 12, a building");
    for count in [160, 8, 1] {
        beside_fast(&format!("n {count}, any model"), &group_sheets(seed, count));
    }
    print_pair_head("groups beside settling, a building", ["group", "settle"]);
    for count in [160, 8, 1] {
        beside_settling(&format!("n {count}, any model"), &group_sheets(seed, count));
    }
}

/// Above the sum of readings.
fn shared_reading(sheets: &[Vec<u8>]) -> u64 {
    let readings = sheets.iter().map(|sheet| u64::from(get_u32(sheet, 16)));
    readings.sum::<u64>() + 1_234_567
}

fn list_for(sheets: &[Vec<u8>]) -> Vec<u32> {
    vec![0; sheets.iter().map(|sheet| (sheet.len() - 48) / 4).sum()]
}

fn beside_fast(name: &str, sheets: &[Vec<u8>]) {
    let (buffer, shared_wh) = (sheets.concat(), shared_reading(sheets));
    let buildings = buildings_of(&buffer);
    let [mut a, mut b, mut c] = [list_for(sheets), list_for(sheets), list_for(sheets)];
    let mut library = || {
        let buffer = black_box(&buffer);
        black_box(calls::settle_group(buffer, &buildings, shared_wh, &mut a));
    };
    let mut division = || {
        let buffer = black_box(&buffer);
        black_box(settle_group::<false>(buffer, &buildings, shared_wh, &mut b)).ok();
    };
    let mut reciprocal = || {
        let buffer = black_box(&buffer);
        black_box(settle_group::<true>(buffer, &buildings, shared_wh, &mut c)).ok();
    };
    let sides = [&mut library as _, &mut division as _, &mut reciprocal as _];
    print_line(name, BUILDINGS, sides);
    assert!(a == b && a == c, "the sides settle alike");
}

/// One call beside a call a sheet.
fn beside_settling(name: &str, sheets: &[Vec<u8>]) {
    let (buffer, shared_wh) = (sheets.concat(), shared_reading(sheets));
    let buildings = buildings_of(&buffer);
    let [mut a, mut b] = [list_for(sheets), vec![0; (sheets[0].len() - 48) / 4]];
    print_pair(
        name,
        BUILDINGS,
        [
            &mut || {
                let buffer = black_box(&buffer);
                black_box(calls::settle_group(buffer, &buildings, shared_wh, &mut a));
            },
            &mut || {
                for sheet in sheets {
                    black_box(calls::settle(black_box(sheet), &mut b));
                }
            },
        ],
    );
}
