//! Random groups of buildings (request 2026-04).

use crate::damage::unit_count;
use crate::group::{adjusted_common_heat, difference_shares, settle_group, total_area, Building};
use crate::group_faults::{spoil_list, spoil_sheet, Fault};
use crate::refusal::Refusal;
use crate::rng::Rng;
use crate::rules::NEWEST;
use crate::samples::{random_ids, random_metered_sheet};
use crate::settle::{common_heat, settle_sheet};
use crate::sheet::{build_sheet, Header, Sheet, Unit, MAX_WH};
use crate::tied::{round_price, tie, tied_total};

/// What a group call is given, and how long its statement list is.
#[derive(Clone, Debug)]
pub struct Group {
    pub buffer: Vec<u8>,
    pub buildings: Vec<Building>,
    pub shared_wh: u64,
    pub list_len: usize,
}

impl Group {
    /// The sheets one after the other, for a list of the right length.
    pub fn of(sheets: &[Sheet], shared_wh: u64) -> Group {
        let bytes: Vec<Vec<u8>> = sheets.iter().map(build_sheet).collect();
        let mut group = Group {
            buffer: Vec::new(),
            buildings: Vec::new(),
            shared_wh,
            list_len: 8 * sheets.iter().map(|sheet| sheet.units.len()).sum::<usize>(),
        };
        for sheet in &bytes {
            group.lay(sheet);
        }
        group
    }

    /// The plain form's answer.
    pub fn settle(&self) -> Result<Vec<u32>, Refusal> {
        settle_group(&self.buffer, &self.buildings, self.shared_wh, self.list_len)
    }

    /// Puts a sheet behind the buffer's end and into the list.
    fn lay(&mut self, sheet: &[u8]) {
        self.name(self.buffer.len(), sheet.len());
        self.buffer.extend(sheet);
    }

    fn name(&mut self, offset: usize, length: usize) {
        self.buildings.push(Building {
            offset: offset as u64,
            length: length as u64,
        });
    }
}

/// Any group: half of them without a fault, else with one or two.
pub fn random_group(rng: &mut Rng) -> Group {
    let (sheets, shared_wh) = sound_group(rng);
    let faults = [0, 0, 0, 0, 0, 1, 1, 1, 2, 2][rng.below(10) as usize];
    let faults: Vec<Fault> = (0..faults).map(|_| Fault::random(rng)).collect();
    group_with(rng, sheets, shared_wh, &faults)
}

/// Sheets and a shared reading without a fault, unless a common heat goes below
/// zero.
pub fn sound_group(rng: &mut Rng) -> (Vec<Sheet>, u64) {
    let sheets = random_sheets(rng);
    let shared_wh = random_shared(rng, &sheets);
    (sheets, shared_wh)
}

fn group_with(rng: &mut Rng, mut sheets: Vec<Sheet>, shared_wh: u64, faults: &[Fault]) -> Group {
    let place = rng.below(sheets.len() as u64) as usize;
    let header = &mut sheets[place].header;
    if faults.contains(&Fault::Month) {
        header.month = 1 + (header.month + rng.below(11) as u8) % 12;
    }
    if faults.contains(&Fault::Price) {
        header.price ^= if rng.once_in(2) { 1 } else { 16_384 };
        header.price = header.price.min(100_000);
    }
    let mut bytes: Vec<Vec<u8>> = sheets.iter().map(build_sheet).collect();
    for _ in faults.iter().filter(|fault| **fault == Fault::Sheet) {
        let place = rng.below(sheets.len() as u64) as usize;
        bytes[place] = spoil_sheet(rng, &sheets[place]);
    }
    let mut group = laid_out(rng, &bytes);
    group.shared_wh = shared_wh;
    let units = bytes.iter().map(|sheet| unit_count(sheet));
    group.list_len = 8 * units.sum::<usize>();
    for fault in faults {
        spoil_list(rng, &mut group, *fault);
    }
    group
}

/// The sheets in a buffer: in the list's order or the other way round, some
/// with bytes before them, equal ones sometimes laid once, and one over the
/// end of another where it begins with the same 32 bytes.
fn laid_out(rng: &mut Rng, sheets: &[Vec<u8>]) -> Group {
    let mut group = Group::of(&[], 0);
    let (turned, once, gaps) = (rng.once_in(8), rng.once_in(2), rng.once_in(3));
    let mut order: Vec<&Vec<u8>> = sheets.iter().collect();
    if turned {
        order.reverse();
    }
    let mut before: Option<&[u8]> = None;
    for sheet in order {
        if once && before == Some(sheet) {
            group
                .buildings
                .extend_from_within(group.buildings.len() - 1..);
            continue;
        }
        let ends_alike = sheet.len() >= 32 && group.buffer.ends_with(&sheet[..32]);
        if ends_alike {
            group.name(group.buffer.len() - 32, sheet.len());
            group.buffer.extend(&sheet[32..]);
        } else {
            let gap = if gaps { rng.below(40) } else { 0 };
            group.buffer.extend((0..gap).map(|_| rng.draw() as u8));
            group.lay(sheet);
        }
        before = Some(sheet);
    }
    if turned {
        group.buildings.reverse();
    }
    if gaps {
        group.buffer.extend([0; 5]);
    }
    group
}

/// 1 to 12 sheets of one month and price that all settle.
fn random_sheets(rng: &mut Rng) -> Vec<Sheet> {
    let count = match rng.below(12) {
        0 => 1,
        1..=4 => 2,
        5..=8 => rng.between(3, 5),
        9 | 10 => rng.between(6, 11),
        _ => 12,
    };
    let mut sheets = match rng.below(12) {
        0..=3 => settled_sheets(rng, count, &[1, 2, 3, 4, 5]),
        4 | 5 => settled_sheets(rng, count, &[3, 4, 5]),
        6 | 7 => common_by_area(rng, count),
        8 => overlapping_pair(rng),
        _ => tied_sheets(rng, count),
    };
    if sheets.len() > 1 && rng.once_in(6) {
        let place = rng.between(1, sheets.len() as u64 - 1) as usize;
        sheets[place] = sheets[place - 1].clone();
    }
    sheets
}

fn settled_sheets(rng: &mut Rng, count: u64, models: &[u8]) -> Vec<Sheet> {
    let month = rng.between(1, 12) as u8;
    let price = rng.edge(0, 100_000) as u32;
    let whole = u64::from(MAX_WH);
    let highest = [20, 1_000, 1_000_000, whole / count, whole][rng.below(5) as usize];
    let large = if rng.once_in(40) {
        rng.below(count)
    } else {
        count
    };
    (0..count)
        .map(|place| {
            let units = if place == large {
                160
            } else {
                rng.between(1, 4)
            };
            let mut sheet = settled_sheet(rng, month, models, units as usize, highest);
            sheet.header.price = price;
            sheet
        })
        .collect()
}

fn settled_sheet(rng: &mut Rng, month: u8, models: &[u8], units: usize, highest: u64) -> Sheet {
    loop {
        let model = models[rng.below(models.len() as u64) as usize];
        let kind = [month, model, rng.below(4) as u8];
        let ids = random_ids(rng, units);
        let meter = |rng: &mut Rng| rng.edge(0, highest) as u32;
        let sheet = random_metered_sheet(rng, kind, &ids, meter);
        if settle_sheet(&sheet, NEWEST).is_ok() {
            return sheet;
        }
    }
}

/// Sheets with equal remainders (request 2026-06).
fn tied_sheets(rng: &mut Rng, count: u64) -> Vec<Sheet> {
    let mut sheets = settled_sheets(rng, count, &[1, 2, 3, 4, 5]);
    let price = round_price(rng);
    for sheet in &mut sheets {
        let mut tied = sheet.clone();
        tie(rng, &mut tied);
        if settle_sheet(&tied, NEWEST).is_ok() {
            *sheet = tied;
        }
        sheet.header.price = price;
    }
    sheets
}

/// Model 5 with small readings or none: nearly all heat is common, and M goes
/// by area or nearly so, so that nearly all of it can be taken away.
fn common_by_area(rng: &mut Rng, count: u64) -> Vec<Sheet> {
    let month = rng.between(1, 12) as u8;
    let price = rng.edge(0, 100_000) as u32;
    let highest = [12, 10_000][rng.below(2) as usize];
    let equal = rng.once_in(2).then(|| rng.between(1, highest));
    let areas: Vec<u64> = (0..count)
        .map(|_| equal.unwrap_or_else(|| rng.between(1, highest)))
        .collect();
    let largest = areas.iter().max().copied().unwrap_or(1);
    let scale = u64::from(MAX_WH) / largest / [1, 1, 30, 100_000][rng.below(4) as usize];
    let reading = rng.below(2) * rng.below(9);
    areas
        .into_iter()
        .map(|area| {
            let meter = (scale * area).saturating_sub(rng.below(3)).max(reading);
            Sheet {
                header: Header {
                    month,
                    model: 5,
                    unit_count: 1,
                    unmetered_factor: 30,
                    shared_meter_wh: meter as u32,
                    price,
                    ..Header::default()
                },
                units: vec![Unit {
                    id: area as u32,
                    location_factor: 1_000,
                    heated_area: area as u32,
                    reading: reading as u32,
                    ..Unit::default()
                }],
            }
        })
        .collect()
}

/// A sheet of model 1 or 2 whose first 32 bytes are a row, without a device, at
/// the end of a sheet before it.
fn overlapping_pair(rng: &mut Rng) -> Vec<Sheet> {
    let month = rng.between(1, 12) as u8;
    let second_units = rng.between(1, 4) as usize;
    let mut second = settled_sheet(rng, month, &[1, 2], second_units, 100_000);
    while second.header.source != 0 {
        second = settled_sheet(rng, month, &[1, 2], second_units, 100_000);
    }
    second.header.price = 0;
    let row = Unit {
        id: u32::from_le_bytes(*b"HCS\0"),
        status: 1,
        location_factor: u16::from(month) + 256 * u16::from(second.header.model),
        heated_area: second_units as u32,
        heat_load_w: second.header.shared_meter_wh,
        ..Unit::default()
    };
    loop {
        let units = rng.between(1, 4) as usize;
        let mut first = settled_sheet(rng, month, &[3, 4, 5], units, 1_000_000);
        first.header.price = 0;
        first.header.unit_count += 1;
        for (place, unit) in first.units.iter_mut().enumerate() {
            unit.id = place as u32;
        }
        first.units.push(row.clone());
        if settle_sheet(&first, NEWEST).is_ok() {
            return vec![first, second];
        }
    }
}

/// A shared reading for sheets that settle: no difference, one above or below
/// zero, one next to refusal 21, one with equal remainders, or any.
fn random_shared(rng: &mut Rng, sheets: &[Sheet]) -> u64 {
    let whole = u64::from(MAX_WH);
    let meters = sheets
        .iter()
        .map(|sheet| u64::from(sheet.header.shared_meter_wh));
    let sum: u64 = meters.sum();
    let room = whole.saturating_sub(sum);
    let most = most_taken(sheets);
    let areas: Vec<u64> = sheets.iter().map(total_area).collect();
    let shared = match rng.below(20) {
        0 => sum,
        1..=3 => {
            let highest = [10, 1_000, 1_000_000, whole][rng.below(4) as usize];
            sum + rng.edge(0, room.min(highest))
        }
        4 => sum.saturating_sub(rng.between(1, 20)),
        5..=7 => (sum + 3).saturating_sub(most + rng.below(7)),
        8 | 9 => sum.saturating_sub(rng.edge(0, most)),
        10 => whole - rng.below(2),
        11 => sum + tied_total(rng, &areas),
        12..=14 => sum.saturating_sub(tied_total(rng, &areas)),
        // The bill's remainders, at a round price.
        15..=18 => (sum + rng.below(500)) / 100 * 100,
        _ => rng.edge(0, whole),
    };
    shared.min(whole)
}

/// About the largest difference that can be taken from the common heats.
fn most_taken(sheets: &[Sheet]) -> u64 {
    let areas: u64 = sheets.iter().map(total_area).sum();
    let most = |sheet: &Sheet| {
        let product = u128::from(common_heat(sheet, NEWEST)) * u128::from(areas);
        (product / u128::from(total_area(sheet))) as u64
    };
    sheets.iter().map(most).min().unwrap_or(0)
}

/// Whether a group of sheets leaves a common heat of 0 where there was one.
pub fn takes_all(sheets: &[Sheet], shared_wh: u64) -> bool {
    let shares = difference_shares(sheets, shared_wh, NEWEST);
    let mut buildings = sheets.iter().zip(shares);
    buildings.any(|(sheet, share)| share < 0 && adjusted_common_heat(sheet, share, NEWEST) == 0)
}
