//! Wrong readings of request 2026-04: refusals, their order and places.

use crate::group::*;
use crate::refusal::*;
use crate::rules::NEWEST;
use crate::sheet::{check, get_u16, get_u32, read_sheet, Sheet, HEADER_BYTES, MAX_WH, ROW_BYTES};
use crate::{current, misread, Reading::*};

/// The shared reading as it is taken.
pub fn taken_reading(shared_wh: u64) -> u64 {
    if misread(SharedIn32Bits) {
        return shared_wh & 0xffff_ffff;
    }
    shared_wh
}

/// The answer to a group of no buildings.
pub fn of_none(buildings: &[Building], list_len: usize) -> Option<Result<Vec<u32>, Refusal>> {
    let answer = if list_len == 0 {
        Ok(Vec::new())
    } else {
        refuse(BUFFER_LENGTH)
    };
    (misread(GroupOfNone) && buildings.is_empty()).then_some(answer)
}

pub fn count_fits(count: usize) -> Option<bool> {
    match current()? {
        GroupOf13 => Some((1..=13).contains(&count)),
        GroupOf11 => Some((1..=11).contains(&count)),
        GroupOfTwo => Some((2..=12).contains(&count)),
        GroupCountIn8Bits => Some((1..=12).contains(&(count % 256))),
        _ => None,
    }
}

pub fn reading_fits(shared_wh: u64) -> Option<bool> {
    let limit = u64::from(MAX_WH);
    match current()? {
        SharedLimitExcluded => Some(shared_wh < limit),
        SharedLimitPlusOne => Some(shared_wh <= limit + 1),
        SharedIn32BitsAllowed => Some(shared_wh < 1 << 32),
        SharedAfterBuildings | SharedAfterMonth => Some(shared_wh <= 2 * limit),
        _ => None,
    }
}

/// Whether an offset and length are taken to lie in the buffer.
pub fn lies_in(buffer: &[u8], building: &Building) -> Option<bool> {
    let Building { offset, length } = *building;
    let end = buffer.len() as u64;
    let sum = u128::from(offset) + u128::from(length);
    match current()? {
        PlaceWraps => Some(offset.wrapping_add(length) <= end),
        PlaceIn32Bits => Some((offset as u32).wrapping_add(length as u32) as u64 <= end),
        PlaceStrictlyInside => Some(sum < u128::from(end)),
        PlaceOnePast => Some(sum <= u128::from(end) + 1),
        PlaceByOffset => Some(offset <= end),
        PlaceOfEmptySheet => Some(sum <= u128::from(end) && offset < end),
        PlaceInTurn => Some(true),
        _ => None,
    }
}

/// The first 22 with a place, or for more.
pub fn before_group(buffer: &[u8], buildings: &[Building], shared_wh: u64) -> Result<(), Refusal> {
    let fits = (1..=MAX_BUILDINGS).contains(&buildings.len()) && shared_wh <= u64::from(MAX_WH);
    let outside = || {
        buildings
            .iter()
            .position(|building| !lies_in_buffer(buffer, building))
    };
    match current() {
        Some(OutsideWithPlace) if fits => match outside() {
            Some(place) => refuse_at(BAD_GROUP, 160 * place),
            None => Ok(()),
        },
        Some(OverlapRefused) if fits && outside().is_none() => {
            refuse_if(some_pair(buildings, overlap), BAD_GROUP)
        }
        Some(EqualSheetsRefused) if fits => {
            refuse_if(some_pair(buildings, |a, b| a == b), BAD_GROUP)
        }
        Some(GapsRefused) if fits && outside().is_none() => {
            let lengths: u64 = buildings.iter().map(|building| building.length).sum();
            refuse_if(lengths < buffer.len() as u64, BAD_GROUP)
        }
        _ => Ok(()),
    }
}

fn lies_in_buffer(buffer: &[u8], building: &Building) -> bool {
    let end = building.offset.checked_add(building.length);
    end.is_some_and(|end| end <= buffer.len() as u64)
}

fn some_pair(buildings: &[Building], test: fn(&Building, &Building) -> bool) -> bool {
    let pairs = |place: usize| buildings[..place].iter().map(move |before| (before, place));
    let mut all = (0..buildings.len()).flat_map(pairs);
    all.any(|(before, place)| test(before, &buildings[place]))
}

fn overlap(a: &Building, b: &Building) -> bool {
    a.offset < b.offset + b.length && b.offset < a.offset + a.length
}

/// The bytes of a sheet; none where a reading let them leave the buffer.
pub fn bytes_of<'a>(buffer: &'a [u8], building: &Building) -> &'a [u8] {
    let Building { offset, length } = *building;
    let (offset, length) = match current() {
        Some(PlaceIn32Bits) => (u64::from(offset as u32), u64::from(length as u32)),
        Some(PlaceByOffset) => (offset, length.min(buffer.len() as u64 - offset)),
        _ => (offset, length),
    };
    let end = offset.saturating_add(length) as usize;
    buffer.get(offset as usize..end).unwrap_or(&[])
}

/// What is tested before the buildings' own refusals.
pub fn before_buildings(
    buffer: &[u8],
    buildings: &[Building],
    list_len: usize,
) -> Result<(), Refusal> {
    let sheets = || buildings.iter().map(|building| bytes_of(buffer, building));
    let whole = || sheets().all(|sheet| sheet.len() >= HEADER_BYTES);
    match current() {
        Some(MonthBeforeBuildings) if whole() => {
            let keys: Vec<(u8, u32)> = sheets().map(|s| (s[6], get_u32(s, 20))).collect();
            refuse_if(keys.iter().any(|key| *key != keys[0]), BAD_GROUP)
        }
        Some(GroupListFirst) if whole() => {
            let units: usize = sheets().map(|s| usize::from(get_u16(s, 8))).sum();
            refuse_if(list_len != 8 * units, BUFFER_LENGTH)
        }
        Some(BuildingsFromLast) => in_order(buffer, buildings, (0..buildings.len()).rev()),
        Some(BuildingsByOffset) => {
            let mut order: Vec<usize> = (0..buildings.len()).collect();
            order.sort_by_key(|&place| buildings[place].offset);
            in_order(buffer, buildings, order.into_iter())
        }
        Some(ChecksBeforeMonths) => sheets()
            .enumerate()
            .try_for_each(|(place, s)| check(s, ROW_BYTES).map_err(|r| raised_right(r, place))),
        _ => Ok(()),
    }
}

/// The buildings' own refusals in another order.
fn in_order(
    buffer: &[u8],
    buildings: &[Building],
    mut order: impl Iterator<Item = usize>,
) -> Result<(), Refusal> {
    order.try_for_each(|place| {
        let read = read_building(bytes_of(buffer, &buildings[place]));
        read.map(|_| ())
            .map_err(|refusal| raised_right(refusal, place))
    })
}

fn raised_right(refusal: Refusal, building: usize) -> Refusal {
    crate::group::raised(refusal, building)
}

/// The first 22 for a sheet when its turn comes.
pub fn before_building(buffer: &[u8], building: &Building) -> Result<(), Refusal> {
    refuse_if(
        misread(PlaceInTurn) && !lies_in_buffer(buffer, building),
        BAD_GROUP,
    )
}

/// The second 22 when a building's turn comes.
pub fn after_building(sheets: &[Sheet]) -> Result<(), Refusal> {
    refuse_if(
        misread(MonthInTurn) && !same_month_and_price(sheets),
        BAD_GROUP,
    )
}

/// A refusal with another place.
pub fn raised(
    refusal: Refusal,
    building: usize,
    before: &[Sheet],
    named: &Building,
) -> Option<Refusal> {
    let Refusal { number, place } = refusal;
    let building = building as u32;
    let is_row = matches!(number, ROW_FIELD | ID_ORDER | FIELD_CONFLICT);
    let place = match current()? {
        RaisedBy159 => place + 159 * building,
        RaisedBy161 => place + 161 * building,
        RaisedFromOne => place + 160 * (building + 1),
        RaisedNot => place,
        RaisedNotForHeader if number == HEADER_FIELD => place,
        RaisedNotForRows if is_row => place,
        RaisedNotForMonth if (8..=12).contains(&number) => place,
        RaisedNotForClash if number == FIELD_CONFLICT => place,
        RaisedOnlyForRows if !is_row => place,
        RaisedNotForZero if place == 0 => place,
        RaisedByUnits => place + unit_count(before) as u32,
        RaisedByOffset if number == HEADER_FIELD => place + named.offset as u32,
        RaisedByBuilding => place + building,
        RaisedIn8Bits => (place + 160 * building) % 256,
        _ => return None,
    };
    Some(Refusal { number, place })
}

/// Whether months and prices are taken as the same.
pub fn same(sheets: &[Sheet]) -> Option<bool> {
    let first = &sheets[0];
    let every = |same: &dyn Fn(&Sheet) -> bool| sheets.iter().all(same);
    let month = every(&|sheet| sheet.header.month == first.header.month);
    let price = every(&|sheet| sheet.header.price == first.header.price);
    match current()? {
        GroupMonthNotCompared => Some(price),
        GroupPriceNotCompared => Some(month),
        GroupLastNotCompared => {
            let other = &sheets[..sheets.len().max(2) - 1];
            let same = |s: &Sheet| {
                s.header.month == first.header.month && s.header.price == first.header.price
            };
            Some(other.iter().all(same))
        }
        GroupModelCompared => {
            Some(month && price && every(&|sheet| sheet.header.model == first.header.model))
        }
        GroupSourceCompared => {
            Some(month && price && every(&|sheet| sheet.header.source == first.header.source))
        }
        GroupIdsCompared => {
            let mut ids: Vec<u32> = sheets.iter().flat_map(|s| &s.units).map(|u| u.id).collect();
            let count = ids.len();
            ids.sort_unstable();
            ids.dedup();
            Some(month && price && ids.len() == count)
        }
        _ => None,
    }
}

/// What is tested before the second 22.
pub fn before_month(sheets: &[Sheet], shared_wh: u64, list_len: usize) -> Result<(), Refusal> {
    let over = shared_wh > u64::from(MAX_WH);
    match current() {
        Some(SharedAfterBuildings) => refuse_if(over, BAD_GROUP),
        Some(ListBeforeMonth) => refuse_if(list_len != 8 * unit_count(sheets), BUFFER_LENGTH),
        Some(DifferenceBeforeMonth) => difference_first(sheets, shared_wh),
        _ => Ok(()),
    }
}

/// What is tested before 13.
pub fn before_list(sheets: &[Sheet], shared_wh: u64) -> Result<(), Refusal> {
    match current() {
        Some(DifferenceBeforeList) => difference_first(sheets, shared_wh),
        Some(SharedAfterMonth) => refuse_if(shared_wh > u64::from(MAX_WH), BAD_GROUP),
        _ => Ok(()),
    }
}

fn difference_first(sheets: &[Sheet], shared_wh: u64) -> Result<(), Refusal> {
    let shares = difference_shares(sheets, shared_wh, NEWEST);
    refuse_if(
        goes_below_zero(sheets, &shares, NEWEST),
        NEGATIVE_COMMON_HEAT,
    )
}

/// The length that 13 wants.
pub fn wanted_len(sheets: &[Sheet], list_len: usize) -> Option<usize> {
    let right = 8 * unit_count(sheets);
    match current()? {
        GroupLongerList => Some(list_len.max(right)),
        GroupListOfRooms => Some(1_280 * sheets.len()),
        GroupListNotTested => Some(if list_len == 0 { right } else { list_len }),
        _ => None,
    }
}

/// What a refused call writes.
pub fn refused(buffer: &[u8], buildings: &[Building], refusal: &Refusal, list: &mut [u32]) {
    match current() {
        Some(RefusedGroupZeroes) => list.fill(0),
        Some(RefusedGroupHasWritten) if refusal.number == NEGATIVE_COMMON_HEAT => {
            let first = read_sheet(bytes_of(buffer, &buildings[0]));
            list[0] = first.header.shared_meter_wh;
        }
        _ => {}
    }
}
