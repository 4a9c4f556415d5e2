//! Wrong readings of the rows' refusals, 6, 20 and 7 (request 2026-03).

use crate::ranges::{Field, Range};
use crate::refusal::*;
use crate::settle::check_month;
use crate::sheet::{row_fields, RowField, Sheet, Unit};
use crate::{current, misread, Reading, Reading::*};

/// Places of fields in a row's list.
const READING: usize = 6;
const PERSONS: usize = 8;

/// A row's fields with other ranges.
pub fn bend(model: u8, unit: &Unit, fields: &mut [RowField; 10]) {
    let reading = &mut fields[READING];
    match (current(), model) {
        (Some(ClashAsRow(range)), _) => {
            let clashing = fields.iter_mut().find(|field| field.allowed == Some(range));
            clashing.into_iter().for_each(|field| field.range = range);
        }
        (Some(ReadingRangeByModel), 1 | 2) => reading.range = Range::ReadingModels1And2,
        (Some(ReadingRangeByModel | ReadingRangeOfImpulses), 3 | 4) => {
            reading.range = Range::ReadingModels3And4;
        }
        (Some(ReadingOfUnread), 3 | 4) => reading.allowed = Some(Range::ReadingModels3And4),
        (Some(ReadingOfUnread), 5) => reading.allowed = None,
        (Some(LargestReadingClashes), 5) if unit.reading == 25_000_000 => {
            reading.allowed = Some(Range::ReadingModels3And4);
        }
        (Some(LitresOfClass2), _) if unit.water_class == 2 => fields[READING + 1].allowed = None,
        (Some(PersonsOfClass2Clash), _) if unit.water_class == 2 => {
            fields[PERSONS].allowed = Some(Range::PersonsClass0);
        }
        _ => {}
    }
}

/// The number for a field that is out of range.
pub fn number(field: &RowField) -> u32 {
    let as_clash = match current() {
        Some(RowAsClash(range)) => field.range == range,
        Some(ClashBeforeRange) => field.clashes(),
        Some(ReadingPastRangeClashes) => field.allowed == Some(Range::ReadingModels1And2),
        _ => false,
    };
    if as_clash {
        FIELD_CONFLICT
    } else {
        ROW_FIELD
    }
}

/// The refusal of a clash.
pub fn refuse_clash(field: &RowField, row: usize) -> Result<(), Refusal> {
    let byte = match field.range.field() {
        Field::Row(offset, _) => offset,
        _ => 0,
    };
    match current() {
        Some(ClashAtRowByte) => refuse_at(FIELD_CONFLICT, byte),
        Some(ClashAtSheetByte) => refuse_at(FIELD_CONFLICT, 48 + 32 * row + byte),
        _ => refuse_at(FIELD_CONFLICT, row),
    }
}

/// A row's place in a refusal.
pub fn place(number: u32, row: usize) -> Option<u32> {
    match (current()?, number) {
        (RowFromOne, ROW_FIELD | ID_ORDER | FIELD_CONFLICT) => Some(row as u32 + 1),
        (PlaceAlwaysZero, ROW_FIELD | ID_ORDER) => Some(0),
        (ClashWithoutRow, FIELD_CONFLICT) => Some(0),
        _ => None,
    }
}

/// Whether an id passes after the one before.
pub fn id_passes(id: u32, before: u32) -> bool {
    misread(EqualIds) && id == before
}

/// A test that refuses: the row, which of its fields, and the number.
struct Fault {
    row: usize,
    field: usize,
    number: u32,
}

/// All faults of the rows in the right order.
fn faults(sheet: &Sheet) -> Vec<Fault> {
    let units = &sheet.units;
    let mut faults = Vec::new();
    for row in 0..units.len() {
        let mut test = |field, number, refuses: bool| {
            if refuses {
                faults.push(Fault { row, field, number });
            }
        };
        let fields = row_fields(&sheet.header, &units[row]);
        for (place, field) in fields.iter().enumerate() {
            test(place, ROW_FIELD, !field.in_range());
            test(place, FIELD_CONFLICT, field.in_range() && field.clashes());
        }
        let not_above = match row {
            0 => misread(FirstIdAboveZero) && units[0].id == 0,
            _ => units[row].id <= units[row - 1].id,
        };
        test(fields.len(), ID_ORDER, not_above);
    }
    faults
}

impl Fault {
    /// 1 where the number is this one, else 0.
    fn is(&self, number: u32) -> usize {
        usize::from(self.number == number)
    }

    /// The field; for a clash the one that it clashes with: status for b, class
    /// for litres and persons.
    fn compared(&self) -> usize {
        match (self.number, self.field) {
            (FIELD_CONFLICT, 6) => 0,
            (FIELD_CONFLICT, 7 | 8) => 1,
            (_, field) => field,
        }
    }
}

/// What the faults are sorted by where their order matters.
fn order(reading: Reading) -> Option<fn(&Fault) -> [usize; 3]> {
    match reading {
        FirstIdAboveZero | ClashAfterOrder | ClashAfterMonth => Some(|fault| [fault.row, 0, 0]),
        OrderBeforeRow => Some(|fault| [fault.row, 1 - fault.is(ID_ORDER), 0]),
        RowsBeforeOrders => Some(|fault| [fault.is(ID_ORDER), fault.row, 0]),
        ClashBeforeFields => {
            Some(|fault| [fault.row, fault.is(ID_ORDER), 1 - fault.is(FIELD_CONFLICT)])
        }
        ClashAfterFields => Some(|fault| [fault.row, fault.is(ID_ORDER), fault.is(FIELD_CONFLICT)]),
        ClashAfterRows => Some(|fault| [fault.is(FIELD_CONFLICT), fault.row, 0]),
        ClashAtComparedField => Some(|fault| [fault.row, fault.compared(), 0]),
        _ => None,
    }
}

/// Refusals 6, 20 and 7 in another order.
pub fn check_rows(sheet: &Sheet) -> Option<Result<(), Refusal>> {
    let reading = current()?;
    let order = order(reading)?;
    let mut faults = faults(sheet);
    faults.sort_by_key(order);
    let Some(&Fault { row, number, .. }) = faults.first() else {
        return Some(Ok(()));
    };
    let order_of = |fault: &Fault| fault.row == row && fault.number == ID_ORDER;
    let refused = refuse_at(number, row);
    Some(match (reading, number) {
        (ClashAfterOrder, FIELD_CONFLICT) if faults.iter().any(order_of) => {
            refuse_at(ID_ORDER, row)
        }
        (ClashAfterMonth, FIELD_CONFLICT) => check_month(sheet).and(refused),
        _ => refused,
    })
}
