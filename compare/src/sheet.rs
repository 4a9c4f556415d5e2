//! Document 01, "The sheet", with request 2026-03: layout, building from
//! structs, refusals 1 to 7 and 20.

use crate::ranges::Range;
use crate::refusal::*;

pub const HEADER_BYTES: usize = 48;
pub const ROW_BYTES: usize = 32;
/// Bytes a unit takes inside an archive record: its row and its statement.
pub const RECORD_UNIT_BYTES: usize = 64;
pub const MAX_UNITS: usize = 160;
/// The upper end of an amount in Wh.
pub const MAX_WH: u32 = 4_000_000_000;

/// The header's fields behind mark and version, in layout order.
#[derive(Clone, Debug, Default, PartialEq, Eq)]
pub struct Header {
    pub month: u8,
    pub model: u8,
    pub unit_count: u16,
    /// Hot-water source, 0 to 3.
    pub source: u8,
    /// v
    pub base_percent: u8,
    /// z
    pub common_heat_percent: u8,
    /// y
    pub common_water_percent: u8,
    /// f, in tenths
    pub unmetered_factor: u8,
    /// t, in hundredths
    pub loss_factor: u8,
    /// M
    pub shared_meter_wh: u32,
    /// In 0.00001 EUR per kWh.
    pub price: u32,
    /// h1 to h6
    pub hot_water_inputs: [u32; 6],
}

/// A unit row's fields in layout order.
#[derive(Clone, Debug, Default, PartialEq, Eq)]
pub struct Unit {
    pub id: u32,
    pub status: u8,
    pub water_class: u8,
    /// KF, in thousandths
    pub location_factor: u16,
    /// p, in 0.1 m²
    pub heated_area: u32,
    /// s, in dm²
    pub riser_surface: u32,
    /// q
    pub heat_load_w: u32,
    /// b, in impulses or Wh
    pub reading: u32,
    pub litres: u32,
    pub persons: u16,
    /// Bytes 30 and 31, zero in a good sheet.
    pub reserved: u16,
}

#[derive(Clone, Debug, Default, PartialEq, Eq)]
pub struct Sheet {
    pub header: Header,
    pub units: Vec<Unit>,
}

pub fn get_u16(bytes: &[u8], offset: usize) -> u16 {
    u16::from_le_bytes([bytes[offset], bytes[offset + 1]])
}

pub fn get_u32(bytes: &[u8], offset: usize) -> u32 {
    u32::from(get_u16(bytes, offset)) | u32::from(get_u16(bytes, offset + 2)) << 16
}

/// The sheet's bytes, with a good mark and version. The fields are written as
/// they are, good or bad.
pub fn build_sheet(sheet: &Sheet) -> Vec<u8> {
    let header = &sheet.header;
    let mut bytes = b"HCS\0\x01\0".to_vec();
    bytes.extend([header.month, header.model]);
    bytes.extend(header.unit_count.to_le_bytes());
    bytes.extend([header.source, header.base_percent]);
    bytes.extend([header.common_heat_percent, header.common_water_percent]);
    bytes.extend([header.unmetered_factor, header.loss_factor]);
    bytes.extend(header.shared_meter_wh.to_le_bytes());
    bytes.extend(header.price.to_le_bytes());
    for input in header.hot_water_inputs {
        bytes.extend(input.to_le_bytes());
    }
    for unit in &sheet.units {
        build_row(&mut bytes, unit);
    }
    bytes
}

fn build_row(bytes: &mut Vec<u8>, unit: &Unit) {
    bytes.extend(unit.id.to_le_bytes());
    bytes.extend([unit.status, unit.water_class]);
    bytes.extend(unit.location_factor.to_le_bytes());
    bytes.extend(unit.heated_area.to_le_bytes());
    bytes.extend(unit.riser_surface.to_le_bytes());
    bytes.extend(unit.heat_load_w.to_le_bytes());
    bytes.extend(unit.reading.to_le_bytes());
    bytes.extend(unit.litres.to_le_bytes());
    bytes.extend(unit.persons.to_le_bytes());
    bytes.extend(unit.reserved.to_le_bytes());
}

fn read_header(bytes: &[u8]) -> Header {
    Header {
        month: bytes[6],
        model: bytes[7],
        unit_count: get_u16(bytes, 8),
        source: bytes[10],
        base_percent: bytes[11],
        common_heat_percent: bytes[12],
        common_water_percent: bytes[13],
        unmetered_factor: bytes[14],
        loss_factor: bytes[15],
        shared_meter_wh: get_u32(bytes, 16),
        price: get_u32(bytes, 20),
        hot_water_inputs: std::array::from_fn(|i| get_u32(bytes, 24 + 4 * i)),
    }
}

fn read_unit(bytes: &[u8], row: usize) -> Unit {
    let start = HEADER_BYTES + ROW_BYTES * row;
    let bytes = &bytes[start..start + ROW_BYTES];
    Unit {
        id: get_u32(bytes, 0),
        status: bytes[4],
        water_class: bytes[5],
        location_factor: get_u16(bytes, 6),
        heated_area: get_u32(bytes, 8),
        riser_surface: get_u32(bytes, 12),
        heat_load_w: get_u32(bytes, 16),
        reading: get_u32(bytes, 20),
        litres: get_u32(bytes, 24),
        persons: get_u16(bytes, 28),
        reserved: get_u16(bytes, 30),
    }
}

/// Reads a sheet that `check` accepts. Bytes after the rows are ignored.
pub fn read_sheet(bytes: &[u8]) -> Sheet {
    let header = read_header(bytes);
    let count = usize::from(header.unit_count);
    let units = (0..count).map(|row| read_unit(bytes, row)).collect();
    Sheet { header, units }
}

/// Refusals 1 to 7 and 20. `unit_bytes` is 32 for a sheet alone and 64 for a
/// sheet with its statement behind it, as in an archive record.
pub fn check(bytes: &[u8], unit_bytes: usize) -> Result<(), Refusal> {
    refuse_if(bytes.len() < HEADER_BYTES, TOO_SHORT)?;
    refuse_if(bytes[0..4] != *b"HCS\0", BAD_MAGIC)?;
    refuse_if(get_u16(bytes, 4) != 1, UNSUPPORTED_VERSION)?;
    let header = read_header(bytes);
    check_header(&header)?;
    let length = HEADER_BYTES + unit_bytes * usize::from(header.unit_count);
    refuse_if(bytes.len() != length, WRONG_LENGTH)?;
    check_rows(&read_sheet(bytes))
}

/// Refusal 4, at the byte of the first field that is out of range.
fn check_header(header: &Header) -> Result<(), Refusal> {
    let mut fields = vec![
        (6, Range::Month.holds(header.month)),
        (7, Range::Model.holds(header.model)),
        (8, Range::UnitCount.holds(header.unit_count)),
        (10, Range::Source.holds(header.source)),
    ];
    fields.extend(percentages_in_range(header));
    fields.push((16, Range::SharedMeter.holds(header.shared_meter_wh)));
    fields.push((20, Range::Price.holds(header.price)));
    fields.extend(hot_water_inputs_in_range(header));
    match fields.iter().find(|(_, in_range)| !in_range) {
        Some(&(byte, _)) => refuse_at(HEADER_FIELD, byte),
        None => Ok(()),
    }
}

/// v, z, f by model; y, t by source: each field's byte, and whether it is in
/// range.
fn percentages_in_range(header: &Header) -> [(usize, bool); 5] {
    let has_devices = header.model >= 3;
    let base_percent = match header.model {
        3 => Range::BasePercentModel3,
        4 => Range::BasePercentModel4,
        _ => Range::BasePercentElse,
    };
    let common_heat_percent = if has_devices {
        Range::CommonHeatPercent
    } else {
        Range::CommonHeatPercentElse
    };
    let unmetered_factor = if has_devices {
        Range::UnmeteredFactor
    } else {
        Range::UnmeteredFactorElse
    };
    let common_water_percent = match header.source {
        0 => Range::CommonWaterPercentSource0,
        _ => Range::CommonWaterPercent,
    };
    let loss_factor = match header.source {
        2 => Range::LossFactor,
        _ => Range::LossFactorElse,
    };
    [
        (11, base_percent.holds(header.base_percent)),
        (12, common_heat_percent.holds(header.common_heat_percent)),
        (13, common_water_percent.holds(header.common_water_percent)),
        (14, unmetered_factor.holds(header.unmetered_factor)),
        (15, loss_factor.holds(header.loss_factor)),
    ]
}

fn hot_water_inputs_in_range(header: &Header) -> [(usize, bool); 6] {
    let (first, later) = match header.source {
        0 => (Range::FirstInputSource0, Range::LaterInputElse),
        1 => (Range::FirstInputElse, Range::LaterInputElse),
        2 => (Range::FirstInputSource2, Range::LaterInputElse),
        _ => (Range::FirstInputElse, Range::LaterInputSource3),
    };
    std::array::from_fn(|i| {
        let range = if i == 0 { first } else { later };
        (24 + 4 * i, range.holds(header.hot_water_inputs[i]))
    })
}

/// Refusals 6, 20 and 7, row by row.
fn check_rows(sheet: &Sheet) -> Result<(), Refusal> {
    let mut id_before = None;
    for (row, unit) in sheet.units.iter().enumerate() {
        check_fields(&row_fields(&sheet.header, unit), row)?;
        if id_before.is_some_and(|before| unit.id <= before) {
            return refuse_at(ID_ORDER, row);
        }
        id_before = Some(unit.id);
    }
    Ok(())
}

/// Request 2026-03: at each field first its 6, then its 20.
fn check_fields(fields: &[RowField], row: usize) -> Result<(), Refusal> {
    for field in fields {
        if !field.in_range() {
            return refuse_at(ROW_FIELD, row);
        }
        if field.clashes() {
            return refuse_at(FIELD_CONFLICT, row);
        }
    }
    Ok(())
}

/// A field of a row: its value, its fixed range, and where it may clash the
/// range that model, source, status or class allow.
pub struct RowField {
    pub value: u32,
    pub range: Range,
    pub allowed: Option<Range>,
}

impl RowField {
    fn fixed(value: impl Into<u32>, range: Range) -> RowField {
        RowField::new(value, range, None)
    }

    fn new(value: impl Into<u32>, range: Range, allowed: Option<Range>) -> RowField {
        let value = value.into();
        RowField {
            value,
            range,
            allowed,
        }
    }

    pub fn in_range(&self) -> bool {
        self.range.holds(self.value)
    }

    pub fn clashes(&self) -> bool {
        self.allowed.is_some_and(|range| !range.holds(self.value))
    }
}

/// A row's fields in layout order. Every id is in range by itself.
pub fn row_fields(header: &Header, unit: &Unit) -> [RowField; 10] {
    let status = match header.model {
        1 | 2 => Some(Range::StatusModels1And2),
        _ => None,
    };
    let water_class = match header.source {
        0 => Some(Range::WaterClassSource0),
        _ => None,
    };
    let reading = match (header.model, unit.status) {
        (1 | 2, _) => Some(Range::ReadingModels1And2),
        (_, 1..) => Some(Range::ReadingUnread),
        (3 | 4, _) => Some(Range::ReadingModels3And4),
        _ => None,
    };
    let (litres, persons) = match unit.water_class {
        0 => (Some(Range::LitresClass0), Some(Range::PersonsClass0)),
        2 => (Some(Range::LitresClass2), None),
        _ => (None, None),
    };
    [
        RowField::new(unit.status, Range::Status, status),
        RowField::new(unit.water_class, Range::WaterClass, water_class),
        RowField::fixed(unit.location_factor, Range::LocationFactor),
        RowField::fixed(unit.heated_area, Range::HeatedArea),
        RowField::fixed(unit.riser_surface, Range::RiserSurface),
        RowField::fixed(unit.heat_load_w, Range::HeatLoad),
        RowField::new(unit.reading, Range::Reading, reading),
        RowField::new(unit.litres, Range::Litres, litres),
        RowField::new(unit.persons, Range::Persons, persons),
        RowField::fixed(unit.reserved, Range::Reserved),
    ]
}
