//! Document 01, "Cases for the proofs": the sheets of the cases, and a few more
//! beside case A.

use crate::sheet::{Header, Sheet, Unit};

/// A: three units, model 3, all read.
pub fn case_a() -> Sheet {
    let unit = |id, heated_area, reading| Unit {
        id,
        heated_area,
        reading,
        location_factor: 1_000,
        ..Unit::default()
    };
    Sheet {
        header: Header {
            month: 1,
            model: 3,
            unit_count: 3,
            base_percent: 30,
            common_heat_percent: 20,
            unmetered_factor: 30,
            shared_meter_wh: 1_000_000,
            price: 10_000,
            ..Header::default()
        },
        units: vec![unit(11, 500, 100), unit(12, 500, 300), unit(13, 1_000, 600)],
    }
}

/// B and C: A with other readings.
pub fn case_a_with_readings(readings: [u32; 3]) -> Sheet {
    let mut sheet = case_a();
    for (unit, reading) in sheet.units.iter_mut().zip(readings) {
        unit.reading = reading;
    }
    sheet
}

/// Request 2026-05: A with heat loads.
pub fn case_a_with_loads(loads: [u32; 3]) -> Sheet {
    let mut sheet = case_a();
    for (unit, load) in sheet.units.iter_mut().zip(loads) {
        unit.heat_load_w = load;
    }
    sheet
}

/// Request 2026-01: C as model 4, with riser surfaces.
pub fn case_c_by_risers(risers: [u32; 3]) -> Sheet {
    let mut sheet = case_a_with_readings([1_000, 0, 0]);
    sheet.header.model = 4;
    for (unit, riser_surface) in sheet.units.iter_mut().zip(risers) {
        unit.riser_surface = riser_surface;
    }
    sheet
}

/// Request 2026-06: totals, and weights of which some or all leave equal
/// remainders.
pub const TIES: [(u32, &[u32]); 7] = [
    (2, &[1, 3]),
    (2, &[3, 1]),
    (3, &[1, 3, 2]),
    (8, &[1, 7, 4]),
    (4, &[1, 3, 1, 3]),
    (5, &[1, 3, 3, 3]),
    (5, &[1, 2, 7, 4, 1]),
];

/// Request 2026-06: a month of model 4 that every archive version settles
/// otherwise. By the limits the weights are as 1, 15, 5, and of 30 Wh the first
/// two leave equal remainders.
pub fn other_by_every_version() -> Sheet {
    let mut sheet = case_c_by_risers([1, 2, 5]);
    sheet.header.common_heat_percent = 0;
    sheet.header.shared_meter_wh = 30;
    for (unit, reading) in sheet.units.iter_mut().zip([0, 1_000, 0]) {
        unit.reading = reading;
    }
    sheet
}

/// D: A, the first unit without a device.
pub fn case_d() -> Sheet {
    let mut sheet = case_a();
    sheet.units[0].status = 1;
    sheet.units[0].reading = 0;
    sheet
}

/// E (f 30) and F (f 31): two units, the first without a device.
pub fn two_units(unmetered_factor: u8) -> Sheet {
    let mut sheet = case_d();
    sheet.header.unmetered_factor = unmetered_factor;
    sheet.header.unit_count = 2;
    sheet.units.truncate(2);
    sheet.units[1].heated_area = 1_000;
    sheet
}

/// I: source 2 with loss factor `t` and `litres` of hot water.
pub fn water_by_volume(loss_factor: u8, litres: u32) -> Sheet {
    let mut sheet = case_a();
    sheet.header.source = 2;
    sheet.header.loss_factor = loss_factor;
    sheet.header.hot_water_inputs[0] = litres;
    with_water_classes(sheet)
}

/// J: source 3 with six summer readings.
pub fn water_by_summer(readings: [u32; 6]) -> Sheet {
    let mut sheet = case_a();
    sheet.header.source = 3;
    sheet.header.hot_water_inputs = readings;
    with_water_classes(sheet)
}

/// One unit of each water class, so that hot water can be divided.
fn with_water_classes(mut sheet: Sheet) -> Sheet {
    sheet.units[1].water_class = 1;
    sheet.units[1].litres = 100;
    sheet.units[1].persons = 2;
    sheet.units[2].water_class = 2;
    sheet.units[2].persons = 3;
    sheet
}

/// K (M 50) and L (M 49): A with another shared meter.
pub fn case_a_with_meter(shared_meter_wh: u32) -> Sheet {
    let mut sheet = case_a();
    sheet.header.shared_meter_wh = shared_meter_wh;
    sheet
}

/// A sheet for January at case A's price, a row for each area and reading.
pub fn building(model: u8, meter: u32, rows: &[(u32, u32)]) -> Sheet {
    let unit = |(place, &(heated_area, reading)): (usize, &(u32, u32))| Unit {
        id: 21 + place as u32,
        location_factor: 1_000,
        heated_area,
        reading,
        ..Unit::default()
    };
    Sheet {
        header: Header {
            month: 1,
            model,
            unit_count: rows.len() as u16,
            unmetered_factor: if model >= 3 { 30 } else { 0 },
            shared_meter_wh: meter,
            price: 10_000,
            ..Header::default()
        },
        units: rows.iter().enumerate().map(unit).collect(),
    }
}

/// Model 2: all of its heat goes to the units.
pub fn by_area() -> Sheet {
    building(2, 500_000, &[(400, 0), (600, 0)])
}

/// Model 5, 100,000 Wh of common heat.
pub fn by_meters() -> Sheet {
    building(5, 500_000, &[(400, 150_000), (600, 250_000)])
}

/// Sheets that 8, 9, 10, 11 and 12 refuse, for January at case A's price.
pub fn refused_months() -> Vec<Sheet> {
    let mut water = case_a();
    water.header.source = 1;
    water.header.hot_water_inputs[0] = 1_000_001;
    let mut divisor = water.clone();
    divisor.header.hot_water_inputs[0] = 1;
    let mut unread = case_a();
    for unit in &mut unread.units {
        (unit.status, unit.reading) = (3, 0);
    }
    let mut meters = by_meters();
    meters.header.shared_meter_wh = 399_999;
    vec![water, divisor, unread, meters, two_units(31)]
}
