//! Wrong readings of request 2026-07: who pays, and how much.

use crate::sheet::{Sheet, Unit};
use crate::weights::*;
use crate::{current, misread, Reading::*};

/// Whether a unit pays.
pub fn pays(sheet: &Sheet, unit: &Unit) -> Option<bool> {
    let (model, status) = (sheet.header.model, unit.status);
    let right = model <= 2 || matches!(status, 1 | 4);
    match current()? {
        NoFeeOfModel1 => Some(right && model != 1),
        NoFeeOfModel2 => Some(right && model != 2),
        NoFeeOfModel5 => Some(right && model != 5),
        NoFeeOfModels1And2 => Some(right && model > 2),
        NoFeeOfModels3To5 => Some(model <= 2),
        NoFeeOfStatus1 => Some(right && status != 1),
        NoFeeOfStatus4 => Some(right && status != 4),
        FeeOfStatus2 => Some(right || status == 2),
        FeeOfStatus3 => Some(right || status == 3),
        FeeOfUnread => Some(right || status != 0),
        FeeOfFaults => Some(model <= 2 || matches!(status, 2 | 3)),
        FeeOfAll => Some(true),
        FeeOfRead => Some(right || status == 0),
        FeeOfReadAlone => Some(model <= 2 || status == 0),
        FeeOfNoReading => Some(right || status == 0 && unit.reading == 0),
        FeeOfUnitsFromM2 => Some(right && unit.heated_area >= 10),
        _ => None,
    }
}

/// A unit's fee.
pub fn unit_fee(unit: &Unit, rate: u64) -> Option<u64> {
    let half_up = |product: u64, parts: u64| (product + parts / 2) / parts;
    let product = heated_area(unit) * rate;
    let right = half_up(product, 10_000);
    match current()? {
        FeeRoundedDown => Some(product / 10_000),
        FeeRoundedUp => Some(product.div_ceil(10_000)),
        FeeHalfDown => Some((product + 4_999) / 10_000),
        FeeHalfEven => Some(right - u64::from(product % 20_000 == 5_000)),
        FeeAsFloat => Some((unit.heated_area as f32 * rate as f32 / 10_000.0).round() as u64),
        FeeAtLeastOne => Some(right.max(1)),
        FeePer1000 => Some(half_up(product, 1_000)),
        FeePer100000 => Some(half_up(product, 100_000)),
        FeeOfWholeM2 => Some(half_up(heated_area(unit) / 10 * rate, 1_000)),
        FeeIn32Bits => Some(half_up(product % (1 << 32), 10_000)),
        FeeByRiser => Some(half_up(riser_surface(unit) * rate, 10_000)),
        FeeByLoad => Some(half_up(heat_load(unit) * rate, 10_000)),
        FeeWithFactor => Some(half_up(product * location_factor(unit), 10_000_000)),
        _ => None,
    }
}

/// All fees of a sheet.
pub fn sheet_fees(sheet: &Sheet, rate: u64) -> Option<u64> {
    let paying = sheet
        .units
        .iter()
        .filter(|unit| crate::fund::pays(sheet, unit));
    misread(FeesRoundedOnce).then(|| (sum(paying, heated_area) * rate + 5_000) / 10_000)
}
