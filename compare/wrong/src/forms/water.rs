//! Wrong readings of steps 1 and 6.

use crate::sheet::{Header, Sheet, Unit};
use crate::weights::*;
use crate::{current, Reading::*};

/// Step 1: the fraction of hot water.
pub fn hot_water(header: &Header) -> Option<(u64, u64)> {
    let inputs = header.hot_water_inputs.map(u64::from);
    let loss = u64::from(header.loss_factor);
    let sum: u64 = inputs.iter().sum();
    match (current()?, header.source) {
        (LossWithoutHundred, 2) => Some((loss * 54 * inputs[0], 100)),
        (LossFromHundred, 2) => Some((100u64.saturating_sub(loss) * 54 * inputs[0], 100)),
        (LossLeftOut, 2) => Some((54 * inputs[0], 1)),
        (SummerWithoutFactor, 3) => Some((sum, 6)),
        (SummerSum, 3) => Some((115 * sum, 100)),
        (SummerOfOneYear, 3) => Some((115 * (inputs[0] + inputs[1] + inputs[2]), 300)),
        (SummerMeanRounded, 3) => Some((115 * sum.div_ceil(6), 100)),
        _ => None,
    }
}

/// Step 1: hot water in whole Wh.
pub fn rounded_water(upper: u64, lower: u64) -> Option<u64> {
    match current()? {
        WaterRoundedDown => Some(upper / lower),
        WaterHalfUp => Some((2 * upper + lower) / (2 * lower)),
        _ => None,
    }
}

/// Step 6: n1, n2, L, N2.
pub fn classes(sheet: &Sheet, classes: WaterClasses) -> WaterClasses {
    match current() {
        Some(ClassZeroInCount) => WaterClasses {
            person_units: sheet.units.len() as u64 - classes.volume_units,
            ..classes
        },
        Some(PersonsOfBothClasses) => WaterClasses {
            persons: classes.all_persons,
            ..classes
        },
        _ => classes,
    }
}

/// Step 6: units' water.
pub fn unit_water_weights(sheet: &Sheet) -> Option<Vec<u64>> {
    let classes = water_classes(sheet);
    let both = classes.volume_units > 0 && classes.person_units > 0;
    let (by_litres, by_persons) = match current()? {
        ClassesWithoutCount if both => (classes.persons, classes.litres),
        CountsSwapped if both => (
            classes.person_units * classes.persons,
            classes.volume_units * classes.litres,
        ),
        OneClassByProducts => (
            classes.volume_units * classes.persons,
            classes.person_units * classes.litres,
        ),
        _ => return None,
    };
    let weight = |unit: &Unit| match unit.water_class {
        1 => litres(unit) * by_litres,
        2 => persons(unit) * by_persons,
        _ => 0,
    };
    Some(sheet.units.iter().map(weight).collect())
}

/// Step 6: common water.
pub fn common_water_weights(sheet: &Sheet) -> Option<Vec<u64>> {
    let field: fn(&Unit) -> u64 = match current()? {
        CommonWaterOfClass2 => |unit| {
            if unit.water_class == 2 {
                persons(unit)
            } else {
                0
            }
        },
        CommonWaterByLitres => litres,
        CommonWaterByArea => heated_area,
        CommonWaterEqual => |unit| u64::from(unit.water_class > 0),
        _ => return None,
    };
    Some(column(sheet, field))
}
