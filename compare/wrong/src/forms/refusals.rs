//! Wrong readings of refusals 8 to 12.

use crate::settle::hot_water_wh;
use crate::sheet::Sheet;
use crate::weights::*;
use crate::{current, misread, Reading::*};

/// 8.
pub fn hot_water_exceeds(sheet: &Sheet) -> Option<bool> {
    let meter = u64::from(sheet.header.shared_meter_wh);
    misread(WaterOfWholeMeter).then(|| hot_water_wh(sheet) >= meter && meter > 0)
}

/// 9, for H > 0.
pub fn no_water_divisor(sheet: &Sheet, classes: &WaterClasses) -> Option<bool> {
    let no_units = classes.volume_units + classes.person_units == 0;
    let no_litres = classes.volume_units > 0 && classes.litres == 0;
    let no_persons_of_class_2 = classes.person_units > 0 && classes.persons == 0;
    let no_persons = classes.all_persons == 0;
    let common = sheet.header.common_water_percent > 0;
    match current()? {
        ClassZeroInDivisor => Some(no_litres || no_persons_of_class_2 || common && no_persons),
        NoLitres => Some(no_units || no_persons_of_class_2 || common && no_persons),
        NoPersonsOfClass2 => Some(no_units || no_litres || common && no_persons),
        NoPersons => Some(no_units || no_litres || no_persons_of_class_2),
        NoPersonsWithoutCommon => Some(no_units || no_litres || no_persons),
        _ => None,
    }
}

/// 9, for any H.
pub fn no_heat_divisor(sheet: &Sheet) -> Option<bool> {
    let no_loads = sum(&sheet.units, heat_load) == 0;
    let no_risers = sum(read_units(sheet), riser_surface) == 0;
    let meter = u64::from(sheet.header.shared_meter_wh);
    match (current()?, sheet.header.model) {
        (LoadsWithoutHeat, 1) => Some(no_loads && meter > hot_water_wh(sheet)),
        (LoadsOfEveryModel, model) => Some(no_loads || model == 4 && no_risers),
        (RisersOfAllUnits, 4) => Some(sum(&sheet.units, riser_surface) == 0),
        (RisersWithReadings, 4) => Some(no_risers && sum(&sheet.units, reading) > 0),
        _ => None,
    }
}

/// 9's water tests although H = 0.
pub fn without_water() -> bool {
    misread(DivisorWithoutWater)
}

/// 10.
pub fn no_readings(sheet: &Sheet) -> Option<bool> {
    let all_read = sheet.units.iter().all(is_read);
    misread(UnreadOneMissing).then_some(sheet.header.model >= 3 && !all_read)
}

/// 11.
pub fn meters_exceed(sheet: &Sheet) -> Option<bool> {
    let meter = u64::from(sheet.header.shared_meter_wh);
    let metered_sum = sum(&sheet.units, reading);
    match current()? {
        CalorimetersEqual => Some(all_metered(sheet) && metered_sum + hot_water_wh(sheet) >= meter),
        CalorimetersOfMeter => Some(all_metered(sheet) && metered_sum > meter),
        _ => None,
    }
}

/// 12.
pub fn unmetered_exceeds(sheet: &Sheet) -> Option<bool> {
    let unread_sum: u64 = unread_weights(sheet).iter().sum();
    match current()? {
        OverchargeAccepted => Some(false),
        RestOfZero => Some(sheet.header.model >= 3 && unread_sum >= whole_weight(sheet)),
        _ => None,
    }
}
