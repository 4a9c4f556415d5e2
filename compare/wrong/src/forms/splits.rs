//! Wrong readings of the splits into units' and common part, steps 2 and 6.

use crate::apportion::apportion;
use crate::rules::RuleSet;
use crate::{current, Reading::*};

/// Step 2.
pub fn heat(total: u64, percent: u8, rules: RuleSet) -> Option<(u64, u64)> {
    match current()? {
        HeatSplitSwapped => Some(swapped(total, percent, rules)),
        HeatCommonFirst => Some(common_first(total, percent, rules)),
        HeatCommonDown => Some(common_down(total, percent)),
        _ => None,
    }
}

/// Step 6.
pub fn water(total: u64, percent: u8, rules: RuleSet) -> Option<(u64, u64)> {
    match current()? {
        WaterSplitSwapped => Some(swapped(total, percent, rules)),
        WaterCommonFirst => Some(common_first(total, percent, rules)),
        WaterCommonDown => Some(common_down(total, percent)),
        _ => None,
    }
}

fn swapped(total: u64, percent: u8, rules: RuleSet) -> (u64, u64) {
    let percent = u64::from(percent);
    let parts = apportion(total, &[percent, 100 - percent], rules);
    (u64::from(parts[0]), u64::from(parts[1]))
}

fn common_first(total: u64, percent: u8, rules: RuleSet) -> (u64, u64) {
    let (common, units) = swapped(total, percent, rules);
    (units, common)
}

fn common_down(total: u64, percent: u8) -> (u64, u64) {
    let common = total * u64::from(percent) / 100;
    (total - common, common)
}
