//! Document 01, end of "Steps of a month": the unrounded portions, and the
//! check of an accepted sheet's statement against them.

use crate::rules::RuleSet;
use crate::settle::Outcome;
use crate::sheet::Sheet;
use crate::weights::*;
use crate::whole::Whole;

/// A pair of whole numbers, the lower above 0.
#[derive(Clone, Debug)]
pub struct Fraction {
    pub upper: Whole,
    pub lower: Whole,
}

impl Fraction {
    pub fn new(upper: u64, lower: u64) -> Fraction {
        Fraction {
            upper: upper.into(),
            lower: lower.into(),
        }
    }

    /// The part T × w / W, or 0 when W = 0.
    pub fn part(&self, weight: u64, weight_sum: u64) -> Fraction {
        if weight_sum == 0 {
            return Fraction::new(0, 1);
        }
        Fraction {
            upper: self.upper.times(&weight.into()),
            lower: self.lower.times(&weight_sum.into()),
        }
    }

    /// Every item's part of a division.
    fn divide(&self, weights: &[u64]) -> Vec<Fraction> {
        let weight_sum = weights.iter().sum();
        weights
            .iter()
            .map(|&weight| self.part(weight, weight_sum))
            .collect()
    }

    pub fn negated(&self) -> Fraction {
        Fraction {
            upper: self.upper.negated(),
            lower: self.lower.clone(),
        }
    }

    pub fn plus(&self, other: &Fraction) -> Fraction {
        if self.lower == other.lower {
            let upper = self.upper.plus(&other.upper);
            return Fraction {
                upper,
                lower: self.lower.clone(),
            };
        }
        let left = self.upper.times(&other.lower);
        let right = other.upper.times(&self.lower);
        Fraction {
            upper: left.plus(&right),
            lower: self.lower.times(&other.lower),
        }
    }

    fn minus(&self, other: &Fraction) -> Fraction {
        self.plus(&other.negated())
    }

    /// The distance to a whole number is at most `limit`.
    pub fn is_within(&self, limit: u64, whole: u64) -> bool {
        let distance = self.minus(&Fraction::new(whole, 1));
        let limit = Whole::from(limit).times(&distance.lower);
        distance.upper.size().at_most(&limit)
    }

    pub fn equals(&self, whole: u64) -> bool {
        self.is_within(0, whole)
    }
}

/// Per unit the unrounded heat, common heat, water and common water of a sheet
/// that settles.
pub fn portions(sheet: &Sheet, rules: RuleSet) -> Vec<[Fraction; 4]> {
    portions_with(sheet, rules, &Fraction::new(0, 1))
}

/// The same with a share of a difference, perhaps negative, in the common heat
/// (request 2026-04).
pub fn portions_with(sheet: &Sheet, rules: RuleSet, share: &Fraction) -> Vec<[Fraction; 4]> {
    let (upper, lower) = hot_water(&sheet.header);
    let hot_water = Fraction::new(upper, lower);
    let meter = Fraction::new(u64::from(sheet.header.shared_meter_wh), 1);
    let space_heat = meter.minus(&hot_water);

    let (heat, common_heat) = if all_metered(sheet) {
        let heat = column(sheet, reading)
            .iter()
            .map(|&b| Fraction::new(b, 1))
            .collect();
        let metered_sum = Fraction::new(sum(&sheet.units, reading), 1);
        (heat, space_heat.minus(&metered_sum))
    } else {
        let (unit_heat, common_heat) = split(&space_heat, sheet.header.common_heat_percent);
        (heat_portions(sheet, &unit_heat, rules), common_heat)
    };
    let (unit_water, common_water) = split(&hot_water, sheet.header.common_water_percent);

    let common_heat = common_heat.plus(share).divide(&column(sheet, heated_area));
    let water = unit_water.divide(&unit_water_weights(sheet));
    let common_water = common_water.divide(&common_water_weights(sheet));
    let columns = [heat, common_heat, water, common_water];
    (0..sheet.units.len())
        .map(|place| std::array::from_fn(|kind| columns[kind][place].clone()))
        .collect()
}

fn split(total: &Fraction, percent: u8) -> (Fraction, Fraction) {
    let percent = u64::from(percent);
    (total.part(100 - percent, 100), total.part(percent, 100))
}

/// Steps 3 and 4 without rounding.
fn heat_portions(sheet: &Sheet, unit_heat: &Fraction, rules: RuleSet) -> Vec<Fraction> {
    match sheet.header.model {
        1 => return unit_heat.divide(&column(sheet, heat_load)),
        2 => return unit_heat.divide(&column(sheet, heated_area)),
        _ => {}
    }
    let mut heat = vec![Fraction::new(0, 1); sheet.units.len()];
    let whole_weight = whole_weight(sheet);
    let mut pool_weight = whole_weight;
    for (place, weight) in unread_places(sheet).into_iter().zip(unread_weights(sheet)) {
        heat[place] = unit_heat.part(weight, whole_weight);
        pool_weight -= weight;
    }
    let metered_pool = unit_heat.part(pool_weight, whole_weight);
    let parts = metered_pool.divide(&read_weights(sheet, rules));
    for (place, part) in read_places(sheet).into_iter().zip(parts) {
        heat[place] = part;
    }
    heat
}

/// Checks a statement: the energies add to M, the cents to the bill, each
/// energy is within 4 Wh of its unrounded portion, each cent amount within 1
/// of the bill's part. The error names the promise that fails.
pub fn check_statement(
    sheet: &Sheet,
    outcome: &Outcome,
    rules: RuleSet,
) -> Result<(), &'static str> {
    let units: Vec<&[u32]> = outcome.numbers.chunks(8).collect();
    let add = |range: std::ops::Range<usize>| -> u64 {
        let numbers = units.iter().flat_map(|unit| &unit[range.clone()]);
        numbers.map(|&number| u64::from(number)).sum()
    };
    require(units.len() == sheet.units.len(), "eight numbers a unit")?;
    require(
        add(0..4) == u64::from(outcome.shared_meter_wh),
        "energies add to M",
    )?;
    require(
        add(4..8) == u64::from(outcome.bill_cents),
        "cents add to the bill",
    )?;
    for (unit, portions) in units.iter().zip(portions(sheet, rules)) {
        for kind in 0..4 {
            let (wh, cents) = (u64::from(unit[kind]), u64::from(unit[4 + kind]));
            require(portions[kind].is_within(4, wh), "energy near its portion")?;
            let part = bill_part(outcome, wh);
            require(part.is_within(1, cents), "cents near the bill's part")?;
        }
    }
    Ok(())
}

/// A bill's part: bill × energy / M, 0 when M is 0.
fn bill_part(outcome: &Outcome, wh: u64) -> Fraction {
    let bill = Fraction::new(u64::from(outcome.bill_cents), 1);
    bill.part(wh, u64::from(outcome.shared_meter_wh))
}

pub fn require(holds: bool, promise: &'static str) -> Result<(), &'static str> {
    if holds {
        Ok(())
    } else {
        Err(promise)
    }
}
