//! Several buildings on one meter.

use super::dividing::divide;
use super::month::{bill_cents, Month};
use crate::group::{Building, MAX_BUILDINGS};
use crate::refusal::*;
use crate::rules::NEWEST;

/// Settles a group into a list of 8 numbers a unit: 22, each building's 1 to 12
/// with 20, 22 again, 13, 21.
pub fn settle_group<const RECIPROCAL: bool>(
    buffer: &[u8],
    buildings: &[Building],
    shared_wh: u64,
    statement: &mut [u32],
) -> Result<(), Refusal> {
    check(buffer, buildings, shared_wh)?;
    let group = Group::of(buffer, buildings)?;
    refuse_if(statement.len() != 8 * group.units, BUFFER_LENGTH)?;
    let adjusted = group.adjusted::<RECIPROCAL>(shared_wh)?;
    group.write::<RECIPROCAL>(&adjusted, shared_wh, statement);
    Ok(())
}

/// The first 22.
fn check(buffer: &[u8], buildings: &[Building], shared_wh: u64) -> Result<(), Refusal> {
    let length = buffer.len() as u64;
    let leaves = |b: &Building| b.offset > length || b.length > length - b.offset;
    let bad = buildings.is_empty()
        || buildings.len() > MAX_BUILDINGS
        || shared_wh > 4_000_000_000
        || buildings.iter().any(leaves);
    refuse_if(bad, BAD_GROUP)
}

/// Buildings that none of their own refusals meets.
struct Group<'a> {
    months: [Option<Month<'a>>; MAX_BUILDINGS],
    count: usize,
    units: usize,
    readings_sum: u64,
    price: u64,
}

/// Each building's reading and common heat with its share of the difference.
struct Adjusted {
    readings: [u64; MAX_BUILDINGS],
    common_heats: [u64; MAX_BUILDINGS],
}

impl<'a> Group<'a> {
    /// Each building's own refusals, and the second 22.
    fn of(buffer: &'a [u8], buildings: &[Building]) -> Result<Group<'a>, Refusal> {
        let mut group = Group {
            months: [const { None }; MAX_BUILDINGS],
            count: buildings.len(),
            units: 0,
            readings_sum: 0,
            price: 0,
        };
        let mut first = None;
        let mut same = true;
        for (place, building) in buildings.iter().enumerate() {
            let start = building.offset as usize;
            let sheet = &buffer[start..start + building.length as usize];
            let month = match Month::of(sheet, 32, NEWEST) {
                Ok(month) => month,
                Err(Refusal { number, place: row }) => {
                    return refuse_at(number, row as usize + 160 * place);
                }
            };
            let header = (month.header.month, month.header.price);
            same &= *first.get_or_insert(header) == header;
            group.price = month.header.price;
            group.units += month.rows.len();
            group.readings_sum += month.header.shared_meter_wh;
            group.months[place] = Some(month);
        }
        refuse_if(!same, BAD_GROUP)?;
        Ok(group)
    }

    fn months(&self) -> impl Iterator<Item = &Month<'a>> {
        self.months.iter().flatten()
    }

    /// 21, and what the difference makes of readings and common heats.
    fn adjusted<const RECIPROCAL: bool>(&self, shared_wh: u64) -> Result<Adjusted, Refusal> {
        let mut areas = [0; MAX_BUILDINGS];
        let (mut rests, mut shares) = ([0; MAX_BUILDINGS], [0u64; MAX_BUILDINGS]);
        for (area, month) in areas.iter_mut().zip(self.months()) {
            *area = month.area();
        }
        let count = self.count;
        divide::<RECIPROCAL>(
            shared_wh.abs_diff(self.readings_sum),
            &areas[..count],
            NEWEST,
            &mut rests[..count],
            &mut shares[..count],
        );
        let mut adjusted = Adjusted {
            readings: [0; MAX_BUILDINGS],
            common_heats: [0; MAX_BUILDINGS],
        };
        let is_negative = shared_wh < self.readings_sum;
        for (place, (month, &share)) in self.months().zip(&shares).enumerate() {
            let reading = month.header.shared_meter_wh;
            let (_, common_heat) = month.heat();
            refuse_if(is_negative && share > common_heat, NEGATIVE_COMMON_HEAT)?;
            let with_share = |wh: u64| if is_negative { wh - share } else { wh + share };
            adjusted.readings[place] = with_share(reading);
            adjusted.common_heats[place] = with_share(common_heat);
        }
        Ok(adjusted)
    }

    /// Writes the statements, building after building.
    fn write<const RECIPROCAL: bool>(
        &self,
        adjusted: &Adjusted,
        shared_wh: u64,
        statement: &mut [u32],
    ) {
        let (mut rests, mut parts) = ([0; MAX_BUILDINGS], [0u32; MAX_BUILDINGS]);
        divide::<RECIPROCAL>(
            bill_cents(shared_wh, self.price),
            &adjusted.readings[..self.count],
            NEWEST,
            &mut rests[..self.count],
            &mut parts[..self.count],
        );
        let mut rest = statement;
        for ((month, &common_heat), &part) in self.months().zip(&adjusted.common_heats).zip(&parts)
        {
            let (numbers, behind) = rest.split_at_mut(8 * month.rows.len());
            month.write::<RECIPROCAL>(common_heat, part.into(), numbers);
            rest = behind;
        }
    }
}
