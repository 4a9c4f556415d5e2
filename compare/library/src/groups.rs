//! Groups of buildings on one meter.

use crate::calls;
use crate::difference::{same, Compared};
use crate::side::Side;
use crate::tally::Tally;
use crate::ways::Way;
use compare::group::Building;
use compare::groups::{random_group, Group};
use compare::rng::Rng;
use compare::sheet::{get_u16, get_u32};
use compare::vectors::group_bytes;

/// What a list holds before a call.
const BEFORE: u32 = 9;

/// A random group: the answer, every number of the list, and a list that a
/// refused call leaves.
pub fn compare_group(side: &Side, rng: &mut Rng, tally: &mut Tally) -> Compared<()> {
    let group = random_group(rng);
    let Group {
        buffer,
        buildings,
        shared_wh,
        list_len,
    } = &group;
    let before = vec![BEFORE; *list_len];
    let (mut ours, mut theirs) = (before.clone(), before.clone());
    let expected = (side.settle_group)(buffer, buildings, *shared_wh, &mut ours);
    let number = calls::settle_group(buffer, buildings, *shared_wh, &mut theirs);
    let input = group_bytes(&group);
    same("group", &input, expected, number)?;
    same("group: statements", &input, &ours, &theirs)?;
    count(&group, number, &theirs, tally);
    if number != 0 {
        return same("group: refused", &input, before, theirs);
    }
    compare_alone(buffer, &buildings[0])
}

/// A building as a group of its own reading, and settled.
fn compare_alone(buffer: &[u8], building: &Building) -> Compared<()> {
    let start = building.offset as usize;
    let sheet = &buffer[start..start + building.length as usize];
    let meter = u64::from(get_u32(sheet, 16));
    let len = 8 * usize::from(get_u16(sheet, 8));
    let (mut alone, mut settled) = (vec![BEFORE; len], vec![BEFORE; len]);
    let number = calls::settle_group(buffer, &[*building], meter, &mut alone);
    same(
        "group: alone",
        sheet,
        calls::settle(sheet, &mut settled),
        number,
    )?;
    same("group: alone, statement", sheet, settled, alone)
}

/// Counts an answer that both sides gave, and its ways.
fn count(group: &Group, number: u32, numbers: &[u32], tally: &mut Tally) {
    let (refusal, place) = (number % 256, number / 256);
    let sheet = match group.buildings.get(place as usize / 160) {
        Some(building) if (1..=20).contains(&refusal) && refusal != 13 => {
            let start = building.offset as usize;
            &group.buffer[start..start + building.length as usize]
        }
        _ => &[],
    };
    tally.count_sheet("group", refusal + 256 * (place % 160), sheet);
    for way in Way::of_group(number, group, numbers) {
        tally.count_way("group", way);
    }
}
