//! Vectors for request 2026-04: several buildings on one meter; with request
//! 2026-06.
mod refused;
mod settled;

use compare::cases::{building, by_area, by_meters, case_a, TIES};
use compare::group::MAX_BUILDINGS;
use compare::groups::{random_group, Group};
use compare::rng::Rng;
use compare::sheet::{Sheet, Unit};
use compare::vectors::{group_bytes, list_line, pack, write_files};

/// What a vector may have at most.
const MOST_BYTES: usize = 15_999;
const MOST_BUILDINGS: usize = MAX_BUILDINGS + 1;
const MOST_NUMBERS: usize = 8 * 320 + 1;

/// The list of groups under construction.
struct Groups(Vec<Group>);

impl Groups {
    fn add(&mut self, group: Group) {
        assert!(fits(&group), "{} bytes", group.buffer.len());
        self.0.push(group);
    }

    /// The sheets one after the other, for a list of the right length.
    fn add_sheets(&mut self, sheets: &[Sheet], shared_wh: u64) {
        self.add(Group::of(sheets, shared_wh));
    }

    /// Adds `base` after a change.
    fn add_changed(&mut self, base: &Group, change: impl FnOnce(&mut Group)) {
        let mut group = base.clone();
        change(&mut group);
        self.add(group);
    }

    /// Random groups, with faults and without.
    fn add_random(&mut self, rng: &mut Rng) {
        let mut added = 0;
        while added < 80 {
            let group = random_group(rng);
            if fits(&group) && group.buffer.len() < 1_200 {
                self.add(group);
                added += 1;
            }
        }
    }
}

fn fits(group: &Group) -> bool {
    group.buildings.len() <= MOST_BUILDINGS
        && group.list_len <= MOST_NUMBERS
        && group_bytes(group).len() <= MOST_BYTES
}

/// Three times case A.
fn three() -> Group {
    Group::of(&[case_a(), case_a(), case_a()], 3_000_000)
}

fn line(group: &Group) -> String {
    list_line(group.settle(), group.list_len)
}

fn main() {
    let mut rng = Rng::new(105);
    let mut groups = Groups(Vec::new());
    groups.add_cases();
    groups.add_shares_of_zero();
    groups.add_past_32_bits();
    groups.add_places_in_buffer();
    groups.add_bills();
    groups.add_ties();
    groups.add_first_22();
    groups.add_own_refusals();
    groups.add_orders();
    groups.add_second_22();
    groups.add_lists();
    groups.add_large(&mut rng);
    groups.add_random(&mut rng);

    let vectors: Vec<Vec<u8>> = groups.0.iter().map(group_bytes).collect();
    let stdout: String = groups.0.iter().map(line).collect();
    write_files(&pack(&vectors), &stdout);
}
