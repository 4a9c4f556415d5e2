//! Requests 2026-01 and 2026-06: records of every archive version.

use super::*;
use compare::damage::put;

/// The record with another archive version in its head.
fn with_version(record: &[u8], version: u16) -> Vec<u8> {
    let mut record = record.to_vec();
    put(&mut record, (4, 2), version.into());
    record
}

impl Records {
    /// The archive version and the two zeros behind it, on a sheet that all rules
    /// settle alike.
    pub fn add_versions(&mut self) {
        let good = record(&good_sheet(4, 1), NEWEST);
        for version in [0, 1, 2, 3, 4, 256, 257, 258, 259, 512, 65_535] {
            self.add(with_version(&good, version));
        }
        for place in [6, 7] {
            self.add_changed(&good, place, 1);
            self.add_changed(&good, place, 0x80);
        }
    }

    /// Numbers of each archive version under every head: on sheets whose
    /// numbers differ by it, then on case C.
    pub fn add_version_pairs(&mut self) {
        for sheet in [
            case_c_by_risers([50, 50, 100]),
            case_c_by_risers([0, 50, 100]),
            other_by_every_version(),
            building(2, 2, &[(1, 0), (3, 0)]),
            case_a_with_readings([1_000, 0, 0]),
        ] {
            for numbers in RuleSet::ALL {
                let good = record(&sheet, numbers);
                for version in [1, 2, 3, 0, 4, 257, 258, 259] {
                    self.add(with_version(&good, version));
                }
            }
        }
    }

    /// Damage to records of each archive version: refusals 1 to 7, and 14 by the
    /// statement.
    pub fn add_damaged_versions(&mut self) {
        for rules in RuleSet::ALL {
            let good = record(&other_by_every_version(), rules);
            self.add_with_damage(&good);
            for length in [4, 6, 7, 8, 55, 56, 152] {
                self.add(good[..length].to_vec());
            }
            // The sheet's mark and version, month, v, KF of row 0, id of row 1.
            for place in [8, 12, 14, 19, 63, 88] {
                self.add_changed(&good, place, 0x40);
            }
        }
    }
}
