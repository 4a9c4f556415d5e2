//! "Archive record": writing, reading back, damage, archive versions.

use compare::cases::*;
use compare::damage::{damage, put};
use compare::record::{head, read_record, record_of, write_record, RecordAnswer};
use compare::refusal::Refusal;
use compare::rng::Rng;
use compare::rules::{RuleSet, NEWEST};
use compare::samples::{good_sheet, random_sheet};
use compare::settle::settle_bytes;
use compare::sheet::{build_sheet, Sheet};

fn refused(number: u32, place: u32) -> RecordAnswer {
    RecordAnswer {
        number,
        place,
        part_start: 0,
        part_length: 0,
    }
}

fn accepted(unit_count: usize) -> RecordAnswer {
    RecordAnswer {
        number: 0,
        place: 0,
        part_start: 8,
        part_length: 48 + 32 * unit_count,
    }
}

/// The record that the writer writes.
fn written(sheet: &[u8], unit_count: usize) -> Vec<u8> {
    let mut record = vec![0xaa; 56 + 64 * unit_count];
    write_record(sheet, &mut record).expect("the sheet settles");
    record
}

/// A sheet's record with the numbers of one archive version and the head of
/// another.
fn mixed(sheet: &Sheet, numbers: RuleSet, named: RuleSet) -> Vec<u8> {
    let record = record_of(&build_sheet(sheet), numbers);
    let mut record = record.expect("the sheet settles");
    record[..8].copy_from_slice(&head(named));
    record
}

#[test]
fn case_a_comes_back() {
    let sheet = build_sheet(&case_a());
    let record = written(&sheet, 3);
    assert_eq!(record.len(), 248);
    assert_eq!(record[..8], [72, 67, 65, 0, 3, 0, 0, 0]);
    assert_eq!(record[8..152], sheet);
    assert_eq!(record[152..156], 116_000u32.to_le_bytes());
    assert_eq!(read_record(&record), accepted(3));
}

#[test]
fn a_changed_head_or_statement_is_refused() {
    let record = written(&build_sheet(&case_a()), 3);
    for place in (0..8).chain(152..248) {
        let mut other = record.clone();
        // 3 with one of its bits gone would be an older version.
        other[place] ^= if place == 4 { 4 } else { 1 };
        assert_eq!(read_record(&other), refused(14, 0), "byte {place}");
    }
}

#[test]
fn short_and_long_records() {
    let record = written(&build_sheet(&case_a()), 3);
    let cut = |length: usize| read_record(&record[..length]);
    assert_eq!(cut(0), refused(14, 0));
    assert_eq!(cut(7), refused(14, 0));
    assert_eq!(cut(8), refused(1, 0));
    assert_eq!(cut(55), refused(1, 0));
    assert_eq!(cut(56), refused(5, 0));
    assert_eq!(cut(152), refused(5, 0));
    assert_eq!(cut(247), refused(5, 0));
    let longer = [&record[..], &[0]].concat();
    assert_eq!(read_record(&longer), refused(5, 0));
}

#[test]
fn a_refused_writer_leaves_the_list() {
    let sheet = build_sheet(&case_a());
    let mut list = vec![7; 247];
    let answer = write_record(&sheet, &mut list);
    assert_eq!(
        answer,
        Err(Refusal {
            number: 13,
            place: 0
        })
    );
    assert_eq!(list, vec![7; 247]);
}

#[test]
fn random_records() {
    let mut rng = Rng::new(5);
    for _ in 0..2_000 {
        let bytes = build_sheet(&random_sheet(&mut rng));
        let Ok(outcome) = settle_bytes(&bytes) else {
            continue;
        };
        let mut record = written(&bytes, outcome.unit_count);
        let answer = read_record(&record);
        assert_eq!((answer.number, answer.part_start), (0, 8));
        assert_eq!(record[8..8 + answer.part_length], bytes);

        // Damage to the part behind the head.
        let mut body = record.split_off(8);
        damage(&mut rng, &mut body);
        record.extend(&body);
        let answer = read_record(&record);
        if answer.number != 0 {
            assert_eq!((answer.part_start, answer.part_length), (0, 0));
        } else {
            assert_eq!(
                record,
                written(&record[8..8 + answer.part_length], outcome.unit_count)
            );
        }
    }
}

/// docs/FORMAT.md: a change that leaves the settlement as it is isn't found.
#[test]
fn single_bits_of_case_a_that_are_not_found() {
    let record = written(&build_sheet(&case_a()), 3);
    let mut passed = Vec::new();
    for bit in 0..8 * record.len() {
        let mut changed = record.clone();
        changed[bit / 8] ^= 1 << (bit % 8);
        if read_record(&changed).number == 0 {
            passed.push(bit / 8);
        }
    }
    assert_eq!((8 * record.len(), passed.len()), (1984, 134));
    // Archive versions 1 and 2; in the header month, source and f; in a row id, s
    // and q.
    let passed = passed.strip_prefix(&[4, 4]).expect("the head comes first");
    let header = |place: usize| [6, 10, 14].contains(&place);
    let row = |place: usize| [0..4, 12..20].iter().any(|field| field.contains(&place));
    let named = |place: usize| header(place) || place >= 48 && row((place - 48) % 32);
    assert!(passed.iter().all(|&byte| named(byte - 8)));
}

#[test]
fn numbers_are_those_of_the_archive_version_that_the_head_names() {
    let tie = building(2, 2, &[(1, 0), (3, 0)]);
    let limits: fn(RuleSet) -> bool = RuleSet::limits_risers;
    let ties: fn(RuleSet) -> bool = RuleSet::larger_first;
    // Which rules settle the sheet otherwise.
    for (sheet, parted_by) in [
        (case_c_by_risers([50, 50, 100]), &[limits][..]),
        (case_c_by_risers([0, 50, 100]), &[limits]),
        (tie, &[ties]),
        (other_by_every_version(), &[limits, ties]),
    ] {
        let units = sheet.units.len();
        for numbers in RuleSet::ALL {
            for named in RuleSet::ALL {
                let alike = parted_by.iter().all(|rule| rule(numbers) == rule(named));
                let expected = if alike {
                    accepted(units)
                } else {
                    refused(14, 0)
                };
                let answer = read_record(&mixed(&sheet, numbers, named));
                assert_eq!(answer, expected, "{numbers:?} under {named:?}");
            }
        }
        let newest = mixed(&sheet, NEWEST, NEWEST);
        assert_eq!(written(&build_sheet(&sheet), units), newest);
    }
}

#[test]
fn a_month_that_every_version_settles_otherwise_passes_on_the_diagonal_only() {
    let sheet = other_by_every_version();
    for numbers in RuleSet::ALL {
        for named in RuleSet::ALL {
            let passes = read_record(&mixed(&sheet, numbers, named)) == accepted(3);
            assert_eq!(passes, numbers == named, "{numbers:?} under {named:?}");
        }
    }
}

#[test]
fn numbers_that_do_not_differ_pass_under_every_head() {
    for sheet in [case_a(), case_d(), good_sheet(4, 1), good_sheet(5, 3)] {
        for numbers in RuleSet::ALL {
            for named in RuleSet::ALL {
                let record = mixed(&sheet, numbers, named);
                assert_eq!(read_record(&record), accepted(3), "{named:?}");
            }
        }
    }
}

#[test]
fn other_archive_versions_are_wrong_heads() {
    let mut record = written(&build_sheet(&case_a()), 3);
    for version in [0, 4, 5, 256, 257, 258, 259, 512, 513, 65_535] {
        put(&mut record, (4, 2), version);
        assert_eq!(read_record(&record), refused(14, 0), "version {version}");
        // 14's head comes before the sheet.
        assert_eq!(read_record(&record[..9]), refused(14, 0));
    }
}

#[test]
fn sheets_are_refused_alike_in_every_archive_version() {
    let no_risers = case_c_by_risers([0, 0, 0]);
    let mut bad_row = case_c_by_risers([0, 50, 100]);
    bad_row.units[1].location_factor = 0;
    for rules in RuleSet::ALL {
        for (sheet, expected) in [
            (&two_units(31), refused(12, 0)),
            (&no_risers, refused(9, 0)),
            (&bad_row, refused(6, 1)),
        ] {
            let mut record = [&head(rules)[..], &build_sheet(sheet)].concat();
            record.resize(56 + 64 * sheet.units.len(), 0);
            assert_eq!(read_record(&record), expected, "{rules:?}");
        }
    }
}

/// crates/stored_record: records that must be read for good. That file is only
/// ever added to.
#[test]
fn stored_records_are_read() {
    let stored = include_bytes!("../../crates/stored_record/stdin");
    let risers = case_c_by_risers([50, 50, 100]);
    let tied = building(2, 1_000_004, &[(100, 0), (300, 0), (400, 0)]);
    let expected = [
        mixed(&case_a(), RuleSet::Archive1, RuleSet::Archive1),
        mixed(&risers, RuleSet::Archive1, RuleSet::Archive1),
        mixed(&risers, RuleSet::Archive2, RuleSet::Archive2),
        mixed(&tied, RuleSet::Archive2, RuleSet::Archive2),
        mixed(&tied, RuleSet::Archive3, RuleSet::Archive3),
    ];
    assert_eq!(stored[..], expected.concat());
    for record in stored.chunks(248) {
        assert_eq!(read_record(record), accepted(3));
    }
}
