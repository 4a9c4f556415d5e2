//! The rules that a month is settled by. A request that changes settling brings
//! a new archive version; records of earlier ones keep their own rules.

/// The rules of each archive version.
#[derive(Clone, Copy, Debug, PartialEq, Eq)]
pub enum RuleSet {
    Archive1,
    Archive2,
    Archive3,
}

/// What is settled, written, posted and printed goes by these.
pub const NEWEST: RuleSet = RuleSet::Archive3;

impl RuleSet {
    pub const ALL: [RuleSet; 3] = [RuleSet::Archive1, RuleSet::Archive2, RuleSet::Archive3];

    /// The archive version, in a record's head.
    pub fn archive_version(self) -> u16 {
        match self {
            RuleSet::Archive1 => 1,
            RuleSet::Archive2 => 2,
            RuleSet::Archive3 => 3,
        }
    }

    /// Request 2026-01: limits in model 4.
    pub fn limits_risers(self) -> bool {
        match self {
            RuleSet::Archive1 => false,
            RuleSet::Archive2 | RuleSet::Archive3 => true,
        }
    }

    /// Request 2026-06: on equal remainders the larger weight comes first.
    pub fn larger_first(self) -> bool {
        match self {
            RuleSet::Archive1 | RuleSet::Archive2 => false,
            RuleSet::Archive3 => true,
        }
    }
}
