//! Wrong readings of the fields' ranges: one end off by one.

use crate::ranges::Range;
use crate::{current, Reading};

/// Which end, and where it moves.
#[derive(Clone, Copy, Debug, PartialEq, Eq)]
pub enum End {
    LowestDown,
    LowestUp,
    HighestDown,
    HighestUp,
}

/// The ends of a range that is read off by one.
pub fn ends(range: Range) -> Option<(u32, u32)> {
    match current()? {
        Reading::Ends(other, end) if other == range => Some(shifted(range, end)),
        _ => None,
    }
}

/// A range with one end off by one.
pub fn shifted(range: Range, end: End) -> (u32, u32) {
    let (lowest, highest) = range.ends();
    match end {
        End::LowestDown => (lowest - 1, highest),
        End::LowestUp => (lowest + 1, highest),
        End::HighestDown => (lowest, highest - 1),
        End::HighestUp => (lowest, highest + 1),
    }
}

/// The ends that can be off by one without leaving the range empty.
pub fn ends_to_shift(range: Range) -> Vec<End> {
    let (lowest, highest) = range.ends();
    let mut ends = vec![End::HighestUp];
    if lowest > 0 {
        ends.push(End::LowestDown);
    }
    if lowest < highest {
        ends.extend([End::LowestUp, End::HighestDown]);
    }
    ends
}
