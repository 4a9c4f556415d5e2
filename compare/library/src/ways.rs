//! The ways to answers that have several: 4 by its byte and 20 by what clashes
//! (request 2026-03), 19 by what is wrong with the sums (request 2026-02), 22 by
//! what is wrong with the group, and an accepted group by its difference
//! (request 2026-04); 4, 9, 13 and accepted charges by the call (request
//! 2026-05); accepted calls by the divisions in which the larger weight decides,
//! and records by their version where it does (request 2026-06); calls on a fund
//! (request 2026-07, fund_ways.rs).

use crate::fund_ways::FundWay;
use compare::book::SUMS_LEN;
use compare::charge_calls::ChargeCall;
use compare::charges::{MAX_CHARGE, MODEL_1S};
use compare::damage::unit_count;
use compare::group::{difference, MAX_BUILDINGS};
use compare::groups::{takes_all, Group};
use compare::ranges::Range;
use compare::record::{named_rules, record_of, HEAD_BYTES};
use compare::refusal::*;
use compare::rules::RuleSet;
use compare::settle::settle_bytes;
use compare::sheet::{read_sheet, row_fields, Sheet, HEADER_BYTES, MAX_WH};
use compare::ties::{self, of_sheet, Division};

#[derive(Clone, Copy, PartialEq)]
pub enum Way {
    Header(u32),
    Clash(Range),
    Length,
    Below,
    /// Below zero, and only the new block would lift it again.
    Lifted,
    Past,
    GroupCount,
    GroupReading,
    GroupOutside,
    GroupMonth,
    GroupPrice,
    NoDifference,
    Surplus,
    Deficit,
    DeficitPast32Bits,
    /// A common heat goes to 0.
    TakesAll,
    /// An amount over its limit, by its place.
    Charge(usize),
    ChargeModel,
    NoLoads,
    NoLoadsNoAmounts,
    ChargeListShort,
    ChargeListLong,
    /// 8n numbers.
    ChargeListOfStatement,
    ByLoad,
    ByArea,
    /// A month that 8 to 12 refuse.
    NotSettled,
    Tie(Division),
    /// The same with a difference below 0.
    DeficitTie,
    /// A record of this version, of a month with a tie.
    VersionTie(RuleSet),
    /// The same with the numbers of the other rule for ties.
    VersionOtherTie(RuleSet),
    Fund(FundWay),
}

const OF_MONTHS: &[&str] = &["settle", "write", "post", "replace", "group"];

const OF_GROUPS: [Way; 10] = [
    Way::GroupCount,
    Way::GroupReading,
    Way::GroupOutside,
    Way::GroupMonth,
    Way::GroupPrice,
    Way::NoDifference,
    Way::Surplus,
    Way::Deficit,
    Way::DeficitPast32Bits,
    Way::TakesAll,
];

const OF_CHARGES: [Way; 12] = [
    Way::Charge(0),
    Way::Charge(1),
    Way::Charge(2),
    Way::ChargeModel,
    Way::NoLoads,
    Way::NoLoadsNoAmounts,
    Way::ChargeListShort,
    Way::ChargeListLong,
    Way::ChargeListOfStatement,
    Way::ByLoad,
    Way::ByArea,
    Way::NotSettled,
];

impl Way {
    pub fn all() -> Vec<Way> {
        let bytes = [
            6, 7, 8, 10, 11, 12, 13, 14, 15, 16, 20, 24, 28, 32, 36, 40, 44,
        ];
        let mut ways = bytes.map(Way::Header).to_vec();
        ways.extend(Range::CLASHES.map(Way::Clash));
        ways.extend([Way::Length, Way::Below, Way::Lifted, Way::Past]);
        ways.extend(OF_GROUPS);
        ways.extend(OF_CHARGES);
        ways.extend(Division::ALL.map(Way::Tie));
        ways.push(Way::DeficitTie);
        ways.extend(RuleSet::ALL.map(Way::VersionTie));
        ways.extend(RuleSet::ALL.map(Way::VersionOtherTie));
        ways.extend(FundWay::all().map(Way::Fund));
        ways
    }

    pub fn name(self) -> String {
        match self {
            Way::Header(byte) => format!("4 at byte {byte}"),
            Way::Clash(range) => format!("20 {range:?}"),
            Way::Length => "19 length".to_string(),
            Way::Below => "19 below zero".to_string(),
            Way::Lifted => "19 lifted again".to_string(),
            Way::Past => "19 past 64 bits".to_string(),
            Way::GroupCount => "22 count".to_string(),
            Way::GroupReading => "22 shared reading".to_string(),
            Way::GroupOutside => "22 outside the buffer".to_string(),
            Way::GroupMonth => "22 month".to_string(),
            Way::GroupPrice => "22 price".to_string(),
            Way::NoDifference => "0 no difference".to_string(),
            Way::Surplus => "0 difference above 0".to_string(),
            Way::Deficit => "0 difference below 0".to_string(),
            Way::DeficitPast32Bits => "0 below, past 32 bits".to_string(),
            Way::TakesAll => "0 common heat to 0".to_string(),
            Way::Charge(place) => format!("4 amount {place}"),
            Way::ChargeModel => "4 model of the call".to_string(),
            Way::NoLoads => "9 something to divide".to_string(),
            Way::NoLoadsNoAmounts => "9 nothing to divide".to_string(),
            Way::ChargeListShort => "13 below 3n".to_string(),
            Way::ChargeListLong => "13 above 3n".to_string(),
            Way::ChargeListOfStatement => "13 of 8n".to_string(),
            Way::ByLoad => "0 by load".to_string(),
            Way::ByArea => "0 by area".to_string(),
            Way::NotSettled => "0 where 8 to 12 hold".to_string(),
            Way::Tie(division) => format!("0 tie, {division:?}"),
            Way::DeficitTie => "0 tie, below 0".to_string(),
            Way::VersionTie(rules) => format!("0 tie, {rules:?}"),
            Way::VersionOtherTie(rules) => format!("14 tie, {rules:?}"),
            Way::Fund(way) => way.name(),
        }
    }

    /// A way seen less often than this in a million rounds, in a call that has
    /// it, is a gap.
    pub fn seldom(self) -> u64 {
        match self {
            Way::Fund(_) => 1_000,
            way if OF_GROUPS.contains(&way) || OF_CHARGES.contains(&way) => 1_000,
            _ => 100,
        }
    }

    /// The calls that may be answered this way.
    pub fn calls(self) -> &'static [&'static str] {
        match self {
            Way::Header(_) | Way::Clash(_) => &[
                "settle", "write", "read", "open", "post", "replace", "group", "charges", "collect",
            ],
            Way::Length => &["open", "post", "replace", "withdraw", "year"],
            Way::Below => &["replace", "withdraw"],
            Way::Lifted => &["replace"],
            Way::Past => &["post", "replace"],
            Way::Tie(Division::Charge) => &["charges"],
            Way::Tie(division) if division.is_of_month() => OF_MONTHS,
            Way::VersionTie(_) | Way::VersionOtherTie(_) => &["read"],
            way if OF_CHARGES.contains(&way) => &["charges"],
            Way::Fund(way) => way.calls(),
            _ => &["group"],
        }
    }

    /// The ways of a group call that 22 refused or that was accepted.
    pub fn of_group(answer: u32, group: &Group, numbers: &[u32]) -> Vec<Way> {
        match answer {
            0 => {
                let sheets = sheets_of(group);
                let mut ways = Way::of_difference(&sheets, group.shared_wh);
                ways.extend(Way::of_group_ties(&sheets, group.shared_wh, numbers));
                ways
            }
            BAD_GROUP => vec![Way::of_bad_group(group)],
            _ => Vec::new(),
        }
    }

    fn of_difference(sheets: &[Sheet], shared_wh: u64) -> Vec<Way> {
        let difference = difference(sheets, shared_wh);
        let mut ways = match difference {
            0 => vec![Way::NoDifference],
            1.. => vec![Way::Surplus],
            _ => vec![Way::Deficit],
        };
        if difference < -i64::from(u32::MAX) {
            ways.push(Way::DeficitPast32Bits);
        }
        if takes_all(sheets, shared_wh) {
            ways.push(Way::TakesAll);
        }
        ways
    }

    fn of_group_ties(sheets: &[Sheet], shared_wh: u64, numbers: &[u32]) -> Vec<Way> {
        let divisions = ties::of_group(sheets, shared_wh, numbers);
        let below = difference(sheets, shared_wh) < 0;
        let mut ways: Vec<Way> = divisions.iter().copied().map(Way::Tie).collect();
        if below && divisions.contains(&Division::Difference) {
            ways.push(Way::DeficitTie);
        }
        ways
    }

    fn of_bad_group(group: &Group) -> Way {
        let end = group.buffer.len() as u64;
        let mut ends = group
            .buildings
            .iter()
            .map(|b| b.offset.checked_add(b.length));
        if !(1..=MAX_BUILDINGS).contains(&group.buildings.len()) {
            return Way::GroupCount;
        }
        if group.shared_wh > u64::from(MAX_WH) {
            return Way::GroupReading;
        }
        if ends.any(|sheet_end| sheet_end.is_none_or(|sheet_end| sheet_end > end)) {
            return Way::GroupOutside;
        }
        let sheets = sheets_of(group);
        let month = sheets[0].header.month;
        if sheets.iter().all(|sheet| sheet.header.month == month) {
            Way::GroupPrice
        } else {
            Way::GroupMonth
        }
    }

    /// The ways of charges by what is the call's own.
    pub fn of_charges(answer: u32, call: &ChargeCall) -> Vec<Way> {
        let right_len = 3 * unit_count(&call.sheet);
        match answer {
            0 => Way::of_accepted_charges(call),
            HEADER_FIELD => {
                let over = |&place: &usize| call.amounts[place] > MAX_CHARGE;
                let amount = (0..3).find(over).map(Way::Charge);
                vec![amount.unwrap_or(Way::ChargeModel)]
            }
            ZERO_DIVISOR if call.amounts == [0; 3] => vec![Way::NoLoadsNoAmounts],
            ZERO_DIVISOR => vec![Way::NoLoads],
            BUFFER_LENGTH if 3 * call.list_len == 8 * right_len => {
                vec![Way::ChargeListOfStatement]
            }
            BUFFER_LENGTH if call.list_len < right_len => vec![Way::ChargeListShort],
            BUFFER_LENGTH => vec![Way::ChargeListLong],
            _ => Vec::new(),
        }
    }

    fn of_accepted_charges(call: &ChargeCall) -> Vec<Way> {
        let by_load = call.model == MODEL_1S;
        let mut ways = vec![if by_load { Way::ByLoad } else { Way::ByArea }];
        if settle_bytes(&call.sheet).is_err() {
            ways.push(Way::NotSettled);
        }
        ways.extend(ties::of_charges(call).into_iter().map(Way::Tie));
        ways
    }

    /// The way of a record that is accepted, or that 14 refuses for its numbers,
    /// where they hang on the rule for ties.
    pub fn of_record(answer: u32, record: &[u8]) -> Option<Way> {
        let rules = named_rules(record)?;
        let body = &record[HEAD_BYTES..];
        let (sheet, statement) = body.split_at_checked((body.len() + HEADER_BYTES) / 2)?;
        if !matches!(answer, 0 | BAD_ARCHIVE) || of_sheet(sheet).is_empty() {
            return None;
        }
        if answer == 0 {
            return Some(Way::VersionTie(rules));
        }
        let is_other = |other: &RuleSet| other.larger_first() != rules.larger_first();
        let is_of = |other| record_of(sheet, other).is_ok_and(|r| r.ends_with(statement));
        let mut others = RuleSet::ALL.into_iter().filter(is_other);
        others.any(is_of).then_some(Way::VersionOtherTie(rules))
    }

    /// The way of a call that 4 or 20 refused, with its sheet; the charges' own 4
    /// has no byte.
    pub fn of_sheet(answer: u32, sheet: &[u8]) -> Option<Way> {
        match (answer % 256, answer / 256) {
            (HEADER_FIELD, byte @ 1..) => Some(Way::Header(byte)),
            (FIELD_CONFLICT, row) => {
                let sheet = read_sheet(sheet);
                let fields = row_fields(&sheet.header, &sheet.units[row as usize]);
                let clash = fields.iter().find(|field| field.clashes());
                clash.and_then(|field| field.allowed).map(Way::Clash)
            }
            _ => None,
        }
    }

    /// The way of a call that 19 refused: it would have taken the old numbers
    /// off and added the new ones.
    pub fn of_sums(sums: &[u64], old: &[u32], new: &[u32]) -> Way {
        if sums.len() != SUMS_LEN {
            return Way::Length;
        }
        let number = |list: &[u32], place| list.get(place).map_or(0, |&number| i128::from(number));
        let rest = |place| i128::from(sums[place]) - number(old, place);
        let below = |place: &usize| rest(*place) < 0;
        let lifted = |place: usize| rest(place) + number(new, place) >= 0;
        let mut faults = (0..SUMS_LEN).filter(below).peekable();
        if faults.peek().is_none() {
            return Way::Past;
        }
        if faults.all(lifted) {
            Way::Lifted
        } else {
            Way::Below
        }
    }
}

/// The sheets of a group whose buildings pass their own refusals.
fn sheets_of(group: &Group) -> Vec<Sheet> {
    let bytes = |offset: u64| &group.buffer[offset as usize..];
    let buildings = group.buildings.iter();
    buildings.map(|b| read_sheet(bytes(b.offset))).collect()
}
