//! How often each answer was seen, by call and by the refusal's number, and
//! where a refusal has several ways by these too.

use crate::ways::Way;
use compare::ties::of_sheet;

pub const CALLS: [&str; 12] = [
    "settle", "write", "read", "open", "post", "replace", "withdraw", "year", "group", "charges",
    "collect", "pay",
];
/// The numbers of answers, 0 for accepted.
const NUMBERS: usize = 26;
/// The calls whose answers are looked for by themselves, and these.
const NUMBERS_OF: [(&str, &[usize]); 4] = [
    (
        "group",
        &[0, 1, 2, 3, 4, 5, 6, 7, 8, 9, 10, 11, 12, 13, 20, 21, 22],
    ),
    ("charges", &[0, 1, 2, 3, 4, 5, 6, 7, 9, 13, 20]),
    (
        "collect",
        &[0, 1, 2, 3, 4, 5, 6, 7, 8, 9, 10, 11, 12, 20, 24, 25],
    ),
    ("pay", &[0, 23]),
];
/// An answer seen less often than this in a million rounds is a gap.
const SELDOM: u64 = 1_000;

pub struct Tally {
    seen: [[u64; CALLS.len()]; NUMBERS],
    ways: Vec<(Way, [u64; CALLS.len()])>,
}

impl Default for Tally {
    fn default() -> Tally {
        let unseen = |way| (way, [0; CALLS.len()]);
        Tally {
            seen: Default::default(),
            ways: Way::all().into_iter().map(unseen).collect(),
        }
    }
}

impl Tally {
    pub fn count(&mut self, call: &str, answer: u32) {
        self.seen[answer as usize % 256][column(call)] += 1;
    }

    /// The same for a call with a sheet.
    pub fn count_sheet(&mut self, call: &str, answer: u32, sheet: &[u8]) {
        self.count(call, answer);
        if let Some(way) = Way::of_sheet(answer, sheet) {
            self.count_way(call, way);
        }
    }

    /// The same for a call that settles its sheet.
    pub fn count_month(&mut self, call: &str, answer: u32, sheet: &[u8]) {
        self.count_sheet(call, answer, sheet);
        if answer == 0 {
            for division in of_sheet(sheet) {
                self.count_way(call, Way::Tie(division));
            }
        }
    }

    pub fn count_way(&mut self, call: &str, way: Way) {
        let row = self.ways.iter_mut().find(|(other, _)| *other == way);
        row.expect("a way").1[column(call)] += 1;
    }

    pub fn print(&self) {
        print!("{:21}", "answer");
        for call in CALLS {
            print!(" {call:>9}");
        }
        println!(" {:>10}", "all");
        for (number, row) in self.seen.iter().enumerate() {
            print_row(&number.to_string(), row);
        }
        for (way, row) in &self.ways {
            print_row(&way.name(), row);
        }
    }

    /// The answers, and the ways to them, that were seen too seldom.
    pub fn seldom(&self) -> Vec<String> {
        let total = |number: &usize| self.seen[*number].iter().sum::<u64>();
        let numbers = (0..self.seen.len()).filter(|number| total(number) < SELDOM);
        let mut seldom: Vec<String> = numbers.map(|number| number.to_string()).collect();
        for (call, numbers) in NUMBERS_OF {
            let seen = |number: usize| self.seen[number][column(call)];
            let few = numbers.iter().filter(|number| seen(**number) < SELDOM);
            seldom.extend(few.map(|number| format!("{number} in {call}")));
        }
        for (way, row) in &self.ways {
            for call in way.calls() {
                if row[column(call)] < way.seldom() {
                    seldom.push(format!("{} in {call}", way.name()));
                }
            }
        }
        seldom
    }
}

fn column(call: &str) -> usize {
    let column = CALLS.iter().position(|name| *name == call);
    column.expect("a call")
}

fn print_row(name: &str, row: &[u64]) {
    print!("{name:21}");
    for count in row {
        print!(" {count:9}");
    }
    println!(" {:10}", row.iter().sum::<u64>());
}
