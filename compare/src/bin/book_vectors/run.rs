//! The calls under construction, and the form of a call in both files.

use compare::book::{self, YearSums, BOOK_LEN, SUMS_LEN};
use compare::calls::Call;
use compare::refusal::Refusal;
use compare::vectors::{digest, pack};

/// One more than a call may be lent.
const ROOM: usize = SUMS_LEN + 1;

/// The lists as the calls leave them, how many of the sums are lent, and both
/// files.
pub struct Run {
    pub list: Vec<u32>,
    pub sums: Vec<u64>,
    lent: usize,
    pub stdin: Vec<u8>,
    pub stdout: String,
}

impl Run {
    pub fn new() -> Run {
        Run {
            list: vec![0; BOOK_LEN],
            sums: vec![0; ROOM],
            lent: SUMS_LEN,
            stdin: Vec::new(),
            stdout: String::new(),
        }
    }

    fn begin(&mut self, kind: u8, arguments: &[u8]) {
        self.stdin.push(kind);
        self.stdin.extend(arguments);
    }

    /// Ends a line with the book and all sums, lent or not, as a number each.
    fn end(&mut self, answer: &str) {
        let book = digest(self.list.iter().copied().map(u64::from));
        let sums = digest(self.sums.iter().copied());
        self.stdout += &format!("{answer} {book} {sums}\n");
    }

    pub fn open(&mut self, sheet: &[u8]) {
        self.begin(0, &pack(&[sheet.to_vec()]));
        let answer = book::open(&mut self.list, &mut self.sums[..self.lent], sheet);
        self.end(&answer_words(&answer));
    }

    pub fn post(&mut self, sheet: &[u8]) {
        self.begin(1, &pack(&[sheet.to_vec()]));
        let answer = book::post(&mut self.list, &mut self.sums[..self.lent], sheet);
        self.end(&answer_words(&answer));
    }

    pub fn replace(&mut self, sheet: &[u8]) {
        self.begin(2, &pack(&[sheet.to_vec()]));
        let answer = book::replace(&mut self.list, &mut self.sums[..self.lent], sheet);
        self.end(&answer_words(&answer));
    }

    pub fn withdraw(&mut self, month: u32) {
        self.begin(3, &month.to_le_bytes());
        let answer = book::withdraw(&mut self.list, &mut self.sums[..self.lent], month);
        self.end(&answer_words(&answer));
    }

    pub fn year(&mut self, place: u32) {
        self.begin(4, &place.to_le_bytes());
        let answer = book::year(&self.list, &self.sums[..self.lent], place);
        let YearSums { months, sums } = answer.unwrap_or_default();
        let sums: String = sums.iter().map(|sum| format!(" {sum}")).collect();
        let words = answer_words(&answer);
        self.end(&format!("{words} {months}{sums}"));
    }

    /// Writes a number of the book from outside.
    pub fn set(&mut self, place: u16, number: u16) {
        self.begin(5, &place.to_le_bytes());
        self.stdin.extend(number.to_le_bytes());
        self.list[usize::from(place)] = u32::from(number);
        self.end("set");
    }

    /// Writes a number of the sums from outside.
    pub fn set_sum(&mut self, place: u16, number: u64) {
        self.begin(6, &place.to_le_bytes());
        self.stdin.extend(number.to_le_bytes());
        self.sums[usize::from(place)] = number;
        self.end("sum");
    }

    /// Lends another count of the sums from here on.
    pub fn lend(&mut self, count: u16) {
        self.begin(7, &count.to_le_bytes());
        self.lent = usize::from(count);
        assert!(self.lent <= ROOM);
        self.end("count");
    }

    pub fn call(&mut self, call: &Call) {
        match call {
            Call::Post(sheet) => self.post(sheet),
            Call::Replace(sheet) => self.replace(sheet),
            Call::Withdraw(month) => self.withdraw(*month),
            Call::Year(place) => self.year(*place),
        }
    }
}

fn answer_words<T>(answer: &Result<T, Refusal>) -> String {
    match answer {
        Ok(_) => "0 0".to_string(),
        Err(refusal) => format!("{} {}", refusal.number, refusal.place),
    }
}
