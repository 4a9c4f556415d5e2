//! Lists of calls on one year book and its sums.

use crate::calls;
use crate::difference::{same, Compared};
use crate::inputs::{disturb_sums, other_sums_len, random_book, random_bytes, random_sums};
use crate::side::{answer, Side};
use crate::tally::Tally;
use crate::ways::Way;
use compare::book::{block, matching_sums, BOOK_LEN, SUMS_LEN};
use compare::calls::{random_call, sheet_of_building, Call};
use compare::faults::faulty_sheet;
use compare::plain_book::PlainBook;
use compare::refusal::BAD_YEAR_SUMS;
use compare::rng::Rng;
use compare::samples::random_ids;
use compare::settle::settle_bytes;
use std::fmt::Debug;

const CALLS_A_BOOK: u64 = 60;
/// A book is opened with so many more faulty sheets, for the ways to 4 and 20.
const FAULTY_OPENINGS: u64 = 8;

/// A call's name, and the names of its lists.
type Names = [&'static str; 3];
const OPEN: Names = ["open", "open: book", "open: sums"];
const POST: Names = ["post", "post: book", "post: sums"];
const REPLACE: Names = ["replace", "replace: book", "replace: sums"];
const WITHDRAW: Names = ["withdraw", "withdraw: book", "withdraw: sums"];
const YEAR: Names = ["year", "year: book", "year: sums"];

/// A book and its sums.
#[derive(Clone)]
struct Lists {
    book: Vec<u32>,
    sums: Vec<u64>,
}

/// The same lists on both sides.
struct Books<'a> {
    side: &'a Side,
    ours: Lists,
    theirs: Lists,
}

impl Books<'_> {
    fn new(side: &Side, book: Vec<u32>, sums: Vec<u64>) -> Books<'_> {
        let lists = Lists { book, sums };
        Books {
            side,
            theirs: lists.clone(),
            ours: lists,
        }
    }

    /// A call's input: its argument, then book and sums before it.
    fn input(&self, argument: &[u8]) -> Vec<u8> {
        let book = self.theirs.book.iter().flat_map(|n| n.to_le_bytes());
        let sums = self.theirs.sums.iter().flat_map(|n| n.to_le_bytes());
        argument.iter().copied().chain(book).chain(sums).collect()
    }

    fn open(&mut self, sheet: &[u8], tally: &mut Tally) -> Compared<u32> {
        let input = self.input(sheet);
        let Books { side, ours, theirs } = self;
        let expected = (side.open)(&mut ours.book, &mut ours.sums, sheet);
        let number = calls::open(&mut theirs.book, &mut theirs.sums, sheet);
        self.agree(OPEN, &input, expected, number)?;
        Ok(self.count(OPEN[0], number, None, sheet, tally))
    }

    fn call(&mut self, rng: &mut Rng, call: &Call, tally: &mut Tally) -> Compared<u32> {
        match call {
            Call::Post(sheet) => self.post(sheet, tally),
            Call::Replace(sheet) => self.replace(sheet, tally),
            Call::Withdraw(month) => self.withdraw(*month, tally),
            Call::Year(place) => self.year(rng, *place, tally),
        }
    }

    fn post(&mut self, sheet: &[u8], tally: &mut Tally) -> Compared<u32> {
        let input = self.input(sheet);
        let Books { side, ours, theirs } = self;
        let expected = (side.post)(&mut ours.book, &mut ours.sums, sheet);
        let number = calls::post(&mut theirs.book, &mut theirs.sums, sheet);
        self.agree(POST, &input, expected, number)?;
        Ok(self.count(POST[0], number, None, sheet, tally))
    }

    fn replace(&mut self, sheet: &[u8], tally: &mut Tally) -> Compared<u32> {
        let input = self.input(sheet);
        let Books { side, ours, theirs } = self;
        let expected = (side.replace)(&mut ours.book, &mut ours.sums, sheet);
        let number = calls::replace(&mut theirs.book, &mut theirs.sums, sheet);
        self.agree(REPLACE, &input, expected, number)?;
        let month = sheet.get(6).copied().map(u32::from);
        Ok(self.count(REPLACE[0], number, month, sheet, tally))
    }

    fn withdraw(&mut self, month: u32, tally: &mut Tally) -> Compared<u32> {
        let input = self.input(&month.to_le_bytes());
        let Books { side, ours, theirs } = self;
        let expected = (side.withdraw)(&mut ours.book, &mut ours.sums, month);
        let number = calls::withdraw(&mut theirs.book, &mut theirs.sums, month);
        self.agree(WITHDRAW, &input, expected, number)?;
        Ok(self.count(WITHDRAW[0], number, Some(month), &[], tally))
    }

    fn year(&mut self, rng: &mut Rng, place: u32, tally: &mut Tally) -> Compared<u32> {
        let len = if rng.once_in(10) {
            rng.below(12) as usize
        } else {
            9
        };
        let mut totals = vec![5; len];
        let mut list = vec![5; len];
        let Books { side, ours, theirs } = self;
        let number = calls::year(&theirs.book, &theirs.sums, place, &mut totals);
        let expected = (side.year)(&ours.book, &ours.sums, place, &mut list);
        let input = self.input(&place.to_le_bytes());
        self.agree(YEAR, &input, expected, number)?;
        same("year: totals", &input, list, totals)?;
        Ok(self.count(YEAR[0], number, None, &[], tally))
    }

    /// Counts an answer that both sides gave, and its way: 19's from the month
    /// whose block goes off and the sheet whose numbers come. Refused, the lists
    /// are still those before the call.
    fn count(
        &self,
        call: &str,
        number: u32,
        month: Option<u32>,
        sheet: &[u8],
        tally: &mut Tally,
    ) -> u32 {
        if call == OPEN[0] {
            tally.count_sheet(call, number, sheet);
        } else {
            tally.count_month(call, number, sheet);
        }
        if number == BAD_YEAR_SUMS {
            let Lists { book, sums } = &self.theirs;
            let old = month.map_or(&[][..], |month| block(book, month as usize - 1));
            let new = settle_bytes(sheet).map_or(Vec::new(), |outcome| outcome.numbers);
            tally.count_way(call, Way::of_sums(sums, old, &new));
        }
        number
    }

    /// Answer and every number of both lists.
    fn agree(&self, names: Names, input: &[u8], a: u32, b: u32) -> Compared<()> {
        let Books { ours, theirs, .. } = self;
        same(names[0], input, a, b)?;
        same_numbers(names[1], input, &ours.book, &theirs.book)?;
        same_numbers(names[2], input, &ours.sums, &theirs.sums)
    }
}

/// A difference names the first number that differs.
fn same_numbers<T: PartialEq + Copy + Debug>(
    name: &'static str,
    input: &[u8],
    ours: &[T],
    theirs: &[T],
) -> Compared<()> {
    if ours == theirs {
        return Ok(());
    }
    let place = (0..ours.len()).find(|&place| ours[place] != theirs[place]);
    let number = |list: &[T]| place.map(|place| (place, list[place]));
    same(name, input, number(ours), number(theirs))
}

/// A book with sums, and calls on them: opened and kept as the calls leave
/// them, or of random contents and written into between the calls.
pub fn compare_book(side: &Side, rng: &mut Rng, tally: &mut Tally) -> Compared<()> {
    let count = 1 + rng.below(6) as usize;
    let ids = random_ids(rng, count);
    if rng.once_in(2) {
        return compare_opened_book(side, rng, &ids, tally);
    }
    let len = match rng.below(12) {
        0 => BOOK_LEN - 1,
        1 => BOOK_LEN + 1,
        2 => rng.below(300) as usize,
        _ => BOOK_LEN,
    };
    let book = random_book(rng, len, &ids);
    let sums = random_sums(rng, &book);
    let mut books = Books::new(side, book, sums);
    for _ in 0..CALLS_A_BOOK {
        let call = random_call(rng, &ids);
        write_before(&mut books, rng, &call);
        books.call(rng, &call, tally)?;
    }
    if rng.once_in(3) {
        let len = other_sums_len(rng);
        books.ours.sums.resize(len, 0);
        books.theirs.sums.resize(len, 0);
    }
    books.open(&random_bytes(rng), tally)?;
    for _ in 0..FAULTY_OPENINGS {
        books.open(&faulty_sheet(rng), tally)?;
    }
    Ok(())
}

/// Sometimes writes into the lists of both sides.
fn write_before(books: &mut Books, rng: &mut Rng, call: &Call) {
    let Books { ours, theirs, .. } = books;
    if rng.once_in(20) && ours.book.len() > 40 {
        let place = rng.below(40) as usize;
        let value = rng.below(3) as u32;
        ours.book[place] = value;
        theirs.book[place] = value;
    }
    disturb_sums(rng, &ours.book, &mut ours.sums, call);
    theirs.sums.clone_from(&ours.sums);
}

/// Lists that only the calls write, with the plain year book beside them.
fn compare_opened_book(side: &Side, rng: &mut Rng, ids: &[u32], tally: &mut Tally) -> Compared<()> {
    let book = random_book(rng, BOOK_LEN, ids);
    let sums = (0..SUMS_LEN).map(|_| rng.draw()).collect();
    let mut books = Books::new(side, book, sums);
    let sheet = sheet_of_building(rng, ids);
    books.open(&sheet, tally)?;
    let Ok(mut plain) = PlainBook::open(&sheet) else {
        return Ok(());
    };
    for _ in 0..CALLS_A_BOOK {
        let call = random_call(rng, ids);
        let input = books.input(&[]);
        let number = books.call(rng, &call, tally)?;
        let expected = match &call {
            Call::Post(sheet) => answer(&plain.post(sheet)),
            Call::Replace(sheet) => answer(&plain.replace(sheet)),
            Call::Withdraw(month) => answer(&plain.withdraw(*month)),
            Call::Year(_) => number,
        };
        same("plain book", &input, expected, number)?;
        let Lists { book, sums } = &books.theirs;
        same_numbers("matching sums", &input, &matching_sums(book), sums)?;
    }
    compare_with_plain(&books, &plain)
}

/// Every unit's year as the plain book has it.
fn compare_with_plain(books: &Books, plain: &PlainBook) -> Compared<()> {
    let input = books.input(&[]);
    let Lists { book, sums } = &books.theirs;
    for place in 0..=book[0] {
        let mut totals = [0; 9];
        let number = calls::year(book, sums, place, &mut totals);
        let expected = plain.year(place);
        same("plain book: year", &input, answer(&expected), number)?;
        let (k, sums) = expected.unwrap_or((0, [0; 8]));
        let list = [&[u64::from(k)], &sums[..]].concat();
        same("plain book: totals", &input, list, totals.to_vec())?;
    }
    Ok(())
}
