//! The stack that each call needs, measured on a painted stack of its own.

use crate::bench::{buildings_of, charge_sheets, group_sheets, settled_sheets};
use crate::calls;
use compare::book::{BOOK_LEN, SUMS_LEN};
use std::arch::asm;

const SIZE: usize = 1 << 18;
const PAINT: u8 = 0xa5;
/// What include/heatcost.h promises for every call.
const PROMISED: usize = 24_576;

type Call<'a> = &'a mut dyn FnMut();

extern "C" fn run(call: *mut Call) {
    unsafe { (*call)() }
}

/// How many bytes of stack a call writes.
fn painted(mut call: Call) -> usize {
    let mut stack = vec![PAINT; SIZE];
    let top = (stack.as_mut_ptr() as usize + SIZE) & !15;
    let call: *mut Call = &mut call;
    // The stack pointer is at the painted stack's top during the call.
    unsafe {
        asm!(
            "mov r12, rsp",
            "mov rsp, {top}",
            "call {run}",
            "mov rsp, r12",
            top = in(reg) top,
            run = in(reg) run as extern "C" fn(*mut Call),
            in("rdi") call,
            out("r12") _,
            clobber_abi("C"),
        );
    }
    let untouched = stack.iter().take_while(|byte| **byte == PAINT).count();
    SIZE - untouched
}

/// The most that a call needs on a list of inputs, beyond an empty call.
fn most(inputs: &[Vec<u8>], mut call: impl FnMut(&[u8])) -> usize {
    let empty = painted(&mut || {});
    let need = |input: &Vec<u8>| painted(&mut || call(input));
    inputs.iter().map(need).max().unwrap_or(0) - empty
}

/// Prints a line a call; gives back whether all keep to the promise.
pub fn measure() -> bool {
    let mut sheets: Vec<Vec<u8>> = Vec::new();
    for count in [1, 2, 8, 100, 160] {
        sheets.extend(settled_sheets(1, 60, count, &[1, 2, 3, 4, 5]));
    }
    let records: Vec<Vec<u8>> = sheets.iter().map(|sheet| record_of(sheet)).collect();
    let mut list = vec![0; 1280];
    let mut text = vec![0; 49 + 99 * 160];
    let mut bytes = vec![0; 56 + 64 * 160];
    let (mut book, mut sums) = (vec![0; BOOK_LEN], vec![0; SUMS_LEN]);
    let groups: Vec<Vec<u8>> = [1, 2, 8, 100, 160]
        .map(|n| group_sheets(1, n).concat())
        .into();
    let mut statements = vec![0; 12 * 1280];
    let needs = [
        (
            "settle",
            most(&sheets, |s| {
                drop_answer(calls::settle(s, &mut list[..(s.len() - 48) / 4]))
            }),
        ),
        (
            "settle_group",
            most(&groups, |s| {
                let list = &mut statements[..(s.len() - 12 * 48) / 4];
                drop_answer(calls::settle_group(
                    s,
                    &buildings_of(s),
                    4_000_000_000,
                    list,
                ))
            }),
        ),
        ("fixed_charges", charge_need()),
        ("collect_fees", collect_need(&sheets)),
        (
            "pay_out",
            most(&sheets, |_| drop_answer(calls::pay_out(&mut 7, 5))),
        ),
        (
            "print",
            most(&sheets, |s| drop_answer(calls::print(s, &mut text) as u32)),
        ),
        (
            "write_record",
            most(&sheets, |s| {
                drop_answer(calls::write_record(s, &mut bytes[..2 * s.len() - 40]))
            }),
        ),
        (
            "read_record",
            most(&records, |r| drop_answer(calls::read_record(r))),
        ),
        (
            "record_sheet_len",
            most(&records, |r| drop_answer(calls::record_sheet_len(r) as u32)),
        ),
        (
            "open",
            most(&sheets, |s| {
                drop_answer(calls::open(&mut book, &mut sums, s))
            }),
        ),
    ];
    let mut kept = true;
    for (name, need) in needs.into_iter().chain(book_needs(&sheets)) {
        println!("{name:18} {need:6} bytes of stack");
        kept &= need <= PROMISED;
    }
    kept
}

fn drop_answer(_: u32) {}

fn record_of(sheet: &[u8]) -> Vec<u8> {
    let mut record = vec![0; 2 * sheet.len() - 40];
    calls::write_record(sheet, &mut record);
    record
}

/// Charges by load and by area.
fn charge_need() -> usize {
    let sheets = [1, 2, 8, 100, 160].map(|n| charge_sheets(1, 20, n));
    let mut list = vec![0; 3 * 160];
    most(&sheets.concat(), |s| {
        let list = &mut list[..3 * (s.len() - 48) / 32];
        for model in [1, 2] {
            drop_answer(calls::fixed_charges(s, model, [99_999_999; 3], list));
        }
    })
}

/// A month's fees at the highest rate.
fn collect_need(sheets: &[Vec<u8>]) -> usize {
    let mut fund = 0;
    most(sheets, |s| {
        drop_answer(calls::collect_fees(&mut fund, s, 1_000_000))
    })
}

/// The calls on a book that was opened with each sheet.
fn book_needs(sheets: &[Vec<u8>]) -> Vec<(&'static str, usize)> {
    let mut needs = vec![("post", 0), ("replace", 0), ("withdraw", 0), ("year", 0)];
    for sheet in sheets {
        let (mut book, mut sums) = (vec![0; BOOK_LEN], vec![0; SUMS_LEN]);
        let mut totals = [0; 9];
        let month = u32::from(sheet[6]);
        calls::open(&mut book, &mut sums, sheet);
        let sheet = std::slice::from_ref(sheet);
        let found = [
            most(sheet, |s| drop_answer(calls::post(&mut book, &mut sums, s))),
            most(sheet, |s| {
                drop_answer(calls::replace(&mut book, &mut sums, s))
            }),
            most(sheet, |_| {
                drop_answer(calls::year(&book, &sums, 0, &mut totals))
            }),
            most(sheet, |_| {
                drop_answer(calls::withdraw(&mut book, &mut sums, month))
            }),
        ];
        for (need, found) in needs
            .iter_mut()
            .zip([found[0], found[1], found[3], found[2]])
        {
            need.1 = need.1.max(found);
        }
    }
    needs
}
