//! The printed text.

use super::month::Month;
use super::record::statement_of;
use super::rows::Row;
use crate::rules::NEWEST;
use std::iter::once;

/// Prints to the front of a list that is long enough; gives back the text's
/// length.
pub fn print(sheet: &[u8], list: &mut [u8]) -> usize {
    let month = match Month::of(sheet, 32, NEWEST) {
        Ok(month) => month,
        Err(refusal) => {
            let parts = [("refused ", refusal.number), (" ", refusal.place)];
            return put(list, parts.into_iter());
        }
    };
    let mut numbers = [0; 1280];
    let (units, _) = statement_of(&month, &mut numbers).as_chunks::<8>();
    let head = [
        ("month ", month.header.month.into()),
        (" units ", month.rows.len() as u32),
        (" wh ", month.header.shared_meter_wh as u32),
        (" cents ", month.bill_cents() as u32),
    ];
    let units = month.rows.iter().zip(units).flat_map(|(row, unit)| {
        once(("\n", Row(row).id() as u32)).chain(unit.iter().map(|&number| (" ", number)))
    });
    put(list, head.into_iter().chain(units))
}

/// Words, each with a number behind it, and a last newline.
fn put(list: &mut [u8], parts: impl Iterator<Item = (&'static str, u32)> + Clone) -> usize {
    let lengths = parts
        .clone()
        .map(|(word, number)| word.len() + digits(number));
    let len = lengths.sum::<usize>() + 1;
    if list.len() < len {
        return len;
    }
    let mut rest = list;
    for (word, mut number) in parts {
        let (front, behind) = rest.split_at_mut(word.len() + digits(number));
        let (front, places) = front.split_at_mut(word.len());
        for (place, byte) in front.iter_mut().zip(word.bytes()) {
            *place = byte;
        }
        for place in places.iter_mut().rev() {
            *place = b'0' + (number % 10) as u8;
            number /= 10;
        }
        rest = behind;
    }
    rest[0] = b'\n';
    len
}

fn digits(number: u32) -> usize {
    number.max(1).ilog10() as usize + 1
}
