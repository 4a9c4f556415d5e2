//! Wrong readings of "Printing" and of the list that the text goes to.

use crate::refusal::{BUFFER_LENGTH, FIELD_CONFLICT, ID_ORDER, ROW_FIELD};
use crate::settle::Outcome;
use crate::{current, misread, Reading::*};

/// What is printed of a month.
pub fn outcome(mut outcome: Outcome) -> Outcome {
    match current() {
        Some(PrintedBillForMeter) => outcome.shared_meter_wh = outcome.bill_cents,
        Some(PrintedMeterInKwh) => outcome.shared_meter_wh /= 1_000,
        Some(PrintedNextId) => outcome.ids.rotate_left(1),
        Some(PrintedPlaceForId) => outcome.ids = (0..outcome.unit_count as u32).collect(),
        Some(PrintedCentsFirst) => {
            let units = outcome.numbers.chunks_mut(8);
            units.for_each(|unit| unit.rotate_left(4));
        }
        _ => {}
    }
    outcome
}

pub fn month(month: u8) -> String {
    if misread(PrintedMonthInTwoDigits) {
        return format!("{month:02}");
    }
    month.to_string()
}

/// An id, Wh or cents.
pub fn number(number: u32) -> String {
    match (current(), number) {
        (Some(PrintedZeroLeftOut), 0) => String::new(),
        (Some(PrintedSigned), _) => (number as i32).to_string(),
        (Some(PrintedInTenDigits), _) => format!("{number:010}"),
        _ => number.to_string(),
    }
}

/// A refusal's line.
pub fn refusal(number: u32, place: u32) -> Option<String> {
    match current()? {
        PrintedWithoutPlace => Some(format!("refused {number}\n")),
        PrintedPlaceFromOne => {
            let has_row = matches!(number, ROW_FIELD | ID_ORDER | FIELD_CONFLICT);
            Some(format!("refused {number} {}\n", place + u32::from(has_row)))
        }
        PrintedAnswer => Some(format!("refused {}\n", number + 256 * place)),
        PrintedNoRefusal => Some(String::new()),
        _ => None,
    }
}

/// The whole text.
pub fn text(bytes: &[u8], text: String) -> String {
    match current() {
        Some(PrintedNoLastNewline) => text.trim_end().to_string(),
        Some(PrintedReturns) => text.replace('\n', "\r\n"),
        Some(PrintedNothingOfNothing) if bytes.is_empty() => String::new(),
        _ => text,
    }
}

/// Puts a text into a list; gives back the answer.
pub fn put(text: &[u8], list: &mut [u8]) -> Option<usize> {
    let (len, room) = (text.len(), list.len());
    let whole = if len <= room { len } else { 0 };
    // How many bytes are written, and the answer.
    let (written, answer) = match current()? {
        TextCut => (len.min(room), len),
        TextLengthWritten => (whole, whole),
        TextTooShortRefused if room < len => (0, BUFFER_LENGTH as usize),
        TextExactly if room != len => (0, len),
        TextOneMore if room == len => (0, len),
        TextLengthWithZero => (whole, len + 1),
        TextZeroByte if room > len => {
            list[len] = 0;
            (len, len)
        }
        TextZeroesRest if room > len => {
            list[len..].fill(0);
            (len, len)
        }
        TextZeroesShort if room < len => {
            list.fill(0);
            (0, len)
        }
        _ => return None,
    };
    list[..written].copy_from_slice(&text[..written]);
    Some(answer)
}
