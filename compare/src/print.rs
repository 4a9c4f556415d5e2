//! Document 01, "Printing": what the program `statement` prints.

use crate::refusal::Refusal;
use crate::settle::{settle_bytes, Outcome};

pub fn print_statement(bytes: &[u8]) -> String {
    match settle_bytes(bytes) {
        Ok(outcome) => print_outcome(&outcome),
        Err(Refusal { number, place }) => format!("refused {number} {place}\n"),
    }
}

/// Writes that text to the front of a list that is long enough; a shorter one
/// keeps its contents. Gives back the text's length.
pub fn print_into(bytes: &[u8], list: &mut [u8]) -> usize {
    let text = print_statement(bytes);
    if let Some(front) = list.get_mut(..text.len()) {
        front.copy_from_slice(text.as_bytes());
    }
    text.len()
}

fn print_outcome(outcome: &Outcome) -> String {
    let mut text = format!(
        "month {} units {} wh {} cents {}\n",
        outcome.month, outcome.unit_count, outcome.shared_meter_wh, outcome.bill_cents
    );
    for (id, numbers) in outcome.ids.iter().zip(outcome.numbers.chunks(8)) {
        text += &id.to_string();
        for number in numbers {
            text += &format!(" {number}");
        }
        text += "\n";
    }
    text
}
