//! The table of places, told from a refusal's number alone: what must hold of a place, whoever answers with it.

use super::judge_inputs::field_place;
use crate::interface::{Answer, FIELDS};
use crate::ours;

/// The place that goes with this number, of a message of so many bytes: 0 where it is none of reading.
pub fn of(number: u8, length: usize) -> usize {
    match number {
        1 => length,
        3 => 4,
        4 => 16,
        5 => 5,
        6 => 21,
        7 => length.saturating_sub(4),
        _ => 0,
    }
}

/// The place of a rule that the judge finds broken: rule 7 looks where V and D put the field, wherever the bytes end.
pub fn of_rule(rule: u8, bytes: &[u8]) -> usize {
    match rule {
        7 => field_place(bytes),
        _ => of(rule, bytes.len()),
    }
}

/// Whether an answer passes on, number and place, what our reading answers to these bytes.
pub fn passed_on(answer: Answer, message: &[u8]) -> bool {
    let reading = ours::read(message, &mut [0; FIELDS]);
    (answer.reading, answer.value) == (reading.number, reading.value)
}
