//! Records and files for the tests of change request K7.

use super::RECORD;
use crate::cases::{marked_record, record_of, shortest};
use crate::draw::damage::{damaged, DAMAGES};
use crate::draw::sketch::Sketch;
use crate::random::Random;

pub fn live(number: u32) -> Vec<u8> {
    marked_record((6000, number), false)
}

pub fn retired(number: u32) -> Vec<u8> {
    marked_record((6000, number), true)
}

/// A good message of this length.
pub fn of_length(length: usize) -> Vec<u8> {
    let mut message = shortest();
    let body = (length - message.len()) as u32;
    message[5..8].copy_from_slice(&body.to_be_bytes()[1..]);
    message.resize(length, 0);
    message
}

/// A file of up to seven records with few names, good and bad ones; now and then a byte stands behind them.
pub fn drawn_file(random: &mut Random) -> Vec<u8> {
    let mut file = Vec::new();
    for _ in 0..random.up_to(7) {
        let mut sketch = Sketch::any(random);
        (sketch.message_type, sketch.number) = (6000, random.up_to(5) as u32);
        let damage = random.pick(&DAMAGES);
        let message = if random.once_in(9) { damaged(random, damage) } else { sketch.message() };
        let mut record = record_of(&message[..message.len().min(510)]);
        if random.once_in(15) {
            record[random.pick(&[1, 511])] ^= 1;
        }
        file.extend(record);
    }
    if random.once_in(20) {
        file.push(0);
    }
    file
}

/// Sets the mark of some records.
pub fn mark_some(random: &mut Random, file: &mut [u8]) {
    for record in file.chunks_exact_mut(RECORD) {
        if random.once_in(3) {
            record[0] |= 0x80;
        }
    }
}
