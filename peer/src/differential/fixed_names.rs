//! The golden files that every run has for the names of their records: each with the answer of a check by hand.
//! A name is a type and a message number, and a check refuses the later of two live records with one name by 26. All records
//! here are live; `fixed_retired` has the others.

use super::lent::hex;
use super::run::Run;
use super::{ask_golden, inputs};
use crate::interface::Answer;
use peer::cases::{named, record_of, shortest, with_ends};
use peer::envelope::SHORTEST;
use peer::golden::{MOST_RECORDS, RECORD};

pub fn short(run: &mut Run) {
    every_pair_of_places(run);
    every_three_places(run);
    every_bit_of_two_messages(run);
    beside_a_bad_record(run);
}

/// So many records of type 6000, each with its own place for a number.
pub fn numbered(count: usize) -> Vec<Vec<u8>> {
    (0..count).map(|number| record_of(&named(6000, number as u32))).collect()
}

pub fn passed(records: usize) -> Answer {
    Answer { count: records as u16, ..Answer::default() }
}

/// A refusal of this record that passes nothing on.
pub fn refused(number: u8, record: usize) -> Answer {
    Answer { number, ..passed(record) }
}

/// Asks all about the file of these records, whose check must answer so.
pub fn checked(run: &mut Run, records: &[Vec<u8>], expected: Answer) {
    run.input();
    let file = records.concat();
    ask_golden::file(run, &file);
    as_told(run, &file, expected);
}

/// The check alone.
pub fn as_told(run: &mut Run, file: &[u8], expected: Answer) {
    let answer = ask_golden::check(run, file);
    let shown = || format!("expected {expected:?}, file {}", hex(file));
    run.holds("a check of names answers as told", answer == expected, &shown);
}

/// One name at every two places of 128.
fn every_pair_of_places(run: &mut Run) {
    run.family("one name at every two places of 128 records");
    let good = numbered(MOST_RECORDS);
    checked(run, &good, passed(MOST_RECORDS));
    let mut file = good.concat();
    for later in 1..MOST_RECORDS {
        let place = later * RECORD..(later + 1) * RECORD;
        for earlier in &good[..later] {
            run.input();
            file[place.clone()].copy_from_slice(earlier);
            as_told(run, &file, refused(26, later));
        }
        file[place].copy_from_slice(&good[later]);
    }
}

/// One name at every three places of 8: the second is refused.
fn every_three_places(run: &mut Run) {
    run.family("one name at every three places of 8 records");
    for last in 2..8 {
        for second in 1..last {
            for first in 0..second {
                let mut records = numbered(8);
                for place in [first, second, last] {
                    records[place] = record_of(&named(6001, 7));
                }
                checked(run, &records, refused(26, second));
            }
        }
    }
}

/// Whether a bit of this place belongs to the type or to the message number.
fn names(place: usize) -> bool {
    matches!(place, 1..=2 | 8..=11)
}

/// M beside M with one bit changed, where that is a message: a bit of the name makes another name, any other does not.
fn every_bit_of_two_messages(run: &mut Run) {
    run.family("names one bit apart, and messages of one name one bit apart");
    for kind in [0, 0x08, 0x10] {
        let mut message = shortest();
        message[4] = kind;
        inputs::seal(&mut message);
        for bit in 0..8 * SHORTEST {
            let mut other = message.clone();
            other[bit / 8] ^= 1 << (bit % 8);
            inputs::seal(&mut other);
            one_bit_apart(run, &message, &other, names(bit / 8));
        }
    }
}

/// Where the bit made the message a bad one, its record is refused for that.
fn one_bit_apart(run: &mut Run, message: &[u8], other: &[u8], two_names: bool) {
    let records = [record_of(message), record_of(other)];
    let bad = ask_golden::check(run, &records[1]);
    let expected = match (bad.number, two_names) {
        (0, true) => passed(2),
        (0, false) => refused(26, 1),
        _ => Answer { count: 1, ..bad },
    };
    checked(run, &records, expected);
}

/// Records of M's name that 23, 24 and 25 refuse, 25 with each number that it can carry.
pub fn bad_records() -> Vec<(Vec<u8>, Answer)> {
    let spoiled = |place: usize, byte: u8| {
        let mut record = record_of(&shortest());
        record[place] = byte;
        record
    };
    let unread = |reading, value| Answer { number: 25, reading, value, ..Answer::default() };
    vec![
        (spoiled(1, 20), refused(23, 0)),
        (spoiled(RECORD - 1, 1), refused(24, 0)),
        (spoiled(2, 3), unread(2, 0)),
        (spoiled(6, 0x20), unread(3, 4)),
        (spoiled(18, 5), unread(4, 16)),
        (spoiled(9, 1), unread(5, 5)),
        (record_of(&with_ends(7, b"AA\0")), unread(6, 21)),
        (spoiled(22, 1), unread(7, 17)),
    ]
}

/// Two records of M's name and a bad one of that name too, at every place about them.
fn beside_a_bad_record(run: &mut Run) {
    run.family("one name twice beside a bad record");
    for (bad, answer) in bad_records() {
        for later in 2..5 {
            for place in 0..=later + 1 {
                let mut records = numbered(later + 1);
                records[later] = records[1].clone();
                records.insert(place, bad.clone());
                let decides = Answer { count: place as u16, ..answer };
                // A bad record that stands before the later of the two is told, and one behind it is not judged.
                checked(run, &records, if place <= later { decides } else { refused(26, later) });
            }
        }
    }
}
