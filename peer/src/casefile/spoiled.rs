//! The byte editor, flipped bits and flipped pairs: each changes the file, has it checked, and changes it back.

use super::complaint::Complaint;
use super::goldens::record;
use super::words::Words;
use crate::crc::Division;
use crate::golden::{self, Step, RECORD};
use std::ops::Range;

type Answer = Result<String, Complaint>;

/// What an edit adds to the byte at its place, and to the byte behind it.
const MASKS: [[u8; 2]; 6] = [[0x01, 0x00], [0x00, 0x80], [0xFF, 0xFF], [0x55, 0xAA], [0x10, 0x01], [0x80, 0x01]];
/// Where the flags stand in a message, and their bits of the integrity kind.
const FLAGS: usize = 4;
const KIND: u8 = 0b0001_1000;

/// The file, the message that is spoiled in it, and what came of it so far.
struct Spoiled<'a> {
    file: &'a mut [u8],
    message: Range<usize>,
    made: usize,
    refused: usize,
}

impl Spoiled<'_> {
    /// Adds each mask at its place in the file, unless one changes the kind.
    fn change(&mut self, masks: &[(usize, u8)]) {
        let flags = self.message.start + FLAGS;
        if masks.iter().any(|&(place, mask)| place == flags && mask & KIND != 0) {
            return;
        }
        self.add(masks);
        self.made += 1;
        self.refused += usize::from(golden::check::<Division>(self.file).is_err());
        self.add(masks);
    }

    fn add(&mut self, masks: &[(usize, u8)]) {
        for &(place, mask) in masks {
            self.file[place] ^= mask;
        }
    }

    fn bits(&self) -> usize {
        8 * self.message.len()
    }

    fn bit(&self, bit: usize) -> (usize, u8) {
        (self.message.start + bit / 8, 1 << (bit % 8))
    }
}

/// Reads the record's number and spoils its message in this way; the answer begins with this word.
fn spoil(words: &mut Words, file: &mut [u8], told: &str, way: fn(&mut Spoiled)) -> Answer {
    let record = record(words, "record")?;
    words.end()?;
    let Step::Message { place, .. } = golden::step::<Division>(file, record) else {
        return Ok("no message".to_string());
    };
    let mut spoiled = Spoiled { file, message: place, made: 0, refused: 0 };
    way(&mut spoiled);
    Ok(format!("{told} {} refused {}", spoiled.made, spoiled.refused))
}

pub fn edits(words: &mut Words, file: &mut [u8]) -> Answer {
    spoil(words, file, "edited", |spoiled| {
        for place in spoiled.message.clone() {
            // The byte behind the record's last belongs to another record, or to none.
            if (place + 1).is_multiple_of(RECORD) {
                continue;
            }
            for [first, second] in MASKS {
                spoiled.change(&[(place, first), (place + 1, second)]);
            }
        }
    })
}

pub fn flips(words: &mut Words, file: &mut [u8]) -> Answer {
    spoil(words, file, "flipped", |spoiled| {
        for bit in 0..spoiled.bits() {
            spoiled.change(&[spoiled.bit(bit)]);
        }
    })
}

pub fn pairs(words: &mut Words, file: &mut [u8]) -> Answer {
    spoil(words, file, "flipped", |spoiled| {
        for second in 0..spoiled.bits() {
            for first in 0..second {
                spoiled.change(&[spoiled.bit(first), spoiled.bit(second)]);
            }
        }
    })
}

#[cfg(test)]
mod tests {
    use super::*;
    use crate::cases::{listed_file, named, record_of, shortest};

    type Command = fn(&mut Words, &mut [u8]) -> Answer;

    /// The answer of the command, which leaves the file as it was.
    fn answer(command: Command, file: &[u8], record: usize) -> String {
        let mut spoiled = file.to_vec();
        let line = format!("record {record}");
        let answer = command(&mut Words::new(line.as_bytes()), &mut spoiled).expect("the line is right");
        assert_eq!(spoiled, file);
        answer
    }

    /// The counts that the acceptance run prints, told of the same file.
    #[test]
    fn each_flip_of_a_message_with_a_crc_is_refused() {
        let file = crate::flips::file();
        let bits = [0, 1, 2].map(|record| answer(flips, &file, record));
        assert_eq!(bits, ["flipped 478 refused 478", "flipped 182 refused 182", "flipped 358 refused 358"]);
        assert_eq!(answer(pairs, &file, 0), "flipped 114003 refused 114003");
    }

    /// Of M's flips are accepted those of type, version, number, time and the three lowest flags: 16 + 8 + 32 + 32 + 3.
    #[test]
    fn a_flip_that_no_rule_forbids_is_accepted() {
        let file = record_of(&shortest());
        assert_eq!(answer(flips, &file, 0), "flipped 166 refused 75");
        // All pairs of those 91 are accepted, and no other pair.
        assert_eq!(answer(pairs, &file, 0), "flipped 13695 refused 9600");
    }

    /// One flip of number 3 makes it 1, which M has. Of two records with one name a flip of type or number is accepted,
    /// 16 + 32, and no other.
    #[test]
    fn a_flip_that_makes_the_name_of_another_record_is_refused() {
        let beside_m = |message: &[u8]| [record_of(&shortest()), record_of(message)].concat();
        assert_eq!(answer(flips, &beside_m(&named(6000, 3)), 1), "flipped 166 refused 76");
        assert_eq!(answer(flips, &beside_m(&named(6000, 6)), 1), "flipped 166 refused 75");
        assert_eq!(answer(flips, &beside_m(&shortest()), 0), "flipped 166 refused 118");
        assert_eq!(answer(flips, &beside_m(&shortest()), 1), "flipped 166 refused 118");
    }

    /// Each place takes six edits. Three of them at the flags change the kind, and two at the place before.
    #[test]
    fn an_edit_reaches_the_byte_behind_the_message() {
        let file = crate::flips::file();
        assert_eq!(answer(edits, &file, 0), "edited 355 refused 355");
    }

    /// The last place of a record full to its end takes none of the six.
    #[test]
    fn an_edit_does_not_reach_past_the_record() {
        let mut message = shortest();
        message[4..8].copy_from_slice(&[0x10, 0, 1, 233]);
        message.resize(510, 0x11);
        let file = [record_of(&message), record_of(&named(6000, 2))].concat();
        let told = answer(edits, &file, 0);
        assert!(told.starts_with(&format!("edited {} refused ", 509 * 6 - 5)), "{told}");
    }

    #[test]
    fn a_record_without_a_message_is_not_spoiled() {
        let file = listed_file();
        for command in [edits, flips, pairs] as [Command; 3] {
            assert_eq!(answer(command, &file, 1), "no message");
            assert_eq!(answer(command, &file, 2), "no message");
            assert_eq!(answer(command, &file[1..], 0), "no message");
            assert_eq!(answer(command, &[], 0), "no message");
        }
    }

    /// Another record is bad, so each check refuses the file.
    #[test]
    fn the_whole_file_is_checked() {
        assert_eq!(answer(flips, &listed_file(), 0), "flipped 166 refused 166");
    }
}
