//! The first two bytes of a record: the top bit marks a retired record, the other 15 bits are the length of its message.
//! They are taken apart here and nowhere else.

use super::{PREFIX, RECORD};
use std::ops::Range;

/// The bit that marks a retired record.
const MARK: u16 = 1 << 15;

/// What a record stores, be it good or bad: where its message stands in the file, and whether the record has the mark.
#[derive(Clone, Debug, PartialEq, Eq)]
pub struct Stored {
    pub place: Range<usize>,
    pub retired: bool,
}

impl Stored {
    /// Of a record that is there.
    pub fn of(file: &[u8], record: usize) -> Stored {
        let first = record * RECORD;
        let stored = u16::from_be_bytes([file[first], file[first + 1]]);
        let message = first + PREFIX;
        Stored { place: message..message + usize::from(stored & !MARK), retired: stored & MARK != 0 }
    }
}

/// Sets the mark of a record: the highest byte of the two stands first.
pub fn mark(file: &mut [u8], record: usize) {
    let [highest, _] = MARK.to_be_bytes();
    file[record * RECORD] |= highest;
}
