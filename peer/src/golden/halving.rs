//! Change request K9: a find that halves, for files in ascending order of names, and whether a file stands in that order.

use super::{count, open, Bad, Name, Refusal, Search};
use crate::crc::Sum;
use std::cmp::Ordering;
use std::ops::Range;

/// The most records that halving opens, in a file of as many as there may be.
pub const MOST_OPENED: usize = 8;

/// Looks for a live record of this type and number by halving. What it finds is good, live and of the name in any file;
/// 27 says nothing about the records that were not opened.
pub fn find_by_halving<S: Sum>(file: &[u8], message_type: u16, number: u32) -> Search {
    let mut opened = 0;
    let answer = count(file).and_then(|count| halve::<S>(file, 0..count, (message_type, number), &mut opened));
    Search { opened, answer }
}

/// Opens the record in the middle of the range, and goes on behind it or before it until nothing is left.
fn halve<S: Sum>(file: &[u8], mut range: Range<usize>, sought: Name, opened: &mut usize) -> Result<usize, Refusal> {
    while !range.is_empty() {
        let middle = (range.start + range.end) / 2;
        *opened += 1;
        let record = open::<S>(file, middle)?;
        match record.name().cmp(&sought) {
            Ordering::Less => range.start = middle + 1,
            Ordering::Greater => range.end = middle,
            // In ascending order no other record has this name.
            Ordering::Equal if record.retired => break,
            Ordering::Equal => return Ok(middle),
        }
    }
    Err(Refusal::NotFound)
}

/// How the names of a file's records stand, retired ones too.
#[derive(Clone, Copy, Debug, PartialEq, Eq)]
pub enum Ascent {
    Ascends,
    /// The first record whose name does not come after that of the one before it.
    BreaksAt(usize),
}

/// Opens records from the first until one is bad or breaks the strictly ascending order.
pub fn ascending<S: Sum>(file: &[u8]) -> Result<Ascent, Bad> {
    let count = count(file).map_err(|refusal| Bad { record: 0, refusal })?;
    let mut before: Option<Name> = None;
    for record in 0..count {
        let name = open::<S>(file, record).map_err(|refusal| Bad { record, refusal })?.name();
        if before.is_some_and(|before| before >= name) {
            return Ok(Ascent::BreaksAt(record));
        }
        before = Some(name);
    }
    Ok(Ascent::Ascends)
}

#[cfg(test)]
mod tests;
