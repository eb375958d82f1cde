//! Golden files: count, check, find, find by halving, walk, compare, make, list and retire.
//! Each refusal stands in the order in which it is looked for.

mod halving;
mod retiring;
mod stored;

use crate::crc::Sum;
use crate::envelope::{self, Fields, Unread};
pub use halving::{ascending, find_by_halving, Ascent, MOST_OPENED};
pub use retiring::{retire, retired_records};
use std::ops::Range;
pub use stored::Stored;

pub const RECORD: usize = 512;
pub const MOST_RECORDS: usize = 128;
/// Bytes of the stored length.
pub const PREFIX: usize = 2;
pub const LONGEST_MESSAGE: usize = RECORD - PREFIX;

#[derive(Clone, Copy, Debug, PartialEq, Eq)]
pub enum Refusal {
    NotAFile,
    NoRecord,
    StoredLength,
    NotClear,
    Record(Unread),
    NameTaken,
    NotFound,
    Radio(Unread),
    TooLong,
    Message(Unread),
    Buffer,
    AlreadyRetired,
    CopyLength,
    RecordRetired,
}

impl Refusal {
    /// The refusal's number, and the number and the place that reading gave, or 0 and 0. 32 is not used again.
    pub fn numbers(self) -> (u8, u8, usize) {
        match self {
            Refusal::NotAFile => (21, 0, 0),
            Refusal::NoRecord => (22, 0, 0),
            Refusal::StoredLength => (23, 0, 0),
            Refusal::NotClear => (24, 0, 0),
            Refusal::Record(unread) => unread.passed_on(25),
            Refusal::NameTaken => (26, 0, 0),
            Refusal::NotFound => (27, 0, 0),
            Refusal::Radio(unread) => unread.passed_on(31),
            Refusal::TooLong => (33, 0, 0),
            Refusal::Message(unread) => unread.passed_on(34),
            Refusal::Buffer => (35, 0, 0),
            Refusal::AlreadyRetired => (36, 0, 0),
            Refusal::CopyLength => (37, 0, 0),
            Refusal::RecordRetired => (38, 0, 0),
        }
    }
}

/// How many records a file has, good or bad.
pub fn count(file: &[u8]) -> Result<usize, Refusal> {
    if !file.len().is_multiple_of(RECORD) || file.len() > MOST_RECORDS * RECORD {
        return Err(Refusal::NotAFile);
    }
    Ok(file.len() / RECORD)
}

/// A good record: where its message stands in the file, what it says, and whether it is retired or live.
struct Opened {
    place: Range<usize>,
    retired: bool,
    fields: Fields,
}

/// What names a record: the type and the message number.
type Name = (u16, u32);

impl Opened {
    fn name(&self) -> Name {
        (self.fields.message_type, self.fields.number)
    }
}

fn open<S: Sum>(file: &[u8], record: usize) -> Result<Opened, Refusal> {
    if record >= count(file)? {
        return Err(Refusal::NoRecord);
    }
    let Stored { place, retired } = Stored::of(file, record);
    if !(envelope::SHORTEST..=LONGEST_MESSAGE).contains(&place.len()) {
        return Err(Refusal::StoredLength);
    }
    let after = &file[place.end..(record + 1) * RECORD];
    if after.iter().any(|&byte| byte != 0) {
        return Err(Refusal::NotClear);
    }
    let fields = envelope::read::<S>(&file[place.clone()]).map_err(Refusal::Record)?;
    Ok(Opened { place, retired, fields })
}

/// A refusal and the record it is about (0 where it is about the file).
#[derive(Clone, Copy, Debug, PartialEq, Eq)]
pub struct Bad {
    pub record: usize,
    pub refusal: Refusal,
}

/// The number of records, retired ones too, if all are good and no two live ones have one name; or the first that is
/// bad, or is live and has the name of an earlier live one.
pub fn check<S: Sum>(file: &[u8]) -> Result<usize, Bad> {
    let count = count(file).map_err(|refusal| Bad { record: 0, refusal })?;
    let mut names: Vec<Name> = Vec::new();
    for record in 0..count {
        let bad = |refusal| Bad { record, refusal };
        let opened = open::<S>(file, record).map_err(bad)?;
        // A retired record takes no name, and is not held against any.
        if opened.retired {
            continue;
        }
        if names.contains(&opened.name()) {
            return Err(bad(Refusal::NameTaken));
        }
        names.push(opened.name());
    }
    Ok(count)
}

/// The answer to a search, and how many records it took.
#[derive(Clone, Copy, Debug, PartialEq, Eq)]
pub struct Search {
    pub opened: usize,
    pub answer: Result<usize, Refusal>,
}

/// Looks for the first live record of this type and number. Good retired ones are passed over, and counted; a bad record
/// on the way ends the search, marked or not.
pub fn find<S: Sum>(file: &[u8], message_type: u16, number: u32) -> Search {
    let count = match count(file) {
        Ok(count) => count,
        Err(refusal) => return Search { opened: 0, answer: Err(refusal) },
    };
    for record in 0..count {
        let answer = match open::<S>(file, record) {
            Err(refusal) => Err(refusal),
            Ok(opened) if !opened.retired && opened.name() == (message_type, number) => Ok(record),
            Ok(_) => continue,
        };
        return Search { opened: record + 1, answer };
    }
    Search { opened: count, answer: Err(Refusal::NotFound) }
}

/// One step of a walk.
#[derive(Clone, Debug, PartialEq, Eq)]
pub enum Step {
    Message { place: Range<usize>, retired: bool },
    Refused(Refusal),
    End,
}

impl Step {
    /// By how many records a walk moves on after this step.
    pub fn advance(&self) -> usize {
        match self {
            Step::End | Step::Refused(Refusal::NotAFile) => 0,
            Step::Message { .. } | Step::Refused(_) => 1,
        }
    }
}

pub fn step<S: Sum>(file: &[u8], record: usize) -> Step {
    match open::<S>(file, record) {
        Ok(Opened { place, retired, .. }) => Step::Message { place, retired },
        Err(Refusal::NoRecord) => Step::End,
        Err(refusal) => Step::Refused(refusal),
    }
}

/// Compares a live record with a radio's message: the total of differing places, and as many of them as the list takes.
/// Both are accepted by then, so neither is a proper beginning of the other; the tests in `beginnings` show it.
pub fn compare<S: Sum>(file: &[u8], record: usize, radio: &[u8], list: &mut [u32]) -> Result<usize, Refusal> {
    let opened = open::<S>(file, record)?;
    if opened.retired {
        return Err(Refusal::RecordRetired);
    }
    let golden = &file[opened.place];
    envelope::read::<S>(radio).map_err(Refusal::Radio)?;
    let mut total = 0;
    for place in 0..golden.len().max(radio.len()) {
        if golden.get(place) != radio.get(place) {
            if let Some(slot) = list.get_mut(total) {
                *slot = place as u32;
            }
            total += 1;
        }
    }
    Ok(total)
}

/// Makes a live record of a message: no length that a record holds reaches the mark.
pub fn make<S: Sum>(message: &[u8], buffer: &mut [u8]) -> Result<(), Refusal> {
    if message.len() > LONGEST_MESSAGE {
        return Err(Refusal::TooLong);
    }
    envelope::read::<S>(message).map_err(Refusal::Message)?;
    let buffer: &mut [u8; RECORD] = buffer.try_into().map_err(|_| Refusal::Buffer)?;
    let mut record = [0; RECORD];
    record[..PREFIX].copy_from_slice(&(message.len() as u16).to_be_bytes());
    record[PREFIX..][..message.len()].copy_from_slice(message);
    *buffer = record;
    Ok(())
}

/// A good record as a listing shows it.
#[derive(Clone, Copy, Debug, PartialEq, Eq)]
pub struct Line {
    pub message_type: u16,
    pub number: u32,
    pub length: usize,
    pub retired: bool,
}

pub fn line<S: Sum>(file: &[u8], record: usize) -> Result<Line, Refusal> {
    let Opened { place, retired, fields } = open::<S>(file, record)?;
    Ok(Line { message_type: fields.message_type, number: fields.number, length: place.len(), retired })
}

#[cfg(test)]
mod before;
#[cfg(test)]
mod beginnings;
#[cfg(test)]
mod marks;
#[cfg(test)]
mod names;
#[cfg(test)]
mod samples;
#[cfg(test)]
mod tests;
