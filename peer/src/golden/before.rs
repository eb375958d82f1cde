//! The rules before K7, to hold the rules of today against: the stored length was all of its two bytes, and every good
//! record was live.

use super::{count, Bad, Line, Name, Refusal, Search, Step, LONGEST_MESSAGE, PREFIX, RECORD};
use crate::crc::Division;
use crate::envelope::{read, SHORTEST};
use std::ops::Range;

fn open(file: &[u8], record: usize) -> Result<(Range<usize>, Name), Refusal> {
    if record >= count(file)? {
        return Err(Refusal::NoRecord);
    }
    let stored = &file[record * RECORD..][..RECORD];
    let length = usize::from(stored[0]) << 8 | usize::from(stored[1]);
    if !(SHORTEST..=LONGEST_MESSAGE).contains(&length) {
        return Err(Refusal::StoredLength);
    }
    let (message, after) = stored[PREFIX..].split_at(length);
    if after.iter().any(|&byte| byte != 0) {
        return Err(Refusal::NotClear);
    }
    let fields = read::<Division>(message).map_err(Refusal::Record)?;
    let first = record * RECORD + PREFIX;
    Ok((first..first + length, (fields.message_type, fields.number)))
}

pub fn check(file: &[u8]) -> Result<usize, Bad> {
    let count = count(file).map_err(|refusal| Bad { record: 0, refusal })?;
    let mut names = Vec::new();
    for record in 0..count {
        let (_, name) = open(file, record).map_err(|refusal| Bad { record, refusal })?;
        if names.contains(&name) {
            return Err(Bad { record, refusal: Refusal::NameTaken });
        }
        names.push(name);
    }
    Ok(count)
}

pub fn find(file: &[u8], message_type: u16, number: u32) -> Search {
    let count = match count(file) {
        Ok(count) => count,
        Err(refusal) => return Search { opened: 0, answer: Err(refusal) },
    };
    for record in 0..count {
        match open(file, record) {
            Err(refusal) => return Search { opened: record + 1, answer: Err(refusal) },
            Ok((_, name)) if name == (message_type, number) => {
                return Search { opened: record + 1, answer: Ok(record) }
            }
            Ok(_) => {}
        }
    }
    Search { opened: count, answer: Err(Refusal::NotFound) }
}

pub fn step(file: &[u8], record: usize) -> Step {
    match open(file, record) {
        Ok((place, _)) => Step::Message { place, retired: false },
        Err(Refusal::NoRecord) => Step::End,
        Err(refusal) => Step::Refused(refusal),
    }
}

pub fn line(file: &[u8], record: usize) -> Result<Line, Refusal> {
    let (place, (message_type, number)) = open(file, record)?;
    Ok(Line { message_type, number, length: place.len(), retired: false })
}

/// The differing places, all of them.
pub fn compare(file: &[u8], record: usize, radio: &[u8]) -> Result<Vec<usize>, Refusal> {
    let (place, _) = open(file, record)?;
    read::<Division>(radio).map_err(Refusal::Radio)?;
    let longer = place.len().max(radio.len());
    Ok((0..longer).filter(|&at| file[place.clone()].get(at) != radio.get(at)).collect())
}

mod tests;
