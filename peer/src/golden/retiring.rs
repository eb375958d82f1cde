//! Change request K7: a record is retired in a copy of its file, and the file is only read.

use super::stored::mark;
use super::{count, open, Refusal};
use crate::crc::Sum;

/// How many records are good and retired; a bad one counts as none.
pub fn retired_records<S: Sum>(file: &[u8]) -> Result<usize, Refusal> {
    let retired = |record: &usize| open::<S>(file, *record).is_ok_and(|opened| opened.retired);
    Ok((0..count(file)?).filter(retired).count())
}

/// Writes the file into the copy, with the mark of this record set and no other byte different.
pub fn retire<S: Sum>(file: &[u8], record: usize, copy: &mut [u8]) -> Result<(), Refusal> {
    if open::<S>(file, record)?.retired {
        return Err(Refusal::AlreadyRetired);
    }
    if copy.len() != file.len() {
        return Err(Refusal::CopyLength);
    }
    copy.copy_from_slice(file);
    mark(copy, record);
    Ok(())
}

#[cfg(test)]
mod tests;
