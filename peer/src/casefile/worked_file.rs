//! The `file` lines: the golden file that is worked on, made up byte by byte. Nothing of it is judged here.

use super::arguments::bytes;
use super::complaint::Complaint;
use super::words::Words;
use crate::golden::{LONGEST_MESSAGE, RECORD};

/// Two records more than a golden file may have, so that a file too long can be worked on.
pub const MOST_BYTES: usize = 66_560;

/// What stands behind `file`.
pub fn change(words: &mut Words, file: &mut Vec<u8>) -> Result<(), Complaint> {
    if words.takes("record") {
        return record(words, file);
    }
    let left = MOST_BYTES - file.len();
    if words.takes("bytes") {
        let appended = bytes(words, left, None)?;
        file.extend(appended);
    } else if words.takes("zeros") {
        let zeros = words.number(left as u64)? as usize;
        words.end()?;
        file.resize(file.len() + zeros, 0);
    } else if words.takes("change") {
        let place = words.number(file.len() as u64)? as usize;
        let put = bytes(words, file.len() - place, None)?;
        file[place..place + put.len()].copy_from_slice(&put);
    } else {
        words.the_word("new")?;
        words.end()?;
        file.clear();
    }
    Ok(())
}

fn record(words: &mut Words, file: &mut Vec<u8>) -> Result<(), Complaint> {
    let message = bytes(words, LONGEST_MESSAGE, None)?;
    let length = file.len() + RECORD;
    if length > MOST_BYTES {
        return Err(Complaint::NoRoom);
    }
    file.extend((message.len() as u16).to_be_bytes());
    file.extend(message);
    file.resize(length, 0);
    Ok(())
}

#[cfg(test)]
mod tests {
    use super::super::complaint::What;
    use super::*;

    /// The file after these lines, and what the last of them was told.
    fn after(lines: &[&str]) -> (Vec<u8>, Result<(), Complaint>) {
        let (mut file, mut told) = (Vec::new(), Ok(()));
        for line in lines {
            assert_eq!(told, Ok(()), "before {line}");
            told = change(&mut Words::new(line.as_bytes()), &mut file);
        }
        (file, told)
    }

    fn misfit(column: usize, what: What) -> Result<(), Complaint> {
        Err(Complaint::Expected { column, what })
    }

    #[test]
    fn a_record_has_its_length_its_bytes_and_zeros() {
        let (file, _) = after(&["bytes 07", "record 41*300 42", "record"]);
        assert_eq!(file.len(), 1 + 1024);
        assert_eq!(file[..4], [7, 1, 45, 0x41]);
        assert_eq!(file[302..304], [0x41, 0x42]);
        assert!(file[304..].iter().all(|&byte| byte == 0));
    }

    #[test]
    fn bytes_zeros_and_changes_do_what_they_say() {
        assert_eq!(after(&["bytes 0102", "zeros 2", "bytes 03"]).0, [1, 2, 0, 0, 3]);
        assert_eq!(after(&["bytes 01020304", "change 1 aabb", "change 4", "change 0"]).0, [1, 0xAA, 0xBB, 4]);
        assert_eq!(after(&["bytes 01", "new", "bytes 02", "zeros 0"]).0, [2]);
    }

    #[test]
    fn the_file_has_a_last_byte() {
        assert_eq!(after(&["zeros 66560", "zeros 0", "bytes"]).1, Ok(()));
        assert_eq!(after(&["zeros 66561"]).1, misfit(7, What::Number(66_560)));
        assert_eq!(after(&["bytes 01", "zeros 66560"]).1, misfit(7, What::Number(66_559)));
        assert_eq!(after(&["zeros 66559", "bytes 01"]).0.len(), 66_560);
        assert_eq!(after(&["zeros 66559", "bytes 01 02"]).1, misfit(10, What::MostBytes(1)));
    }

    #[test]
    fn a_change_does_not_grow_the_file() {
        let (file, told) = after(&["bytes 010203", "change 1 aa bbcc"]);
        assert_eq!((file, told), (vec![1, 2, 3], misfit(13, What::MostBytes(2))));
        assert_eq!(after(&["bytes 010203", "change 4"]).1, misfit(8, What::Number(3)));
        assert_eq!(after(&["bytes 010203", "change 3 00"]).1, misfit(10, What::MostBytes(0)));
    }

    #[test]
    fn a_record_without_room_is_told_where_the_line_is_right() {
        assert_eq!(after(&["zeros 66048", "record 41*510"]).0.len(), 66_560);
        let (file, told) = after(&["zeros 66049", "record"]);
        assert_eq!((file.len(), told), (66_049, Err(Complaint::NoRoom)));
        assert_eq!(after(&["zeros 66049", "record 41*511"]).1, misfit(8, What::MostBytes(510)));
    }

    #[test]
    fn another_word_is_told() {
        for line in ["", "news", "New", "new:"] {
            assert_eq!(after(&[line]).1, misfit(1, What::Word("new")), "{line}");
        }
        assert_eq!(after(&["bytes 01", "new 1"]), (vec![1], misfit(5, What::End)));
        assert_eq!(after(&["bytes 01", "zeros 1 1"]), (vec![1], misfit(9, What::End)));
        assert_eq!(after(&["bytes 01", "bytes 02 x"]), (vec![1], misfit(10, What::Bytes)));
    }
}
