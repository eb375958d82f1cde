//! The printed forms of what an answer holds.

use crate::golden::Refusal;
use std::ops::Range;

pub fn hex(bytes: &[u8]) -> String {
    bytes.iter().map(|byte| format!("{byte:02x}")).collect()
}

/// A part of a message: its first place, its size and its bytes.
pub fn part(message: &[u8], part: &Range<usize>) -> String {
    format!("{} {} [{}]", part.start, part.len(), hex(&message[part.clone()]))
}

/// A lent buffer, whole: its last run of one byte is counted, all before it is written out.
pub fn buffer(buffer: &[u8]) -> String {
    let Some(last) = buffer.last() else { return "[]".to_string() };
    let run = buffer.iter().rev().take_while(|byte| *byte == last).count();
    let before = hex(&buffer[..buffer.len() - run]);
    let space = if before.is_empty() { "" } else { " " };
    format!("[{before}{space}{last:02x}*{run}]")
}

/// A refusal about a golden file, by its three numbers.
pub fn refused(refusal: Refusal) -> String {
    let (number, reading, place) = refusal.numbers();
    format!("refused {number} {reading} {place}")
}

#[cfg(test)]
mod tests {
    use super::*;

    #[test]
    fn a_buffer_ends_with_its_last_run() {
        assert_eq!(buffer(&[]), "[]");
        assert_eq!(buffer(&[0xEE]), "[ee*1]");
        assert_eq!(buffer(&[0xEE; 600]), "[ee*600]");
        assert_eq!(buffer(&[0xEE, 0]), "[ee 00*1]");
        assert_eq!(buffer(&[4, 0x17, 0, 0, 0xEE, 0xEE, 0xEE]), "[04170000 ee*3]");
        assert_eq!(buffer(&[0, 0, 0xEE, 0, 0]), "[0000ee 00*2]");
    }

    #[test]
    fn a_part_has_its_place_and_its_size() {
        assert_eq!(part(b"\x01AB\x02", &(1..3)), "1 2 [4142]");
        assert_eq!(part(b"\x01AB\x02", &(4..4)), "4 0 []");
    }
}
