//! Bits that flip on a card: each bit of each message of a golden file, and each pair of bits of one message.
//! Told are the files that come of it, as far as the flags still declare a CRC.

use crate::cases::from_hex;
use crate::envelope::Kind;
use crate::golden::{Stored, RECORD};
use std::ops::Range;

/// Where the flags stand in a message.
const FLAGS: usize = 4;

/// A file of three messages of kind CRC.
pub fn file() -> Vec<u8> {
    let messages = [
        "04177101090000 0c 00000002 6553f100 1b 012c 0008 75702e6c2e353536303a7200 6373782e623a6362746d00 68656c6c6f2c20726164696f ec5f3594",
        "04177001080000 02 00000001 00000000 00 0000 d9299f95",
        "04177001080000 05 ee6b2800 6553f100 13 012c 0008 75702e623a69746300 6373782e6200 68656c6c6f 0fbc61c7",
    ];
    messages.iter().flat_map(|digits| record(&from_hex(digits))).collect()
}

fn record(message: &[u8]) -> Vec<u8> {
    let mut record = [&(message.len() as u16).to_be_bytes(), message].concat();
    record.resize(RECORD, 0);
    record
}

/// Each bit of each message.
pub fn each_bit(file: &[u8], mut seen: impl FnMut(&[u8])) {
    let mut file = file.to_vec();
    for record in 0..file.len() / RECORD {
        let message = Stored::of(&file, record).place;
        for bit in 0..8 * message.len() {
            flipped(&mut file, &message, &[bit], &mut seen);
        }
    }
}

/// Each pair of bits of the message of one record.
pub fn each_pair(file: &[u8], record: usize, mut seen: impl FnMut(&[u8])) {
    let mut file = file.to_vec();
    let message = Stored::of(&file, record).place;
    for second in 0..8 * message.len() {
        for first in 0..second {
            flipped(&mut file, &message, &[first, second], &mut seen);
        }
    }
}

fn flipped(file: &mut [u8], message: &Range<usize>, bits: &[usize], seen: &mut impl FnMut(&[u8])) {
    let flip = |file: &mut [u8]| bits.iter().for_each(|bit| file[message.start + bit / 8] ^= 1 << (bit % 8));
    flip(file);
    if declares_crc(file[message.start + FLAGS]) {
        seen(file);
    }
    flip(file);
}

/// The two bits of the kind alone: a flip elsewhere in the flags is to be seen too.
fn declares_crc(flags: u8) -> bool {
    Kind::of(flags & 0x18) == Some(Kind::Crc)
}

#[cfg(test)]
mod tests {
    use super::*;
    use crate::crc::Division;
    use crate::golden::check;

    /// The counts are those that the acceptance run prints.
    #[test]
    fn each_flip_is_refused() {
        let (mut bits, mut pairs) = (0, 0);
        let refused = |file: &[u8]| check::<Division>(file).is_err();
        assert_eq!(check::<Division>(&file()), Ok(3));
        each_bit(&file(), |file| bits += u32::from(refused(file)));
        each_pair(&file(), 0, |file| pairs += u32::from(refused(file)));
        assert_eq!((bits, pairs), (1_018, 114_003));
    }
}
