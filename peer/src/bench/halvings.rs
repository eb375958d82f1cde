//! A name looked for by halving, and the same name by our find beside it.

use super::works::full_file;
use super::{repeated, Row, Side, Work};
use crate::ours;
use peer::crc::Table;
use peer::golden::{self, LONGEST_MESSAGE, MOST_RECORDS};
use std::hint::black_box;

/// Between any two numbers of the file, which are so far apart, there are absent ones.
const APART: u32 = 256;

/// 128 records of 510 bytes in ascending order.
pub fn file(flags: u8) -> Vec<u8> {
    full_file(flags, LONGEST_MESSAGE, APART)
}

/// What is looked for, and the number that it has; the absent one comes behind the first record.
pub const SOUGHT: [(&str, u32); 4] = [
    ("the first", 0),
    ("the middle", MOST_RECORDS as u32 / 2 * APART),
    ("the last", (MOST_RECORDS as u32 - 1) * APART),
    ("an absent name", 1),
];

pub fn halving<'a>(kind: &str, file: &'a [u8], (name, number): (&str, u32)) -> Row<'a> {
    const TYPE: u16 = 6000;
    let (halved, found) = (ours::find_by_halving(file, TYPE, number), ours::find(file, TYPE, number));
    assert_eq!((halved.number, halved.value), (found.number, found.value), "halving finds another record");
    let by_the_peer = golden::find_by_halving::<Table>(file, TYPE, number);
    assert_eq!(by_the_peer.opened, usize::from(halved.count), "the peer opens another number of records");
    let sides: Vec<(Side, Work)> = vec![
        (Side::Ours, repeated(move || ours::find_by_halving(black_box(file), TYPE, number))),
        (Side::Table, repeated(move || golden::find_by_halving::<Table>(black_box(file), TYPE, number))),
        (Side::OurFind, repeated(move || ours::find(black_box(file), TYPE, number))),
    ];
    Row {
        name: format!("finding by halving {name} of {MOST_RECORDS} records of {LONGEST_MESSAGE} bytes, {kind}"),
        sides,
    }
}
