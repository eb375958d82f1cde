//! Work that is one call: a sum, a message to read, a file to check, a record to find, a record to compare.

use super::{repeated, Row, Side, Work};
use crate::interface::{Order, FIELDS};
use crate::loaded::{Before, OtherSum};
use crate::{mirror, ours};
use peer::crc::{Division, Sum, Table};
use peer::envelope::{self, SHORTEST, SHORTEST_VARIABLE};
use peer::golden::{self, MOST_RECORDS, RECORD};
use std::hint::black_box;

pub fn summing(bytes: &[u8], before: Option<Before>) -> Row<'_> {
    let sum = Table::of(bytes);
    assert!(ours::crc(bytes) == sum && Division::of(bytes) == sum, "the sums differ");
    let mut sides: Vec<(Side, Work)> = vec![
        (Side::Ours, repeated(|| ours::crc(black_box(bytes)))),
        (Side::Table, repeated(|| Table::of(black_box(bytes)))),
        (Side::Division, repeated(|| Division::of(black_box(bytes)))),
    ];
    for (side, other) in [(Side::Zlib, OtherSum::zlib()), (Side::Libdeflate, OtherSum::libdeflate())] {
        if let Some(other) = other {
            assert_eq!(other.crc(bytes), sum, "the sum of {} differs", side.name());
            sides.push((side, repeated(move || other.crc(black_box(bytes)))));
        }
    }
    if let Some(before) = before {
        assert_eq!(before.crc(bytes), sum, "the sum before differs");
        sides.push((Side::Before, repeated(move || before.crc(black_box(bytes)))));
    }
    Row { name: format!("sum of {} bytes", bytes.len()), sides }
}

pub fn reading<'a>(kind: &str, message: &'a [u8], before: Option<Before>) -> Row<'a> {
    let read_by_ours = || {
        let mut fields = [0; FIELDS];
        let answer = ours::read(black_box(message), &mut fields);
        (answer, fields)
    };
    assert_eq!(read_by_ours().0.number, 0, "the message is refused");
    let mut sides: Vec<(Side, Work)> = vec![
        (Side::Ours, repeated(read_by_ours)),
        (Side::Table, repeated(|| envelope::read::<Table>(black_box(message)))),
        (Side::Division, repeated(|| envelope::read::<Division>(black_box(message)))),
    ];
    if let Some(before) = before {
        let read_before = move || {
            let mut fields = [0; FIELDS];
            let answer = before.read(black_box(message), &mut fields);
            (answer, fields)
        };
        assert_eq!(read_before(), read_by_ours(), "it was read differently before");
        sides.push((Side::Before, repeated(read_before)));
    }
    Row { name: format!("reading {} bytes, {kind}", message.len()), sides }
}

pub fn checking<'a>(kind: &str, length: usize, file: &'a [u8], before: Option<Before>) -> Row<'a> {
    assert_eq!(usize::from(ours::check(file).count), MOST_RECORDS, "the file is not full of good records");
    let mut sides: Vec<(Side, Work)> = vec![
        (Side::Ours, repeated(|| ours::check(black_box(file)))),
        (Side::Table, repeated(|| golden::check::<Table>(black_box(file)))),
        (Side::Division, repeated(|| golden::check::<Division>(black_box(file)))),
    ];
    if let Some(before) = before {
        assert_eq!(before.check(file), ours::check(file), "it was checked differently before");
        sides.push((Side::Before, repeated(move || before.check(black_box(file)))));
    }
    Row { name: format!("checking {MOST_RECORDS} records of {length} bytes, {kind}"), sides }
}

/// The last record of a full file, so that every record is opened.
pub fn finding<'a>(kind: &str, length: usize, file: &'a [u8], before: Option<Before>) -> Row<'a> {
    let last = golden::line::<Table>(file, MOST_RECORDS - 1).expect("the file is full of good records");
    let (message_type, number) = (last.message_type, last.number);
    let found = ours::find(file, message_type, number);
    assert_eq!((found.number, found.value as usize), (0, MOST_RECORDS - 1), "another record is found");
    let mut sides: Vec<(Side, Work)> = vec![
        (Side::Ours, repeated(move || ours::find(black_box(file), message_type, number))),
        (Side::Table, repeated(move || golden::find::<Table>(black_box(file), message_type, number))),
        (Side::Division, repeated(move || golden::find::<Division>(black_box(file), message_type, number))),
    ];
    if let Some(before) = before {
        assert_eq!(before.find(file, message_type, number), found, "it was found differently before");
        sides.push((Side::Before, repeated(move || before.find(black_box(file), message_type, number))));
    }
    Row { name: format!("finding the last of {MOST_RECORDS} records of {length} bytes, {kind}"), sides }
}

pub fn comparing<'a>(file: &'a [u8], radio: &'a [u8], before: Option<Before>) -> Row<'a> {
    const ROOM: usize = 64;
    let compare_by_ours = || {
        let mut places = [0; ROOM];
        let answer = ours::compare(black_box(file), 0, black_box(radio), &mut places);
        (answer, places)
    };
    let compared = compare_by_ours().0;
    assert!(compared.number == 0 && compared.value != 0, "the radio's message does not differ");
    let mut sides: Vec<(Side, Work)> = vec![
        (Side::Ours, repeated(compare_by_ours)),
        (
            Side::Table,
            repeated(|| {
                let mut places = [0; ROOM];
                (golden::compare::<Table>(black_box(file), 0, black_box(radio), &mut places), places)
            }),
        ),
        (
            Side::Division,
            repeated(|| {
                let mut places = [0; ROOM];
                (golden::compare::<Division>(black_box(file), 0, black_box(radio), &mut places), places)
            }),
        ),
    ];
    if let Some(before) = before {
        let compare_before = move || {
            let mut places = [0; ROOM];
            let answer = before.compare(black_box(file), 0, black_box(radio), &mut places);
            (answer, places)
        };
        assert_eq!(compare_before(), compare_by_ours(), "it was compared differently before");
        sides.push((Side::Before, repeated(compare_before)));
    }
    Row { name: format!("comparing {} bytes, CRC", radio.len()), sides }
}

/// A message of this length, addressed where there is room for it.
pub fn message(flags: u8, length: usize, number: u32) -> Vec<u8> {
    let mut order = Order { message_type: 6000, flags, number, ..Order::default() };
    let mut left = length - SHORTEST;
    if left >= SHORTEST_VARIABLE {
        left -= SHORTEST_VARIABLE;
        order.addressed = 1;
        order.source = vec![b'E'; (left / 2).min(63)];
        order.destination = order.source.clone();
        left -= 2 * order.source.len();
    }
    order.body = vec![0x5A; left];
    let mut message = vec![0; length];
    assert_eq!(mirror::write(&order, &mut message).number, 0, "the message is not written");
    message
}

/// As many records as a file may have, no two of one name: their numbers are so far apart.
pub fn full_file(flags: u8, length: usize, apart: u32) -> Vec<u8> {
    let mut file = vec![0; MOST_RECORDS * RECORD];
    for (place, record) in file.chunks_mut(RECORD).enumerate() {
        golden::make::<Table>(&message(flags, length, place as u32 * apart), record).expect("the message is good");
    }
    file
}
