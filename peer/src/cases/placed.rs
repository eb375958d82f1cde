//! Messages that reading refuses, each with the number and the place that it comes to by hand.
//! The sums in them are zlib's, or wrong.

use super::{from_hex, lettered_ends, shortest, with_ends};

pub struct Placed {
    pub name: &'static str,
    pub message: Vec<u8>,
    pub number: u8,
    pub place: usize,
}

/// A name, the bytes in hex field by field, and the refusal's number and place.
type Row = (&'static str, &'static str, u8, usize);

pub fn all() -> Vec<Placed> {
    let rows = [TOO_SHORT.as_slice(), &HEADING, &LENGTH, &ADDRESSES, &INTEGRITY].concat();
    let rows = rows.into_iter().map(|(name, digits, number, place)| (name, from_hex(digits), number, place));
    let all = rows.chain(with_long_ends()).chain(with_long_bodies());
    all.map(|(name, message, number, place)| Placed { name, message, number, place }).collect()
}

/// The place is how many bytes there are.
const TOO_SHORT: [Row; 6] = [
    ("no bytes", "", 1, 0),
    ("a byte", "04", 1, 1),
    ("16 bytes", "04 1770 01 00 000000 00000001 00000000", 1, 16),
    ("17 bytes", "04 1770 01 00 000000 00000001 00000000 00", 1, 17),
    ("20 bytes", "04 1770 01 00 000000 00000001 00000000 00 000000", 1, 20),
    ("20 bytes with every fault", "05 1770 01 20 ffffff 00000001 00000000 05 000001", 1, 20),
];

/// The byte that is at fault: the header version, the flags or V.
const HEADING: [Row; 10] = [
    ("header version 3", "03 1770 01 00 000000 00000001 00000000 00 00000000", 2, 0),
    ("header version 5 and every later fault", "05 1770 01 20 ffffff 00000001 00000000 05 00000001", 2, 0),
    ("bit 5", "04 1770 01 20 000000 00000001 00000000 00 00000000", 3, 4),
    ("kind 3", "04 1770 01 18 000000 00000001 00000000 00 00000000", 3, 4),
    ("bit 7 and every later fault", "04 1770 01 80 ffffff 00000001 00000000 05 00000001", 3, 4),
    ("V 1", "04 1770 01 00 000000 00000001 00000000 01 00 00000000", 4, 16),
    ("V 5", "04 1770 01 00 000000 00000001 00000000 05 0078 0000 00 00000000", 4, 16),
    ("V 5 and every later fault", "04 1770 01 00 ffffff 00000001 00000000 05 00000001", 4, 16),
    ("V 133 and a wrong length", "04 1770 01 00 000000 00000001 00000000 85 00000000", 4, 16),
    ("V 255 and a wrong length", "04 1770 01 00 000000 00000001 00000000 ff 00000000", 4, 16),
];

/// The first byte of D, also where V is the one that is wrong.
const LENGTH: [Row; 6] = [
    ("a byte behind M", "04 1770 01 00 000000 00000001 00000000 00 00000000 00", 5, 5),
    ("a body announced one too long", "04 1770 01 00 000002 00000001 00000000 00 41 00000000", 5, 5),
    ("a body announced one too short", "04 1770 01 00 000000 00000001 00000000 00 41 00000000", 5, 5),
    ("the largest D", "04 1770 01 00 ffffff 00000001 00000000 00 00000000", 5, 5),
    ("V 6 and no variable header", "04 1770 01 00 000000 00000001 00000000 06 00000000", 5, 5),
    ("5 before 6 and 7", "04 1770 01 00 000000 00000001 00000000 07 0078 0000 414100 00000001 00", 5, 5),
];

/// The first address, whichever of the two is at fault.
const ADDRESSES: [Row; 5] = [
    ("no zero", "04 1770 01 00 000000 00000001 00000000 06 0078 0000 4141 00000000", 6, 21),
    ("no second zero", "04 1770 01 00 000000 00000001 00000000 07 0078 0000 414100 00000000", 6, 21),
    ("no zero behind the destination", "04 1770 01 00 000000 00000001 00000000 07 0078 0000 004141 00000000", 6, 21),
    ("three zeros, and a body", "04 1770 01 00 000002 00000001 00000000 07 0078 0000 000000 beef 00000000", 6, 21),
    ("6 before 7", "04 1770 01 00 000000 00000001 00000000 07 0078 0000 414100 00000001", 6, 21),
];

/// The first byte of the field, whichever of the four is at fault: it stands behind addresses and body.
const INTEGRITY: [Row; 7] = [
    ("a field of 1", "04 1770 01 00 000000 00000001 00000000 00 00000001", 7, 17),
    ("a field of 80000000", "04 1770 01 00 000000 00000001 00000000 00 80000000", 7, 17),
    ("a field of 1 behind a body byte", "04 1770 01 00 000001 00000001 00000000 00 41 00000001", 7, 18),
    ("a wrong CRC", "04 1770 01 08 000002 00000001 00000000 00 0000 d9299f94", 7, 19),
    ("a CRC of the body only", "04 1770 01 08 000004 00000001 00000000 00 626f6479 dba80bb2", 7, 21),
    ("a field of 1 behind addresses", "04 1770 01 00 000000 00000001 00000000 06 0078 0000 00 00 00000001", 7, 23),
    (
        "a wrong CRC behind addresses and a body",
        "04 1770 01 08 000002 00000001 00000000 07 0078 0000 4100 00 beef e928056e",
        7,
        26,
    ),
];

/// Messages about the longest addresses there may be.
fn with_long_ends() -> [(&'static str, Vec<u8>, u8, usize); 3] {
    let [wrong_field, wrong_ends] = [lettered_ends(63, 63), lettered_ends(64, 62)].map(|ends| with_ends(132, &ends));
    [
        ("a field of 1 behind V 132", ended_with(1, wrong_field), 7, 149),
        ("a source of 64 letters", wrong_ends, 6, 21),
        ("V 133", with_ends(133, &lettered_ends(64, 63)), 4, 16),
    ]
}

/// Messages whose field stands behind a body of 300 bytes, at the end of a record, and past two bytes' worth of places.
fn with_long_bodies() -> [(&'static str, Vec<u8>, u8, usize); 3] {
    let with_body = |d: [u8; 3], length: usize| {
        let mut message = shortest();
        message[5..8].copy_from_slice(&d);
        message.resize(length, 0);
        ended_with(1, message)
    };
    [
        ("a field of 1 behind 300 bytes", with_body([0, 1, 44], 321), 7, 317),
        ("a field of 1 in 510 bytes", with_body([0, 1, 233], 510), 7, 506),
        ("a field of 1 behind 65536 bytes", with_body([1, 0, 0], 65_557), 7, 65_553),
    ]
}

fn ended_with(byte: u8, mut message: Vec<u8>) -> Vec<u8> {
    message.pop();
    message.push(byte);
    message
}
