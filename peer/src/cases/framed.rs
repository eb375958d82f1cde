//! Frames, each with what unwrapping it comes to by hand.
//! The sums in them are zlib's.

use self::Told::{Acknowledgment, Data, Refused};
use super::from_hex;

/// What is told of a frame.
#[derive(Clone, Copy, Debug, PartialEq, Eq)]
pub enum Told {
    /// A data message of this COMMID.
    Data(u32),
    /// An acknowledgment: its own COMMID, and the one that it acknowledges.
    Acknowledgment(u32, u32),
    /// The refusal's number, and the number and the place of reading, or 0 and 0.
    Refused(u8, u8, usize),
}

pub struct Framed {
    pub name: &'static str,
    pub bytes: Vec<u8>,
    pub told: Told,
}

/// A name, the bytes in hex field by field, and what is told of them.
type Row = (&'static str, &'static str, Told);

pub fn all() -> Vec<Framed> {
    let rows = [GOOD.as_slice(), &ALONE, &UNREAD, &EDGES, &IN_ORDER].concat();
    rows.into_iter().map(|(name, digits, told)| Framed { name, bytes: from_hex(digits), told }).collect()
}

/// M, wrapped with COMMID 7.
pub fn wrapped() -> Vec<u8> {
    from_hex("02 02 00000007 01 02 00000015 04 1770 01 00 000000 00000001 00000000 00 00000000 03")
}

/// The acknowledgment of COMMID 7, with COMMID 9.
pub fn acknowledged() -> Vec<u8> {
    from_hex("02 02 00000009 02 02 00000004 00000007 03")
}

const GOOD: [Row; 10] = [
    ("M", "02 02 00000007 01 02 00000015 04 1770 01 00 000000 00000001 00000000 00 00000000 03", Data(7)),
    ("COMMID 0", "02 02 00000000 01 02 00000015 04 1770 01 00 000000 00000001 00000000 00 00000000 03", Data(0)),
    (
        "the last COMMID",
        "02 02 ffffffff 01 02 00000015 04 1770 01 00 000000 00000001 00000000 00 00000000 03",
        Data(4_294_967_295),
    ),
    (
        "a CRC",
        "02 02 01020304 01 02 00000017 04 1770 01 08 000002 00000001 00000000 00 0000 d9299f95 03",
        Data(16_909_060),
    ),
    (
        "STX and ETX in a body",
        "02 02 00000003 01 02 00000018 04 1770 01 00 000003 00000001 00000000 00 030202 00000000 03",
        Data(3),
    ),
    ("ETX before ETX", "02 02 00000003 01 02 00000015 04 1770 01 10 000000 00000001 00000000 00 03030303 03", Data(3)),
    ("an acknowledgment", "02 02 00000009 02 02 00000004 00000007 03", Acknowledgment(9, 7)),
    ("an acknowledgment of COMMID 0", "02 02 00000000 02 02 00000004 00000000 03", Acknowledgment(0, 0)),
    ("highest byte first", "02 02 01020304 02 02 00000004 05060708 03", Acknowledgment(16_909_060, 84_281_096)),
    ("ETX acknowledged", "02 02 ffffffff 02 02 00000004 03030303 03", Acknowledgment(4_294_967_295, 50_529_027)),
];

/// Each refusal with no other rule broken, those of a message apart.
const ALONE: [Row; 12] = [
    ("12 bytes", "02 02 00000007 01 02 00000000", Refused(61, 0, 0)),
    ("STX 03", "03 02 00000009 02 02 00000004 00000007 03", Refused(62, 0, 0)),
    ("protocol version 1", "02 01 00000009 02 02 00000004 00000007 03", Refused(63, 0, 0)),
    ("protocol version 3", "02 03 00000009 02 02 00000004 00000007 03", Refused(63, 0, 0)),
    ("message version 1", "02 02 00000009 02 01 00000004 00000007 03", Refused(63, 0, 0)),
    ("message version 3", "02 02 00000009 02 03 00000004 00000007 03", Refused(63, 0, 0)),
    ("type 0", "02 02 00000009 00 02 00000004 00000007 03", Refused(64, 0, 0)),
    ("a negative acknowledgment", "02 02 00000009 03 02 00000006 00000007 0001 03", Refused(64, 0, 0)),
    ("length 3 of 4", "02 02 00000009 02 02 00000003 00000007 03", Refused(65, 0, 0)),
    ("acknowledgment of 3 bytes", "02 02 00000009 02 02 00000003 000007 03", Refused(65, 0, 0)),
    ("acknowledgment of 5 bytes", "02 02 00000009 02 02 00000005 0000000700 03", Refused(65, 0, 0)),
    ("ETX 02", "02 02 00000009 02 02 00000004 00000007 02", Refused(66, 0, 0)),
];

/// Good frames around messages that reading refuses, by each of its numbers.
const UNREAD: [Row; 8] = [
    ("an empty body", "02 02 00000007 01 02 00000000 03", Refused(67, 1, 0)),
    (
        "M without its last byte",
        "02 02 00000007 01 02 00000014 04 1770 01 00 000000 00000001 00000000 00 000000 03",
        Refused(67, 1, 20),
    ),
    (
        "header version 3",
        "02 02 00000007 01 02 00000015 03 1770 01 00 000000 00000001 00000000 00 00000000 03",
        Refused(67, 2, 0),
    ),
    (
        "an unassigned flag",
        "02 02 00000007 01 02 00000015 04 1770 01 20 000000 00000001 00000000 00 00000000 03",
        Refused(67, 3, 4),
    ),
    ("V 5", "02 02 00000007 01 02 00000015 04 1770 01 00 000000 00000001 00000000 05 00000000 03", Refused(67, 4, 16)),
    (
        "M and a byte",
        "02 02 00000007 01 02 00000016 04 1770 01 00 000000 00000001 00000000 00 00000000 00 03",
        Refused(67, 5, 5),
    ),
    (
        "no second zero",
        "02 02 00000007 01 02 0000001c 04 1770 01 00 000000 00000001 00000000 07 0078 0000 414100 00000000 03",
        Refused(67, 6, 21),
    ),
    (
        "a field of 1",
        "02 02 00000007 01 02 00000015 04 1770 01 00 000000 00000001 00000000 00 00000001 03",
        Refused(67, 7, 17),
    ),
];

/// How many bytes there are, and how many the data length states.
const EDGES: [Row; 11] = [
    ("no bytes", "", Refused(61, 0, 0)),
    ("STX alone", "02", Refused(61, 0, 0)),
    ("13 bytes, an acknowledgment", "02 02 00000009 02 02 00000000 03", Refused(65, 0, 0)),
    ("the acknowledgment, cut", "02 02 00000009 02 02 00000004 00000007", Refused(65, 0, 0)),
    ("a byte behind ETX", "02 02 00000009 02 02 00000004 00000007 03 00", Refused(65, 0, 0)),
    ("a second ETX", "02 02 00000009 02 02 00000004 00000007 03 03", Refused(65, 0, 0)),
    (
        "M and a byte behind ETX",
        "02 02 00000007 01 02 00000015 04 1770 01 00 000000 00000001 00000000 00 00000000 03 03",
        Refused(65, 0, 0),
    ),
    ("length 4, lowest byte first", "02 02 00000009 02 02 04000000 00000007 03", Refused(65, 0, 0)),
    ("length 4294967295", "02 02 00000009 02 02 ffffffff 00000007 03", Refused(65, 0, 0)),
    ("length 4294967295, no body", "02 02 00000007 01 02 ffffffff 03", Refused(65, 0, 0)),
    ("length 4294967283, 13 more than that is 0", "02 02 00000007 01 02 fffffff3 03", Refused(65, 0, 0)),
];

/// Two rules broken at once: the first of them is told.
const IN_ORDER: [Row; 13] = [
    ("61 before 62", "03 02 00000007 01 02 00000000", Refused(61, 0, 0)),
    ("61 before 63", "02 01 00000007 01 01", Refused(61, 0, 0)),
    ("62 before 63", "00 01 00000009 02 02 00000004 00000007 03", Refused(62, 0, 0)),
    ("62 before 66", "03 02 00000009 02 02 00000004 00000007 02", Refused(62, 0, 0)),
    ("63 before 64, protocol", "02 01 00000009 04 02 00000004 00000007 03", Refused(63, 0, 0)),
    ("63 before 64, message", "02 02 00000009 04 01 00000004 00000007 03", Refused(63, 0, 0)),
    ("63 before 65", "02 02 00000009 02 03 00000005 00000007 03", Refused(63, 0, 0)),
    ("64 before 65", "02 02 00000009 04 02 00000005 00000007 03", Refused(64, 0, 0)),
    ("64 before 66", "02 02 00000009 04 02 00000004 00000007 00", Refused(64, 0, 0)),
    ("65 before 66", "02 02 00000009 02 02 00000005 00000007 00", Refused(65, 0, 0)),
    ("65 before 66, 5 bytes acknowledged", "02 02 00000009 02 02 00000005 0000000700 00", Refused(65, 0, 0)),
    ("65 before 67", "02 02 00000007 01 02 00000001 03", Refused(65, 0, 0)),
    ("66 before 67", "02 02 00000007 01 02 00000000 02", Refused(66, 0, 0)),
];
