//! The worked examples of the rules, and sums that others have published.
//! Each is built here byte by byte and carries the answer it must have.

pub mod framed;
pub mod judged;
pub mod placed;

/// A message and its answer: 0 and 0 where it is accepted, else the refusal's number and place.
pub struct Case {
    pub name: &'static str,
    pub message: Vec<u8>,
    pub answer: u8,
    pub place: usize,
}

/// Known CRC-32 values from outside.
pub fn published_sums() -> Vec<(Vec<u8>, u32)> {
    vec![
        (b"123456789".to_vec(), 0xCBF4_3926),
        (b"".to_vec(), 0),
        (b"a".to_vec(), 0xE8B7_BE43),
        (b"abc".to_vec(), 0x3524_41C2),
        (b"The quick brown fox jumps over the lazy dog".to_vec(), 0x414F_A339),
        (vec![0; 32], 0x190A_55AD),
        (vec![0xFF; 32], 0xFF6C_AB0B),
        ((0..32).collect(), 0x9126_7E8A),
    ]
}

/// The bytes that these hex digits write, whatever stands between them.
pub fn from_hex(digits: &str) -> Vec<u8> {
    let digits: Vec<u32> = digits.chars().filter_map(|digit| digit.to_digit(16)).collect();
    digits.chunks(2).map(|pair| (pair[0] << 4 | pair[1]) as u8).collect()
}

/// The message M: type 6000, number 1, no integrity, 21 bytes.
pub fn shortest() -> Vec<u8> {
    vec![0x04, 0x17, 0x70, 1, 0, 0, 0, 0, 0, 0, 0, 1, 0, 0, 0, 0, 0, 0, 0, 0, 0]
}

fn changed(place: usize, byte: u8) -> Vec<u8> {
    let mut message = shortest();
    message[place] = byte;
    message
}

/// M with a field of 1.
pub fn spoiled() -> Vec<u8> {
    changed(20, 1)
}

/// M with this name: a type and a message number.
pub fn named(message_type: u16, number: u32) -> Vec<u8> {
    let mut message = shortest();
    message[1..3].copy_from_slice(&message_type.to_be_bytes());
    message[8..12].copy_from_slice(&number.to_be_bytes());
    message
}

/// M with a body of one byte.
pub fn one_body_byte() -> Vec<u8> {
    let mut message = changed(7, 1);
    message.insert(17, 0x55);
    message
}

/// M with a variable header: TTL 120, QoS 0, and these bytes as its ends.
pub fn with_ends(size: u8, ends: &[u8]) -> Vec<u8> {
    let mut message = changed(16, size);
    let header = [&[0, 120, 0, 0], ends].concat();
    message.splice(17..17, header);
    message
}

/// The letter as source, and as destination.
pub fn one_letter_ends() -> [Vec<u8>; 2] {
    [with_ends(7, b"A\0\0"), with_ends(7, b"\0A\0")]
}

/// Two ends of so many letters.
fn lettered_ends(source: usize, destination: usize) -> Vec<u8> {
    [vec![b'S'; source], vec![0], vec![b'D'; destination], vec![0]].concat()
}

/// The cases that are one message each.
pub fn messages() -> Vec<Case> {
    let longer = [shortest(), vec![0]].concat();
    let [left, right] = one_letter_ends();
    let table = [
        ("a", shortest(), 0, 0),
        ("b", shortest()[..20].to_vec(), 1, 20),
        ("c", changed(0, 3), 2, 0),
        ("d", changed(16, 5), 4, 16),
        ("e", longer, 5, 5),
        ("f", spoiled(), 7, 17),
        ("g", one_body_byte(), 0, 0),
        ("h", with_ends(6, &[0, 0]), 0, 0),
        ("i, two letters", with_ends(7, b"AA\0"), 6, 21),
        ("i, source", left, 0, 0),
        ("i, destination", right, 0, 0),
        ("j", with_ends(132, &lettered_ends(63, 63)), 0, 0),
        ("j, V 133", with_ends(133, &lettered_ends(64, 63)), 4, 16),
        ("j, 64 letters", with_ends(132, &lettered_ends(64, 62)), 6, 21),
    ];
    table.into_iter().map(|(name, message, answer, place)| Case { name, message, answer, place }).collect()
}

/// A record that stores these bytes, be they a message or not.
pub fn record_of(bytes: &[u8]) -> Vec<u8> {
    let mut record = [&(bytes.len() as u16).to_be_bytes(), bytes].concat();
    record.resize(512, 0);
    record
}

/// The same record, retired: the top bit of its stored length is set.
pub fn retired(mut record: Vec<u8>) -> Vec<u8> {
    record[0] |= 0x80;
    record
}

/// A good record of this name, a type and a message number, retired or live.
pub fn marked_record((message_type, number): (u16, u32), is_retired: bool) -> Vec<u8> {
    let live = record_of(&named(message_type, number));
    if is_retired {
        retired(live)
    } else {
        live
    }
}

/// Two and three records in every combination of three names, each retired or live.
pub fn combinations() -> Vec<Vec<((u16, u32), bool)>> {
    let kinds = [(6000, 1), (6000, 2), (6001, 1)].map(|name| [(name, false), (name, true)]).concat();
    let one = |choice: usize| kinds[choice % kinds.len()];
    let two = (0..36).map(|choice| vec![one(choice), one(choice / 6)]);
    let three = (0..216).map(|choice| vec![one(choice), one(choice / 6), one(choice / 36)]);
    two.chain(three).collect()
}

/// The file of the listing case: M in a record, then the same record with a stored length of 20.
pub fn listed_file() -> Vec<u8> {
    let mut file = record_of(&shortest()).repeat(2);
    file[513] = 20;
    file
}

/// How that file is listed.
pub const LISTING: &str = "records 2\n0 6000 1 21\n1 refused 23 0 0\n";
