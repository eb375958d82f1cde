//! Bytes for the judge, each with the seven verdicts that its rules come to by hand.
//! The sums in them are zlib's.

use super::{from_hex, messages};
use crate::judge::{Verdict, RULES};

pub struct Judged {
    pub name: &'static str,
    pub bytes: Vec<u8>,
    pub verdicts: [Verdict; RULES],
}

impl Judged {
    /// The verdicts in letters, one a rule: k kept, B broken, - not judged. Behind them the place of the integrity field,
    /// where rule 7 is broken; the other places are those of the rules, and of rule 1 how many bytes there are.
    fn new(name: &'static str, bytes: Vec<u8>, told: &str) -> Judged {
        let (letters, field) = told.split_at(RULES);
        let places = [bytes.len(), 0, 4, 16, 5, 21, field.parse().unwrap_or_default()];
        let mut verdicts = [Verdict::NotJudged; RULES];
        for ((verdict, letter), place) in verdicts.iter_mut().zip(letters.chars()).zip(places) {
            *verdict = match letter {
                'k' => Verdict::Kept,
                'B' => Verdict::Broken { place },
                _ => Verdict::NotJudged,
            };
        }
        Judged { name, bytes, verdicts }
    }
}

/// A name, the bytes in hex field by field, and the verdicts in letters.
type Row = (&'static str, &'static str, &'static str);

pub fn all() -> Vec<Judged> {
    let rows = [CUT.as_slice(), &VARIABLE, &LENGTH, &INTEGRITY, &SEVERAL].concat();
    let rows = rows.into_iter().map(|(name, digits, letters)| Judged::new(name, from_hex(digits), letters));
    lettered().into_iter().chain(long_addresses()).chain(rows).collect()
}

/// The lettered cases, in their order.
fn lettered() -> Vec<Judged> {
    let told = "kkkkk-k BkkkB-- kBkkk-k kkkBB-- kkkkB-k kkkkk-B17 kkkkk-k kkkkkkk kkkkkBk kkkkkkk \
                kkkkkkk kkkkkkk kkkBk-k kkkkkBk";
    messages().into_iter().zip(told.split(' ')).map(|(case, told)| Judged::new(case.name, case.message, told)).collect()
}

/// The message with two addresses of 63 letters: cut where its addresses and its field end, and with another V.
fn long_addresses() -> Vec<Judged> {
    let whole = messages().into_iter().find(|case| case.name == "j").expect("it is a lettered case").message;
    let sized = |v: u8| [&whole[..16], &[v], &whole[17..]].concat();
    vec![
        Judged::new("V 132, all but the last address byte", whole[..148].to_vec(), "kkkkB--"),
        Judged::new("V 132, to the last address byte", whole[..149].to_vec(), "kkkkBk-"),
        Judged::new("V 132, a byte of the field missing", whole[..152].to_vec(), "kkkkBk-"),
        Judged::new("V 133 over the same bytes", sized(133), "kkkBB--"),
        Judged::new("V 131 over the same bytes", sized(131), "kkkkBBk"),
        Judged::new("V 255 over the same bytes", sized(255), "kkkBB--"),
    ]
}

/// How far the bytes reach decides which rules are judged.
const CUT: [Row; 12] = [
    ("no bytes", "", "B------"),
    ("a byte", "04", "Bk-----"),
    ("a wrong byte", "03", "BB-----"),
    ("4 bytes", "04 1770 01", "Bk-----"),
    ("5 bytes", "04 1770 01 00", "Bkk----"),
    ("5 bytes, the last an unassigned flag", "04 1770 01 20", "BkB----"),
    ("16 bytes", "04 1770 01 00 000000 00000001 00000000", "Bkk----"),
    ("17 bytes", "04 1770 01 00 000000 00000001 00000000 00", "BkkkB--"),
    ("17 bytes, the last a V of 5", "04 1770 01 00 000000 00000001 00000000 05", "BkkBB--"),
    ("20 bytes of V 6", "04 1770 01 00 000000 00000001 00000000 06 0078 00", "BkkkB--"),
    ("20 zero bytes", "00000000 00000000 00000000 00000000 00000000", "BBkkB--"),
    ("21 zero bytes", "00000000 00000000 00000000 00000000 00000000 00", "kBkkk-k"),
];

/// V, and the addresses where V has room for them.
const VARIABLE: [Row; 9] = [
    ("V 1", "04 1770 01 00 000000 00000001 00000000 01 00 00000000", "kkkBk-k"),
    ("V 5", "04 1770 01 00 000000 00000001 00000000 05 0078 0000 00 00000000", "kkkBk-k"),
    ("V 5, a field of 1", "04 1770 01 00 000000 00000001 00000000 05 0078 0000 00 00000001", "kkkBk-B22"),
    ("V 6, no address byte", "04 1770 01 00 000000 00000001 00000000 06 0078 0000", "kkkkB--"),
    ("V 6, an address byte", "04 1770 01 00 000000 00000001 00000000 06 0078 0000 00", "kkkkB--"),
    ("V 6, no field", "04 1770 01 00 000000 00000001 00000000 06 0078 0000 00 00", "kkkkBk-"),
    ("V 6, no second zero, no field", "04 1770 01 00 000000 00000001 00000000 06 0078 0000 00 41", "kkkkBB-"),
    ("V 7, three zeros", "04 1770 01 00 000000 00000001 00000000 07 0078 0000 000000 00000000", "kkkkkBk"),
    ("V 8, letters left over", "04 1770 01 00 000000 00000001 00000000 08 0078 0000 00004141 00000000", "kkkkkBk"),
];

/// D, and bytes too many or too few: the field is looked for where V and D put it.
const LENGTH: [Row; 8] = [
    ("a body byte, D 0", "04 1770 01 00 000000 00000001 00000000 00 41 00000000", "kkkkB-B17"),
    ("no body byte, D 1", "04 1770 01 00 000001 00000001 00000000 00 00000000", "kkkkB--"),
    ("D 1 and a byte behind the field", "04 1770 01 00 000001 00000001 00000000 00 41 00000000 01", "kkkkB-k"),
    ("D 65536", "04 1770 01 00 010000 00000001 00000000 00 00000000", "kkkkB--"),
    ("the largest D", "04 1770 01 00 ffffff 00000001 00000000 00 00000000", "kkkkB--"),
    ("addresses taken for a body", "04 1770 01 00 000006 00000001 00000000 00 0078 0000 4100 00000000", "kkkkk-k"),
    ("a CRC and a byte behind it", "04 1770 01 08 000002 00000001 00000000 00 0000 d9299f95 d9", "kkkkB-k"),
    ("a CRC, its last byte missing", "04 1770 01 08 000002 00000001 00000000 00 0000 d9299f", "kkkkB--"),
];

/// The kind is that of its two bits, whatever the other flags are.
const INTEGRITY: [Row; 14] = [
    ("a CRC", "04 1770 01 08 000002 00000001 00000000 00 0000 d9299f95", "kkkkk-k"),
    ("a wrong CRC", "04 1770 01 08 000002 00000001 00000000 00 0000 d9299f94", "kkkkk-B19"),
    ("a CRC, lowest byte first", "04 1770 01 08 000002 00000001 00000000 00 0000 959f29d9", "kkkkk-B19"),
    ("a CRC of the body only", "04 1770 01 08 000004 00000001 00000000 00 626f6479 dba80bb2", "kkkkk-B21"),
    ("a CRC behind addresses", "04 1770 01 08 000000 00000001 00000000 06 0078 0000 00 00 cb0e7f8b", "kkkkkkk"),
    ("a CRC behind V 5", "04 1770 01 08 000000 00000001 00000000 05 0078 0000 00 e6320538", "kkkBk-k"),
    ("kind none beside a number", "04 1770 01 00 000000 00000001 00000000 00 80000000", "kkkkk-B17"),
    ("an application's number", "04 1770 01 10 000000 00000001 00000000 00 ffffffff", "kkkkk-k"),
    ("kind 3, any number", "04 1770 01 18 000000 00000001 00000000 00 12345678", "kkBkk-k"),
    ("bit 5, kind none", "04 1770 01 20 000000 00000001 00000000 00 00000000", "kkBkk-k"),
    ("bit 6, kind none, a field of 1", "04 1770 01 40 000000 00000001 00000000 00 00000001", "kkBkk-B17"),
    ("bit 5 beside a right CRC", "04 1770 01 28 000000 00000001 00000000 00 184b607e", "kkBkk-k"),
    ("bit 5 beside a wrong CRC", "04 1770 01 28 000000 00000001 00000000 00 ab352b8b", "kkBkk-B17"),
    ("bit 7, an application's number", "04 1770 01 90 000000 00000001 00000000 00 12345678", "kkBkk-k"),
];

/// Several at once, each found by itself.
const SEVERAL: [Row; 6] = [
    ("2, 3, 4, 5 and 7", "03 1770 01 20 000000 00000001 00000000 01 55 00000001 00", "kBBBB-B18"),
    ("2, 3, 5, 6 and 7", "03 1770 01 20 000000 00000001 00000000 07 0078 0000 414100 00000001 00", "kBBkBBB24"),
    ("2 and 6", "05 1770 01 00 000000 00000001 00000000 07 0078 0000 414100 00000000", "kBkkkBk"),
    ("5 and 6, no field", "04 1770 01 00 000009 00000001 00000000 07 0078 0000 414100 00000000", "kkkkBB-"),
    ("6 and 7", "04 1770 01 00 000000 00000001 00000000 07 0078 0000 414100 00000001", "kkkkkBB24"),
    ("1 to 5", "ffffffff ffffffff ffffffff ffffffff ff", "BBBBB--"),
];
