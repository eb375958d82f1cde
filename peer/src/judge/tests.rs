//! The sentences of change request K5, and the cases that were judged by hand.

use super::Verdict::{Kept, NotJudged};
use super::*;
use crate::cases::{self, judged, shortest, with_ends};
use crate::envelope::{self, Unread};
use crate::random::Random;

/// The verdict on one rule, by its number.
fn on(rule: usize, bytes: &[u8]) -> Verdict {
    judge(bytes)[rule - 1]
}

fn broken(place: usize) -> Verdict {
    Verdict::Broken { place }
}

fn with(place: usize, byte: u8) -> Vec<u8> {
    let mut message = shortest();
    message[place] = byte;
    message
}

#[test]
fn each_case_is_judged_as_by_hand() {
    let judged = judged::all();
    assert!(cases::messages().iter().all(|case| judged.iter().any(|judged| judged.name == case.name)));
    for case in judged {
        assert_eq!(judge(&case.bytes), case.verdicts, "{}: {:02x?}", case.name, case.bytes);
    }
}

#[test]
fn the_lowest_broken_rule_is_the_first_in_their_order() {
    assert_eq!(lowest_broken(&[Kept; RULES]), None);
    assert_eq!(lowest_broken(&[NotJudged; RULES]), None);
    assert_eq!(lowest_broken(&[20, 0, 4, 16, 5, 21, 17].map(broken)), Some((1, 20)));
    assert_eq!(lowest_broken(&[Kept, Kept, NotJudged, broken(16), Kept, Kept, broken(30)]), Some((4, 16)));
    assert_eq!(lowest_broken(&[Kept, Kept, Kept, Kept, Kept, NotJudged, broken(30)]), Some((7, 30)));
}

/// The addresses of this message end at place 23, its body at 25 and its field, the sum that zlib gave, at 29.
#[test]
fn a_rule_is_judged_as_soon_as_its_bytes_are_there() {
    let message = cases::from_hex("04 1770 01 08 000002 00000001 00000000 07 0078 0000 4100 00 beef e928056f 04 17");
    for length in 0..=message.len() {
        let verdict = |from: usize| if length >= from { Kept } else { NotJudged };
        let long_enough = if length < 21 { broken(length) } else { Kept };
        let right_length = match length {
            0..=16 => NotJudged,
            30 => Kept,
            _ => broken(5),
        };
        let expected = [long_enough, verdict(1), verdict(5), verdict(17), right_length, verdict(24), verdict(30)];
        assert_eq!(judge(&message[..length]), expected, "{length} bytes");
    }
}

#[test]
fn the_header_version_is_4_alone() {
    for version in 0..=u8::MAX {
        assert_eq!(on(2, &with(0, version)), if version == 4 { Kept } else { broken(0) }, "version {version}");
    }
}

/// Kind 3 is 24 to 31, and from 32 on an unassigned bit is set.
#[test]
fn flags_are_kept_up_to_23() {
    for flags in 0..=u8::MAX {
        assert_eq!(on(3, &with(4, flags)), if flags < 24 { Kept } else { broken(4) }, "flags {flags}");
    }
}

#[test]
fn the_addresses_are_judged_for_v_from_6_to_132() {
    for v in 0..=u8::MAX {
        let mut message = with_ends(v, &[b'A'; 251]);
        let (size, addresses) = match v {
            0 => (Kept, NotJudged),
            6..=132 => (Kept, broken(21)),
            _ => (broken(16), NotJudged),
        };
        assert_eq!((on(4, &message), on(6, &message)), (size, addresses), "V {v}");
        // One byte fewer than the addresses take.
        message.truncate(16 + usize::from(v));
        assert_eq!(on(6, &message), NotJudged, "V {v}, a byte short");
    }
}

#[test]
fn each_address_has_at_most_64_bytes_with_its_zero() {
    for source in 0..=126 {
        let ends = [vec![b'S'; source], vec![0], vec![b'D'; 126 - source], vec![0]].concat();
        assert_eq!(on(6, &with_ends(132, &ends)), if source == 63 { Kept } else { broken(21) }, "{source} letters");
    }
}

/// All is zeros from the variable header on; then the last byte of the field is not, and then bytes behind it.
#[test]
fn the_field_stands_where_v_and_d_put_it() {
    for v in 0..=u8::MAX {
        for d in [0_usize, 1, 2, 300] {
            let mut message = shortest();
            (message[6], message[7], message[16]) = ((d >> 8) as u8, d as u8, v);
            message.resize(17 + usize::from(v) + d + 4, 0);
            let last = message.len() - 1;
            assert_eq!(on(7, &message), Kept, "V {v}, D {d}");
            assert_eq!(on(7, &message[..last]), NotJudged, "V {v}, D {d}, a byte short");
            message[last] = 1;
            assert_eq!(on(7, &message), broken(17 + usize::from(v) + d), "V {v}, D {d}, a field of 1");
            message[last] = 0;
            message.extend([1; 4]);
            assert_eq!(on(7, &message), Kept, "V {v}, D {d}, bytes behind the field");
        }
    }
}

/// A message of the worked examples, with up to four bytes changed, cut short or with bytes behind it.
fn drawn(random: &mut Random) -> Vec<u8> {
    let cases = cases::messages();
    let mut message = cases[random.up_to(cases.len() - 1)].message.clone();
    for _ in 0..random.up_to(4) {
        let place = random.pick(&[0, 4, 5, 6, 7, 7, 16, 16, 18, 19]);
        message[place] = random.pick(&[0, 1, 4, 5, 6, 7, 8, 16, 24, 128, 132, 133]);
    }
    match random.up_to(3) {
        0 => message.truncate(random.up_to(message.len())),
        1 => message.resize(message.len() + random.up_to(9), 0),
        _ => {}
    }
    message
}

#[test]
fn the_lowest_broken_rule_is_what_reading_refuses_by() {
    let mut random = Random::new(9);
    let mut met = [0; RULES + 1];
    for _ in 0..20_000 {
        let message = drawn(&mut random);
        let read = envelope::read::<Division>(&message).err().map(Unread::numbers);
        assert_eq!(lowest_broken(&judge(&message)), read, "{message:02x?}");
        met[read.map_or(0, |(number, _)| usize::from(number))] += 1;
    }
    assert!(met.iter().all(|&times| times > 20), "accepted, and refused by each rule: {met:?}");
}
