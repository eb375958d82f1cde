//! The sentences of change request K4: a check refuses the later of two records with one name, a type and a message number.
//! Find, walk, compare and listing stay as they are. All records here are live; K7 leaves the retired ones out.

use super::*;
use crate::cases::{named, one_body_byte, record_of, shortest, spoiled, with_ends};
use crate::crc::Division;
use crate::flips;

/// For each of 23, 24 and 25 a record of M's name that it refuses.
pub fn bad_records() -> [(Vec<u8>, Refusal); 3] {
    let (mut length, mut not_clear) = (record_of(&shortest()), record_of(&shortest()));
    (length[1], not_clear[RECORD - 1]) = (20, 1);
    let field = Refusal::Record(envelope::Unread::Integrity { place: 17 });
    [(length, Refusal::StoredLength), (not_clear, Refusal::NotClear), (record_of(&spoiled()), field)]
}

/// So many records of type 6000, each with its own place for a number.
fn numbered(count: u32) -> Vec<Vec<u8>> {
    (0..count).map(|number| record_of(&named(6000, number))).collect()
}

fn checked(records: &[Vec<u8>]) -> Result<usize, Bad> {
    check::<Division>(&records.concat())
}

fn taken(record: usize) -> Result<usize, Bad> {
    Err(Bad { record, refusal: Refusal::NameTaken })
}

#[test]
fn the_later_of_two_is_refused_by_26() {
    let twice = [record_of(&shortest()), record_of(&shortest())];
    assert_eq!(checked(&twice), taken(1));
    assert_eq!(Refusal::NameTaken.numbers(), (26, 0, 0));
    assert_eq!(checked(&twice[..1]), Ok(1));
}

/// The version, the flags, the time, the addresses, the body and the field are no part of a name.
#[test]
fn the_name_alone_decides() {
    let (mut version, mut options, mut time) = (shortest(), shortest(), shortest());
    (version[3], options[4], time[15]) = (2, 7, 1);
    // Type 6000 and number 1, with a body and a CRC.
    let summed = flips::file()[RECORD..2 * RECORD].to_vec();
    let others = [version, options, time, one_body_byte(), with_ends(6, &[0, 0])].map(|message| record_of(&message));
    for other in others.into_iter().chain([summed]) {
        assert_eq!(checked(&[record_of(&shortest()), other.clone()]), taken(1), "{other:02x?}");
        assert_eq!(checked(&[other, record_of(&shortest())]), taken(1));
    }
}

#[test]
fn a_type_alone_or_a_number_alone_is_no_name() {
    let messages = [named(6000, 1), named(6000, 2), named(6001, 1), named(6001, 2), named(1, 6000)];
    assert_eq!(checked(&messages.map(|message| record_of(&message))), Ok(5));
}

#[test]
fn every_bit_of_the_name_counts() {
    let near = (0..16).map(|bit| named(6000 ^ 1 << bit, 1)).chain((0..32).map(|bit| named(6000, 1 ^ 1 << bit)));
    let mut records: Vec<Vec<u8>> = near.map(|message| record_of(&message)).collect();
    for record in &records {
        assert_eq!(checked(&[record_of(&shortest()), record.clone()]), Ok(2), "{record:02x?}");
    }
    records.push(record_of(&shortest()));
    assert_eq!(checked(&records), Ok(49));
}

#[test]
fn of_three_the_second_is_refused() {
    for places in [[0, 1, 2], [0, 3, 5], [1, 2, 5], [2, 4, 5]] {
        let mut records = numbered(6);
        for place in places {
            records[place] = record_of(&named(6001, 7));
        }
        assert_eq!(checked(&records), taken(places[1]), "{places:?}");
    }
}

/// The later record of the pair that is whole first, wherever the earlier records of the pairs stand.
#[test]
fn of_two_pairs_the_first_that_is_whole_decides() {
    let pair = |first: u32, second: u32| [first, second].map(|number| record_of(&named(6000, number)));
    assert_eq!(checked(&[pair(1, 2), pair(2, 1)].concat()), taken(2));
    assert_eq!(checked(&[pair(1, 2), pair(1, 2)].concat()), taken(2));
    assert_eq!(checked(&[pair(1, 2), pair(3, 3)].concat()), taken(3));
}

/// Next to each other, three apart, the first and the last of 128, and all other pairs.
#[test]
fn any_two_places_of_128_are_held_against_each_other() {
    let mut records = numbered(128);
    assert_eq!(checked(&records), Ok(128));
    for later in 1..128 {
        let kept = records[later].clone();
        for earlier in 0..later {
            records[later] = records[earlier].clone();
            assert_eq!(checked(&records), taken(later), "{earlier} and {later}");
        }
        records[later] = kept;
    }
}

/// A record is bad, or it is good and its name is taken: it cannot be both.
#[test]
fn a_bad_record_has_no_name() {
    for (bad, refusal) in bad_records() {
        let m = record_of(&shortest());
        assert_eq!(checked(&[m.clone(), bad.clone()]), Err(Bad { record: 1, refusal }));
        assert_eq!(checked(&[bad, m]), Err(Bad { record: 0, refusal }));
    }
}

/// The first of all, right before the two, and between them.
#[test]
fn a_bad_record_before_the_later_of_two_decides() {
    for (bad, refusal) in bad_records() {
        for place in 0..=3 {
            let mut records = numbered(4);
            records[3] = records[2].clone();
            records.insert(place, bad.clone());
            assert_eq!(checked(&records), Err(Bad { record: place, refusal }), "at {place}");
        }
    }
}

/// "Before any later record is judged."
#[test]
fn a_bad_record_behind_the_later_of_two_is_not_judged() {
    let m = record_of(&shortest());
    for (bad, _) in bad_records() {
        assert_eq!(checked(&[m.clone(), m.clone(), bad.clone()]), taken(1));
        let apart = [m.clone(), record_of(&named(6000, 2)), m.clone(), bad];
        assert_eq!(checked(&apart), taken(2));
    }
}

#[test]
fn refusal_21_goes_before_26() {
    let file = record_of(&shortest()).repeat(129);
    let not_a_file = Err(Bad { record: 0, refusal: Refusal::NotAFile });
    assert_eq!(check::<Division>(&file), not_a_file);
    assert_eq!(check::<Division>(&file[..2 * RECORD + 1]), not_a_file);
    assert_eq!(check::<Division>(&file[..128 * RECORD]), taken(1));
}

/// The earlier record is found, and the later one is walked to, listed and compared as any good record.
#[test]
fn find_walk_compare_and_listing_stay_as_they_are() {
    let later = one_body_byte();
    let file = [record_of(&named(6000, 2)), record_of(&shortest()), record_of(&later)].concat();
    assert_eq!(check::<Division>(&file), taken(2));
    assert_eq!(find::<Division>(&file, 6000, 1), Search { opened: 2, answer: Ok(1) });
    assert_eq!(find::<Division>(&file, 6000, 3), Search { opened: 3, answer: Err(Refusal::NotFound) });
    assert_eq!(step::<Division>(&file, 2), Step::Message { place: 1026..1048, retired: false });
    assert_eq!(step::<Division>(&file, 3), Step::End);
    assert_eq!(line::<Division>(&file, 2), Ok(Line { message_type: 6000, number: 1, length: 22, retired: false }));
    assert_eq!(compare::<Division>(&file, 2, &later, &mut []), Ok(0));
    assert_eq!(compare::<Division>(&file, 2, &shortest(), &mut []), Ok(3));
}
