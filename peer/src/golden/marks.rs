//! The sentences of change request K7: a stored length with its top bit set marks a retired record.

use super::names::bad_records;
use super::samples::{live, of_length, retired};
use super::*;
use crate::cases::{self, marked_record, one_body_byte, record_of, shortest, spoiled};
use crate::crc::Division;

fn checked(records: &[Vec<u8>]) -> Result<usize, Bad> {
    check::<Division>(&records.concat())
}

fn taken(record: usize) -> Result<usize, Bad> {
    Err(Bad { record, refusal: Refusal::NameTaken })
}

/// A search for a number of type 6000.
fn found(records: &[Vec<u8>], number: u32) -> Search {
    find::<Division>(&records.concat(), 6000, number)
}

/// What a record of a file is refused by, and everyone who opens it must say the same.
fn refused(file: &[u8], record: usize) -> Refusal {
    let refusal = line::<Division>(file, record).expect_err("the record is bad");
    assert_eq!(step::<Division>(file, record), Step::Refused(refusal));
    assert_eq!(compare::<Division>(file, record, &[], &mut []), Err(refusal));
    assert_eq!(retire::<Division>(file, record, &mut []), Err(refusal));
    refusal
}

/// Every stored length there is, before a message of zeros, which reading refuses by 2.
#[test]
fn refusal_23_judges_the_other_15_bits() {
    let mut file = vec![0; RECORD];
    for stored in 0..=u16::MAX {
        file[..PREFIX].copy_from_slice(&stored.to_be_bytes());
        let fits = (21..=510).contains(&(stored & 0x7FFF));
        let expected = if fits { Refusal::Record(Unread::HeaderVersion) } else { Refusal::StoredLength };
        assert_eq!(line::<Division>(&file, 0), Err(expected), "{stored:04x}");
    }
}

#[test]
fn a_length_of_20_or_511_is_refused_by_23_with_the_mark_too() {
    for stored in [0x8000, 0x8001, 0x8014, 0x81FF, 0x8200, 0x8FFF, 0xC015, 0xFFFF_u16] {
        let mut file = record_of(&shortest());
        file[..PREFIX].copy_from_slice(&stored.to_be_bytes());
        assert_eq!(refused(&file, 0), Refusal::StoredLength, "{stored:04x}");
        assert_eq!(check::<Division>(&file), Err(Bad { record: 0, refusal: Refusal::StoredLength }), "{stored:04x}");
        assert_eq!(find::<Division>(&file, 6000, 1), Search { opened: 1, answer: Err(Refusal::StoredLength) });
    }
}

#[test]
fn every_length_that_a_record_holds_goes_with_the_mark() {
    for length in 21..=510 {
        let file = cases::retired(record_of(&of_length(length)));
        assert_eq!(line::<Division>(&file, 0), Ok(Line { message_type: 6000, number: 1, length, retired: true }));
        assert_eq!(step::<Division>(&file, 0), Step::Message { place: 2..2 + length, retired: true });
        assert_eq!(check::<Division>(&file), Ok(1), "{length}");
    }
}

/// "Find passes over retired records that are good, and counts them as opened."
#[test]
fn find_passes_over_a_retired_match_and_finds_a_later_live_one() {
    let later = |answer, opened| Search { opened, answer: Ok(answer) };
    assert_eq!(found(&[retired(1), live(1)], 1), later(1, 2));
    assert_eq!(found(&[retired(1), live(2), retired(1), live(1), live(3)], 1), later(3, 4));
    assert_eq!(found(&[live(2), retired(1), retired(3), live(1)], 1), later(3, 4));
    // A live one that stands first is found as ever.
    assert_eq!(found(&[live(1), retired(1), live(1)], 1), later(0, 1));
    assert_eq!(found(&[retired(2), retired(3), live(1)], 1), later(2, 3));
}

#[test]
fn refusal_27_means_no_live_match() {
    let none = |opened| Search { opened, answer: Err(Refusal::NotFound) };
    assert_eq!(found(&[retired(1)], 1), none(1));
    assert_eq!(found(&[retired(1), live(2), retired(1)], 1), none(3));
    let mut records: Vec<Vec<u8>> = (0..128).map(retired).collect();
    assert_eq!(found(&records, 127), none(128));
    records[127] = live(127);
    assert_eq!(found(&records, 127), Search { opened: 128, answer: Ok(127) });
}

/// The mark makes no bad record a good one, and no other one of it.
#[test]
fn a_bad_record_with_the_mark_is_bad_everywhere() {
    for (bad, refusal) in bad_records() {
        let file = [live(2), cases::retired(bad.clone()), live(1)].concat();
        assert_eq!(refused(&file, 1), refusal);
        assert_eq!(refused(&[live(2), bad].concat(), 1), refusal);
        assert_eq!(check::<Division>(&file), Err(Bad { record: 1, refusal }));
        // M's name is that of the bad record too, and of the live one behind it.
        assert_eq!(find::<Division>(&file, 6000, 1), Search { opened: 2, answer: Err(refusal) });
        assert_eq!(find::<Division>(&file, 6000, 9), Search { opened: 2, answer: Err(refusal) });
        assert_eq!(find::<Division>(&file, 6000, 2), Search { opened: 1, answer: Ok(0) });
        assert_eq!(retired_records::<Division>(&file), Ok(0));
    }
}

#[test]
fn the_walk_hands_out_a_retired_message_and_says_so() {
    let file = [live(1), retired(2), live(3)].concat();
    let steps = [0, 1, 2, 3].map(|record| step::<Division>(&file, record));
    let message = |first, retired| Step::Message { place: first..first + 21, retired };
    assert_eq!(steps, [message(2, false), message(514, true), message(1026, false), Step::End]);
    assert_eq!(steps.map(|step| step.advance()), [1, 1, 1, 0]);
    let lines = [0, 1, 2].map(|record| line::<Division>(&file, record).map(|line| (line.number, line.retired)));
    assert_eq!(lines, [Ok((1, false)), Ok((2, true)), Ok((3, false))]);
}

#[test]
fn the_count_of_a_check_takes_in_retired_records() {
    assert_eq!(checked(&[retired(1)]), Ok(1));
    assert_eq!(checked(&[live(1), retired(2), live(3), retired(4)]), Ok(4));
    assert_eq!(checked(&(0..128).map(retired).collect::<Vec<_>>()), Ok(128));
}

/// "K4's rule now looks at live records only", told of two records.
#[test]
fn refusal_26_is_for_two_live_records() {
    assert_eq!(checked(&[live(1), live(1)]), taken(1));
    assert_eq!(checked(&[live(1), retired(1)]), Ok(2));
    assert_eq!(checked(&[retired(1), live(1)]), Ok(2));
    assert_eq!(checked(&[retired(1), retired(1)]), Ok(2));
}

/// Three names, each live and retired, at every two and three places: held against the rule read word by word.
#[test]
fn refusal_26_is_for_live_records_in_every_combination() {
    for records in cases::combinations() {
        let is_taken = |&later: &usize| !records[later].1 && records[..later].contains(&records[later]);
        let expected = (0..records.len()).find(is_taken).map_or(Ok(records.len()), taken);
        let file: Vec<Vec<u8>> = records.iter().map(|&(name, retired)| marked_record(name, retired)).collect();
        assert_eq!(checked(&file), expected, "{records:?}");
    }
}

/// The two live ones are held against each other whatever stands between them.
#[test]
fn retired_records_between_two_live_ones_of_one_name_help_neither() {
    let mut records = vec![live(1)];
    records.resize(127, retired(1));
    assert_eq!(checked(&records), Ok(127));
    records.push(live(1));
    assert_eq!(checked(&records), taken(127));
    assert_eq!(checked(&[live(1), retired(1), live(1), record_of(&spoiled())]), taken(2));
}

/// "Compare answers 38 for a retired record, after 25", and before it looks at the radio's message.
#[test]
fn compare_answers_38_after_25_and_before_31() {
    let file = [live(2), cases::retired(record_of(&shortest()))].concat();
    let mut list = [99; 3];
    for radio in [shortest(), one_body_byte(), spoiled(), Vec::new()] {
        assert_eq!(compare::<Division>(&file, 1, &radio, &mut list), Err(Refusal::RecordRetired));
    }
    assert_eq!(list, [99; 3]);
    assert_eq!(compare::<Division>(&file, 0, &spoiled(), &mut list).map_err(|refusal| refusal.numbers().0), Err(31));
    assert_eq!(compare::<Division>(&file, 2, &shortest(), &mut list), Err(Refusal::NoRecord));
    assert_eq!(compare::<Division>(&file[1..], 0, &shortest(), &mut list), Err(Refusal::NotAFile));
    for (bad, refusal) in bad_records() {
        let told = compare::<Division>(&cases::retired(bad), 0, &shortest(), &mut list);
        assert_eq!(told, Err(refusal));
    }
    assert_eq!(list, [99; 3]);
}

#[test]
fn make_makes_live_records() {
    for length in 21..=510 {
        let mut record = [0xEE; RECORD];
        assert_eq!(make::<Division>(&of_length(length), &mut record), Ok(()));
        assert_eq!(line::<Division>(&record, 0).map(|line| (line.length, line.retired)), Ok((length, false)));
    }
}
