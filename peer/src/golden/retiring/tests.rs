//! Retire of change request K7: what it writes, what it refuses, and what the copy means.

use super::super::names::bad_records;
use super::super::samples::{drawn_file, live, mark_some, of_length, retired};
use super::super::{check, find, line, Bad, Search, RECORD};
use super::*;
use crate::cases::{self, record_of};
use crate::crc::Division;
use crate::random::Random;

const UNTOUCHED: u8 = 0xEE;

/// The copy of a file in which this record is retired.
fn copy_of(file: &[u8], record: usize) -> Vec<u8> {
    let mut copy = vec![UNTOUCHED; file.len()];
    assert_eq!(retire::<Division>(file, record, &mut copy), Ok(()), "record {record}");
    copy
}

/// "Writes the file there with that one bit set and no other byte different." Other records may be bad, or retired.
#[test]
fn retire_sets_one_bit_of_a_copy() {
    let [(short, _), (not_clear, _), (unread, _)] = bad_records();
    let full = record_of(&of_length(510));
    let records = [live(1), short, live(1), retired(3), not_clear, full, cases::retired(unread), live(9)];
    let file = records.concat();
    for record in [0, 2, 5, 7] {
        let copy = copy_of(&file, record);
        let differing: Vec<usize> = (0..file.len()).filter(|&place| file[place] != copy[place]).collect();
        assert_eq!(differing, [record * RECORD]);
        assert_eq!(file[record * RECORD] ^ copy[record * RECORD], 0x80);
        assert_eq!(line::<Division>(&copy, record).map(|line| line.retired), Ok(true));
    }
}

#[test]
fn every_record_of_128_can_be_retired() {
    let mut file: Vec<u8> = (0..128).flat_map(live).collect();
    for record in 0..128 {
        let copy = copy_of(&file, record);
        assert_eq!(retired_records::<Division>(&copy), Ok(1));
        assert_eq!(check::<Division>(&copy), Ok(128));
    }
    // One after the other, each in the copy that the one before it gave.
    for record in 0..128 {
        file = copy_of(&file, record);
        assert_eq!(retired_records::<Division>(&file), Ok(record + 1));
    }
    assert_eq!(check::<Division>(&file), Ok(128));
}

/// Retire with a copy of this length, which it must not touch, since it refuses.
fn not_retired(file: &[u8], record: usize, room: usize) -> Refusal {
    let mut copy = vec![UNTOUCHED; room];
    let refusal = retire::<Division>(file, record, &mut copy).expect_err("it is refused");
    assert_eq!(copy, vec![UNTOUCHED; room], "nothing is written");
    refusal
}

/// The right length for a copy, a byte less, a byte more, a record more and less, and none.
fn rooms(file: &[u8]) -> [usize; 6] {
    let length = file.len();
    [length, length - 1, length + 1, length + RECORD, length - RECORD, 0]
}

#[test]
fn retire_refuses_in_the_order_of_its_numbers() {
    let file = [live(1), retired(2), live(3)].concat();
    let odd = [file.as_slice(), &[0]].concat();
    for room in rooms(&file) {
        for record in [0, 1, 7, usize::MAX] {
            assert_eq!(not_retired(&odd, record, room), Refusal::NotAFile);
        }
        for record in [3, 4, 128, usize::MAX] {
            assert_eq!(not_retired(&file, record, room), Refusal::NoRecord);
        }
        assert_eq!(not_retired(&file, 1, room), Refusal::AlreadyRetired);
    }
    for room in &rooms(&file)[1..] {
        assert_eq!(not_retired(&file, 0, *room), Refusal::CopyLength);
        assert_eq!(not_retired(&file, 2, *room), Refusal::CopyLength);
    }
    let numbers = [Refusal::AlreadyRetired, Refusal::CopyLength, Refusal::RecordRetired].map(Refusal::numbers);
    assert_eq!(numbers, [(36, 0, 0), (37, 0, 0), (38, 0, 0)]);
}

#[test]
fn retire_refuses_a_bad_record_before_all_that_follows() {
    for (bad, refusal) in bad_records() {
        for bad in [bad.clone(), cases::retired(bad)] {
            let file = [live(1), bad, live(3)].concat();
            for room in rooms(&file) {
                assert_eq!(not_retired(&file, 1, room), refusal);
            }
            // It is no matter to the records beside it.
            copy_of(&file, 0);
            copy_of(&file, 2);
        }
    }
}

#[test]
fn no_record_of_an_empty_file_is_retired() {
    for room in [0, 1, RECORD] {
        assert_eq!(not_retired(&[], 0, room), Refusal::NoRecord);
    }
}

#[test]
fn a_record_is_not_retired_twice() {
    let once = copy_of(&[live(1), live(2)].concat(), 1);
    for room in rooms(&once) {
        assert_eq!(not_retired(&once, 1, room), Refusal::AlreadyRetired);
    }
    assert_eq!(once, [live(1), retired(2)].concat());
}

#[test]
fn retired_records_are_counted_where_they_are_good() {
    let counted = |records: &[Vec<u8>]| retired_records::<Division>(&records.concat());
    assert_eq!(counted(&[]), Ok(0));
    assert_eq!(counted(&[live(1), live(2)]), Ok(0));
    assert_eq!(counted(&[retired(1), live(1), retired(1)]), Ok(2));
    let bad = bad_records().map(|(bad, _)| cases::retired(bad));
    assert_eq!(counted(&[bad.as_slice(), &[retired(1)]].concat()), Ok(1));
    assert_eq!(retired_records::<Division>(&[0; 511]), Err(Refusal::NotAFile));
    assert_eq!(retired_records::<Division>(&vec![0; 129 * RECORD]), Err(Refusal::NotAFile));
}

/// The same count, and a search leads where it led, but past the record that is retired now.
#[test]
fn a_file_that_passes_still_passes_after_retire() {
    let mut random = Random::new(10);
    let mut done = 0;
    for _ in 0..2_000 {
        let mut file = drawn_file(&mut random);
        mark_some(&mut random, &mut file);
        let Ok(records) = check::<Division>(&file) else { continue };
        for record in 0..records {
            let Ok(line) = line::<Division>(&file, record) else { panic!("the file passed") };
            if line.retired {
                assert_eq!(not_retired(&file, record, file.len()), Refusal::AlreadyRetired);
                continue;
            }
            let copy = copy_of(&file, record);
            assert_eq!(check::<Division>(&copy), Ok(records));
            assert_eq!(found_by(&copy, line.number), Search { opened: records, answer: Err(Refusal::NotFound) });
            for number in (0..7).filter(|&number| number != line.number) {
                assert_eq!(found_by(&copy, number), found_by(&file, number));
            }
            done += 1;
        }
    }
    assert!(done > 500, "{done} retired");
}

fn found_by(file: &[u8], number: u32) -> Search {
    find::<Division>(file, 6000, number)
}

/// Where two live records have one name, the check refuses the later one until one of the two is retired.
#[test]
fn retire_frees_a_name_that_is_taken() {
    let file = [live(1), live(2), live(1)].concat();
    let taken = Err(Bad { record: 2, refusal: Refusal::NameTaken });
    assert_eq!(check::<Division>(&file), taken);
    assert_eq!(check::<Division>(&copy_of(&file, 1)), taken);
    let [first, last] = [0, 2].map(|record| copy_of(&file, record));
    assert_eq!((check::<Division>(&first), check::<Division>(&last)), (Ok(3), Ok(3)));
    assert_eq!(found_by(&first, 1), Search { opened: 3, answer: Ok(2) });
    assert_eq!(found_by(&last, 1), Search { opened: 1, answer: Ok(0) });
}
