//! The golden file of document 01, by its own examples.

use super::*;
use crate::cases;
use crate::crc::Division;
use crate::envelope::Unread;

#[test]
fn the_listed_file_is_judged_as_told() {
    let file = cases::listed_file();
    assert_eq!(count(&file), Ok(2));
    assert_eq!(line::<Division>(&file, 0), Ok(Line { message_type: 6000, number: 1, length: 21, retired: false }));
    assert_eq!(line::<Division>(&file, 1), Err(Refusal::StoredLength));
    assert_eq!(line::<Division>(&file, 2), Err(Refusal::NoRecord));
    assert_eq!(check::<Division>(&file), Err(Bad { record: 1, refusal: Refusal::StoredLength }));
}

#[test]
fn a_search_counts_what_it_opened() {
    let file = cases::listed_file();
    assert_eq!(find::<Division>(&file, 6000, 1), Search { opened: 1, answer: Ok(0) });
    assert_eq!(find::<Division>(&file, 6000, 2), Search { opened: 2, answer: Err(Refusal::StoredLength) });
    assert_eq!(find::<Division>(&file[..512], 6001, 1), Search { opened: 1, answer: Err(Refusal::NotFound) });
    assert_eq!(find::<Division>(&file[1..], 6000, 1), Search { opened: 0, answer: Err(Refusal::NotAFile) });
}

#[test]
fn a_walk_ends_at_the_count_and_stays() {
    let file = cases::listed_file();
    assert_eq!(step::<Division>(&file, 0), Step::Message { place: 2..23, retired: false });
    assert_eq!(step::<Division>(&file, 1).advance(), 1);
    assert_eq!(step::<Division>(&file, usize::MAX).advance(), 0);
    assert_eq!(step::<Division>(&file[1..], 0).advance(), 0);
}

#[test]
fn a_place_that_one_message_lacks_differs() {
    let (file, radio) = (cases::listed_file(), cases::one_body_byte());
    let mut list = [9; 4];
    assert_eq!(compare::<Division>(&file, 0, &radio, &mut list), Ok(3));
    assert_eq!(list, [7, 17, 21, 9]);
    assert_eq!(compare::<Division>(&file, 0, &radio[1..], &mut list), Err(Refusal::Radio(Unread::HeaderVersion)));
}

#[test]
fn a_made_record_is_found_again() {
    let mut record = [7; RECORD];
    assert_eq!(make::<Division>(&cases::shortest(), &mut record), Ok(()));
    assert_eq!(record, cases::listed_file()[..RECORD]);
    assert_eq!(make::<Division>(&cases::shortest(), &mut record[1..]), Err(Refusal::Buffer));
    assert_eq!(make::<Division>(&[4; 511], &mut record), Err(Refusal::TooLong));
}
