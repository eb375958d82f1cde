//! The sentences of change request K9, and of `ascending` beside it.

use super::super::names::bad_records;
use super::super::samples::{drawn_file, live, mark_some, retired};
use super::super::{check, find, line, Line, MOST_RECORDS, RECORD};
use super::*;
use crate::cases::{self, combinations, marked_record};
use crate::crc::Division;
use crate::random::Random;

/// The name at a place of an ascending file: three numbers to a type, and room for an absent name about each.
fn name(place: usize) -> Name {
    // The numbers of a later type begin again, so that the type decides first.
    (6000 + (place / 3) as u16 * 2, (place % 3) as u32 * 2 + 1)
}

/// So many records in ascending order, all of them live.
fn ascending_file(count: usize) -> Vec<u8> {
    (0..count).flat_map(|place| marked_record(name(place), false)).collect()
}

/// The name itself, and absent ones right before and behind it, by number and by type.
fn about((message_type, number): Name) -> [Name; 5] {
    [
        (message_type, number),
        (message_type, number - 1),
        (message_type, number + 1),
        (message_type - 1, number),
        (message_type + 1, number),
    ]
}

/// The lowest names and the highest there are, below and above every record of an ascending file.
const ENDS: [Name; 4] = [(0, 0), (5999, u32::MAX), (6500, 0), (u16::MAX, u32::MAX)];

fn halved(file: &[u8], sought: Name) -> Search {
    find_by_halving::<Division>(file, sought.0, sought.1)
}

fn found(file: &[u8], sought: Name) -> Search {
    find::<Division>(file, sought.0, sought.1)
}

fn ordered(records: &[Vec<u8>]) -> Result<Ascent, Bad> {
    ascending::<Division>(&records.concat())
}

fn none(opened: usize) -> Search {
    Search { opened, answer: Err(Refusal::NotFound) }
}

/// The most that halving opens of so many records: how often they can be halved until none is left.
fn most(count: usize) -> usize {
    (usize::BITS - count.leading_zeros()) as usize
}

/// The searches for every present name, and for absent names first, last, between, below and above: how many each opened.
fn searches(file: &[u8]) -> Vec<usize> {
    let present = (0..file.len() / RECORD).map(name);
    let mut opened = Vec::new();
    for sought in present.flat_map(about).chain(ENDS) {
        let search = halved(file, sought);
        assert_eq!(search.answer, found(file, sought).answer, "{sought:?} of {} bytes", file.len());
        assert!(search.opened <= most(file.len() / RECORD), "{search:?} for {sought:?}");
        opened.push(search.opened);
    }
    opened
}

#[test]
fn in_ascending_files_halving_finds_what_find_does() {
    for count in 0..=MOST_RECORDS {
        let file = ascending_file(count);
        assert_eq!(ascending::<Division>(&file), Ok(Ascent::Ascends));
        assert_eq!(check::<Division>(&file), Ok(count));
        assert!(searches(&file).into_iter().all(|opened| opened <= MOST_OPENED));
    }
}

/// "It opens at most 8 records of 128", and 8 it needs, for the first record and for a name about it.
#[test]
fn eight_openings_are_needed_at_128() {
    let file = ascending_file(MOST_RECORDS);
    assert_eq!(searches(&file).into_iter().max(), Some(MOST_OPENED));
    // 64, 32, 16, 8, 4, 2, 1, 0.
    assert_eq!(halved(&file, name(0)), Search { opened: 8, answer: Ok(0) });
    assert_eq!([(0, 0), (6000, 2)].map(|sought| halved(&file, sought)), [none(8), none(8)]);
    // 64, 96, 112, 120, 124, 126, 127.
    assert_eq!(halved(&file, name(127)), Search { opened: 7, answer: Ok(127) });
    assert_eq!(halved(&file, (u16::MAX, 0)), none(7));
    assert_eq!(halved(&file, name(64)), Search { opened: 1, answer: Ok(64) });
    assert_eq!(halved(&file[..127 * RECORD], name(0)), Search { opened: 7, answer: Ok(0) });
    assert_eq!(most(127), 7);
}

/// The records that are opened for each record of small files, by hand; the last of them is the one sought.
const PATHS: [&[&[usize]]; 9] = [
    &[],
    &[&[0]],
    &[&[1, 0], &[1]],
    &[&[1, 0], &[1], &[1, 2]],
    &[&[2, 1, 0], &[2, 1], &[2], &[2, 3]],
    &[&[2, 1, 0], &[2, 1], &[2], &[2, 4, 3], &[2, 4]],
    &[&[3, 1, 0], &[3, 1], &[3, 1, 2], &[3], &[3, 5, 4], &[3, 5]],
    &[&[3, 1, 0], &[3, 1], &[3, 1, 2], &[3], &[3, 5, 4], &[3, 5], &[3, 5, 6]],
    &[&[4, 2, 1, 0], &[4, 2, 1], &[4, 2], &[4, 2, 3], &[4], &[4, 6, 5], &[4, 6], &[4, 6, 7]],
];

/// How many are opened for a name below all records, behind the first, and so on up to one above all, by hand.
const GAPS: [&[usize]; 9] = [
    &[0],
    &[1, 1],
    &[2, 2, 1],
    &[2, 2, 2, 2],
    &[3, 3, 2, 2, 2],
    &[3, 3, 2, 3, 3, 2],
    &[3, 3, 3, 3, 3, 3, 2],
    &[3, 3, 3, 3, 3, 3, 3, 3],
    &[4, 4, 3, 3, 3, 3, 3, 3, 3],
];

#[test]
fn small_files_are_counted_by_hand() {
    for (count, (paths, gaps)) in PATHS.iter().zip(GAPS).enumerate() {
        let file = ascending_file(count);
        assert_eq!((paths.len(), gaps.len()), (count, count + 1));
        for (place, path) in paths.iter().enumerate() {
            assert_eq!(halved(&file, name(place)), Search { opened: path.len(), answer: Ok(place) });
        }
        for (place, opened) in gaps.iter().enumerate() {
            // Right before the record at this place, or before where it would stand.
            let (message_type, number) = name(place);
            assert_eq!(halved(&file, (message_type, number - 1)), none(*opened), "{place} of {count}");
        }
    }
}

/// "A good record that matches but is retired ends the search with 27."
#[test]
fn a_retired_match_ends_the_search() {
    for (count, paths) in PATHS.iter().enumerate() {
        for (place, path) in paths.iter().enumerate() {
            let mut file = ascending_file(count);
            file[place * RECORD] |= 0x80;
            assert_eq!(halved(&file, name(place)), none(path.len()));
            assert_eq!(found(&file, name(place)), none(count));
            // The others are found as before.
            for other in (0..count).filter(|&other| other != place) {
                assert_eq!(halved(&file, name(other)), Search { opened: paths[other].len(), answer: Ok(other) });
            }
        }
    }
}

/// It is not passed over for a live one of its name beside it.
#[test]
fn a_retired_match_is_not_passed_over() {
    for records in [[live(1), retired(1), live(2)], [live(0), retired(1), live(1)]] {
        let file = records.concat();
        assert_eq!(halved(&file, (6000, 1)), none(1));
        assert!(found(&file, (6000, 1)).answer.is_ok());
    }
}

/// In any ascending file, whatever is retired there.
#[test]
fn retired_records_stand_in_the_order_too() {
    let mut random = Random::new(11);
    for _ in 0..300 {
        let mut file = ascending_file(random.up_to(20));
        mark_some(&mut random, &mut file);
        assert_eq!(ascending::<Division>(&file), Ok(Ascent::Ascends));
        searches(&file);
    }
}

/// "Refusals: 21, then those of each record opened": each bad record at each place of seven.
#[test]
fn a_bad_record_is_told_where_it_is_opened() {
    for (bad, refusal) in bad_records() {
        for bad in [bad.clone(), cases::retired(bad)] {
            for spoiled in 0..7 {
                let mut file = ascending_file(7);
                file[spoiled * RECORD..(spoiled + 1) * RECORD].copy_from_slice(&bad);
                for (place, path) in PATHS[7].iter().enumerate() {
                    let expected = match path.iter().position(|&opened| opened == spoiled) {
                        Some(before) => Search { opened: before + 1, answer: Err(refusal) },
                        None => Search { opened: path.len(), answer: Ok(place) },
                    };
                    assert_eq!(halved(&file, name(place)), expected, "{place} with {spoiled} bad");
                }
            }
        }
    }
}

/// "27 says nothing about the records not opened": bad ones among them, and a live match.
#[test]
fn out_of_order_a_live_match_may_not_be_opened() {
    let file = [live(3), live(2), live(1)].concat();
    assert_eq!(found(&file, (6000, 1)), Search { opened: 3, answer: Ok(2) });
    assert_eq!(halved(&file, (6000, 1)), none(2));
    assert_eq!(halved(&file, (6000, 3)), none(2));
    assert_eq!(halved(&file, (6000, 2)), Search { opened: 1, answer: Ok(1) });
    let [(bad, refusal), ..] = bad_records();
    let file = [bad, live(2), live(1)].concat();
    assert_eq!(halved(&file, (6000, 3)), none(2));
    assert_eq!(halved(&file, (6000, 1)), Search { opened: 2, answer: Err(refusal) });
}

/// "In any other file a found record is still good, live and a true match."
#[test]
fn what_is_found_in_any_file_is_good_and_live_and_of_the_name() {
    let mut random = Random::new(12);
    let (mut met, mut missed, mut bad) = (0, 0, 0);
    for _ in 0..5_000 {
        let mut file = drawn_file(&mut random);
        mark_some(&mut random, &mut file);
        for number in 0..7 {
            let search = halved(&file, (6000, number));
            assert!(search.opened <= 3, "{search:?} in {file:02x?}");
            match search.answer {
                Ok(record) => {
                    let Ok(Line { message_type, number: told, retired, .. }) = line::<Division>(&file, record) else {
                        panic!("record {record} is bad in {file:02x?}");
                    };
                    assert_eq!((message_type, told, retired), (6000, number, false), "{record} of {file:02x?}");
                    met += 1;
                }
                Err(Refusal::NotFound) => missed += u32::from(found(&file, (6000, number)).answer.is_ok()),
                Err(_) => bad += 1,
            }
        }
    }
    assert!(met > 500 && missed > 500 && bad > 500, "{met} found, {missed} missed, {bad} ended by a bad record");
}

#[test]
fn refusal_21_opens_none_and_neither_does_an_empty_file() {
    let not_a_file = Search { opened: 0, answer: Err(Refusal::NotAFile) };
    let file = ascending_file(MOST_RECORDS + 1);
    for length in [1, RECORD - 1, RECORD + 1, MOST_RECORDS * RECORD + 1, (MOST_RECORDS + 1) * RECORD] {
        assert_eq!(halved(&file[..length], name(0)), not_a_file);
        let refusal = Refusal::NotAFile;
        assert_eq!(ascending::<Division>(&file[..length]), Err(Bad { record: 0, refusal }));
    }
    assert_eq!(halved(&[], name(0)), none(0));
}

#[test]
fn no_record_and_a_single_one_are_in_order() {
    assert_eq!(ordered(&[]), Ok(Ascent::Ascends));
    assert_eq!(ordered(&[live(1)]), Ok(Ascent::Ascends));
    assert_eq!(ordered(&[retired(1)]), Ok(Ascent::Ascends));
}

/// "Strictly ascending": of two records with one name the later breaks the order, live or retired.
#[test]
fn equal_names_break_at_the_later() {
    for (earlier, later) in [(live(1), live(1)), (live(1), retired(1)), (retired(1), live(1)), (retired(1), retired(1))]
    {
        assert_eq!(ordered(&[earlier.clone(), later.clone()]), Ok(Ascent::BreaksAt(1)));
        assert_eq!(ordered(&[live(0), earlier, later, live(2)]), Ok(Ascent::BreaksAt(2)));
    }
}

/// "Of type, then number": a later type comes behind any number, and numbers are not signed.
#[test]
fn the_type_goes_before_the_number() {
    let record = |message_type, number| marked_record((message_type, number), false);
    let ascends = [(0, 0), (0, 1), (0, 0x7FFF_FFFF), (0, 0x8000_0000), (0, u32::MAX), (1, 0), (0x8000, 0), (0xFFFF, 1)];
    assert_eq!(ordered(&ascends.map(|(message_type, number)| record(message_type, number))), Ok(Ascent::Ascends));
    assert_eq!(ordered(&[record(6000, 9), record(6001, 1)]), Ok(Ascent::Ascends));
    assert_eq!(ordered(&[record(6001, 1), record(6000, 9)]), Ok(Ascent::BreaksAt(1)));
    assert_eq!(ordered(&[record(6000, 2), record(6000, 1)]), Ok(Ascent::BreaksAt(1)));
}

/// A record is held against the one before it, and not against all before it.
#[test]
fn the_first_break_is_told() {
    assert_eq!(ordered(&[live(1), live(3), live(2), live(1)]), Ok(Ascent::BreaksAt(2)));
    assert_eq!(ordered(&[live(5), live(1), live(2), live(3)]), Ok(Ascent::BreaksAt(1)));
    let mut records: Vec<Vec<u8>> = (0..128).map(live).collect();
    assert_eq!(ordered(&records), Ok(Ascent::Ascends));
    records[127] = retired(126);
    assert_eq!(ordered(&records), Ok(Ascent::BreaksAt(127)));
}

/// Three names, each live and retired, at every two and three places: held against the rule read word by word.
#[test]
fn every_combination_of_names_is_ordered_by_the_rule() {
    for records in combinations() {
        let breaks = |&later: &usize| records[later].0 <= records[later - 1].0;
        let expected = (1..records.len()).find(breaks).map_or(Ascent::Ascends, Ascent::BreaksAt);
        let stored: Vec<Vec<u8>> = records.iter().map(|&(name, retired)| marked_record(name, retired)).collect();
        assert_eq!(ordered(&stored), Ok(expected), "{records:?}");
    }
}

/// A bad record is told where it is come to; behind a break it is not.
#[test]
fn a_bad_record_before_a_break_is_told_and_one_behind_it_is_not() {
    for (bad, refusal) in bad_records() {
        for bad in [bad.clone(), cases::retired(bad)] {
            for place in 0..=4 {
                let mut records = vec![live(2), live(3), live(1), live(4)];
                records.insert(place, bad.clone());
                let told = Err(Bad { record: place, refusal });
                let expected = if place <= 2 { told } else { Ok(Ascent::BreaksAt(2)) };
                assert_eq!(ordered(&records), expected, "at {place}");
            }
            assert_eq!(ordered(&[bad.clone(), bad]), Err(Bad { record: 0, refusal }));
        }
    }
}
