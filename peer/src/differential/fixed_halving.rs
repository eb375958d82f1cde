//! The golden files that every run has for halving and for the order of names: each with its answers by hand.

use super::ask_halving::{self, by_halving, Name};
use super::fixed_names::{bad_records, refused};
use super::lent::hex;
use super::run::Run;
use crate::interface::{Answer, ASCENDS};
use peer::cases::{self, marked_record, retired};
use peer::golden::{MOST_RECORDS, RECORD};

pub fn short(run: &mut Run) {
    every_name_of_every_length(run);
    every_record_retired(run);
    beside_a_bad_record(run);
    every_combination(run);
    every_break_of_a_full_file(run);
    backwards(run);
}

/// The name at a place: three numbers to a type, and room for an absent name about each.
fn name(place: usize) -> Name {
    (6000 + (place / 3) as u16 * 2, (place % 3) as u32 * 2 + 1)
}

/// So many live records in ascending order.
fn in_order(count: usize) -> Vec<u8> {
    (0..count).flat_map(|place| marked_record(name(place), false)).collect()
}

fn found(record: usize, opened: usize) -> Answer {
    Answer { count: opened as u16, value: record as u32, ..Answer::default() }
}

fn ascends() -> Answer {
    Answer { value: ASCENDS, ..Answer::default() }
}

fn breaks_at(record: usize) -> Answer {
    Answer { count: record as u16, ..Answer::default() }
}

fn ordered_as_told(run: &mut Run, file: &[u8], expected: Answer) {
    let answer = ask_halving::ascending(run, file);
    let shown = || format!("expected {expected:?}, file {}", hex(file));
    run.holds("the order of names is answered as told", answer == expected, &shown);
}

fn halved_as_told(run: &mut Run, file: &[u8], sought: Name, expected: Answer) {
    let answer = ask_halving::find_by_halving(run, file, sought);
    let shown = || format!("name {sought:?}, expected {expected:?}, file {}", hex(file));
    run.holds("a search by halving answers as told", answer == expected, &shown);
}

/// From no record to 128 in ascending order: each is found at its place.
fn every_name_of_every_length(run: &mut Run) {
    run.family("every name of 0 to 128 records in ascending order");
    for count in 0..=MOST_RECORDS {
        let file = in_order(count);
        ordered_as_told(run, &file, ascends());
        for place in 0..count {
            run.input();
            let answer = by_halving(run, &file, name(place), true);
            let shown = || format!("place {place} of {count}, {answer:?}");
            run.holds("a record is found at its place", answer == found(place, answer.count.into()), &shown);
        }
        ask_halving::every_name(run, &file);
    }
    let file = in_order(MOST_RECORDS);
    halved_as_told(run, &file, name(0), found(0, 8));
    halved_as_told(run, &file, name(64), found(64, 1));
    halved_as_told(run, &file, name(127), found(127, 7));
    halved_as_told(run, &file, (6000, 0), refused(27, 8));
    halved_as_told(run, &file, (u16::MAX, 0), refused(27, 7));
    ask_halving::every_name(run, &in_order(MOST_RECORDS + 1));
}

/// The records that are opened for each of seven, by hand; the last of them is the one sought.
const PATHS: [&[usize]; 7] = [&[3, 1, 0], &[3, 1], &[3, 1, 2], &[3], &[3, 5, 4], &[3, 5], &[3, 5, 6]];

/// A retired match is 27 with the openings so far, and stands in the order all the same.
fn every_record_retired(run: &mut Run) {
    run.family("each of seven records in ascending order retired");
    for marks in 0..1 << PATHS.len() {
        run.input();
        let mut file = in_order(PATHS.len());
        let is_retired = |place: usize| marks >> place & 1 == 1;
        for (place, record) in file.chunks_mut(RECORD).enumerate() {
            record[0] |= u8::from(is_retired(place)) << 7;
        }
        ordered_as_told(run, &file, ascends());
        for (place, path) in PATHS.iter().enumerate() {
            let expected = if is_retired(place) { refused(27, path.len()) } else { found(place, path.len()) };
            halved_as_told(run, &file, name(place), expected);
        }
        ask_halving::every_name(run, &file);
    }
}

/// A bad record at each place of seven is told where it is opened, and where it is not the search goes its way.
fn beside_a_bad_record(run: &mut Run) {
    run.family("a bad record among seven in ascending order");
    for (bad, answer) in bad_records() {
        for bad in [bad.clone(), retired(bad)] {
            for spoiled in 0..PATHS.len() {
                run.input();
                let mut file = in_order(PATHS.len());
                file[spoiled * RECORD..(spoiled + 1) * RECORD].copy_from_slice(&bad);
                ordered_as_told(run, &file, Answer { count: spoiled as u16, ..answer });
                for (place, path) in PATHS.iter().enumerate() {
                    let told = |before: usize| Answer { count: before as u16 + 1, ..answer };
                    let opened = path.iter().position(|&opened| opened == spoiled);
                    halved_as_told(run, &file, name(place), opened.map_or(found(place, path.len()), told));
                }
                ask_halving::every_name(run, &file);
            }
        }
    }
}

/// Two and three records in every combination of names and marks: the order held against the rule read word by word.
fn every_combination(run: &mut Run) {
    run.family("the order of two and three records of three names, live and retired, in every combination");
    for records in cases::combinations() {
        run.input();
        let breaks = |&later: &usize| records[later].0 <= records[later - 1].0;
        let expected = (1..records.len()).find(breaks).map_or(ascends(), breaks_at);
        let file: Vec<u8> = records.iter().flat_map(|&(name, retired)| marked_record(name, retired)).collect();
        ordered_as_told(run, &file, expected);
        ask_halving::every_name(run, &file);
    }
}

/// A record of 128 has the name of the one before it, live or retired, and a bad record stands behind it.
fn every_break_of_a_full_file(run: &mut Run) {
    run.family("a break at every record of 128");
    let good = in_order(MOST_RECORDS);
    for later in 1..MOST_RECORDS {
        run.input();
        let mut file = good.clone();
        file.copy_within((later - 1) * RECORD..later * RECORD, later * RECORD);
        ordered_as_told(run, &file, breaks_at(later));
        file[later * RECORD] |= 0x80;
        ordered_as_told(run, &file, breaks_at(later));
        if later + 1 < MOST_RECORDS {
            file[(later + 1) * RECORD..(later + 2) * RECORD].fill(0);
            ordered_as_told(run, &file, breaks_at(later));
        }
        ask_halving::some_names(run, &file);
    }
}

/// In descending order find finds every record, and halving none but the one it opens first.
fn backwards(run: &mut Run) {
    run.family("records in descending order");
    for count in 2..=MOST_RECORDS {
        run.input();
        let mut records: Vec<Vec<u8>> = in_order(count).chunks(RECORD).map(<[u8]>::to_vec).collect();
        records.reverse();
        let file = records.concat();
        ordered_as_told(run, &file, breaks_at(1));
        halved_as_told(run, &file, name(count - 1 - count / 2), found(count / 2, 1));
        for sought in [name(0), name(count - 1)] {
            let answer = by_halving(run, &file, sought, false);
            let shown = || format!("name {sought:?}, {answer:?}, file {}", hex(&file));
            let opened_first = sought == name(count - 1 - count / 2);
            run.holds("what is not opened is not found", opened_first || answer.number == 27, &shown);
        }
        ask_halving::some_names(run, &file);
    }
}
