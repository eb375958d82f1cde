//! The golden files that every run has for retired records: each with its answers by hand.
//! The top bit of a stored length marks a retired record, and the other 15 bits are the length.

use super::fixed_names::{as_told, bad_records, checked, numbered, passed, refused};
use super::lent::hex;
use super::run::Run;
use super::{ask_golden, ask_retire};
use crate::interface::Answer;
use peer::cases::{self, marked_record, placed, record_of, retired, shortest};
use peer::golden::{MOST_RECORDS, PREFIX, RECORD};

pub fn short(run: &mut Run) {
    every_stored_length(run);
    every_combination(run);
    beside_a_bad_record(run);
    every_record_of_a_full_file(run);
    one_after_the_other(run);
    compared(run);
}

/// M behind every stored length there is: the other 15 bits are judged, and the mark alone is not.
fn every_stored_length(run: &mut Run) {
    run.family("every stored length");
    let mut file = record_of(&shortest());
    for stored in 0..=u16::MAX {
        run.input();
        file[..PREFIX].copy_from_slice(&stored.to_be_bytes());
        let expected = match stored & 0x7FFF {
            21 => passed(1),
            22..=510 => Answer { number: 25, reading: 5, value: 5, ..Answer::default() },
            _ => refused(23, 0),
        };
        as_told(run, &file, expected);
        ask_golden::step_and_line(run, &file, 0);
        ask_golden::find(run, &file, 6000, 1);
        ask_retire::retire(run, &file, 0, RECORD);
    }
}

/// Two and three records in every combination of names and marks.
fn every_combination(run: &mut Run) {
    run.family("two and three records of three names, live and retired, in every combination");
    for records in cases::combinations() {
        let count = records.len();
        let is_taken = |&later: &usize| !records[later].1 && records[..later].contains(&records[later]);
        let expected = (0..count).find(is_taken).map_or(passed(count), |record| refused(26, record));
        let stored: Vec<Vec<u8>> = records.iter().map(|&(name, retired)| marked_record(name, retired)).collect();
        checked(run, &stored, expected);
        let file = stored.concat();
        for (message_type, number) in [(6000, 1), (6000, 2), (6001, 1), (6001, 2)] {
            let live = records.iter().position(|&record| record == ((message_type, number), false));
            let found = |place: usize| Answer { value: place as u32, ..passed(place + 1) };
            let expected = live.map_or(refused(27, count), found);
            let answer = ask_golden::find(run, &file, message_type, number);
            let shown = || format!("expected {expected:?}, type {message_type}, number {number}, file {}", hex(&file));
            run.holds("a search among retired and live records answers as told", answer == expected, &shown);
        }
        (0..=count).for_each(|record| ask_retire::record(run, &file, record));
    }
}

/// A bad record with the mark, and without, at every place beside live and retired ones of its name.
fn beside_a_bad_record(run: &mut Run) {
    run.family("a bad record with the mark beside retired and live ones");
    for (bad, answer) in bad_records() {
        for bad in [bad.clone(), retired(bad)] {
            for place in 0..=3 {
                let m = || record_of(&shortest());
                let mut records = vec![retired(m()), retired(m()), m()];
                records.insert(place, bad.clone());
                let refused = Answer { count: place as u16, ..answer };
                checked(run, &records, refused);
                let file = records.concat();
                // M is live behind all, so that a bad record before it ends the search.
                let opened = if place < 3 { Answer { count: place as u16 + 1, ..answer } } else { live_at(2) };
                let found = ask_golden::find(run, &file, 6000, 1);
                let shown = || format!("expected {opened:?}, file {}", hex(&file));
                run.holds("a search that a bad record ends answers as told", found == opened, &shown);
                ask_golden::comparison(run, &file, place, &shortest());
                (0..=4).for_each(|record| ask_retire::record(run, &file, record));
            }
        }
    }
}

/// What a search answers that finds this record.
fn live_at(record: usize) -> Answer {
    Answer { value: record as u32, ..passed(record + 1) }
}

/// Each of 128 records retired, and the one that is not there.
fn every_record_of_a_full_file(run: &mut Run) {
    run.family("every record of 128 retired");
    let mut file = numbered(MOST_RECORDS).concat();
    for record in 0..=MOST_RECORDS {
        run.input();
        ask_retire::record(run, &file, record);
    }
    // With a name that comes twice, at the first and the last place.
    file.copy_within(..RECORD, (MOST_RECORDS - 1) * RECORD);
    for record in [0, 1, MOST_RECORDS - 1] {
        run.input();
        ask_retire::record(run, &file, record);
    }
}

/// All of 128 records retired, each in the copy that the one before it gave.
fn one_after_the_other(run: &mut Run) {
    run.family("128 records retired one after the other");
    let mut file = numbered(MOST_RECORDS).concat();
    for step in 0..MOST_RECORDS {
        run.input();
        // Every place once, since 37 and 128 have no common divisor.
        let record = step * 37 % MOST_RECORDS;
        let shown = || format!("record {record}, {step} retired already");
        let copy = ask_retire::retire(run, &file, record, file.len());
        run.holds("a live record is retired", copy.is_some(), &shown);
        file = copy.unwrap_or_default();
        as_told(run, &file, passed(MOST_RECORDS));
        let counted = ask_golden::retired_records(run, &file);
        run.holds("every retired record is counted", counted == passed(step + 1), &shown);
        let found = ask_golden::find(run, &file, 6000, record as u32);
        run.holds("27 is told after all records are opened", found == refused(27, MOST_RECORDS), &shown);
    }
    ask_golden::file(run, &file);
}

/// A retired record against any radio message: 38, also where the message is refused by reading.
fn compared(run: &mut Run) {
    run.family("retired records compared");
    let accepted = cases::messages().into_iter().filter(|case| case.answer == 0).map(|case| case.message);
    let goldens: Vec<Vec<u8>> = accepted.collect();
    let radios: Vec<Vec<u8>> = placed::all().into_iter().map(|case| case.message).chain(goldens.clone()).collect();
    for golden in goldens {
        let file = retired(record_of(&golden));
        for radio in &radios {
            run.input();
            let answer = ask_golden::comparison(run, &file, 0, radio);
            let shown = || format!("radio {}, file {}", hex(radio), hex(&file));
            run.holds("a retired record is compared with nothing", answer == refused(38, 0), &shown);
        }
    }
}
