//! What is asked of both sides about retiring a record: with buffers right and wrong, and then about the copy.

use super::ask_golden::{check, comparison, find, line, retired_records, sought, step_and_line};
use super::lent::hex;
use super::run::Run;
use super::tally::Operation;
use crate::interface::Answer;
use crate::{mirror, ours};
use peer::golden::{Stored, RECORD};

/// A file of more records is asked about some of them only.
const FEW: usize = 8;

/// Every record of a short file, some of a longer one, and records that are not there; one of them with everything.
pub fn some(run: &mut Run, file: &[u8]) {
    let numbers = numbers(run, file.len() / RECORD);
    let drawn = run.random.pick(&numbers);
    for number in numbers {
        if number == drawn {
            record(run, file, number);
        } else {
            retire(run, file, number, file.len());
        }
    }
}

fn numbers(run: &mut Run, count: usize) -> Vec<usize> {
    let mut numbers: Vec<usize> = (0..count).collect();
    if count > FEW {
        numbers = vec![0, run.random.between(1, count - 2), count - 1];
    }
    let far = run.random.pick(&[128, 129, 1 << 32, 1 << 55, (1 << 55) + 1, usize::MAX / RECORD, usize::MAX]);
    numbers.extend([count, count + 1, far]);
    numbers
}

/// One record with everything: buffers of the right length, one less, one more and none, and what its copy answers.
pub fn record(run: &mut Run, file: &[u8], record: usize) {
    for room in [file.len().saturating_sub(1), file.len() + 1, 0] {
        retire(run, file, record, room);
    }
    if let Some(copy) = retire(run, file, record, file.len()) {
        copied(run, file, record, &copy);
    }
}

/// Retires on both sides; the copy, unless it is refused.
pub fn retire(run: &mut Run, file: &[u8], record: usize, room: usize) -> Option<Vec<u8>> {
    let shown = || format!("room {room}, record {record}, file {}", hex(file));
    let (answer, copy) = run.beside(
        Operation::Retire,
        room,
        |copy| ours::retire(file, record, copy),
        |copy| mirror::retire(file, record, copy),
        &shown,
    );
    let (line, _) = line(run, file, record);
    run.holds("retire answers as its record and its buffer ask for", answer == expected(line, file, room), &shown);
    if answer.number != 0 {
        return None;
    }
    run.holds("one bit of the copy is set and no other byte differs", one_bit(file, copy.content(), record), &shown);
    Some(copy.content().to_vec())
}

/// What retire must answer, by what the record's line tells: its refusal, then 36, then 37.
fn expected(line: Answer, file: &[u8], room: usize) -> Answer {
    let number = match (line.number, line.retired()) {
        (0, 1) => 36,
        (0, _) if room != file.len() => 37,
        (0, _) => 0,
        _ => return line,
    };
    Answer { number, ..Answer::default() }
}

fn one_bit(file: &[u8], copy: &[u8], record: usize) -> bool {
    let first = record * RECORD;
    file[first] ^ copy[first] == 0x80 && file[..first] == copy[..first] && file[first + 1..] == copy[first + 1..]
}

/// What the copy answers, beside what the file did.
fn copied(run: &mut Run, file: &[u8], record: usize, copy: &[u8]) {
    let shown = || format!("record {record} retired in the copy of file {}", hex(file));
    let (step, name) = step_and_line(run, copy, record);
    run.holds("a record that was retired is told so", (step.number, step.retired()) == (0, 1), &shown);
    let (_, before) = step_and_line(run, file, record);
    run.holds("a retired record keeps its name", name == before, &shown);
    let [file_counts, copy_counts] = [file, copy].map(|file| retired_records(run, file).count);
    run.holds("one record more is retired in the copy", copy_counts == file_counts + 1, &shown);
    comparison(run, copy, record, &file[Stored::of(file, record).place]);
    let again = retire(run, copy, record, copy.len());
    run.holds("no record is retired twice", again.is_none(), &shown);
    checked(run, file, record, copy);
    let [message_type, number] = name.expect("a record that was retired is good");
    found(run, file, copy, record, (message_type as u16, number as u32));
}

/// The check of a copy is that of the file, but where the record may have been one of two with one name.
fn checked(run: &mut Run, file: &[u8], record: usize, copy: &[u8]) {
    let shown = || format!("record {record} retired in the copy of file {}", hex(file));
    let [before, after] = [file, copy].map(|file| check(run, file));
    if before.number != 26 {
        run.holds("a file that passed passes with the same count, and a bad one is as bad", after == before, &shown);
        return;
    }
    let is_later = record == usize::from(before.count);
    let later = after.number == 0 || after.count > before.count || (after == before && !is_later);
    run.holds("after 26 a copy passes, or is refused no earlier", later, &shown);
}

/// A search for the name of the record that was retired, and for other names.
fn found(run: &mut Run, file: &[u8], copy: &[u8], record: usize, name: (u16, u32)) {
    let shown = || format!("record {record} retired in the copy of file {}", hex(file));
    let [before, after] = [file, copy].map(|file| find(run, file, name.0, name.1));
    // A search that came as far as the record found it, since it was live.
    if usize::from(before.count) > record {
        let live = Answer { count: record as u16 + 1, value: record as u32, ..Answer::default() };
        run.holds("a search that came to a live record of the name found it", before == live, &shown);
        let opened = usize::from(after.count);
        let passed_over = match after.number {
            0 | 23..=25 => opened > record + 1,
            number => number == 27 && opened == copy.len() / RECORD,
        };
        run.holds("a search passes over a record that was retired", passed_over, &shown);
    } else {
        run.holds("a search that ended before the record ends there again", after == before, &shown);
    }
    for (message_type, number) in sought(run, file).into_iter().filter(|&other| other != name) {
        let [before, after] = [file, copy].map(|file| find(run, file, message_type, number));
        run.holds("a search for another name answers as before", after == before, &shown);
    }
}
