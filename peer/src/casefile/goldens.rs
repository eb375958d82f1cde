//! The commands about the golden file that is worked on.

use super::arguments::{bytes, list as numbers, MOST_BYTES};
use super::complaint::Complaint;
use super::envelopes::room;
use super::printed::{buffer, refused};
use super::words::Words;
use crate::crc::Division;
use crate::golden::{self, Ascent, Bad, Search, Step};

type Answer = Result<String, Complaint>;

/// A record's number. None is this large, so it may be cut to what a machine can count to.
pub fn record(words: &mut Words, name: &'static str) -> Result<usize, Complaint> {
    Ok(usize::try_from(words.named(name, u64::MAX)?).unwrap_or(usize::MAX))
}

pub fn check(words: &mut Words, file: &[u8]) -> Answer {
    words.end()?;
    Ok(golden::check::<Division>(file).map_or_else(bad, |count| format!("records {count}")))
}

/// A refusal with the record that it is about.
fn bad(bad: Bad) -> String {
    format!("record {} {}", bad.record, refused(bad.refusal))
}

pub fn find(words: &mut Words, file: &[u8]) -> Answer {
    search(words, |message_type, number| golden::find::<Division>(file, message_type, number))
}

pub fn halve(words: &mut Words, file: &[u8]) -> Answer {
    search(words, |message_type, number| golden::find_by_halving::<Division>(file, message_type, number))
}

/// The two searches are asked and answered alike.
fn search(words: &mut Words, search: impl FnOnce(u16, u32) -> Search) -> Answer {
    let message_type = words.named("type", u16::MAX.into())? as u16;
    let number = words.named("number", u32::MAX.into())? as u32;
    words.end()?;
    let Search { opened, answer } = search(message_type, number);
    let answer = answer.map_or_else(refused, |record| format!("record {record}"));
    Ok(format!("{answer} opened {opened}"))
}

pub fn order(words: &mut Words, file: &[u8]) -> Answer {
    words.end()?;
    Ok(match golden::ascending::<Division>(file) {
        Ok(Ascent::Ascends) => "ascending".to_string(),
        Ok(Ascent::BreaksAt(record)) => format!("breaks at {record}"),
        Err(refused) => bad(refused),
    })
}

pub fn step(words: &mut Words, file: &[u8]) -> Answer {
    let at = words.named("at", u64::MAX)?;
    words.end()?;
    let step = golden::step::<Division>(file, usize::try_from(at).unwrap_or(usize::MAX));
    Ok(format!("{} next {}", stepped(&step), at + step.advance() as u64))
}

/// What stands behind a record that is retired, and nothing behind a live one.
fn marked(retired: bool) -> &'static str {
    if retired {
        " retired"
    } else {
        ""
    }
}

fn stepped(step: &Step) -> String {
    match step {
        Step::Message { place, retired } => format!("message {} {}{}", place.start, place.len(), marked(*retired)),
        Step::Refused(refusal) => refused(*refusal),
        Step::End => "end".to_string(),
    }
}

pub fn walk(words: &mut Words, file: &[u8]) -> Answer {
    words.end()?;
    let (mut told, mut next) = (Vec::new(), 0);
    loop {
        let step = golden::step::<Division>(file, next);
        told.push(stepped(&step));
        if step.advance() == 0 {
            return Ok(told.join(", "));
        }
        next += step.advance();
    }
}

pub fn compare(words: &mut Words, file: &[u8]) -> Answer {
    let record = record(words, "record")?;
    words.the_word("list")?;
    let mut list = numbers(words, "with")?;
    let radio = bytes(words, MOST_BYTES, None)?;
    let answer = match golden::compare::<Division>(file, record, &radio, &mut list) {
        Ok(0) => "same".to_string(),
        Ok(total) => format!("different {total}"),
        Err(refusal) => refused(refusal),
    };
    let list: String = list.iter().map(|number| format!(" {number}")).collect();
    Ok(format!("{answer} list{list}"))
}

pub fn make(words: &mut Words) -> Answer {
    let mut lent = room(words)?;
    words.the_word("of")?;
    let message = bytes(words, MOST_BYTES, None)?;
    let made = golden::make::<Division>(&message, &mut lent);
    let answer = made.map_or_else(refused, |()| "made".to_string());
    Ok(format!("{answer} {}", buffer(&lent)))
}

pub fn retire(words: &mut Words, file: &[u8]) -> Answer {
    let record = record(words, "record")?;
    let mut lent = room(words)?;
    words.end()?;
    let done = golden::retire::<Division>(file, record, &mut lent);
    let answer = done.map_or_else(refused, |()| "done".to_string());
    Ok(format!("{answer} {}", buffer(&lent)))
}

pub fn retired(words: &mut Words, file: &[u8]) -> Answer {
    words.end()?;
    Ok(golden::retired_records::<Division>(file).map_or_else(refused, |count| format!("retired {count}")))
}

pub fn entry(words: &mut Words, file: &[u8]) -> Answer {
    let record = record(words, "at")?;
    words.end()?;
    Ok(entered(file, record))
}

fn entered(file: &[u8], record: usize) -> String {
    match golden::line::<Division>(file, record) {
        Ok(line) => format!("{} {} {}{}", line.message_type, line.number, line.length, marked(line.retired)),
        Err(refusal) => refused(refusal),
    }
}

pub fn list(words: &mut Words, file: &[u8]) -> Answer {
    words.end()?;
    Ok(match golden::count(file) {
        Ok(count) => {
            let entries = (0..count).map(|record| format!("; {record} {}", entered(file, record)));
            format!("records {count}{}", entries.collect::<String>())
        }
        Err(refusal) => refused(refusal),
    })
}
