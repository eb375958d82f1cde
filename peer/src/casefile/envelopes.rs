//! The commands about sums and envelopes.

use super::arguments::{bytes, MOST_BYTES};
use super::complaint::Complaint;
use super::printed::{buffer, part};
use super::words::Words;
use crate::crc::{Division, Sum};
use crate::envelope::{self, Draft, Fields, Integrity, Lateness, Qos, Sequence, Service, Unread};
use crate::judge::{self, Verdict};

type Answer = Result<String, Complaint>;

/// The most bytes of an end or a body in a `write`.
const MOST_WRITTEN: usize = 600;
const MOST_ROOM: u64 = 1_024;
/// What a lent buffer holds in every byte before the call.
const LENT: u8 = 0xEE;

// The largest values. Each number is cut to its type only after it is held to one of these.
const ONE_BYTE: u64 = u8::MAX as u64;
const TWO_BYTES: u64 = u16::MAX as u64;
const FOUR_BYTES: u64 = u32::MAX as u64;

pub fn sum(words: &mut Words) -> Answer {
    let summed = bytes(words, MOST_BYTES, None)?;
    Ok(format!("{} {:08x}", summed.len(), Division::of(&summed)))
}

pub fn read(words: &mut Words) -> Answer {
    let message = bytes(words, MOST_BYTES, None)?;
    Ok(match envelope::read::<Division>(&message) {
        Ok(fields) => accepted(&fields, &message),
        Err(unread) => refused("refused", unread),
    })
}

/// A refusal by reading: this word, its number and its place.
fn refused(word: &str, unread: Unread) -> String {
    let (number, place) = unread.numbers();
    format!("{word} {number} {place}")
}

/// What `read` answers of a message that is read.
pub fn accepted(fields: &Fields, message: &[u8]) -> String {
    let Fields { message_type, message_version, flags, number, time, .. } = fields;
    let addressing = match &fields.addressing {
        None => "unaddressed".to_string(),
        Some(addressing) => {
            let [source, destination] = [&addressing.source, &addressing.destination].map(|end| part(message, end));
            format!("ttl {} qos {} source {source} destination {destination}", addressing.ttl, addressing.qos)
        }
    };
    let body = part(message, &fields.body);
    let integrity = match fields.integrity {
        Integrity::None => "none".to_string(),
        Integrity::Crc(number) => format!("crc {number:08x}"),
        Integrity::Application(number) => format!("application {number:08x}"),
    };
    let numbers = format!("type {message_type} version {message_version} flags {flags} number {number} time {time}");
    format!("accepted {numbers} {addressing} body {body} integrity {integrity}")
}

pub fn judge(words: &mut Words) -> Answer {
    let judged = judge::judge(&bytes(words, MOST_BYTES, None)?);
    let mut told = String::new();
    for (rule, verdict) in (1..).zip(judged) {
        let words = match verdict {
            Verdict::Kept => "kept".to_string(),
            Verdict::Broken { place } => format!("broken at {place}"),
            Verdict::NotJudged => "not judged".to_string(),
        };
        told += &format!("{rule} {words} ");
    }
    let lowest = judge::lowest_broken(&judged);
    Ok(told + &lowest.map_or("none broken".to_string(), |(rule, place)| format!("lowest {rule} {place}")))
}

/// The buffer that `room N` asks for.
pub fn room(words: &mut Words) -> Result<Vec<u8>, Complaint> {
    Ok(vec![LENT; words.named("room", MOST_ROOM)? as usize])
}

/// The TTL, or none behind `unaddressed`.
fn ttl(words: &mut Words) -> Result<Option<u16>, Complaint> {
    match words.takes("unaddressed") {
        true => Ok(None),
        false => Ok(Some(words.named("ttl", TWO_BYTES)? as u16)),
    }
}

fn service(words: &mut Words) -> Result<Option<Service>, Complaint> {
    match ttl(words)? {
        None => Ok(None),
        Some(ttl) => Ok(Some(Service { ttl, qos: words.named("qos", TWO_BYTES)? as u16 })),
    }
}

pub fn write(words: &mut Words) -> Answer {
    let mut draft = Draft {
        message_type: words.named("type", TWO_BYTES)? as u16,
        message_version: words.named("version", ONE_BYTE)? as u8,
        flags: words.named("flags", ONE_BYTE)? as u8,
        number: words.named("number", FOUR_BYTES)? as u32,
        time: words.named("time", FOUR_BYTES)? as u32,
        service: service(words)?,
        source: &[],
        destination: &[],
        body: &[],
        integrity: 0,
    };
    words.the_word("source")?;
    let source = bytes(words, MOST_WRITTEN, Some("destination"))?;
    let destination = bytes(words, MOST_WRITTEN, Some("body"))?;
    let body = bytes(words, MOST_WRITTEN, Some("integrity"))?;
    draft.integrity = words.number(FOUR_BYTES)? as u32;
    let mut lent = room(words)?;
    words.end()?;
    (draft.source, draft.destination, draft.body) = (&source, &destination, &body);
    let answer = written(&draft, &mut lent);
    Ok(format!("{answer} {}", buffer(&lent)))
}

fn written(draft: &Draft, lent: &mut [u8]) -> String {
    match envelope::write::<Division>(draft, lent) {
        Ok(length) => format!("wrote {length}"),
        Err(unwritten) => format!("refused {}", unwritten as u8),
    }
}

pub fn rewrite(words: &mut Words) -> Answer {
    let mut lent = room(words)?;
    words.the_word("of")?;
    let message = bytes(words, MOST_BYTES, None)?;
    let answer = match envelope::read::<Division>(&message) {
        Ok(fields) => written(&envelope::draft_of(&fields, &message), &mut lent),
        Err(unread) => refused("unread", unread),
    };
    Ok(format!("{answer} {}", buffer(&lent)))
}

pub fn qos(words: &mut Words) -> Answer {
    if words.takes("join") {
        return join(words);
    }
    let field = words.named("split", TWO_BYTES)? as u16;
    words.end()?;
    let Qos { service_request, special_handling, network_preference, priority, class } = Qos::split(field);
    Ok(format!("{service_request} {special_handling} {network_preference} {priority} {class}"))
}

fn join(words: &mut Words) -> Answer {
    let mut part = || words.number(ONE_BYTE).map(|part| part as u8);
    let qos = Qos {
        service_request: part()?,
        special_handling: part()?,
        network_preference: part()?,
        priority: part()?,
        class: part()?,
    };
    words.end()?;
    Ok(qos.join().map_or("refused 41".to_string(), |field| field.to_string()))
}

pub fn late(words: &mut Words) -> Answer {
    let ttl = ttl(words)?;
    let entry = words.named("entry", u64::MAX)?;
    let clock = words.named("clock", u64::MAX)?;
    words.end()?;
    let answer = match envelope::lateness(ttl, entry, clock) {
        Lateness::Late => "late",
        Lateness::InTime => "in time",
        Lateness::NoClock => "no clock",
    };
    Ok(answer.to_string())
}

pub fn sequence(words: &mut Words) -> Answer {
    let old = words.named("from", FOUR_BYTES)? as u32;
    let new = words.named("to", FOUR_BYTES)? as u32;
    words.end()?;
    Ok(match envelope::sequence(old, new) {
        Sequence::Repeat => "repeat".to_string(),
        Sequence::Next => "next".to_string(),
        Sequence::Ahead(by) => format!("ahead {by}"),
        Sequence::Behind(by) => format!("behind {by}"),
    })
}
