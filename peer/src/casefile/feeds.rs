//! The lines about the feed that is worked on.

use super::arguments::{bytes, MOST_BYTES};
use super::complaint::Complaint;
use super::envelopes::accepted;
use super::printed::buffer;
use super::words::Words;
use crate::crc::Division;
use crate::feed::{Feed, Refusal, Standing, Taken};

type Answer = Result<String, Complaint>;

const NOTHING: &str = "nothing";

fn refused(refusal: Refusal) -> String {
    let (number, place) = refusal.numbers();
    format!("refused {number} {place}")
}

/// STATE: the count, how it stands, and the bytes kept.
fn state(feed: &Feed) -> String {
    let standing = match feed.standing() {
        Standing::Inside => "inside".to_string(),
        Standing::Whole => "whole".to_string(),
        Standing::Refused(refusal) => refused(refusal),
    };
    format!("count {} {standing} kept {}", feed.count(), buffer(feed.kept()))
}

pub fn restart(words: &mut Words, feed: &mut Feed) -> Answer {
    words.end()?;
    feed.restart();
    Ok(state(feed))
}

pub fn piece(words: &mut Words, feed: &mut Feed) -> Answer {
    let piece = bytes(words, MOST_BYTES, None)?;
    let Taken { used, found } = feed.take::<Division>(&piece);
    let found = match (found, feed.message()) {
        (Ok(Some(fields)), Some(message)) => format!("message {} {}", message.len(), accepted(&fields, message)),
        (Ok(_), _) => NOTHING.to_string(),
        (Err(refusal), _) => refused(refusal),
    };
    Ok(format!("used {used} {found} {}", state(feed)))
}

pub fn stream(words: &mut Words, feed: &mut Feed) -> Answer {
    let cut = words.named("cut", u64::MAX)?;
    words.the_word("of")?;
    let stream = bytes(words, MOST_BYTES, None)?;
    let (mut told, mut rest) = (String::new(), stream.as_slice());
    while !rest.is_empty() {
        let size = if cut == 0 { rest.len() } else { cut.min(rest.len() as u64) as usize };
        let Taken { used, found } = feed.take::<Division>(&rest[..size]);
        rest = &rest[used..];
        match found {
            Ok(None) => {}
            Ok(Some(fields)) => {
                told += &format!("message {} {} {}, ", feed.count(), fields.message_type, fields.number);
            }
            Err(_) => break,
        }
    }
    Ok(format!("{told}used {} {}", stream.len() - rest.len(), state(feed)))
}

pub fn end(words: &mut Words, feed: &mut Feed) -> Answer {
    words.end()?;
    let found = feed.end().map_or_else(refused, |()| NOTHING.to_string());
    Ok(format!("{found} {}", state(feed)))
}
