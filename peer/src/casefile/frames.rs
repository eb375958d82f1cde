//! The commands about Class D frames.

use super::arguments::{bytes, MOST_BYTES};
use super::complaint::Complaint;
use super::envelopes::{accepted, room};
use super::printed::buffer;
use super::words::Words;
use crate::crc::Division;
use crate::frame::{self, Body, Refusal, Unwrapped};

type Answer = Result<String, Complaint>;

/// A COMMID, behind the word that names it.
pub fn commid(words: &mut Words, name: &'static str) -> Result<u32, Complaint> {
    Ok(words.named(name, u32::MAX.into())? as u32)
}

fn refused(refusal: Refusal) -> String {
    let (number, reading, place) = refusal.numbers();
    format!("refused {number} {reading} {place}")
}

fn written(length: Result<usize, Refusal>, lent: &[u8]) -> String {
    let answer = length.map_or_else(refused, |length| format!("wrote {length}"));
    format!("{answer} {}", buffer(lent))
}

pub fn unwrap(words: &mut Words) -> Answer {
    let frame = bytes(words, MOST_BYTES, None)?;
    Ok(match frame::unwrap::<Division>(&frame) {
        Ok(Unwrapped { commid, body: Body::Message { place, fields } }) => {
            format!("data commid {commid} size {} {}", place.len(), accepted(&fields, &frame[place]))
        }
        Ok(Unwrapped { commid, body: Body::Acknowledged(acknowledged) }) => {
            format!("acknowledgment commid {commid} of {acknowledged}")
        }
        Err(refusal) => refused(refusal),
    })
}

pub fn wrap(words: &mut Words) -> Answer {
    let commid = commid(words, "commid")?;
    let mut lent = room(words)?;
    words.the_word("of")?;
    let message = bytes(words, MOST_BYTES, None)?;
    let length = frame::wrap::<Division>(&message, commid, &mut lent);
    Ok(written(length, &lent))
}

pub fn acknowledge(words: &mut Words) -> Answer {
    let own = commid(words, "commid")?;
    let acknowledged = commid(words, "of")?;
    let mut lent = room(words)?;
    words.end()?;
    let length = frame::acknowledge(own, acknowledged, &mut lent);
    Ok(written(length, &lent))
}

pub fn first(words: &mut Words) -> Answer {
    let capture = bytes(words, MOST_BYTES, None)?;
    Ok(format!("{} of {}", frame::first(&capture), capture.len()))
}
