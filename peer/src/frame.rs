//! Class D frames: a message or an acknowledgment, with a header before it and a delimiter at each end.
//! Each refusal stands in the order in which it is looked for.

#[cfg(test)]
mod tests;

use crate::crc::Sum;
use crate::envelope::{self, Fields, Unread};
use std::ops::Range;

pub const STX: u8 = 0x02;
pub const ETX: u8 = 0x03;
/// The version of the protocol, and that of both kinds of frame.
pub const VERSION: u8 = 2;
pub const DATA_MESSAGE: u8 = 1;
pub const ACKNOWLEDGMENT: u8 = 2;

/// Where the body begins: behind STX and the header.
pub const BODY: usize = 12;
/// The bytes of a frame whose body is empty.
pub const SHORTEST: usize = BODY + 1;
/// The body of an acknowledgment is one COMMID.
pub const ACKNOWLEDGED: usize = 4;

#[derive(Clone, Copy, Debug, PartialEq, Eq)]
pub enum Refusal {
    TooShort,
    NoStx,
    Version,
    Type,
    Length,
    NoEtx,
    Message(Unread),
    TooLong,
    NoRoom,
}

impl Refusal {
    /// The refusal's number, and the number and the place that reading gave, or 0 and 0.
    pub fn numbers(self) -> (u8, u8, usize) {
        match self {
            Refusal::TooShort => (61, 0, 0),
            Refusal::NoStx => (62, 0, 0),
            Refusal::Version => (63, 0, 0),
            Refusal::Type => (64, 0, 0),
            Refusal::Length => (65, 0, 0),
            Refusal::NoEtx => (66, 0, 0),
            Refusal::Message(unread) => unread.passed_on(67),
            Refusal::TooLong => (69, 0, 0),
            Refusal::NoRoom => (68, 0, 0),
        }
    }
}

/// What a frame carries, beside the COMMID of its own.
#[derive(Clone, Debug, PartialEq, Eq)]
pub struct Unwrapped {
    pub commid: u32,
    pub body: Body,
}

#[derive(Clone, Debug, PartialEq, Eq)]
pub enum Body {
    /// Where the message stands in the frame, and what it says.
    Message { place: Range<usize>, fields: Fields },
    /// The COMMID that is acknowledged.
    Acknowledged(u32),
}

/// The bytes of a frame, field by field. Nothing is judged yet, and the body is all that stands before the last byte.
struct Parts<'a> {
    first: u8,
    protocol_version: u8,
    commid: u32,
    frame_type: u8,
    message_version: u8,
    data_length: u32,
    body: &'a [u8],
    last: u8,
}

impl Parts<'_> {
    /// Takes apart bytes that are no fewer than the shortest frame has.
    fn of(bytes: &[u8]) -> Option<Parts<'_>> {
        let &[first, protocol_version, c3, c2, c1, c0, frame_type, message_version, d3, d2, d1, d0, ref body @ .., last] =
            bytes
        else {
            return None;
        };
        let (commid, data_length) = (u32::from_be_bytes([c3, c2, c1, c0]), u32::from_be_bytes([d3, d2, d1, d0]));
        Some(Parts { first, protocol_version, commid, frame_type, message_version, data_length, body, last })
    }
}

/// Unwraps the frame that fills the bytes lent.
pub fn unwrap<S: Sum>(frame: &[u8]) -> Result<Unwrapped, Refusal> {
    let parts = Parts::of(frame).ok_or(Refusal::TooShort)?;
    if parts.first != STX {
        return Err(Refusal::NoStx);
    }
    if parts.protocol_version != VERSION || parts.message_version != VERSION {
        return Err(Refusal::Version);
    }
    let acknowledges = match parts.frame_type {
        DATA_MESSAGE => false,
        ACKNOWLEDGMENT => true,
        _ => return Err(Refusal::Type),
    };
    if parts.data_length as usize != parts.body.len() || acknowledges && parts.body.len() != ACKNOWLEDGED {
        return Err(Refusal::Length);
    }
    if parts.last != ETX {
        return Err(Refusal::NoEtx);
    }
    let body = if acknowledges { acknowledged(parts.body) } else { message::<S>(parts.body)? };
    Ok(Unwrapped { commid: parts.commid, body })
}

fn acknowledged(body: &[u8]) -> Body {
    Body::Acknowledged(body.iter().fold(0, |commid, &byte| commid << 8 | u32::from(byte)))
}

fn message<S: Sum>(body: &[u8]) -> Result<Body, Refusal> {
    let fields = envelope::read::<S>(body).map_err(Refusal::Message)?;
    Ok(Body::Message { place: BODY..BODY + body.len(), fields })
}

/// Wraps a good message at the front of the buffer and gives the frame's length.
pub fn wrap<S: Sum>(message: &[u8], commid: u32, buffer: &mut [u8]) -> Result<usize, Refusal> {
    envelope::read::<S>(message).map_err(Refusal::Message)?;
    put(DATA_MESSAGE, commid, message, buffer)
}

/// Writes the acknowledgment of a COMMID at the front of the buffer and gives its length.
pub fn acknowledge(commid: u32, acknowledged: u32, buffer: &mut [u8]) -> Result<usize, Refusal> {
    put(ACKNOWLEDGMENT, commid, &acknowledged.to_be_bytes(), buffer)
}

/// Writes a frame of this type around this body.
fn put(frame_type: u8, commid: u32, body: &[u8], buffer: &mut [u8]) -> Result<usize, Refusal> {
    let data_length = u32::try_from(body.len()).map_err(|_| Refusal::TooLong)?;
    let length = SHORTEST + body.len();
    let room = buffer.get_mut(..length).ok_or(Refusal::NoRoom)?;
    let mut frame = Vec::with_capacity(length);
    frame.extend([STX, VERSION]);
    frame.extend(commid.to_be_bytes());
    frame.extend([frame_type, VERSION]);
    frame.extend(data_length.to_be_bytes());
    frame.extend(body);
    frame.push(ETX);
    room.copy_from_slice(&frame);
    Ok(length)
}

/// How many bytes at the front of a capture its first frame takes: as many as its header states, if they are there.
pub fn first(capture: &[u8]) -> usize {
    let stated = Parts::of(capture).map_or(usize::MAX, |parts| SHORTEST + parts.data_length as usize);
    stated.min(capture.len())
}
