//! A good message wrapped and unwrapped, and by our reading beside them.

use super::{repeated, Row, Side, Work};
use crate::interface::{Answer, COMMIDS, FIELDS};
use crate::ours;
use peer::crc::Table;
use peer::frame;
use std::cell::RefCell;
use std::hint::black_box;

const COMMID: u32 = 7;
/// The bytes around a message in its frame, and those before it.
const AROUND: usize = 13;
const BEFORE: usize = 12;
/// Room for the longest frame that is measured.
const ROOM: usize = 600;

fn read_by_ours(message: &[u8]) -> (Answer, [u64; FIELDS]) {
    let mut fields = [0; FIELDS];
    let answer = ours::read(black_box(message), &mut fields);
    (answer, fields)
}

/// The frame of a message, which both sides must agree on.
pub fn framed(message: &[u8]) -> Vec<u8> {
    let (mut by_ours, mut by_the_peer) = ([0; ROOM], [0; ROOM]);
    let answer = ours::wrap(message, COMMID, &mut by_ours);
    let length = frame::wrap::<Table>(message, COMMID, &mut by_the_peer);
    assert_eq!((answer.number, answer.value as usize), (0, message.len() + AROUND), "the message is not wrapped");
    assert!(length == Ok(message.len() + AROUND) && by_ours == by_the_peer, "the peer wraps it otherwise");
    by_ours[..message.len() + AROUND].to_vec()
}

pub fn wrapping<'a>(kind: &str, message: &'a [u8]) -> Row<'a> {
    // Each side keeps its buffer from turn to turn, so that none pays for clearing it.
    let (our_buffer, peer_buffer) = (RefCell::new([0; ROOM]), RefCell::new([0; ROOM]));
    let wrapped_by_ours = move || ours::wrap(black_box(message), COMMID, &mut *black_box(our_buffer.borrow_mut()));
    let wrapped_by_the_peer =
        move || frame::wrap::<Table>(black_box(message), COMMID, &mut *black_box(peer_buffer.borrow_mut()));
    let sides: Vec<(Side, Work)> = vec![
        (Side::Ours, repeated(wrapped_by_ours)),
        (Side::Table, repeated(wrapped_by_the_peer)),
        (Side::OurReading, repeated(|| read_by_ours(message))),
    ];
    Row { name: format!("wrapping {} bytes, {kind}", message.len()), sides }
}

pub fn unwrapping<'a>(kind: &str, frame: &'a [u8]) -> Row<'a> {
    let message = &frame[BEFORE..frame.len() - 1];
    let unwrapped_by_ours = || {
        let (mut commids, mut fields) = ([0; COMMIDS], [0; FIELDS]);
        let answer = ours::unwrap(black_box(frame), &mut commids, &mut fields);
        (answer, commids, fields)
    };
    assert_eq!(unwrapped_by_ours().0.number, 0, "the frame is refused");
    assert_eq!(read_by_ours(message).1, unwrapped_by_ours().2, "reading gives other fields");
    let sides: Vec<(Side, Work)> = vec![
        (Side::Ours, repeated(unwrapped_by_ours)),
        (Side::Table, repeated(|| frame::unwrap::<Table>(black_box(frame)))),
        (Side::OurReading, repeated(|| read_by_ours(message))),
    ];
    Row { name: format!("unwrapping {} bytes, {kind}", message.len()), sides }
}
