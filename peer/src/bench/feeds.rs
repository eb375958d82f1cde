//! A stream through the feed, in pieces of one size.

use super::works::message;
use super::{repeated, Row, Side, Work};
use crate::interface::{FEED_NUMBERS, FEED_ROOM, FIELDS};
use crate::ours;
use peer::crc::Table;
use peer::feed::Feed;
use std::hint::black_box;

/// Bytes of a stream, at least: the largest piece is filled.
const LEAST: usize = 65_536;

/// Messages of one length, end to end.
pub fn stream(flags: u8, length: usize) -> Vec<u8> {
    (0..LEAST.div_ceil(length)).flat_map(|number| message(flags, length, number as u32)).collect()
}

pub fn feeding<'a>(kind: &str, stream: &'a [u8], length: usize, piece: usize) -> Row<'a> {
    let messages = stream.len() / length;
    assert_eq!(fed_to_ours(stream, piece), messages, "our feed finds other messages");
    assert_eq!(fed_to_the_peer(stream, piece), messages, "the peer's feed finds other messages");
    assert_eq!(read_by_ours(stream, length), messages, "reading refuses a message");
    let sides: Vec<(Side, Work)> = vec![
        (Side::Ours, repeated(move || fed_to_ours(black_box(stream), piece))),
        (Side::Table, repeated(move || fed_to_the_peer(black_box(stream), piece))),
        (Side::OurReading, repeated(move || read_by_ours(black_box(stream), length))),
    ];
    Row { name: format!("feeding messages of {length} bytes, {kind}, in pieces of {piece}"), sides }
}

/// How many messages our feed finds.
fn fed_to_ours(stream: &[u8], size: usize) -> usize {
    let (mut kept, mut numbers, mut fields) = ([0; FEED_ROOM], [0; FEED_NUMBERS], [0; FIELDS]);
    let mut found = 0;
    for mut piece in stream.chunks(size) {
        while !piece.is_empty() {
            let answer = ours::feed_take(&mut kept, &mut numbers, piece, &mut fields);
            piece = &piece[usize::from(answer.count)..];
            if answer.number == 0 && answer.value != 0 {
                black_box(&fields);
                found += 1;
            }
        }
    }
    found
}

fn fed_to_the_peer(stream: &[u8], size: usize) -> usize {
    let mut feed = Feed::default();
    let mut found = 0;
    for mut piece in stream.chunks(size) {
        while !piece.is_empty() {
            let taken = feed.take::<Table>(piece);
            piece = &piece[taken.used..];
            if let Ok(Some(fields)) = taken.found {
                black_box(fields);
                found += 1;
            }
        }
    }
    found
}

/// How many messages reading accepts, each of them whole.
fn read_by_ours(stream: &[u8], length: usize) -> usize {
    let mut fields = [0; FIELDS];
    let mut read = 0;
    for message in stream.chunks(length) {
        if ours::read(message, &mut fields).number == 0 {
            black_box(&fields);
            read += 1;
        }
    }
    read
}
