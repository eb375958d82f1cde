//! The sentences of change request K13: no accepted message is a proper beginning of another, since each states its full
//! length in its first 17 bytes. So a comparison, which has accepted both, needs no refusal for it.

use super::*;
use crate::cases::{self, record_of};
use crate::crc::Division;
use crate::draw::sketch::{seal, Sketch};
use crate::envelope::{heading, read, COMMON, SHORTEST};
use crate::random::Random;

const DRAWN: usize = 500;
const UNTOUCHED: u32 = 99;

/// The lettered messages that are accepted, and some hundreds that are drawn.
fn accepted(random: &mut Random) -> Vec<Vec<u8>> {
    let lettered = cases::messages().into_iter().filter(|case| case.answer == 0).map(|case| case.message);
    let messages: Vec<Vec<u8>> = lettered.chain((0..DRAWN).map(|_| Sketch::any(random).message())).collect();
    assert!(messages.iter().all(|message| read::<Division>(message).is_ok()));
    messages
}

/// What 32 was given for.
fn one_begins_the_other(left: &[u8], right: &[u8]) -> bool {
    left.len() != right.len() && (left.starts_with(right) || right.starts_with(left))
}

/// Why a message cut to this length is refused; its header is as good as before.
fn cut_short(length: usize) -> Unread {
    if length < SHORTEST {
        Unread::TooShort { place: length }
    } else {
        Unread::Length
    }
}

/// A message with one byte behind it, with some, and with all of another.
fn extended(random: &mut Random, message: &[u8], other: &[u8]) -> [Vec<u8>; 5] {
    let size = random.between(2, 600);
    let behind = [vec![0], random.bytes(1), vec![0; 4], random.bytes(size), other.to_vec()];
    behind.map(|behind| [message, &behind].concat())
}

#[test]
fn an_accepted_message_has_the_length_that_its_first_17_bytes_state() {
    for message in accepted(&mut Random::new(32)) {
        let head = message.first_chunk().expect("an accepted message has its first 17 bytes");
        assert_eq!(heading(head).map(|heading| heading.announced), Ok(message.len()), "{message:02x?}");
    }
}

#[test]
fn every_proper_beginning_of_an_accepted_message_is_refused() {
    for message in accepted(&mut Random::new(33)) {
        for length in 0..message.len() {
            assert_eq!(read::<Division>(&message[..length]), Err(cut_short(length)), "{length} of {message:02x?}");
        }
    }
}

#[test]
fn an_accepted_message_with_bytes_behind_it_is_refused() {
    let mut random = Random::new(34);
    let messages = accepted(&mut random);
    for message in &messages {
        let other = &messages[random.up_to(messages.len() - 1)];
        for longer in extended(&mut random, message, other) {
            assert_eq!(read::<Division>(&longer), Err(Unread::Length), "{message:02x?}, then {other:02x?}");
        }
    }
}

/// Each beginning goes on as another message does, with its sum set right: what is accepted so and has another length
/// has left the first message within 17 bytes.
#[test]
fn a_beginning_that_goes_on_otherwise_begins_no_message_of_another_length() {
    let mut random = Random::new(35);
    let messages = accepted(&mut random);
    let (mut same_length, mut other_length) = (0, 0);
    for message in &messages {
        let other = &messages[random.up_to(messages.len() - 1)];
        for kept in 0..=message.len() {
            let mut mixed = [&message[..kept], other.get(kept..).unwrap_or_default()].concat();
            seal(&mut mixed);
            if read::<Division>(&mixed).is_err() {
                continue;
            }
            assert!(!one_begins_the_other(message, &mixed), "{message:02x?} and {mixed:02x?}");
            if mixed.len() == message.len() {
                same_length += 1;
            } else {
                assert_ne!(message[..COMMON], mixed[..COMMON], "{message:02x?} and {mixed:02x?}");
                other_length += 1;
            }
        }
    }
    assert!(same_length > DRAWN && other_length > DRAWN, "{same_length} of the same length, {other_length} of another");
}

#[test]
fn accepted_messages_of_two_lengths_differ_in_the_sizes_that_they_state() {
    let messages = accepted(&mut Random::new(36));
    let sizes = |message: &[u8]| [message[5], message[6], message[7], message[16]];
    for (at, left) in messages.iter().enumerate() {
        for right in &messages[..at] {
            assert!(!one_begins_the_other(left, right), "{left:02x?} and {right:02x?}");
            assert!(left.len() == right.len() || sizes(left) != sizes(right), "{left:02x?} and {right:02x?}");
        }
    }
}

/// What goes on behind the shorter message is not all that differs.
#[test]
fn accepted_messages_are_always_compared() {
    let mut random = Random::new(37);
    let messages = accepted(&mut random);
    for golden in &messages {
        let file = record_of(golden);
        for _ in 0..20 {
            let radio = &messages[random.up_to(messages.len() - 1)];
            let total = compare::<Division>(&file, 0, radio, &mut []).expect("both are accepted");
            assert_eq!(total == 0, golden == radio, "{golden:02x?} and {radio:02x?}");
            let behind = golden.len().abs_diff(radio.len());
            assert!(behind == 0 || total > behind, "{golden:02x?} and {radio:02x?}");
        }
    }
}

#[test]
fn a_message_is_not_compared_with_its_own_beginning() {
    let mut random = Random::new(38);
    let mut list = [UNTOUCHED; 3];
    for golden in accepted(&mut random) {
        let file = record_of(&golden);
        for length in 0..golden.len() {
            let told = compare::<Division>(&file, 0, &golden[..length], &mut list);
            assert_eq!(told, Err(Refusal::Radio(cut_short(length))), "{length} of {golden:02x?}");
            let unstored = if length < SHORTEST { Refusal::StoredLength } else { Refusal::Record(Unread::Length) };
            let told = compare::<Division>(&record_of(&golden[..length]), 0, &golden, &mut list);
            assert_eq!(told, Err(unstored), "{length} of {golden:02x?} stored");
        }
        for longer in extended(&mut random, &golden, &golden) {
            let told = compare::<Division>(&file, 0, &longer, &mut list);
            assert_eq!(told, Err(Refusal::Radio(Unread::Length)), "{longer:02x?}");
        }
    }
    assert_eq!(list, [UNTOUCHED; 3]);
}
