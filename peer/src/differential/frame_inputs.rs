//! Inputs for frames: good ones, damage to each part of one, and bytes of which some are right.

use super::ask_frame::AROUND;
use super::inputs::{self, near};
use crate::mirror;
use peer::random::Random;

// Where the parts of a frame stand; the COMMID and the data length have four bytes each.
const STX: usize = 0;
const PROTOCOL_VERSION: usize = 1;
const TYPE: usize = 6;
const MESSAGE_VERSION: usize = 7;
const DATA_LENGTH: usize = 8;
pub const BODY: usize = 12;

/// A data message around this body, whatever it is.
pub fn around(commid: u32, body: &[u8]) -> Vec<u8> {
    let mut frame = vec![2, 2];
    frame.extend(commid.to_be_bytes());
    frame.extend([1, 2]);
    frame.extend((body.len() as u32).to_be_bytes());
    frame.extend(body);
    frame.push(3);
    frame
}

pub fn acknowledgment(random: &mut Random) -> Vec<u8> {
    let mut frame = vec![0; AROUND + 4];
    mirror::acknowledge(random.number(), random.number(), &mut frame);
    frame
}

/// A good frame, more often a data message.
pub fn good(random: &mut Random) -> Vec<u8> {
    if random.once_in(3) {
        return acknowledgment(random);
    }
    let longest = random.pick(&[21, 27, 60, 160, 600]);
    let message = inputs::message(random, longest);
    around(random.number(), &message)
}

/// A frame damaged in one to three parts; every fourth is good but for its message.
pub fn damaged(random: &mut Random) -> Vec<u8> {
    if random.once_in(4) {
        let longest = random.pick(&[21, 60, 160]);
        let message = inputs::message(random, longest);
        return around(random.number(), &inputs::damaged(random, message));
    }
    let mut frame = good(random);
    for _ in 0..random.between(1, 3) {
        damage(random, &mut frame);
    }
    frame
}

fn damage(random: &mut Random, frame: &mut Vec<u8>) {
    if frame.len() < AROUND {
        return frame.push(random.byte());
    }
    let last = frame.len() - 1;
    match random.up_to(11) {
        0 => frame[STX] = near(random, frame[STX]),
        1 => frame[PROTOCOL_VERSION] = near(random, frame[PROTOCOL_VERSION]),
        2 => frame[MESSAGE_VERSION] = near(random, frame[MESSAGE_VERSION]),
        3 => frame[TYPE] = random.pick(&[0, 1, 2, 3, 4, 30, 40, 255]),
        4 => state(random, frame),
        5 => frame[last] = near(random, frame[last]),
        6 => frame[random.up_to(BODY - 1)] ^= 1 << random.up_to(7),
        7 => frame[random.up_to(last)] = random.byte(),
        8 => frame.truncate(random.up_to(last)),
        9 => frame.push(random.pick(&[0, 2, 3])),
        10 => {
            let more = random.between(1, 20);
            frame.extend(random.bytes(more));
        }
        _ => resize_body(random, frame),
    }
}

/// States another data length: one about the right one, the right one with its bytes turned round, or a very large one.
fn state(random: &mut Random, frame: &mut [u8]) {
    let right = (frame.len() - AROUND) as u32;
    let about = right.wrapping_add(random.up_to(2 * AROUND + 2) as u32).wrapping_sub(AROUND as u32 + 1);
    let large = random.pick(&[u32::MAX, 0xFFFF_FFF3, 0x7FFF_FFFF, 0x8000_0000, 1 << 24, 1 << 16, 1 << 8]);
    let stated = random.pick(&[about, about, right.swap_bytes(), large, right.wrapping_add(large), 4]);
    frame[DATA_LENGTH..BODY].copy_from_slice(&stated.to_be_bytes());
}

/// Puts bytes into the body or takes some out, and states the length that it then has.
fn resize_body(random: &mut Random, frame: &mut Vec<u8>) {
    let size = frame.len() - AROUND;
    let place = BODY + random.up_to(size);
    if random.once_in(2) {
        frame.insert(place, random.pick(&[0, 2, 3]));
    } else if size > 0 {
        frame.remove(BODY);
    }
    let size = (frame.len() - AROUND) as u32;
    frame[DATA_LENGTH..BODY].copy_from_slice(&size.to_be_bytes());
}

/// Bytes drawn at random, some of the rules kept: the first so many of them, or each by chance.
pub fn any(random: &mut Random) -> Vec<u8> {
    let size = random.pick(&[0, 5, 12, 13, 14, 17, 18, 34, 60]);
    let length = if random.once_in(2) { size } else { random.up_to(60) };
    let mut frame = random.bytes(length);
    if length < AROUND {
        return frame;
    }
    let kept = random.up_to(5);
    let mut keeps = |rule: usize| rule <= kept || random.once_in(3);
    let stated = ((length - AROUND) as u32).to_be_bytes();
    let right: [(usize, usize, &[u8]); 6] = [
        (1, STX, &[2]),
        (2, PROTOCOL_VERSION, &[2]),
        (2, MESSAGE_VERSION, &[2]),
        (3, TYPE, if length == AROUND + 4 { &[2] } else { &[1] }),
        (4, DATA_LENGTH, &stated),
        (5, length - 1, &[3]),
    ];
    for (rule, place, bytes) in right {
        if keeps(rule) {
            frame[place..place + bytes.len()].copy_from_slice(bytes);
        }
    }
    frame
}

/// What may stand behind the good frames of a capture.
pub fn behind(random: &mut Random) -> Vec<u8> {
    match random.up_to(3) {
        0 => Vec::new(),
        1 => damaged(random),
        2 => {
            let mut frame = good(random);
            frame.truncate(random.between(1, frame.len() - 1));
            frame
        }
        _ => any(random),
    }
}
