//! Lines about Class D frames: good ones, one for each refusal, often with a later rule broken too, and captures.

use super::damage::{damaged, DAMAGES};
use super::sketch::Sketch;
use super::spelled::spelled;
use crate::crc::Division;
use crate::frame::{acknowledge, wrap, ACKNOWLEDGED, BODY, SHORTEST};
use crate::random::Random;

const ACKNOWLEDGMENT: usize = SHORTEST + ACKNOWLEDGED;
/// The most bytes of one line: however they are spelled, it does not get too long.
const MOST: usize = 1_200;

fn data_message(random: &mut Random) -> Vec<u8> {
    let message = Sketch::any(random).message();
    let mut frame = vec![0; SHORTEST + message.len()];
    wrap::<Division>(&message, random.number(), &mut frame).expect("a sketch as drawn can be wrapped");
    frame
}

fn acknowledgment(random: &mut Random) -> Vec<u8> {
    let mut frame = vec![0; ACKNOWLEDGMENT];
    acknowledge(random.number(), random.number(), &mut frame).expect("there is room for it");
    frame
}

fn good(random: &mut Random) -> Vec<u8> {
    if random.once_in(2) {
        data_message(random)
    } else {
        acknowledgment(random)
    }
}

/// The rules that a frame can break by itself, by their numbers.
const RULES: [(u8, &str); 6] = [
    (61, "cut below 13 bytes"),
    (62, "another first byte"),
    (63, "another version"),
    (64, "another type"),
    (65, "a length that does not fit"),
    (66, "another last byte"),
];

/// Makes a good frame break this rule; also one that breaks a later rule.
fn spoil(random: &mut Random, rule: u8, frame: &mut Vec<u8>) {
    let last = frame.len() - 1;
    let change = random.between(1, 255) as u8;
    match rule {
        61 => frame.truncate(random.up_to(SHORTEST - 1)),
        62 => frame[0] ^= change,
        63 => frame[random.pick(&[1, 7])] ^= change,
        64 => frame[6] = random.pick(&[0, 3, 4, 30, 31, 32, 40, 41, 255]),
        65 => spoil_length(random, frame),
        _ => frame[last] ^= change,
    }
}

/// States another length, puts a byte behind ETX, makes an acknowledgment one of five bytes, or takes some bytes out.
fn spoil_length(random: &mut Random, frame: &mut Vec<u8>) {
    match random.up_to(3) {
        0 => frame[random.between(8, BODY - 1)] ^= 1 << random.up_to(7),
        1 => frame.push(random.pick(&[0, 2, 3])),
        2 if frame.len() == ACKNOWLEDGMENT => {
            frame.insert(BODY, 0);
            frame[BODY - 1] += 1;
        }
        _ => drop(frame.drain(BODY..BODY + random.between(1, 4))),
    }
}

/// A frame that breaks this rule and often a later one; its name tells which.
fn broken(random: &mut Random, place: usize) -> (String, Vec<u8>) {
    let (rule, name) = RULES[place];
    let mut frame = good(random);
    let (later, other) = RULES[random.between(place, RULES.len() - 1)];
    // The later first, so that the earlier finds its place.
    if later == rule {
        spoil(random, rule, &mut frame);
        return (name.to_string(), frame);
    }
    spoil(random, later, &mut frame);
    spoil(random, rule, &mut frame);
    (format!("{name} and {other}"), frame)
}

pub fn unwraps(random: &mut Random) -> Vec<String> {
    let (data, acknowledgment) = (data_message(random), acknowledgment(random));
    let mut lines = vec![
        format!("unwrap a data message: {}", spelled(random, &data)),
        format!("unwrap an acknowledgment: {}", spelled(random, &acknowledgment)),
    ];
    for place in 0..RULES.len() {
        let (name, frame) = broken(random, place);
        lines.push(format!("unwrap {name}: {}", spelled(random, &frame)));
    }
    let damage = random.pick(&DAMAGES);
    let message = damaged(random, damage);
    let mut frame = data_message(random);
    frame.splice(BODY..frame.len() - 1, message.iter().copied());
    frame[8..BODY].copy_from_slice(&(message.len() as u32).to_be_bytes());
    lines.push(format!("unwrap a message with {}: {}", damage.name(), spelled(random, &frame)));
    lines
}

pub fn wraps(random: &mut Random) -> Vec<String> {
    let message = Sketch::any(random).message();
    let length = SHORTEST + message.len();
    let spare = random.between(1, 60);
    let (room, name) = random.pick(&[(length, "just enough room"), (length + spare, "more room than it takes")]);
    let any = random.between(1, length);
    let less = random.pick(&[1, any]);
    let damage = random.pick(&DAMAGES);
    let bad = damaged(random, damage);
    let (commid, words) = (random.number(), spelled(random, &message));
    vec![
        format!("wrap {name}: commid {commid} room {room} of {words}"),
        format!("wrap too little room by {less}: commid {commid} room {} of {words}", length - less),
        format!("wrap {}: commid {commid} room {} of {}", damage.name(), random.up_to(600), spelled(random, &bad)),
    ]
}

pub fn acknowledgments(random: &mut Random) -> Vec<String> {
    let (own, acknowledged) = (random.number(), random.number());
    let (more, less) = (random.up_to(9), random.between(1, ACKNOWLEDGMENT));
    let (room, short) = (ACKNOWLEDGMENT + more, ACKNOWLEDGMENT - random.pick(&[1, less]));
    vec![
        format!("acknowledge with {more} bytes to spare: commid {own} of {acknowledged} room {room}"),
        format!("acknowledge in too little room: commid {acknowledged} of {own} room {short}"),
    ]
}

/// A capture of a few frames: the first of them good, broken or cut.
pub fn captures(random: &mut Random) -> Vec<String> {
    let place = random.up_to(RULES.len() - 1);
    let (name, mut capture) = match random.up_to(2) {
        0 => ("a good frame".to_string(), good(random)),
        1 => broken(random, place),
        _ => {
            let mut frame = good(random);
            frame.truncate(random.up_to(frame.len() - 1));
            return vec![format!("first of a cut frame alone: {}", spelled(random, &frame))];
        }
    };
    for _ in 0..random.up_to(2) {
        let frame = good(random);
        if capture.len() + frame.len() <= MOST {
            capture.extend(frame);
        }
    }
    vec![format!("first of {name} and what follows: {}", spelled(random, &capture))]
}

#[cfg(test)]
mod tests {
    use super::*;
    use crate::frame::unwrap;

    #[test]
    fn each_broken_frame_is_refused_by_its_first_rule() {
        let mut random = Random::new(7);
        for (place, (rule, _)) in RULES.into_iter().enumerate() {
            for _ in 0..300 {
                let (name, frame) = broken(&mut random, place);
                let told = unwrap::<Division>(&frame).map_err(|refusal| refusal.numbers());
                assert_eq!(told, Err((rule, 0, 0)), "{name}: {frame:02x?}");
            }
        }
    }

    #[test]
    fn good_frames_are_unwrapped() {
        let mut random = Random::new(8);
        assert!((0..300).all(|_| unwrap::<Division>(&good(&mut random)).is_ok()));
    }
}
