//! The frames that every run has: those unwrapped by hand, every header byte, every cut, every room and every capture cut.
//! Where the answer can be told without unwrapping, it is.

use super::ask_frame::{self, AROUND};
use super::frame_inputs::{self, BODY};
use super::lent::hex;
use super::run::Run;
use super::{ask_envelope, inputs};
use crate::interface::{ACKNOWLEDGMENT, DATA_MESSAGE};
use peer::cases::framed::{self, Told};
use peer::cases::{self, from_hex};

pub fn short(run: &mut Run) {
    by_hand(run);
    every_byte(run);
    every_cut(run);
    every_length(run);
    every_room(run);
    every_set_of_faults(run);
    every_capture(run);
}

/// Asks about a frame of which this must be told.
fn told(run: &mut Run, frame: &[u8], expected: Told) {
    run.input();
    let unwrapped = ask_frame::frame(run, frame);
    let (answer, [own, acknowledged]) = (unwrapped.answer, unwrapped.commids);
    let told = match (answer.number, answer.count) {
        (0, DATA_MESSAGE) => Told::Data(own),
        (0, ACKNOWLEDGMENT) => Told::Acknowledgment(own, acknowledged),
        _ => Told::Refused(answer.number, answer.reading, answer.value as usize),
    };
    let shown = || format!("expected {expected:?}, told {told:?}, frame {}", hex(frame));
    run.holds("of a frame is told what must be", told == expected, &shown);
}

fn by_hand(run: &mut Run) {
    run.family("frames unwrapped by hand");
    for case in framed::all() {
        told(run, &case.bytes, case.told);
    }
}

/// A good data message and a good acknowledgment, with what is told of each.
fn good_frames() -> [(Vec<u8>, Told); 2] {
    [(framed::wrapped(), Told::Data(7)), (framed::acknowledged(), Told::Acknowledgment(9, 7))]
}

/// Every value of each byte around the body: the place alone decides, the COMMID apart.
fn every_byte(run: &mut Run) {
    run.family("every byte around a body");
    for (frame, whole) in good_frames() {
        let last = frame.len() - 1;
        for place in (0..BODY).chain([last]) {
            for byte in 0..=u8::MAX {
                let mut changed = frame.clone();
                changed[place] = byte;
                let expected = if changed == frame { whole } else { by_place(&frame, &changed, place) };
                told(run, &changed, expected);
            }
        }
    }
}

/// What is told of a good frame that is changed in this place.
fn by_place(frame: &[u8], changed: &[u8], place: usize) -> Told {
    let commid = u32::from_be_bytes([changed[2], changed[3], changed[4], changed[5]]);
    match place {
        0 => Told::Refused(62, 0, 0),
        1 | 7 => Told::Refused(63, 0, 0),
        2..=5 if frame[6] == 1 => Told::Data(commid),
        2..=5 => Told::Acknowledgment(commid, 7),
        6 => other_type(frame[6], changed[6]),
        8..BODY => Told::Refused(65, 0, 0),
        _ => Told::Refused(66, 0, 0),
    }
}

/// What is told of a good frame with another type: four bytes are no message, and a message is no acknowledgment.
fn other_type(right: u8, other: u8) -> Told {
    match (right, other) {
        (2, 1) => Told::Refused(67, 1, 4),
        (1, 2) => Told::Refused(65, 0, 0),
        _ => Told::Refused(64, 0, 0),
    }
}

/// Frames cut anywhere, and with up to 20 bytes behind them.
fn every_cut(run: &mut Run) {
    run.family("frames cut anywhere");
    let crc = inputs::shaped(&mut run.random, 60, 8, 12);
    let mut frames = good_frames().to_vec();
    frames.push((frame_inputs::around(u32::MAX, &crc), Told::Data(u32::MAX)));
    for (mut frame, whole) in frames {
        let right = frame.len();
        frame.extend([3; 10]);
        frame.extend(run.random.bytes(10));
        for length in 0..=frame.len() {
            let expected = match length {
                ..AROUND => Told::Refused(61, 0, 0),
                _ if length == right => whole,
                _ => Told::Refused(65, 0, 0),
            };
            told(run, &frame[..length], expected);
        }
    }
}

/// Bodies of up to 30 zero bytes, and each length that may be stated of them, in both types.
fn every_length(run: &mut Run) {
    run.family("every data length of short bodies");
    for size in 0..=30_u32 {
        let good = frame_inputs::around(5, &vec![0; size as usize]);
        for stated in (0..=45).chain([size.swap_bytes(), size << 8, u32::MAX, u32::MAX - 12, u32::MAX << 8 | size]) {
            for frame_type in [1, 2] {
                let mut frame = good.clone();
                frame[6] = frame_type;
                frame[8..BODY].copy_from_slice(&stated.to_be_bytes());
                let expected = match (frame_type, size) {
                    _ if stated != size => Told::Refused(65, 0, 0),
                    (2, 4) => Told::Acknowledgment(5, 0),
                    (2, _) => Told::Refused(65, 0, 0),
                    (_, ..21) => Told::Refused(67, 1, size as usize),
                    _ => Told::Refused(67, 2, 0),
                };
                told(run, &frame, expected);
            }
        }
    }
}

/// Each lettered message and each COMMID at an edge, in every room about what the frame takes.
fn every_room(run: &mut Run) {
    run.family("frames in every room");
    for (place, case) in cases::messages().into_iter().enumerate() {
        let (reading, _) = ask_envelope::read(run, &case.message);
        let commid = [0, 1, u32::MAX, 0x0102_0304, 1 << 31][place % 5];
        for room in 0..=case.message.len() + AROUND + 3 {
            run.input();
            ask_frame::in_room(run, &case.message, reading, commid, room);
        }
    }
    for own in [0, 1, 0x0102_0304, 1 << 31, u32::MAX] {
        for acknowledged in [0, 1, 0x0506_0708, 1 << 31, u32::MAX] {
            for room in 0..=20 {
                run.input();
                ask_frame::acknowledged_in(run, own, acknowledged, room);
            }
        }
    }
}

/// Every set of the rules 62 to 67 broken together: the lowest is told.
fn every_set_of_faults(run: &mut Run) {
    run.family("every set of broken rules of a frame");
    for set in 0..1_u8 << 6 {
        let has = |rule: u8| set >> (rule - 62) & 1 == 1;
        let expected = (62..=67).find(|&rule| has(rule));
        for _ in 0..40 {
            let frame = broken(run, has);
            let expected = match expected {
                None => Told::Data(7),
                // The field is the last four bytes of the body.
                Some(67) => Told::Refused(67, 7, frame.len() - AROUND - 4),
                Some(rule) => Told::Refused(rule, 0, 0),
            };
            told(run, &frame, expected);
        }
    }
}

/// A data message of COMMID 7 that breaks these rules and no other.
fn broken(run: &mut Run, has: impl Fn(u8) -> bool) -> Vec<u8> {
    let random = &mut run.random;
    let length = 21 + random.up_to(30);
    let mut message = inputs::shaped(random, length, 0, 0);
    if has(67) {
        message[length - 1 - random.up_to(3)] = random.between(1, 255) as u8;
    }
    let mut frame = frame_inputs::around(7, &message);
    let (version, length_byte) = (random.pick(&[1, 7]), random.between(8, BODY - 1));
    for (rule, place) in [(62, 0), (63, version), (65, length_byte), (66, frame.len() - 1)] {
        if has(rule) {
            frame[place] ^= random.between(1, 255) as u8;
        }
    }
    if has(64) {
        frame[6] = random.pick(&[0, 3, 4, 30, 31, 32, 40, 41, 128, 255]);
    }
    frame
}

/// A capture of four frames, cut anywhere, and with a frame of another type behind the whole.
fn every_capture(run: &mut Run) {
    run.family("captures cut anywhere");
    let crc = frame_inputs::around(8, &inputs::shaped(&mut run.random, 30, 8, 6));
    let frames = [framed::wrapped(), framed::acknowledged(), crc, framed::acknowledged()];
    let whole = frames.concat();
    for length in 0..=whole.len() {
        run.input();
        let ends: Vec<usize> = (1..=frames.len()).map(|count| frames[..count].concat().len()).collect();
        let count = ends.iter().filter(|&&end| end <= length).count();
        let end = frames[..count].concat().len();
        ask_frame::capture(run, &frames[..count], &whole[end..length]);
    }
    run.input();
    let behind = [from_hex("02 02 00000008 1e 02 00000000 03"), framed::wrapped()].concat();
    ask_frame::capture(run, &frames, &behind);
}
