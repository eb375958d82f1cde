//! The sentences of change request K12, and the frames that were unwrapped by hand.

use super::*;
use crate::cases::framed::{self, Told};
use crate::cases::{self, from_hex, shortest};
use crate::crc::Division;
use crate::random::Random;

const UNTOUCHED: u8 = 0xEE;

fn told(frame: &[u8]) -> Told {
    match unwrap::<Division>(frame) {
        Ok(Unwrapped { commid, body: Body::Message { .. } }) => Told::Data(commid),
        Ok(Unwrapped { commid, body: Body::Acknowledged(acknowledged) }) => Told::Acknowledgment(commid, acknowledged),
        Err(refusal) => {
            let (number, reading, place) = refusal.numbers();
            Told::Refused(number, reading, place)
        }
    }
}

fn refused(frame: &[u8]) -> Option<Refusal> {
    unwrap::<Division>(frame).err()
}

/// What wrapping answers, and the buffer after it.
fn wrapped(message: &[u8], commid: u32, room: usize) -> (Result<usize, Refusal>, Vec<u8>) {
    let mut buffer = vec![UNTOUCHED; room];
    (wrap::<Division>(message, commid, &mut buffer), buffer)
}

fn acknowledgment(commid: u32, acknowledged: u32, room: usize) -> (Result<usize, Refusal>, Vec<u8>) {
    let mut buffer = vec![UNTOUCHED; room];
    (acknowledge(commid, acknowledged, &mut buffer), buffer)
}

#[test]
fn each_frame_is_unwrapped_as_by_hand() {
    for case in framed::all() {
        assert_eq!(told(&case.bytes), case.told, "{}: {:02x?}", case.name, case.bytes);
    }
}

#[test]
fn a_message_keeps_its_places_and_its_frame_tells_where_it_is() {
    let frame = from_hex("02 02 00000007 01 02 00000017 04 1770 01 08 000002 00000001 00000000 00 0000 d9299f95 03");
    let body = unwrap::<Division>(&frame).unwrap().body;
    let Body::Message { place, fields } = body else { panic!("it is a data message") };
    assert_eq!((place, fields.body, fields.number), (12..35, 17..19, 1));
}

#[test]
fn every_first_byte_version_type_and_last_byte_is_judged() {
    for byte in 0..=u8::MAX {
        let with = |place: usize| {
            let mut frame = framed::acknowledged();
            frame[place] = byte;
            told(&frame)
        };
        let unless = |good: u8, number: u8| {
            if byte == good {
                Told::Acknowledgment(9, 7)
            } else {
                Told::Refused(number, 0, 0)
            }
        };
        assert_eq!(with(0), unless(2, 62), "first byte {byte}");
        assert_eq!(with(1), unless(2, 63), "protocol version {byte}");
        assert_eq!(with(7), unless(2, 63), "message version {byte}");
        assert_eq!(with(16), unless(3, 66), "last byte {byte}");
        let by_type = match byte {
            // Four bytes are no message.
            1 => Told::Refused(67, 1, 4),
            _ => unless(2, 64),
        };
        assert_eq!(with(6), by_type, "type {byte}");
    }
}

#[test]
fn a_frame_is_refused_at_every_shorter_length() {
    for frame in [framed::wrapped(), framed::acknowledged()] {
        for length in 0..frame.len() {
            let expected = if length < 13 { Refusal::TooShort } else { Refusal::Length };
            assert_eq!(refused(&frame[..length]), Some(expected), "{length} bytes");
        }
    }
}

#[test]
fn an_acknowledgment_has_a_body_of_four_bytes_alone() {
    for size in 0..=9 {
        let frame = [&from_hex("02 02 00000009 02 02 000000"), [size].as_slice(), &vec![0; size.into()], &[3]].concat();
        let expected = if size == 4 { Told::Acknowledgment(9, 0) } else { Told::Refused(65, 0, 0) };
        assert_eq!(told(&frame), expected, "{size} bytes");
    }
}

#[test]
fn every_other_data_length_is_refused() {
    for bit in 0..32 {
        for mut frame in [framed::wrapped(), framed::acknowledged()] {
            frame[8 + bit / 8] ^= 0x80 >> (bit % 8);
            assert_eq!(refused(&frame), Some(Refusal::Length), "bit {bit}");
        }
    }
}

#[test]
fn a_message_is_wrapped_as_by_hand() {
    let frame = framed::wrapped();
    assert_eq!(wrapped(&shortest(), 7, 34), (Ok(34), frame.clone()));
    assert_eq!(wrapped(&shortest(), 7, 36), (Ok(34), [frame, vec![UNTOUCHED; 2]].concat()));
    let last = from_hex("02 02 ffffffff 01 02 00000015 04 1770 01 00 000000 00000001 00000000 00 00000000 03");
    assert_eq!(wrapped(&shortest(), u32::MAX, 34), (Ok(34), last));
    let none = from_hex("02 02 00000000 01 02 00000015 04 1770 01 00 000000 00000001 00000000 00 00000000 03");
    assert_eq!(wrapped(&shortest(), 0, 34), (Ok(34), none));
}

#[test]
fn no_message_is_wrapped_without_room_for_its_frame() {
    for room in 0..34 {
        assert_eq!(wrapped(&shortest(), 7, room), (Err(Refusal::NoRoom), vec![UNTOUCHED; room]), "room {room}");
    }
}

/// 67 goes before 68, so a message that is refused is refused in any room.
#[test]
fn a_message_that_reading_refuses_is_not_wrapped() {
    for case in cases::messages().into_iter().filter(|case| case.answer != 0) {
        for room in [0, case.message.len() + 12, case.message.len() + 13, 600] {
            let (answer, buffer) = wrapped(&case.message, 7, room);
            let expected = Err((67, case.answer, case.place));
            assert_eq!(answer.map_err(Refusal::numbers), expected, "case {}, room {room}", case.name);
            assert_eq!(buffer, vec![UNTOUCHED; room], "case {}, room {room}", case.name);
        }
    }
}

#[test]
fn an_acknowledgment_is_written_as_by_hand() {
    assert_eq!(acknowledgment(9, 7, 17), (Ok(17), framed::acknowledged()));
    assert_eq!(acknowledgment(9, 7, 18), (Ok(17), [framed::acknowledged(), vec![UNTOUCHED]].concat()));
    let edges = from_hex("02 02 00000000 02 02 00000004 ffffffff 03");
    assert_eq!(acknowledgment(0, u32::MAX, 17), (Ok(17), edges));
    for room in 0..17 {
        assert_eq!(acknowledgment(9, 7, room), (Err(Refusal::NoRoom), vec![UNTOUCHED; room]), "room {room}");
    }
}

#[test]
fn what_is_wrapped_unwraps_as_the_same_message_and_commid() {
    let mut random = Random::new(12);
    for case in cases::messages().into_iter().filter(|case| case.answer == 0) {
        let commid = random.number();
        let (length, frame) = wrapped(&case.message, commid, case.message.len() + 13);
        assert_eq!(length, Ok(frame.len()), "case {}", case.name);
        let Unwrapped { commid: found, body: Body::Message { place, fields } } = unwrap::<Division>(&frame).unwrap()
        else {
            panic!("case {} is a data message", case.name)
        };
        assert_eq!((found, &frame[place]), (commid, case.message.as_slice()), "case {}", case.name);
        assert_eq!(Ok(fields), envelope::read::<Division>(&case.message), "case {}", case.name);
    }
}

#[test]
fn what_is_unwrapped_is_written_again_as_the_same_bytes() {
    for case in framed::all() {
        let again = match unwrap::<Division>(&case.bytes) {
            Ok(Unwrapped { commid, body: Body::Message { place, .. } }) => {
                wrapped(&case.bytes[place], commid, case.bytes.len())
            }
            Ok(Unwrapped { commid, body: Body::Acknowledged(acknowledged) }) => {
                acknowledgment(commid, acknowledged, 17)
            }
            Err(_) => continue,
        };
        assert_eq!(again, (Ok(case.bytes.len()), case.bytes.clone()), "{}", case.name);
    }
}

#[test]
fn the_first_frame_takes_what_its_header_states() {
    let (data, acknowledgment) = (framed::wrapped(), framed::acknowledged());
    assert_eq!(first(&data), 34);
    assert_eq!(first(&[data.as_slice(), &[2]].concat()), 34);
    assert_eq!(first(&[acknowledgment.as_slice(), &data].concat()), 17);
    assert_eq!(first(&from_hex("02 02 00000007 01 02 00000000 03")), 13);
    assert_eq!(first(&from_hex("02 02 00000007 01 02 00000000 03 02")), 13);
    // Nothing but the length is looked at.
    assert_eq!(first(&from_hex("ff ff ffffffff ff ff 00000002 ffffff ff")), 15);
    assert_eq!(first(&from_hex("00 00 00000000 00 00 00000000 00 00")), 13);
}

#[test]
fn a_cut_frame_takes_all_that_there_is() {
    let data = framed::wrapped();
    for length in 0..34 {
        assert_eq!(first(&data[..length]), length);
    }
    // These 12 bytes state a body of none, but a frame has 13.
    assert_eq!(first(&from_hex("02 02 00000007 01 02 00000000")), 12);
    assert_eq!(first(&from_hex("02 02 00000007 01 02 ffffffff 03 03")), 14);
    assert_eq!(first(&from_hex("02 02 00000007 01 02 00000100 03 03")), 14);
    // Lowest byte first, this would be one.
    assert_eq!(first(&from_hex("02 02 00000007 01 02 01000000 00 03 02 02")), 16);
}

/// The frames of a capture, each with what is told of it.
fn capture(mut rest: &[u8]) -> Vec<(usize, Told)> {
    let mut frames = Vec::new();
    while !rest.is_empty() {
        let (frame, behind) = rest.split_at(first(rest));
        frames.push((frame.len(), told(frame)));
        rest = behind;
    }
    frames
}

#[test]
fn a_capture_is_cut_frame_by_frame() {
    let frames = [framed::wrapped(), framed::acknowledged(), framed::wrapped()].concat();
    let (data, acknowledgment) = ((34, Told::Data(7)), (17, Told::Acknowledgment(9, 7)));
    assert_eq!(capture(&[]), []);
    assert_eq!(capture(&frames), [data, acknowledgment, data]);
    assert_eq!(capture(&frames[..84]), [data, acknowledgment, (33, Told::Refused(65, 0, 0))]);
    assert_eq!(capture(&frames[..63]), [data, acknowledgment, (12, Told::Refused(61, 0, 0))]);
    assert_eq!(capture(&frames[..52]), [data, acknowledgment, (1, Told::Refused(61, 0, 0))]);
    assert_eq!(capture(&frames[..51]), [data, acknowledgment]);
    // A test message between two frames is refused by itself; the next one is found behind it.
    let between = from_hex("02 02 00000008 1e 02 00000000 03");
    let three = [framed::wrapped(), between, framed::acknowledged()].concat();
    assert_eq!(capture(&three), [data, (13, Told::Refused(64, 0, 0)), acknowledgment]);
}
