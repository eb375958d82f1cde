//! The proved library through its C archive: one declaration and one safe function for each symbol.
//! Slices go in with their lengths, so what the C header asks of a caller always holds.

use crate::interface::{Answer, Order, Timing};
use crate::interface::{COMMIDS, FEED_NUMBERS, FEED_ROOM, FIELDS, LINE, PART, QOS_PARTS, RULES};
use crate::interface::{SENDER_NUMBERS, SENDER_PLACES};

extern "C" {
    fn morlewen_crc(bytes: *const u8, length: usize) -> u32;
    fn morlewen_read(bytes: *const u8, length: usize, fields: *mut u64) -> u64;
    fn morlewen_write(
        message_type: u16,
        version: u8,
        flags: u8,
        number: u32,
        time: u32,
        addressed: u8,
        ttl: u16,
        qos: u16,
        source: *const u8,
        source_length: usize,
        destination: *const u8,
        destination_length: usize,
        body: *const u8,
        body_length: usize,
        integrity: u32,
        buffer: *mut u8,
        room: usize,
    ) -> u64;
    fn morlewen_rewrite(bytes: *const u8, length: usize, buffer: *mut u8, room: usize) -> u64;
    fn morlewen_qos_split(qos: u16, parts: *mut u8);
    fn morlewen_qos_join(service: u8, handling: u8, network: u8, priority: u8, class: u8) -> u64;
    fn morlewen_lateness_from_entry(addressed: u8, ttl: u16, entry: u64, clock: u64) -> u8;
    fn morlewen_distance(old: u32, new: u32) -> i32;
    fn morlewen_sequence(old: u32, new: u32) -> u64;
    fn morlewen_judge(bytes: *const u8, length: usize, verdicts: *mut u8) -> u64;
    fn morlewen_judge_places(bytes: *const u8, length: usize, verdicts: *mut u8, places: *mut u64) -> u64;
    fn morlewen_records(file: *const u8, length: usize) -> u64;
    fn morlewen_retired_records(file: *const u8, length: usize) -> u64;
    fn morlewen_check(file: *const u8, length: usize) -> u64;
    fn morlewen_find(file: *const u8, length: usize, message_type: u16, number: u32) -> u64;
    fn morlewen_find_by_halving(file: *const u8, length: usize, message_type: u16, number: u32) -> u64;
    fn morlewen_ascending(file: *const u8, length: usize) -> u64;
    fn morlewen_line(file: *const u8, length: usize, record: usize, line: *mut u64) -> u64;
    fn morlewen_step(file: *const u8, length: usize, record: usize, part: *mut u64) -> u64;
    fn morlewen_compare(
        file: *const u8,
        length: usize,
        record: usize,
        radio: *const u8,
        radio_length: usize,
        places: *mut u32,
        room: usize,
    ) -> u64;
    fn morlewen_make(message: *const u8, length: usize, buffer: *mut u8, room: usize) -> u64;
    fn morlewen_retire(file: *const u8, length: usize, record: usize, buffer: *mut u8, room: usize) -> u64;
    fn morlewen_feed_take(kept: *mut u8, numbers: *mut u64, piece: *const u8, length: usize, fields: *mut u64) -> u64;
    fn morlewen_feed_end(numbers: *mut u64) -> u64;
    fn morlewen_feed_restart(kept: *mut u8, numbers: *mut u64);
    fn morlewen_feed_message(kept: *const u8, numbers: *const u64) -> u64;
    fn morlewen_unwrap(frame: *const u8, length: usize, commids: *mut u32, fields: *mut u64) -> u64;
    fn morlewen_wrap(message: *const u8, length: usize, commid: u32, buffer: *mut u8, room: usize) -> u64;
    fn morlewen_acknowledge(commid: u32, acknowledged: u32, buffer: *mut u8, room: usize) -> u64;
    fn morlewen_frame_first(capture: *const u8, length: usize) -> usize;
    fn morlewen_sender_start(numbers: *mut u64, resends: u64) -> u64;
    fn morlewen_sender_submit(waiting: *mut u32, numbers: *mut u64, commid: u32) -> u64;
    fn morlewen_sender_ack(waiting: *mut u32, numbers: *mut u64, commid: u32) -> u64;
    fn morlewen_sender_nak(waiting: *mut u32, numbers: *mut u64, commid: u32) -> u64;
    fn morlewen_sender_time_out(waiting: *mut u32, numbers: *mut u64, commid: u32) -> u64;
    fn morlewen_sender_waiting(waiting: *const u32, numbers: *const u64) -> u64;
    fn morlewen_sender_flight(numbers: *const u64) -> u64;
}

/// Takes an answer word apart.
pub fn unpack(word: u64) -> Answer {
    Answer { number: word as u8, reading: (word >> 8) as u8, count: (word >> 16) as u16, value: (word >> 32) as u32 }
}

pub fn crc(bytes: &[u8]) -> u32 {
    // SAFETY: the pointer and the length are of one slice.
    unsafe { morlewen_crc(bytes.as_ptr(), bytes.len()) }
}

pub fn read(message: &[u8], fields: &mut [u64; FIELDS]) -> Answer {
    // SAFETY: the slice is whole, and the array has the room that reading asks for.
    unpack(unsafe { morlewen_read(message.as_ptr(), message.len(), fields.as_mut_ptr()) })
}

pub fn write(order: &Order, buffer: &mut [u8]) -> Answer {
    // SAFETY: every pointer stands with the length of its own slice, and the buffer is borrowed alone.
    unpack(unsafe {
        morlewen_write(
            order.message_type,
            order.version,
            order.flags,
            order.number,
            order.time,
            order.addressed,
            order.ttl,
            order.qos,
            order.source.as_ptr(),
            order.source.len(),
            order.destination.as_ptr(),
            order.destination.len(),
            order.body.as_ptr(),
            order.body.len(),
            order.integrity,
            buffer.as_mut_ptr(),
            buffer.len(),
        )
    })
}

pub fn rewrite(message: &[u8], buffer: &mut [u8]) -> Answer {
    // SAFETY: each pointer stands with the length of its own slice.
    unpack(unsafe { morlewen_rewrite(message.as_ptr(), message.len(), buffer.as_mut_ptr(), buffer.len()) })
}

pub fn qos_split(qos: u16, parts: &mut [u8; QOS_PARTS]) {
    // SAFETY: the array has the five places.
    unsafe { morlewen_qos_split(qos, parts.as_mut_ptr()) }
}

pub fn qos_join(parts: [u8; QOS_PARTS]) -> Answer {
    let [service, handling, network, priority, class] = parts;
    // SAFETY: numbers only.
    unpack(unsafe { morlewen_qos_join(service, handling, network, priority, class) })
}

pub fn lateness(timing: Timing) -> u8 {
    // SAFETY: numbers only.
    unsafe { morlewen_lateness_from_entry(timing.addressed, timing.ttl, timing.entry, timing.clock) }
}

pub fn distance(old: u32, new: u32) -> i32 {
    // SAFETY: numbers only.
    unsafe { morlewen_distance(old, new) }
}

pub fn sequence(old: u32, new: u32) -> Answer {
    // SAFETY: numbers only.
    unpack(unsafe { morlewen_sequence(old, new) })
}

pub fn judge(bytes: &[u8], verdicts: &mut [u8; RULES]) -> Answer {
    // SAFETY: the slice is whole, and the array has a place for each rule.
    unpack(unsafe { morlewen_judge(bytes.as_ptr(), bytes.len(), verdicts.as_mut_ptr()) })
}

pub fn judge_places(bytes: &[u8], verdicts: &mut [u8; RULES], places: &mut [u64; RULES]) -> Answer {
    let (verdicts, places) = (verdicts.as_mut_ptr(), places.as_mut_ptr());
    // SAFETY: the slice is whole, and both arrays have a place for each rule.
    unpack(unsafe { morlewen_judge_places(bytes.as_ptr(), bytes.len(), verdicts, places) })
}

pub fn records(file: &[u8]) -> Answer {
    // SAFETY: the pointer and the length are of one slice.
    unpack(unsafe { morlewen_records(file.as_ptr(), file.len()) })
}

pub fn retired_records(file: &[u8]) -> Answer {
    // SAFETY: the pointer and the length are of one slice.
    unpack(unsafe { morlewen_retired_records(file.as_ptr(), file.len()) })
}

pub fn check(file: &[u8]) -> Answer {
    // SAFETY: the pointer and the length are of one slice.
    unpack(unsafe { morlewen_check(file.as_ptr(), file.len()) })
}

pub fn find(file: &[u8], message_type: u16, number: u32) -> Answer {
    // SAFETY: the pointer and the length are of one slice.
    unpack(unsafe { morlewen_find(file.as_ptr(), file.len(), message_type, number) })
}

pub fn find_by_halving(file: &[u8], message_type: u16, number: u32) -> Answer {
    // SAFETY: the pointer and the length are of one slice.
    unpack(unsafe { morlewen_find_by_halving(file.as_ptr(), file.len(), message_type, number) })
}

pub fn ascending(file: &[u8]) -> Answer {
    // SAFETY: the pointer and the length are of one slice.
    unpack(unsafe { morlewen_ascending(file.as_ptr(), file.len()) })
}

pub fn line(file: &[u8], record: usize, line: &mut [u64; LINE]) -> Answer {
    // SAFETY: the slice is whole, and the array has the three places.
    unpack(unsafe { morlewen_line(file.as_ptr(), file.len(), record, line.as_mut_ptr()) })
}

pub fn step(file: &[u8], record: usize, part: &mut [u64; PART]) -> Answer {
    // SAFETY: the slice is whole, and the array has the two places.
    unpack(unsafe { morlewen_step(file.as_ptr(), file.len(), record, part.as_mut_ptr()) })
}

pub fn compare(file: &[u8], record: usize, radio: &[u8], places: &mut [u32]) -> Answer {
    // SAFETY: each pointer stands with the length of its own slice.
    unpack(unsafe {
        morlewen_compare(
            file.as_ptr(),
            file.len(),
            record,
            radio.as_ptr(),
            radio.len(),
            places.as_mut_ptr(),
            places.len(),
        )
    })
}

pub fn make(message: &[u8], buffer: &mut [u8]) -> Answer {
    // SAFETY: each pointer stands with the length of its own slice.
    unpack(unsafe { morlewen_make(message.as_ptr(), message.len(), buffer.as_mut_ptr(), buffer.len()) })
}

pub fn retire(file: &[u8], record: usize, buffer: &mut [u8]) -> Answer {
    let (room, buffer) = (buffer.len(), buffer.as_mut_ptr());
    // SAFETY: each pointer stands with the length of its own slice, and the buffer is borrowed alone.
    unpack(unsafe { morlewen_retire(file.as_ptr(), file.len(), record, buffer, room) })
}

pub fn feed_take(
    kept: &mut [u8; FEED_ROOM],
    numbers: &mut [u64; FEED_NUMBERS],
    piece: &[u8],
    fields: &mut [u64; FIELDS],
) -> Answer {
    let (kept, numbers, fields) = (kept.as_mut_ptr(), numbers.as_mut_ptr(), fields.as_mut_ptr());
    // SAFETY: the piece is whole, and the three arrays have the room that a feed asks for.
    unpack(unsafe { morlewen_feed_take(kept, numbers, piece.as_ptr(), piece.len(), fields) })
}

pub fn feed_end(numbers: &mut [u64; FEED_NUMBERS]) -> Answer {
    // SAFETY: the array has the two places.
    unpack(unsafe { morlewen_feed_end(numbers.as_mut_ptr()) })
}

pub fn feed_restart(kept: &mut [u8; FEED_ROOM], numbers: &mut [u64; FEED_NUMBERS]) {
    // SAFETY: the arrays have the room that a feed asks for.
    unsafe { morlewen_feed_restart(kept.as_mut_ptr(), numbers.as_mut_ptr()) }
}

pub fn feed_message(kept: &[u8; FEED_ROOM], numbers: &[u64; FEED_NUMBERS]) -> Answer {
    // SAFETY: the arrays have the room that a feed asks for.
    unpack(unsafe { morlewen_feed_message(kept.as_ptr(), numbers.as_ptr()) })
}

pub fn unwrap(frame: &[u8], commids: &mut [u32; COMMIDS], fields: &mut [u64; FIELDS]) -> Answer {
    // SAFETY: the slice is whole, and the two arrays have the room that unwrapping asks for.
    unpack(unsafe { morlewen_unwrap(frame.as_ptr(), frame.len(), commids.as_mut_ptr(), fields.as_mut_ptr()) })
}

pub fn wrap(message: &[u8], commid: u32, buffer: &mut [u8]) -> Answer {
    // SAFETY: each pointer stands with the length of its own slice.
    unpack(unsafe { morlewen_wrap(message.as_ptr(), message.len(), commid, buffer.as_mut_ptr(), buffer.len()) })
}

pub fn acknowledge(commid: u32, acknowledged: u32, buffer: &mut [u8]) -> Answer {
    // SAFETY: the pointer and the length are of one slice.
    unpack(unsafe { morlewen_acknowledge(commid, acknowledged, buffer.as_mut_ptr(), buffer.len()) })
}

pub fn frame_first(capture: &[u8]) -> usize {
    // SAFETY: the pointer and the length are of one slice.
    unsafe { morlewen_frame_first(capture.as_ptr(), capture.len()) }
}

pub fn sender_start(numbers: &mut [u64; SENDER_NUMBERS], resends: u64) -> Answer {
    // SAFETY: the array has the four places.
    unpack(unsafe { morlewen_sender_start(numbers.as_mut_ptr(), resends) })
}

pub fn sender_submit(waiting: &mut [u32; SENDER_PLACES], numbers: &mut [u64; SENDER_NUMBERS], commid: u32) -> Answer {
    // SAFETY: the two arrays have the room that a sender asks for, and are borrowed alone.
    unpack(unsafe { morlewen_sender_submit(waiting.as_mut_ptr(), numbers.as_mut_ptr(), commid) })
}

pub fn sender_ack(waiting: &mut [u32; SENDER_PLACES], numbers: &mut [u64; SENDER_NUMBERS], commid: u32) -> Answer {
    // SAFETY: the two arrays have the room that a sender asks for, and are borrowed alone.
    unpack(unsafe { morlewen_sender_ack(waiting.as_mut_ptr(), numbers.as_mut_ptr(), commid) })
}

pub fn sender_nak(waiting: &mut [u32; SENDER_PLACES], numbers: &mut [u64; SENDER_NUMBERS], commid: u32) -> Answer {
    // SAFETY: the two arrays have the room that a sender asks for, and are borrowed alone.
    unpack(unsafe { morlewen_sender_nak(waiting.as_mut_ptr(), numbers.as_mut_ptr(), commid) })
}

pub fn sender_time_out(waiting: &mut [u32; SENDER_PLACES], numbers: &mut [u64; SENDER_NUMBERS], commid: u32) -> Answer {
    // SAFETY: the two arrays have the room that a sender asks for, and are borrowed alone.
    unpack(unsafe { morlewen_sender_time_out(waiting.as_mut_ptr(), numbers.as_mut_ptr(), commid) })
}

pub fn sender_waiting(waiting: &[u32; SENDER_PLACES], numbers: &[u64; SENDER_NUMBERS]) -> Answer {
    // SAFETY: the arrays have the room that a sender asks for.
    unpack(unsafe { morlewen_sender_waiting(waiting.as_ptr(), numbers.as_ptr()) })
}

pub fn sender_flight(numbers: &[u64; SENDER_NUMBERS]) -> Answer {
    // SAFETY: the array has the four places.
    unpack(unsafe { morlewen_sender_flight(numbers.as_ptr()) })
}
