//! What is asked of both sides about envelopes: every operation that takes an input, with several rooms.
//! Beside each answer, what must hold between answers.

use super::ask_golden::find;
use super::lent::{array, hex};
use super::run::Run;
use super::tally::{Operation, Outcome};
use super::{ask_frame, ask_judge, inputs, places};
use crate::interface::{field, Answer, Order, Timing, FIELDS, QOS_PARTS};
use crate::interface::{IN_TIME, LATE};
use crate::{mirror, ours};
use peer::envelope::Kind;
use peer::golden::{LONGEST_MESSAGE, PREFIX, RECORD};

/// From this length on a message is asked about with fewer rooms.
const LONG: usize = 60_000;

pub fn sum(run: &mut Run, bytes: &[u8]) -> u32 {
    let sum = ours::crc(bytes);
    run.equal(Operation::Crc, sum, mirror::crc(bytes), &|| format!("bytes {}", hex(bytes)));
    run.tally.count(Operation::Crc, Outcome::Done("done"));
    sum
}

/// Everything about one message; gives the answer of reading.
pub fn message(run: &mut Run, message: &[u8]) -> Answer {
    let shown = || format!("message {}", hex(message));
    let before = message.to_vec();
    sum(run, message);
    let (answer, fields) = read(run, message);
    ask_judge::beside_reading(run, message, answer);
    ask_frame::message(run, message, answer);
    rewritten(run, message, answer);
    made(run, message, answer);
    if answer.number == 0 {
        written_from_fields(run, message, &fields);
        timed(run, &fields);
    }
    run.holds("a message lent to be read stays as it was", before == message, &shown);
    answer
}

pub fn read(run: &mut Run, message: &[u8]) -> (Answer, [u64; FIELDS]) {
    let shown = || format!("message {}", hex(message));
    let (answer, fields) = run.beside(
        Operation::Read,
        FIELDS,
        |fields| ours::read(message, array(fields)),
        |fields| mirror::read(message, array(fields)),
        &shown,
    );
    let place = places::of(answer.number, message.len());
    run.holds("a refusal of reading has the place of its number", answer.value as usize == place, &shown);
    (answer, fields.content().try_into().expect("sixteen fields were lent"))
}

fn rewritten(run: &mut Run, message: &[u8], reading: Answer) {
    let exact = message.len();
    let larger = exact + run.random.between(1, 40);
    let rooms = [exact, exact.saturating_sub(1), 0, larger];
    let tried = if reading.number != 0 || exact > LONG { 2 } else { rooms.len() };
    for &room in &rooms[..tried] {
        let shown = || format!("room {room}, message {}", hex(message));
        let (answer, buffer) = run.beside(
            Operation::Rewrite,
            room,
            |buffer| ours::rewrite(message, buffer),
            |buffer| mirror::rewrite(message, buffer),
            &shown,
        );
        if answer.number == 0 {
            run.holds("read and rewritten is the same bytes", buffer.content().starts_with(message), &shown);
        }
        run.holds("rewriting refuses as reading does", reading.number == 0 || answer == reading, &shown);
    }
}

/// Makes records of a message, with buffers right and wrong; a record made is found again in a file of one.
fn made(run: &mut Run, message: &[u8], reading: Answer) {
    let rooms = [RECORD, RECORD - 1, 0, RECORD + 1, 2 * RECORD];
    let tried = if reading.number == 0 { rooms.len() } else { 2 };
    for &room in &rooms[..tried] {
        let shown = || format!("room {room}, message {}", hex(message));
        let (answer, record) = run.beside(
            Operation::Make,
            room,
            |buffer| ours::make(message, buffer),
            |buffer| mirror::make(message, buffer),
            &shown,
        );
        let passed_on = answer.number != 34 || (answer.reading, answer.value) == (reading.number, reading.value);
        run.holds("34 passes on what reading answers", passed_on, &shown);
        let expected = message.len() <= LONGEST_MESSAGE && reading.number == 0 && room == RECORD;
        run.holds("a record is made of each good message that it can hold", (answer.number == 0) == expected, &shown);
        if answer.number == 0 {
            found_again(run, record.content(), message);
        }
    }
}

fn found_again(run: &mut Run, file: &[u8], message: &[u8]) {
    let shown = || format!("file {}", hex(file));
    let message_type = u16::from_be_bytes([message[1], message[2]]);
    let number = u32::from_be_bytes([message[8], message[9], message[10], message[11]]);
    let found = find(run, file, message_type, number);
    run.holds("a made record is found", found == Answer { count: 1, ..Answer::default() }, &shown);
    let stored = file.get(PREFIX..PREFIX + message.len());
    run.holds("a made record holds the message", stored == Some(message), &shown);
}

fn written_from_fields(run: &mut Run, message: &[u8], fields: &[u64; FIELDS]) {
    let part = |place: usize, size: usize| message[fields[place] as usize..][..fields[size] as usize].to_vec();
    let order = Order {
        message_type: fields[field::TYPE] as u16,
        version: fields[field::VERSION] as u8,
        flags: fields[field::FLAGS] as u8,
        number: fields[field::NUMBER] as u32,
        time: fields[field::TIME] as u32,
        addressed: fields[field::ADDRESSED] as u8,
        ttl: fields[field::TTL] as u16,
        qos: fields[field::QOS] as u16,
        source: part(field::SOURCE_PLACE, field::SOURCE_SIZE),
        destination: part(field::DESTINATION_PLACE, field::DESTINATION_SIZE),
        body: part(field::BODY_PLACE, field::BODY_SIZE),
        integrity: if fields[field::KIND] == Kind::Application as u64 { fields[field::INTEGRITY] as u32 } else { 0 },
    };
    let written = write(run, &order, message.len());
    let same = written.as_deref() == Some(message);
    run.holds("a message written from its fields is the same bytes", same, &|| format!("message {}", hex(message)));
}

/// Lateness by this message's TTL, with an entry and a clock that are drawn: its own time is not asked for.
fn timed(run: &mut Run, fields: &[u64; FIELDS]) {
    let (addressed, ttl) = (fields[field::ADDRESSED] as u8, fields[field::TTL] as u16);
    let entry = run.random.second();
    let clock = run.random.pick(&inputs::clocks(ttl, entry));
    lateness(run, Timing { addressed, ttl, entry, clock });
}

/// Everything about one order to a writer; what is written is read back.
pub fn order(run: &mut Run, order: &Order) {
    let exact = inputs::length(order);
    let larger = exact + run.random.between(1, 40);
    let rooms = [exact, exact - 1, 0, larger];
    let tried = if exact > LONG { 2 } else { rooms.len() };
    for &room in &rooms[..tried] {
        let Some(message) = write(run, order, room) else { continue };
        run.holds("a message has the length it was asked to have", message.len() == exact, &|| {
            shown_order(order, room)
        });
        if room == exact {
            read_back(run, order, &message);
        }
    }
}

/// Writes on both sides; the message, unless the order is refused.
fn write(run: &mut Run, order: &Order, room: usize) -> Option<Vec<u8>> {
    let (answer, buffer) = run.beside(
        Operation::Write,
        room,
        |buffer| ours::write(order, buffer),
        |buffer| mirror::write(order, buffer),
        &|| shown_order(order, room),
    );
    (answer.number == 0).then(|| buffer.content()[..answer.value as usize].to_vec())
}

fn shown_order(order: &Order, room: usize) -> String {
    let numbers = Order { source: Vec::new(), destination: Vec::new(), body: Vec::new(), ..order.clone() };
    let (source, destination, body) = (hex(&order.source), hex(&order.destination), hex(&order.body));
    format!("room {room}, {numbers:?}, source {source}, destination {destination}, body {body}")
}

fn read_back(run: &mut Run, order: &Order, message: &[u8]) {
    let (answer, fields) = read(run, message);
    let part = |place: usize, size: usize| &message[fields[place] as usize..][..fields[size] as usize];
    let addressed = order.addressed != 0;
    let same = answer.number == 0
        && fields[field::TYPE] == u64::from(order.message_type)
        && fields[field::VERSION] == u64::from(order.version)
        && fields[field::FLAGS] == u64::from(order.flags)
        && fields[field::NUMBER] == u64::from(order.number)
        && fields[field::TIME] == u64::from(order.time)
        && fields[field::ADDRESSED] == u64::from(addressed)
        && (!addressed || fields[field::TTL] == u64::from(order.ttl))
        && (!addressed || fields[field::QOS] == u64::from(order.qos))
        && part(field::SOURCE_PLACE, field::SOURCE_SIZE) == order.source
        && part(field::DESTINATION_PLACE, field::DESTINATION_SIZE) == order.destination
        && part(field::BODY_PLACE, field::BODY_SIZE) == order.body
        && fields[field::KIND] == u64::from(order.flags >> 3)
        && (fields[field::KIND] == Kind::Crc as u64 || fields[field::INTEGRITY] == u64::from(order.integrity));
    run.holds("a written message reads as it was ordered", same, &|| shown_order(order, message.len()));
}

pub fn qos_split(run: &mut Run, qos: u16) {
    let shown = || format!("QoS {qos}");
    let (_, parts) = run.beside(
        Operation::QosSplit,
        QOS_PARTS,
        |parts| {
            ours::qos_split(qos, array(parts));
            Answer::default()
        },
        |parts| {
            mirror::qos_split(qos, array(parts));
            Answer::default()
        },
        &shown,
    );
    let parts = parts.content().try_into().expect("five parts were lent");
    let joined = qos_join(run, parts);
    run.holds("a QoS field split and joined is the same", joined.value == u32::from(qos), &shown);
}

pub fn qos_join(run: &mut Run, parts: [u8; QOS_PARTS]) -> Answer {
    let shown = || format!("parts {parts:?}");
    run.plain(Operation::QosJoin, || ours::qos_join(parts), || mirror::qos_join(parts), &shown)
}

pub fn lateness(run: &mut Run, timing: Timing) {
    let late = ours::lateness(timing);
    run.equal(Operation::Lateness, late, mirror::lateness(timing), &|| format!("{timing:?}"));
    let word = match late {
        IN_TIME => "in time",
        LATE => "late",
        _ => "no clock",
    };
    run.tally.count(Operation::Lateness, Outcome::Done(word));
}

pub fn sequence(run: &mut Run, old: u32, new: u32) -> i32 {
    let shown = || format!("old {old}, new {new}");
    let distance = ours::distance(old, new);
    run.equal(Operation::Distance, distance.into(), mirror::distance(old, new), &shown);
    run.tally.count(Operation::Distance, Outcome::Done("done"));
    let words = run.plain(Operation::Sequence, || ours::sequence(old, new), || mirror::sequence(old, new), &shown);
    run.holds("a sequence in words has the distance's size", words.value == distance.unsigned_abs(), &shown);
    distance
}
