//! The peer behind the C interface: each function has the twin of the same name in ours.
//! Only the form of answers is settled here; the answers themselves are the peer's.

mod senders;

use crate::interface::{commid, feed_number, field, Answer, Order, Timing};
use crate::interface::{ACKNOWLEDGMENT, ASCENDS, BREAKS, BROKEN, DATA_MESSAGE, KEPT, NOT_JUDGED};
use crate::interface::{AHEAD, BEHIND, FEED_INSIDE, FEED_WHOLE, IN_TIME, LATE, NEXT, NO_CLOCK, REPEAT};
use crate::interface::{COMMIDS, FEED_NUMBERS, FEED_ROOM, FIELDS, LINE, PART, QOS_PARTS, RULES};
use peer::crc::{Division, Sum};
use peer::envelope::{self, Draft, Fields, Integrity, Kind, Lateness, Qos, Sequence, Service};
use peer::feed::{self, Feed, Standing, Taken};
use peer::frame::{self, Body, Unwrapped};
use peer::golden::{self, Ascent, Bad, Refusal, Search, Step};
use peer::judge::{self, Verdict};
pub use senders::{sender_ack, sender_nak, sender_start, sender_submit, sender_time_out};
pub use senders::{sender_flight, sender_waiting};

/// A refusal that has no place.
fn refused(number: u8) -> Answer {
    Answer { number, ..Answer::default() }
}

/// A refusal with its place in the message.
fn refused_at((number, place): (u8, usize)) -> Answer {
    Answer { number, value: place as u32, ..Answer::default() }
}

/// A refusal with the number and the place of reading, where it passes one on.
fn passed_on((number, reading, place): (u8, u8, usize)) -> Answer {
    Answer { number, reading, value: place as u32, ..Answer::default() }
}

fn done_with(value: usize) -> Answer {
    Answer { value: value as u32, ..Answer::default() }
}

fn counted(count: usize) -> Answer {
    Answer { count: count as u16, ..Answer::default() }
}

/// What is done about a record, retired or live.
fn done_of(retired: bool) -> Answer {
    Answer { reading: retired.into(), ..Answer::default() }
}

fn golden_refused(refusal: Refusal) -> Answer {
    passed_on(refusal.numbers())
}

pub fn crc(bytes: &[u8]) -> u32 {
    Division::of(bytes)
}

pub fn read(message: &[u8], fields: &mut [u64; FIELDS]) -> Answer {
    match envelope::read::<Division>(message) {
        Ok(read) => {
            *fields = numbered(&read);
            Answer::default()
        }
        Err(unread) => refused_at(unread.numbers()),
    }
}

fn numbered(read: &Fields) -> [u64; FIELDS] {
    let mut fields = [0; FIELDS];
    fields[field::TYPE] = read.message_type.into();
    fields[field::VERSION] = read.message_version.into();
    fields[field::FLAGS] = read.flags.into();
    fields[field::NUMBER] = read.number.into();
    fields[field::TIME] = read.time.into();
    if let Some(addressing) = &read.addressing {
        fields[field::ADDRESSED] = 1;
        fields[field::TTL] = addressing.ttl.into();
        fields[field::QOS] = addressing.qos.into();
        fields[field::SOURCE_PLACE] = addressing.source.start as u64;
        fields[field::SOURCE_SIZE] = addressing.source.len() as u64;
        fields[field::DESTINATION_PLACE] = addressing.destination.start as u64;
        fields[field::DESTINATION_SIZE] = addressing.destination.len() as u64;
    }
    fields[field::BODY_PLACE] = read.body.start as u64;
    fields[field::BODY_SIZE] = read.body.len() as u64;
    let (kind, number) = match read.integrity {
        Integrity::None => (Kind::None, 0),
        Integrity::Crc(number) => (Kind::Crc, number),
        Integrity::Application(number) => (Kind::Application, number),
    };
    fields[field::KIND] = kind as u64;
    fields[field::INTEGRITY] = number.into();
    fields
}

pub fn write(order: &Order, buffer: &mut [u8]) -> Answer {
    let draft = Draft {
        message_type: order.message_type,
        message_version: order.version,
        flags: order.flags,
        number: order.number,
        time: order.time,
        service: (order.addressed != 0).then_some(Service { ttl: order.ttl, qos: order.qos }),
        source: &order.source,
        destination: &order.destination,
        body: &order.body,
        integrity: order.integrity,
    };
    envelope::write::<Division>(&draft, buffer).map_or_else(|unwritten| refused(unwritten as u8), done_with)
}

pub fn rewrite(message: &[u8], buffer: &mut [u8]) -> Answer {
    match envelope::read::<Division>(message) {
        Ok(fields) => envelope::write::<Division>(&envelope::draft_of(&fields, message), buffer)
            .map_or_else(|unwritten| refused(unwritten as u8), done_with),
        Err(unread) => refused_at(unread.numbers()),
    }
}

pub fn qos_split(qos: u16, parts: &mut [u8; QOS_PARTS]) {
    let Qos { service_request, special_handling, network_preference, priority, class } = Qos::split(qos);
    *parts = [service_request, special_handling, network_preference, priority, class];
}

pub fn qos_join(parts: [u8; QOS_PARTS]) -> Answer {
    let [service_request, special_handling, network_preference, priority, class] = parts;
    let qos = Qos { service_request, special_handling, network_preference, priority, class };
    qos.join().map_or(refused(41), |field| done_with(field.into()))
}

pub fn lateness(timing: Timing) -> u8 {
    let ttl = (timing.addressed != 0).then_some(timing.ttl);
    match envelope::lateness(ttl, timing.entry, timing.clock) {
        Lateness::InTime => IN_TIME,
        Lateness::Late => LATE,
        Lateness::NoClock => NO_CLOCK,
    }
}

pub fn distance(old: u32, new: u32) -> i64 {
    envelope::distance(old, new)
}

pub fn sequence(old: u32, new: u32) -> Answer {
    let (count, value) = match envelope::sequence(old, new) {
        Sequence::Repeat => (REPEAT, 0),
        Sequence::Next => (NEXT, 1),
        Sequence::Ahead(by) => (AHEAD, by),
        Sequence::Behind(by) => (BEHIND, by),
    };
    Answer { count, value, ..Answer::default() }
}

pub fn judge(bytes: &[u8], verdicts: &mut [u8; RULES]) -> Answer {
    judge_places(bytes, verdicts, &mut [0; RULES])
}

pub fn judge_places(bytes: &[u8], verdicts: &mut [u8; RULES], places: &mut [u64; RULES]) -> Answer {
    let judged = judge::judge(bytes);
    (*verdicts, *places) = (judged.map(verdict_number), judged.map(verdict_place));
    let (reading, place) = judge::lowest_broken(&judged).unwrap_or_default();
    Answer { reading, ..done_with(place) }
}

pub fn verdict_number(verdict: Verdict) -> u8 {
    match verdict {
        Verdict::Kept => KEPT,
        Verdict::Broken { .. } => BROKEN,
        Verdict::NotJudged => NOT_JUDGED,
    }
}

/// The place of a broken rule, and 0 for another.
pub fn verdict_place(verdict: Verdict) -> u64 {
    match verdict {
        Verdict::Broken { place } => place as u64,
        Verdict::Kept | Verdict::NotJudged => 0,
    }
}

pub fn records(file: &[u8]) -> Answer {
    golden::count(file).map_or_else(golden_refused, counted)
}

pub fn retired_records(file: &[u8]) -> Answer {
    golden::retired_records::<Division>(file).map_or_else(golden_refused, counted)
}

pub fn check(file: &[u8]) -> Answer {
    match golden::check::<Division>(file) {
        Ok(count) => counted(count),
        Err(bad) => bad_record(bad),
    }
}

/// A refusal with the record that it is about.
fn bad_record(bad: Bad) -> Answer {
    Answer { count: bad.record as u16, ..golden_refused(bad.refusal) }
}

pub fn find(file: &[u8], message_type: u16, number: u32) -> Answer {
    searched(golden::find::<Division>(file, message_type, number))
}

pub fn find_by_halving(file: &[u8], message_type: u16, number: u32) -> Answer {
    searched(golden::find_by_halving::<Division>(file, message_type, number))
}

fn searched(search: Search) -> Answer {
    Answer { count: search.opened as u16, ..search.answer.map_or_else(golden_refused, done_with) }
}

pub fn ascending(file: &[u8]) -> Answer {
    match golden::ascending::<Division>(file) {
        Ok(Ascent::Ascends) => Answer { value: ASCENDS, ..Answer::default() },
        Ok(Ascent::BreaksAt(record)) => Answer { value: BREAKS, ..counted(record) },
        Err(bad) => bad_record(bad),
    }
}

pub fn line(file: &[u8], record: usize, line: &mut [u64; LINE]) -> Answer {
    match golden::line::<Division>(file, record) {
        Ok(listed) => {
            *line = [listed.message_type.into(), listed.number.into(), listed.length as u64];
            done_of(listed.retired)
        }
        Err(refusal) => golden_refused(refusal),
    }
}

pub fn step(file: &[u8], record: usize, part: &mut [u64; PART]) -> Answer {
    let step = golden::step::<Division>(file, record);
    let answer = match &step {
        Step::Message { place, retired } => {
            *part = [place.start as u64, place.len() as u64];
            Answer { value: place.len() as u32, ..done_of(*retired) }
        }
        Step::Refused(refusal) => golden_refused(*refusal),
        Step::End => Answer::default(),
    };
    Answer { count: step.advance() as u16, ..answer }
}

pub fn compare(file: &[u8], record: usize, radio: &[u8], places: &mut [u32]) -> Answer {
    golden::compare::<Division>(file, record, radio, places).map_or_else(golden_refused, done_with)
}

pub fn make(message: &[u8], buffer: &mut [u8]) -> Answer {
    golden::make::<Division>(message, buffer).map_or_else(golden_refused, |()| Answer::default())
}

pub fn retire(file: &[u8], record: usize, buffer: &mut [u8]) -> Answer {
    golden::retire::<Division>(file, record, buffer).map_or_else(golden_refused, |()| Answer::default())
}

/// The feed that storage of any content is.
fn stored(kept: &[u8; FEED_ROOM], numbers: &[u64; FEED_NUMBERS]) -> Feed {
    let number = numbers[feed_number::STANDING];
    let count = usize::try_from(numbers[feed_number::COUNT]).unwrap_or(usize::MAX);
    let standing = match (number, feed::Refusal::standing(number, count)) {
        (FEED_INSIDE, _) => Standing::Inside,
        (_, Some(refusal)) => Standing::Refused(refusal),
        (_, None) => Standing::Whole,
    };
    Feed::resumed(*kept, count, standing)
}

fn feed_numbers(feed: &Feed) -> [u64; FEED_NUMBERS] {
    let standing = match feed.standing() {
        Standing::Inside => FEED_INSIDE,
        Standing::Whole => FEED_WHOLE,
        Standing::Refused(refusal) => refusal.numbers().0.into(),
    };
    [feed.count() as u64, standing]
}

pub fn feed_take(
    kept: &mut [u8; FEED_ROOM],
    numbers: &mut [u64; FEED_NUMBERS],
    piece: &[u8],
    fields: &mut [u64; FIELDS],
) -> Answer {
    let mut feed = stored(kept, numbers);
    let Taken { used, found } = feed.take::<Division>(piece);
    // Where no byte was used, storage keeps its count, however odd; of whole there is one number that a call leaves.
    if used > 0 {
        (*kept, *numbers) = (*feed.kept(), feed_numbers(&feed));
    } else {
        numbers[feed_number::STANDING] = feed_numbers(&feed)[feed_number::STANDING];
    }
    let answer = match found {
        Ok(None) => Answer::default(),
        Ok(Some(read)) => {
            *fields = numbered(&read);
            done_with(feed.count())
        }
        Err(refusal) => refused_at(refusal.numbers()),
    };
    Answer { count: used as u16, ..answer }
}

pub fn feed_end(numbers: &mut [u64; FEED_NUMBERS]) -> Answer {
    let mut feed = stored(&[0; FEED_ROOM], numbers);
    let answer = feed.end().map_or_else(|refusal| refused_at(refusal.numbers()), |()| Answer::default());
    numbers[feed_number::STANDING] = feed_numbers(&feed)[feed_number::STANDING];
    answer
}

pub fn feed_restart(kept: &mut [u8; FEED_ROOM], numbers: &mut [u64; FEED_NUMBERS]) {
    let mut feed = stored(kept, numbers);
    feed.restart();
    (*kept, *numbers) = (*feed.kept(), feed_numbers(&feed));
}

pub fn feed_message(kept: &[u8; FEED_ROOM], numbers: &[u64; FEED_NUMBERS]) -> Answer {
    done_with(stored(kept, numbers).message().map_or(0, <[u8]>::len))
}

fn frame_refused(refusal: frame::Refusal) -> Answer {
    passed_on(refusal.numbers())
}

pub fn unwrap(frame: &[u8], commids: &mut [u32; COMMIDS], fields: &mut [u64; FIELDS]) -> Answer {
    let Unwrapped { commid, body } = match frame::unwrap::<Division>(frame) {
        Ok(unwrapped) => unwrapped,
        Err(refusal) => return frame_refused(refusal),
    };
    commids[commid::OWN] = commid;
    match body {
        Body::Message { place, fields: read } => {
            commids[commid::ACKNOWLEDGED] = 0;
            *fields = numbered(&read);
            Answer { count: DATA_MESSAGE, ..done_with(place.len()) }
        }
        Body::Acknowledged(acknowledged) => {
            commids[commid::ACKNOWLEDGED] = acknowledged;
            Answer { count: ACKNOWLEDGMENT, ..Answer::default() }
        }
    }
}

pub fn wrap(message: &[u8], commid: u32, buffer: &mut [u8]) -> Answer {
    frame::wrap::<Division>(message, commid, buffer).map_or_else(frame_refused, done_with)
}

pub fn acknowledge(commid: u32, acknowledged: u32, buffer: &mut [u8]) -> Answer {
    frame::acknowledge(commid, acknowledged, buffer).map_or_else(frame_refused, done_with)
}

pub fn frame_first(capture: &[u8]) -> usize {
    frame::first(capture)
}
