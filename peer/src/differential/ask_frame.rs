//! What is asked of both sides about frames: unwrapping, wrapping, acknowledging, and the first frame of a capture.
//! Beside each answer, what must hold between answers: our reading of the message, and both round trips.

use super::lent::{array, hex, Lent};
use super::places;
use super::run::{Run, Shown};
use super::tally::{Operation, Outcome};
use crate::interface::{commid, Answer, ACKNOWLEDGMENT, COMMIDS, DATA_MESSAGE, FIELDS};
use crate::{mirror, ours};

/// The bytes of a frame around its body, those before it, and those of an acknowledgment.
pub const AROUND: usize = 13;
const BEFORE: usize = 12;
const ACKNOWLEDGMENT_SIZE: usize = 17;
/// From this length on a message is asked about with fewer rooms.
const LONG: usize = 60_000;

/// What unwrapping gave: the answer, both COMMIDs and the sixteen fields.
pub struct Unwrapped {
    pub answer: Answer,
    pub commids: [u32; COMMIDS],
    fields: [u64; FIELDS],
}

/// Everything about some bytes as a frame, which need not be one.
pub fn frame(run: &mut Run, frame: &[u8]) -> Unwrapped {
    let before = frame.to_vec();
    first(run, frame);
    let unwrapped = unwrap(run, frame);
    let own = unwrapped.commids[commid::OWN];
    match (unwrapped.answer.number, unwrapped.answer.count) {
        (0, DATA_MESSAGE) => {
            let message = carried(run, frame, &unwrapped);
            let again = wrap(run, message, own, frame.len());
            wrapped_again(run, frame, again);
        }
        (0, _) => {
            let again = acknowledge(run, own, unwrapped.commids[commid::ACKNOWLEDGED], frame.len());
            wrapped_again(run, frame, again);
        }
        _ => {}
    }
    run.holds("a frame lent to be read stays as it was", before == frame, &|| format!("frame {}", hex(frame)));
    unwrapped
}

fn wrapped_again(run: &Run, frame: &[u8], again: Option<Vec<u8>>) {
    let shown = || format!("frame {}", hex(frame));
    run.holds("unwrapped and wrapped is the same bytes", again.as_deref() == Some(frame), &shown);
}

/// Unwraps on both sides; the fields are lent beside the COMMIDs, and all of both is compared.
fn unwrap(run: &mut Run, frame: &[u8]) -> Unwrapped {
    let shown = || format!("frame {}", hex(frame));
    let before: Lent<u32> = Lent::new(COMMIDS);
    let (mut our_commids, mut peer_commids) = (before.clone(), before.clone());
    let (answer, fields) = run.beside(
        Operation::Unwrap,
        FIELDS,
        |fields| ours::unwrap(frame, array(our_commids.part()), array(fields)),
        |fields| mirror::unwrap(frame, array(peer_commids.part()), array(fields)),
        &shown,
    );
    if let Some(difference) = our_commids.first_difference(&peer_commids) {
        run.disagree("Unwrap, the COMMIDs afterwards", &difference, &shown);
    }
    run.holds("a refusal writes no COMMID", answer.number == 0 || our_commids == before, &shown);
    let untouched = fields == Lent::new(FIELDS);
    run.holds("an acknowledgment has no fields", answer.count != ACKNOWLEDGMENT || untouched, &shown);
    let passed_on = answer.number != 67 || places::passed_on(answer, &frame[BEFORE..frame.len() - 1]);
    run.holds("67 passes on what reading answers", passed_on, &shown);
    Unwrapped {
        answer,
        commids: our_commids.content().try_into().expect("two COMMIDs were lent"),
        fields: fields.content().try_into().expect("sixteen fields were lent"),
    }
}

/// The message of a data message: our reading of it gives the same fields.
fn carried<'a>(run: &Run, frame: &'a [u8], unwrapped: &Unwrapped) -> &'a [u8] {
    let shown = || format!("frame {}", hex(frame));
    let size = unwrapped.answer.value as usize;
    run.holds("a data message is its message and 13 bytes", frame.len() == size + AROUND, &shown);
    let message = &frame[BEFORE..BEFORE + size];
    let mut read = [0; FIELDS];
    let accepted = ours::read(message, &mut read) == Answer::default();
    run.holds("a frame gives the fields that reading gives", accepted && read == unwrapped.fields, &shown);
    run.holds("a data message acknowledges nothing", unwrapped.commids[commid::ACKNOWLEDGED] == 0, &shown);
    message
}

/// Everything about wrapping a message that our reading answers so; one that is refused is tried in one room, of any size.
pub fn message(run: &mut Run, message: &[u8], reading: Answer) {
    let commid = run.random.number();
    let exact = message.len() + AROUND;
    let larger = exact + run.random.between(1, 40);
    let rooms = [exact, exact - 1, 0, larger];
    let any = [run.random.pick(&rooms)];
    let tried = match (reading.number, message.len()) {
        (0, ..LONG) => &rooms,
        (0, _) => &rooms[..2],
        _ => any.as_slice(),
    };
    for &room in tried {
        in_room(run, message, reading, commid, room);
    }
}

/// Wraps a message in this room; where it is wrapped, the frame is unwrapped.
pub fn in_room(run: &mut Run, message: &[u8], reading: Answer, commid: u32, room: usize) {
    let shown = || format!("COMMID {commid}, room {room}, message {}", hex(message));
    let wrapped = wrap(run, message, commid, room);
    let exact = message.len() + AROUND;
    let expected = reading.number == 0 && room >= exact;
    run.holds("each good message is wrapped where there is room", wrapped.is_some() == expected, &shown);
    if let Some(frame) = wrapped.filter(|_| room == exact) {
        let unwrapped = unwrap(run, &frame);
        let same = unwrapped.answer.count == DATA_MESSAGE && unwrapped.commids == [commid, 0];
        run.holds("wrapped and unwrapped is the same COMMID", same, &shown);
        let found = carried(run, &frame, &unwrapped);
        run.holds("wrapped and unwrapped is the same message", found == message, &shown);
        let taken = first(run, &frame);
        run.holds("the first frame of one is all of it", taken == frame.len(), &shown);
    }
}

/// Wraps on both sides; the frame, unless it is refused, and then with the number and the place that reading gives.
fn wrap(run: &mut Run, message: &[u8], commid: u32, room: usize) -> Option<Vec<u8>> {
    let shown = || format!("COMMID {commid}, room {room}, message {}", hex(message));
    let (answer, buffer) = run.beside(
        Operation::Wrap,
        room,
        |buffer| ours::wrap(message, commid, buffer),
        |buffer| mirror::wrap(message, commid, buffer),
        &shown,
    );
    let refused = ours::read(message, &mut [0; FIELDS]).number != 0;
    let passed_on = !refused || places::passed_on(answer, message);
    run.holds("67 passes on what reading answers", (answer.number == 67) == refused && passed_on, &shown);
    written(run, answer, &buffer, message.len() + AROUND, &shown)
}

/// Everything about the acknowledgment of a COMMID.
pub fn acknowledgment(run: &mut Run, own: u32, acknowledged: u32) {
    let larger = ACKNOWLEDGMENT_SIZE + run.random.between(1, 40);
    for room in [ACKNOWLEDGMENT_SIZE, ACKNOWLEDGMENT_SIZE - 1, 0, larger] {
        acknowledged_in(run, own, acknowledged, room);
    }
}

/// Acknowledges in this room; what is written is unwrapped.
pub fn acknowledged_in(run: &mut Run, own: u32, acknowledged: u32, room: usize) {
    let shown = || format!("COMMID {own} acknowledges {acknowledged}, room {room}");
    let frame = acknowledge(run, own, acknowledged, room);
    let expected = room >= ACKNOWLEDGMENT_SIZE;
    run.holds("an acknowledgment is written where there is room", frame.is_some() == expected, &shown);
    if let Some(frame) = frame {
        let unwrapped = unwrap(run, &frame);
        let same = unwrapped.answer.count == ACKNOWLEDGMENT && unwrapped.commids == [own, acknowledged];
        run.holds("acknowledged and unwrapped is the same two COMMIDs", same, &shown);
    }
}

fn acknowledge(run: &mut Run, own: u32, acknowledged: u32, room: usize) -> Option<Vec<u8>> {
    let shown = || format!("COMMID {own} acknowledges {acknowledged}, room {room}");
    let (answer, buffer) = run.beside(
        Operation::Acknowledge,
        room,
        |buffer| ours::acknowledge(own, acknowledged, buffer),
        |buffer| mirror::acknowledge(own, acknowledged, buffer),
        &shown,
    );
    written(run, answer, &buffer, ACKNOWLEDGMENT_SIZE, &shown)
}

/// The frame that was written, which has this length; behind it the buffer is as it was.
fn written(run: &Run, answer: Answer, buffer: &Lent<u8>, length: usize, shown: Shown) -> Option<Vec<u8>> {
    if answer.number != 0 {
        return None;
    }
    run.holds("a frame has its body and 13 bytes", answer.value as usize == length, shown);
    let (frame, behind) = buffer.content().split_at(length);
    let before: Lent<u8> = Lent::new(buffer.content().len());
    run.holds("behind a frame the buffer is as it was", behind == &before.content()[length..], shown);
    Some(frame.to_vec())
}

/// How many bytes the first frame takes, on both sides.
fn first(run: &mut Run, capture: &[u8]) -> usize {
    let shown = || format!("capture {}", hex(capture));
    let taken = ours::frame_first(capture);
    run.equal(Operation::First, taken, mirror::frame_first(capture), &shown);
    let at_least_one = capture.is_empty() || taken > 0;
    run.holds("the first frame is of bytes that are there", at_least_one && taken <= capture.len(), &shown);
    let word = match (taken, taken == capture.len()) {
        (..AROUND, _) => "fewer than 13",
        (_, true) if is_not_as_stated(capture) => "shorter than stated",
        _ => "as stated",
    };
    run.tally.count(Operation::First, Outcome::Done(word));
    taken
}

/// Whether these bytes, 13 at least, are not as many as their data length states.
fn is_not_as_stated(frame: &[u8]) -> bool {
    let stated = frame[BEFORE - 4..BEFORE].iter().fold(0, |stated, &byte| stated << 8 | u64::from(byte));
    stated + AROUND as u64 != frame.len() as u64
}

/// A capture of these good frames with some bytes behind them: each is found, and then the rest until it is refused.
pub fn capture(run: &mut Run, frames: &[Vec<u8>], behind: &[u8]) {
    let capture = [&frames.concat(), behind].concat();
    let shown = || format!("{} frames in capture {}", frames.len(), hex(&capture));
    let mut rest = capture.as_slice();
    for good in frames {
        let (found, left) = rest.split_at(first(run, rest));
        run.holds("the first frame is cut where it ends", found == good, &shown);
        let unwrapped = frame(run, found);
        run.holds("a good frame of a capture is unwrapped", unwrapped.answer.number == 0, &shown);
        rest = left;
    }
    while !rest.is_empty() {
        let (found, left) = rest.split_at(first(run, rest));
        if frame(run, found).answer.number != 0 {
            break;
        }
        rest = left;
    }
}
