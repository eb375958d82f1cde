//! The peer's sender in the storage of the C interface, and its answers as words.

use super::{counted, refused};
use crate::interface::{sender_number, Answer, SENDER_NUMBERS, SENDER_PLACES};
use crate::interface::{AGAIN, FAILED, FAILED_NEXT, SENT, SETTLED, SETTLED_NEXT, WAITS};
use peer::sender::{Done, Event, Flight, Sender};

type Places = [u32; SENDER_PLACES];
type Numbers = [u64; SENDER_NUMBERS];

/// The sender that storage of any content is: of each number the bits that count.
fn stored(waiting: &Places, numbers: &Numbers) -> Sender {
    let count = numbers[sender_number::WAITING].min(SENDER_PLACES as u64) as usize;
    Sender::resumed(numbers[sender_number::SET] as u8, &waiting[..count], flying(numbers))
}

/// The message that these numbers have in flight.
fn flying(numbers: &Numbers) -> Option<Flight> {
    let left = numbers[sender_number::LEFT].checked_sub(1)?;
    Some(Flight { commid: numbers[sender_number::COMMID] as u32, left: left as u8 })
}

fn numbers_of(sender: &Sender) -> Numbers {
    let mut numbers = [0; SENDER_NUMBERS];
    numbers[sender_number::SET] = sender.resends().into();
    numbers[sender_number::WAITING] = sender.waiting() as u64;
    if let Some(flight) = sender.flight() {
        numbers[sender_number::COMMID] = flight.commid.into();
        numbers[sender_number::LEFT] = u64::from(flight.left) + 1;
    }
    numbers
}

/// What was done; the value is the next message that goes out, if one does.
fn told(done: Done) -> Answer {
    let (count, next) = match done {
        Done::Sent => (SENT, None),
        Done::Waits => (WAITS, None),
        Done::Settled { next: None } => (SETTLED, None),
        Done::Settled { next } => (SETTLED_NEXT, next),
        Done::Again => (AGAIN, None),
        Done::Failed { next: None } => (FAILED, None),
        Done::Failed { next } => (FAILED_NEXT, next),
    };
    Answer { count, value: next.unwrap_or(0), ..Answer::default() }
}

pub fn sender_start(numbers: &mut Numbers, resends: u64) -> Answer {
    match Sender::start(resends) {
        Ok(sender) => {
            *numbers = numbers_of(&sender);
            Answer::default()
        }
        Err(refusal) => refused(refusal as u8),
    }
}

/// A refusal leaves the storage as it was, however odd.
fn event(waiting: &mut Places, numbers: &mut Numbers, event: Event) -> Answer {
    let mut sender = stored(waiting, numbers);
    match sender.event(event) {
        Ok(done) => {
            (*waiting, *numbers) = (sender.places(), numbers_of(&sender));
            told(done)
        }
        Err(refusal) => refused(refusal as u8),
    }
}

pub fn sender_submit(waiting: &mut Places, numbers: &mut Numbers, commid: u32) -> Answer {
    event(waiting, numbers, Event::Submit(commid))
}

pub fn sender_ack(waiting: &mut Places, numbers: &mut Numbers, commid: u32) -> Answer {
    event(waiting, numbers, Event::Ack(commid))
}

pub fn sender_nak(waiting: &mut Places, numbers: &mut Numbers, commid: u32) -> Answer {
    event(waiting, numbers, Event::Nak(commid))
}

pub fn sender_time_out(waiting: &mut Places, numbers: &mut Numbers, commid: u32) -> Answer {
    event(waiting, numbers, Event::TimeOut(commid))
}

pub fn sender_waiting(waiting: &Places, numbers: &Numbers) -> Answer {
    counted(stored(waiting, numbers).waiting())
}

pub fn sender_flight(numbers: &Numbers) -> Answer {
    flying(numbers)
        .map_or(Answer::default(), |flight| Answer { value: flight.commid, ..counted(usize::from(flight.left) + 1) })
}
