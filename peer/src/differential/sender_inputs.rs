//! Inputs for senders: events that follow a mood, states that storage can hold, and events for these.

use super::ask_sender::{Numbers, Places};
use crate::interface::{sender_number, SENDER_NUMBERS, SENDER_PLACES};
use peer::random::Random;
use peer::sender::Event;

/// The COMMIDs of a history: few, so that each comes again soon, and more than wait and are in flight at once.
pub const FEW: [u32; 22] =
    [0, 1, 2, 3, 4, 5, 6, 7, 8, 9, 10, 11, 12, 13, 14, 15, 255, 256, 1 << 31, u32::MAX - 2, u32::MAX - 1, u32::MAX];

/// How a stretch of a history goes: of ten events so many are submissions, and of ten answers so many are no ACK.
#[derive(Clone, Copy)]
pub struct Mood {
    submissions: usize,
    failures: usize,
}

impl Mood {
    pub fn draw(random: &mut Random) -> Mood {
        Mood { submissions: random.pick(&[1, 3, 5, 7, 9]), failures: random.pick(&[0, 2, 5, 8, 9, 10]) }
    }

    /// An event; what answers a message mostly means the one in flight.
    pub fn event(self, random: &mut Random, flight: Option<u32>) -> Event {
        let drawn = random.pick(&FEW);
        if random.up_to(9) < self.submissions {
            return Event::Submit(drawn);
        }
        let commid = if random.once_in(8) { drawn } else { flight.unwrap_or(drawn) };
        if random.up_to(9) >= self.failures {
            Event::Ack(commid)
        } else if random.once_in(2) {
            Event::Nak(commid)
        } else {
            Event::TimeOut(commid)
        }
    }
}

/// A number of resends for a start, now and then one above 10.
pub fn resends(random: &mut Random) -> u64 {
    match random.up_to(3) {
        0 => random.pick(&[10, 11, 12, 255, 256, 266, 300, 1 << 32, (1 << 32) + 5, 1 << 63, u64::MAX]),
        1 => random.next() >> random.up_to(63),
        _ => random.up_to(10) as u64,
    }
}

/// What storage can hold: any COMMIDs in the places, often one more than once, and any four numbers.
pub fn state(random: &mut Random) -> (Places, Numbers) {
    let mut places = [0; SENDER_PLACES];
    let few = random.once_in(3);
    for place in &mut places {
        *place = if few { random.up_to(5) as u32 } else { commid(random) };
    }
    let mut numbers = [0; SENDER_NUMBERS];
    numbers[sender_number::SET] = eight_bits(random);
    numbers[sender_number::WAITING] = waiting(random);
    numbers[sender_number::COMMID] = u64::from(commid(random)) | high_bits(random) << 32;
    numbers[sender_number::LEFT] = if random.once_in(3) { 0 } else { eight_bits(random).wrapping_add(1) };
    (places, numbers)
}

fn commid(random: &mut Random) -> u32 {
    if random.once_in(3) {
        random.number()
    } else {
        random.pick(&FEW)
    }
}

fn high_bits(random: &mut Random) -> u64 {
    if random.once_in(4) {
        random.next() >> 32
    } else {
        0
    }
}

/// How many wait, from none to more than there are places.
fn waiting(random: &mut Random) -> u64 {
    match random.up_to(4) {
        0 => random.between(14, 18) as u64,
        1 => random.pick(&[255, 256, 257, 65_536, 1 << 32, (1 << 32) + 3, 1 << 63, u64::MAX]),
        _ => random.up_to(16) as u64,
    }
}

/// A number of which the lowest 8 bits count.
fn eight_bits(random: &mut Random) -> u64 {
    match random.up_to(5) {
        0 => random.between(11, 260) as u64,
        1 => random.pick(&[254, 255, 256, 257, 511, 512, 1 << 32, (1 << 32) + 1, 1 << 63, u64::MAX - 1, u64::MAX]),
        2 => random.next() >> random.up_to(63),
        _ => random.up_to(10) as u64,
    }
}

/// An event for such a sender: about the COMMID among its numbers, about one in its places, or about any.
pub fn event(random: &mut Random, places: &Places, numbers: &Numbers) -> Event {
    let (in_place, any) = (random.pick(places), commid(random));
    let in_numbers = numbers[sender_number::COMMID] as u32;
    let kind = random.pick(&[Event::Submit, Event::Ack, Event::Nak, Event::TimeOut]);
    kind(random.pick(&[in_numbers, in_numbers, in_place, any]))
}
