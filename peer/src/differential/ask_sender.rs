//! What is asked of both sides about a sender: starts and events, and after each how many wait and what is in flight.
//! Each side has the sender in storage of its own, all of which is compared after each call.

use super::lent::{array, Lent};
use super::run::{Run, Shown};
use super::tally::Operation;
use crate::interface::{sender_number, Answer, SENDER_NUMBERS, SENDER_PLACES};
use crate::{mirror, ours};
use peer::sender::{Event, Flight};

pub type Places = [u32; SENDER_PLACES];
pub type Numbers = [u64; SENDER_NUMBERS];

#[derive(Clone, PartialEq)]
struct Stored {
    places: Lent<u32>,
    numbers: Lent<u64>,
}

impl Stored {
    fn parts(&mut self) -> (&mut Places, &mut Numbers) {
        (array(self.places.part()), array(self.numbers.part()))
    }

    fn shown(&self) -> String {
        format!("a sender of numbers {:?}, places {:?}", self.numbers.content(), self.places.content())
    }

    fn first_difference(&self, other: &Stored) -> Option<String> {
        self.places.first_difference(&other.places).or_else(|| self.numbers.first_difference(&other.numbers))
    }
}

type Call = fn(&mut Places, &mut Numbers, u32) -> Answer;

/// An event's operation, its function on our side and on the peer's, and its COMMID.
fn calls(event: Event) -> (Operation, Call, Call, u32) {
    match event {
        Event::Submit(commid) => (Operation::SenderSubmit, ours::sender_submit, mirror::sender_submit, commid),
        Event::Ack(commid) => (Operation::SenderAck, ours::sender_ack, mirror::sender_ack, commid),
        Event::Nak(commid) => (Operation::SenderNak, ours::sender_nak, mirror::sender_nak, commid),
        Event::TimeOut(commid) => (Operation::SenderTimeOut, ours::sender_time_out, mirror::sender_time_out, commid),
    }
}

/// One sender, on our side and on the peer's.
pub struct Senders {
    ours: Stored,
    peer: Stored,
}

impl Senders {
    pub fn of(places: &Places, numbers: &Numbers) -> Senders {
        let mut ours = Stored { places: Lent::new(SENDER_PLACES), numbers: Lent::new(SENDER_NUMBERS) };
        (*ours.parts().0, *ours.parts().1) = (*places, *numbers);
        let peer = ours.clone();
        Senders { ours, peer }
    }

    pub fn places(&self) -> Places {
        self.ours.places.content().try_into().expect("a sender has so many places")
    }

    pub fn numbers(&self) -> Numbers {
        self.ours.numbers.content().try_into().expect("a sender has so many numbers")
    }

    /// The COMMIDs that wait on our side, oldest first.
    pub fn waiting(&self) -> Vec<u32> {
        let count = ours::sender_waiting(&self.places(), &self.numbers()).count;
        self.places()[..usize::from(count)].to_vec()
    }

    /// The message in flight on our side.
    pub fn flight(&self) -> Option<Flight> {
        let Answer { count, value, .. } = ours::sender_flight(&self.numbers());
        Some(Flight { commid: value, left: count.checked_sub(1)? as u8 })
    }

    pub fn start(&mut self, run: &mut Run, resends: u64) -> Answer {
        let before = self.ours.clone();
        let shown = || format!("a start with {resends} resends of {}", before.shown());
        let (numbers, peer_numbers) = (self.ours.parts().1, self.peer.parts().1);
        let answer = run.plain(
            Operation::SenderStart,
            || ours::sender_start(numbers, resends),
            || mirror::sender_start(peer_numbers, resends),
            &shown,
        );
        self.same_storage(run, Operation::SenderStart, &shown);
        if answer.number == 0 {
            run.holds("a start makes an empty sender", self.numbers() == [resends, 0, 0, 0], &shown);
            run.holds("a start leaves the places", self.ours.places == before.places, &shown);
        } else {
            run.holds("a start that is refused changes nothing", self.ours == before, &shown);
        }
        self.asked(run, &shown);
        answer
    }

    pub fn event(&mut self, run: &mut Run, event: Event) -> Answer {
        let before = self.ours.clone();
        let shown = || format!("{event:?} to {}", before.shown());
        let (operation, by_ours, by_the_peer, commid) = calls(event);
        let ((places, numbers), (peer_places, peer_numbers)) = (self.ours.parts(), self.peer.parts());
        let answer = run.plain(
            operation,
            || by_ours(places, numbers, commid),
            || by_the_peer(peer_places, peer_numbers, commid),
            &shown,
        );
        self.same_storage(run, operation, &shown);
        let (waiting, flight) = self.asked(run, &shown);
        if answer.number == 0 {
            self.tidied(run, waiting, flight, &shown);
        } else {
            run.holds("a sender's refusal changes nothing", self.ours == before, &shown);
        }
        answer
    }

    /// How many wait, and what is in flight. Asking changes nothing.
    fn asked(&mut self, run: &mut Run, shown: Shown) -> (Answer, Answer) {
        let ((places, numbers), (peer_places, peer_numbers)) = (self.ours.parts(), self.peer.parts());
        let waiting = run.plain(
            Operation::SenderWaiting,
            || ours::sender_waiting(places, numbers),
            || mirror::sender_waiting(peer_places, peer_numbers),
            shown,
        );
        let flight = run.plain(
            Operation::SenderFlight,
            || ours::sender_flight(numbers),
            || mirror::sender_flight(peer_numbers),
            shown,
        );
        self.same_storage(run, Operation::SenderFlight, shown);
        (waiting, flight)
    }

    /// After an event that is done the numbers are those that asking tells, and nothing else is left in the storage.
    fn tidied(&self, run: &Run, waiting: Answer, flight: Answer, shown: Shown) {
        let (places, numbers) = (self.places(), self.numbers());
        let behind = &places[usize::from(waiting.count)..];
        run.holds("the places behind those that wait are 0", behind.iter().all(|&place| place == 0), shown);
        let told = [waiting.count.into(), flight.value.into(), flight.count.into()];
        let held = [sender_number::WAITING, sender_number::COMMID, sender_number::LEFT].map(|place| numbers[place]);
        run.holds("the numbers are those that asking tells", held == told, shown);
        run.holds("no number has bits that do not count", numbers[sender_number::SET] <= u8::MAX.into(), shown);
    }

    fn same_storage(&self, run: &Run, operation: Operation, shown: Shown) {
        if let Some(difference) = self.ours.first_difference(&self.peer) {
            run.disagree(&format!("{operation:?}, the sender afterwards"), &difference, shown);
        }
    }
}
