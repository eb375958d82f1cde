//! The send side of the bench: messages wait by COMMID, and at most one is in flight. A plain queue with one slot.
//! What became of each message is told apart from it, from the history of events alone.

pub mod fates;
#[cfg(test)]
mod tests;

use std::collections::VecDeque;

/// The most messages that wait. The one in flight does not count among them.
pub const MOST_WAITING: usize = 16;
/// The largest number of resends that can be set.
pub const MOST_RESENDS: u8 = 10;

/// A refusal, with its number.
#[derive(Clone, Copy, Debug, PartialEq, Eq)]
pub enum Refusal {
    Full = 70,
    Known = 71,
    NotInFlight = 72,
    Resends = 73,
}

/// What happens to a sender, each with a COMMID.
#[derive(Clone, Copy, Debug, PartialEq, Eq)]
pub enum Event {
    Submit(u32),
    Ack(u32),
    Nak(u32),
    TimeOut(u32),
}

/// What an event did. Where a flight ends, the next message goes out in the same event, if one waits.
#[derive(Clone, Copy, Debug, PartialEq, Eq)]
pub enum Done {
    Sent,
    Waits,
    Settled { next: Option<u32> },
    Again,
    Failed { next: Option<u32> },
}

/// The message in flight, and how many resends it has left.
#[derive(Clone, Copy, Debug, PartialEq, Eq)]
pub struct Flight {
    pub commid: u32,
    pub left: u8,
}

/// A new one is empty and has no resends.
#[derive(Clone, Debug, Default, PartialEq, Eq)]
pub struct Sender {
    resends: u8,
    /// Oldest first.
    waiting: VecDeque<u32>,
    flight: Option<Flight>,
}

impl Sender {
    /// An empty sender, with so many resends for each message.
    pub fn start(resends: u64) -> Result<Sender, Refusal> {
        let resends = u8::try_from(resends).ok().filter(|&resends| resends <= MOST_RESENDS).ok_or(Refusal::Resends)?;
        Ok(Sender { resends, ..Sender::default() })
    }

    /// A sender that goes on from any state.
    pub fn resumed(resends: u8, waiting: &[u32], flight: Option<Flight>) -> Sender {
        Sender { resends, waiting: waiting.iter().copied().collect(), flight }
    }

    pub fn resends(&self) -> u8 {
        self.resends
    }

    /// How many wait.
    pub fn waiting(&self) -> usize {
        self.waiting.len()
    }

    pub fn flight(&self) -> Option<Flight> {
        self.flight
    }

    /// The COMMIDs that wait, oldest first, and zeros in the places behind them.
    pub fn places(&self) -> [u32; MOST_WAITING] {
        let mut places = [0; MOST_WAITING];
        for (place, commid) in places.iter_mut().zip(&self.waiting) {
            *place = *commid;
        }
        places
    }

    pub fn event(&mut self, event: Event) -> Result<Done, Refusal> {
        match event {
            Event::Submit(commid) => self.submit(commid),
            Event::Ack(commid) => self.ack(commid),
            Event::Nak(commid) => self.nak(commid),
            Event::TimeOut(commid) => self.time_out(commid),
        }
    }

    pub fn submit(&mut self, commid: u32) -> Result<Done, Refusal> {
        if self.waiting.len() == MOST_WAITING {
            return Err(Refusal::Full);
        }
        if self.in_flight(commid).is_ok() || self.waiting.contains(&commid) {
            return Err(Refusal::Known);
        }
        if self.flight.is_some() {
            self.waiting.push_back(commid);
            return Ok(Done::Waits);
        }
        self.flight = Some(self.sent(commid));
        Ok(Done::Sent)
    }

    pub fn ack(&mut self, commid: u32) -> Result<Done, Refusal> {
        self.in_flight(commid)?;
        Ok(Done::Settled { next: self.next() })
    }

    pub fn nak(&mut self, commid: u32) -> Result<Done, Refusal> {
        let flight = self.in_flight(commid)?;
        if flight.left == 0 {
            return Ok(Done::Failed { next: self.next() });
        }
        flight.left -= 1;
        Ok(Done::Again)
    }

    /// The bench treats it as a NAK.
    pub fn time_out(&mut self, commid: u32) -> Result<Done, Refusal> {
        self.nak(commid)
    }

    fn in_flight(&mut self, commid: u32) -> Result<&mut Flight, Refusal> {
        self.flight.as_mut().filter(|flight| flight.commid == commid).ok_or(Refusal::NotInFlight)
    }

    /// A message sent for the first time has all its resends left.
    fn sent(&self, commid: u32) -> Flight {
        Flight { commid, left: self.resends }
    }

    /// The flight has ended: the oldest that waits goes out.
    fn next(&mut self) -> Option<u32> {
        let next = self.waiting.pop_front();
        self.flight = next.map(|commid| self.sent(commid));
        next
    }
}
