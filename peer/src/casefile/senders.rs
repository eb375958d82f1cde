//! The lines about the sender that is worked on.

use super::complaint::Complaint;
use super::frames::commid;
use super::words::Words;
use crate::sender::{Done, Event, Refusal, Sender, MOST_WAITING};

type Answer = Result<String, Complaint>;

/// The sender, and what its places hold: an event that is done puts them in order, and a start leaves them.
#[derive(Default)]
pub struct Bench {
    sender: Sender,
    places: [u32; MOST_WAITING],
}

impl Bench {
    /// STATE: the resends, what is in flight, how many wait, and the places.
    fn state(&self) -> String {
        let flight = match self.sender.flight() {
            Some(flight) => format!("{} left {}", flight.commid, flight.left),
            None => "none".to_string(),
        };
        let places: String = self.places.iter().map(|commid| format!(" {commid}")).collect();
        let (resends, waiting) = (self.sender.resends(), self.sender.waiting());
        format!("resends {resends} flight {flight} waiting {waiting} places{places}")
    }
}

fn refused(refusal: Refusal) -> String {
    format!("refused {}", refusal as u8)
}

fn told(done: Done) -> String {
    let (word, next) = match done {
        Done::Sent => ("sent", None),
        Done::Waits => ("waits", None),
        Done::Settled { next } => ("settled", next),
        Done::Again => ("again", None),
        Done::Failed { next } => ("failed", next),
    };
    next.map_or_else(|| word.to_string(), |commid| format!("{word} next {commid}"))
}

pub fn start(words: &mut Words, bench: &mut Bench) -> Answer {
    let resends = words.named("resends", u64::MAX)?;
    words.end()?;
    let answer = match Sender::start(resends) {
        Ok(sender) => {
            bench.sender = sender;
            "started".to_string()
        }
        Err(refusal) => refused(refusal),
    };
    Ok(format!("{answer} {}", bench.state()))
}

/// The four events are asked and answered alike.
pub fn event(words: &mut Words, bench: &mut Bench, event: fn(u32) -> Event) -> Answer {
    let commid = commid(words, "commid")?;
    words.end()?;
    let answer = match bench.sender.event(event(commid)) {
        Ok(done) => {
            bench.places = bench.sender.places();
            told(done)
        }
        Err(refusal) => refused(refusal),
    };
    Ok(format!("{answer} {}", bench.state()))
}
