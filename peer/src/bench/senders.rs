//! Messages submitted to a sender, and what comes back for each until the sender is empty.

use super::{repeated, Row, Side, Work};
use crate::interface::{SENDER_NUMBERS, SENDER_PLACES};
use crate::ours;
use peer::sender::{Sender, MOST_WAITING};
use std::cell::RefCell;
use std::hint::black_box;

/// As many messages as a sender holds: one in flight, and all places taken.
const FULL: u32 = MOST_WAITING as u32 + 1;

/// So many messages, of which each is turned away so often and then acknowledged, or fails.
#[derive(Clone, Copy)]
pub struct Round {
    name: &'static str,
    messages: u32,
    resends: u32,
    acknowledged: bool,
}

pub const ROUNDS: [Round; 4] = [
    Round { name: "one message submitted and acknowledged", messages: 1, resends: 0, acknowledged: true },
    Round { name: "17 messages submitted, each acknowledged", messages: FULL, resends: 0, acknowledged: true },
    Round { name: "17 messages submitted, each failed at once", messages: FULL, resends: 0, acknowledged: false },
    Round {
        name: "17 messages submitted, each failed after 2 resends",
        messages: FULL,
        resends: 2,
        acknowledged: false,
    },
];

impl Round {
    /// How many events it has: each message is submitted, turned away so often, and ends.
    fn events(&self) -> u32 {
        self.messages * (self.resends + 2)
    }
}

pub fn sending<'a>(round: Round) -> Row<'a> {
    let (mut waiting, mut numbers) = ([0; SENDER_PLACES], [0; SENDER_NUMBERS]);
    ours::sender_start(&mut numbers, round.resends.into());
    let mut sender = Sender::start(round.resends.into()).expect("so many resends can be set");
    let empty = (numbers, sender.clone());
    assert_eq!(sent_by_ours(round, &mut waiting, &mut numbers), round.events(), "our sender refuses an event");
    assert_eq!(sent_by_the_peer(round, &mut sender), round.events(), "the peer's sender refuses an event");
    assert_eq!((numbers, sender.clone()), empty, "a sender is not empty again");
    let (our_storage, peer_storage) = (RefCell::new((waiting, numbers)), RefCell::new(sender));
    let by_ours = move || {
        let (waiting, numbers) = &mut *our_storage.borrow_mut();
        sent_by_ours(black_box(round), waiting, numbers)
    };
    let by_the_peer = move || sent_by_the_peer(black_box(round), &mut peer_storage.borrow_mut());
    let sides: Vec<(Side, Work)> = vec![(Side::Ours, repeated(by_ours)), (Side::Peer, repeated(by_the_peer))];
    Row { name: round.name.to_string(), sides }
}

/// How many events of the round our sender does.
fn sent_by_ours(round: Round, waiting: &mut [u32; SENDER_PLACES], numbers: &mut [u64; SENDER_NUMBERS]) -> u32 {
    let mut done = 0;
    for commid in 0..round.messages {
        done += u32::from(ours::sender_submit(waiting, numbers, commid).number == 0);
    }
    for commid in 0..round.messages {
        for _ in 0..round.resends {
            done += u32::from(ours::sender_nak(waiting, numbers, commid).number == 0);
        }
        let end = if round.acknowledged { ours::sender_ack } else { ours::sender_nak };
        done += u32::from(end(waiting, numbers, commid).number == 0);
    }
    done
}

fn sent_by_the_peer(round: Round, sender: &mut Sender) -> u32 {
    let mut done = 0;
    for commid in 0..round.messages {
        done += u32::from(sender.submit(commid).is_ok());
    }
    for commid in 0..round.messages {
        for _ in 0..round.resends {
            done += u32::from(sender.nak(commid).is_ok());
        }
        let end = if round.acknowledged { Sender::ack } else { Sender::nak };
        done += u32::from(end(sender, commid).is_ok());
    }
    done
}
