//! What became of each message sent, as read from the history of events and of their answers. No queue is kept here.
//! A COMMID that waits or is in flight is not accepted again, so whatever is told of it is told of its latest submission.

use super::{Done, Event, Refusal};

/// An event, and what was answered to it.
pub type Told = (Event, Result<Done, Refusal>);

#[derive(Clone, Copy, Debug, PartialEq, Eq)]
pub enum Fate {
    Waiting,
    InFlight,
    Acknowledged,
    Failed,
}

/// What a history tells of one accepted submission: how often it was sent, was acknowledged and failed.
#[derive(Clone, Copy, Debug, PartialEq, Eq)]
pub struct Account {
    pub commid: u32,
    pub sent: usize,
    pub acknowledged: usize,
    pub failed: usize,
}

impl Account {
    fn new(commid: u32, sent: usize) -> Account {
        Account { commid, sent, acknowledged: 0, failed: 0 }
    }

    /// Which of the four it is; none where it ended twice, or ended and was never sent.
    pub fn fate(&self) -> Option<Fate> {
        match (self.sent, self.acknowledged, self.failed) {
            (0, 0, 0) => Some(Fate::Waiting),
            (1.., 0, 0) => Some(Fate::InFlight),
            (1.., 1, 0) => Some(Fate::Acknowledged),
            (1.., 0, 1) => Some(Fate::Failed),
            _ => None,
        }
    }
}

/// An account of each accepted submission, in their order. None where an event has an answer of another event, or where
/// something is told of a COMMID that was never accepted.
pub fn accounts(history: &[Told]) -> Option<Vec<Account>> {
    let mut accounts = Vec::new();
    for &(event, answer) in history {
        let Ok(done) = answer else { continue };
        match (event, done) {
            (Event::Submit(commid), Done::Sent) => accounts.push(Account::new(commid, 1)),
            (Event::Submit(commid), Done::Waits) => accounts.push(Account::new(commid, 0)),
            (Event::Ack(commid), Done::Settled { next }) => {
                latest(&mut accounts, commid)?.acknowledged += 1;
                goes_out(&mut accounts, next)?;
            }
            (Event::Nak(commid) | Event::TimeOut(commid), Done::Again) => latest(&mut accounts, commid)?.sent += 1,
            (Event::Nak(commid) | Event::TimeOut(commid), Done::Failed { next }) => {
                latest(&mut accounts, commid)?.failed += 1;
                goes_out(&mut accounts, next)?;
            }
            _ => return None,
        }
    }
    Some(accounts)
}

fn latest(accounts: &mut [Account], commid: u32) -> Option<&mut Account> {
    accounts.iter_mut().rev().find(|account| account.commid == commid)
}

fn goes_out(accounts: &mut [Account], next: Option<u32>) -> Option<()> {
    if let Some(commid) = next {
        latest(accounts, commid)?.sent += 1;
    }
    Some(())
}
